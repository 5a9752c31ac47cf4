"""One project on many machines: cubes, each a search under its first decisions, and what becomes of them
(docs/CLUSTER.md)."""
