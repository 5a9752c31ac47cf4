"""Reference values: projects, each with its optimum, or the certainty that it has no schedule, or a bound, and with a
record of that. docs/REFERENCE.md is their page. They stand on the package, the benches and the tests of this
repository."""
import pathlib
import sys

TOP = pathlib.Path(__file__).resolve().parent.parent
sys.path += [str(TOP / folder) for folder in ("python", "bench", "tests")]
