"""The command `plan`: a planner's companion of psmax and psprove. docs/PLANNER.md says how to use it."""
