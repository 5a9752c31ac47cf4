"""`python -m psmax.planner` is `plan`."""
from .main import run

run()
