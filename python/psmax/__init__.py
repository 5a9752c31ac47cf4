"""Shortest schedules of projects with resources and time lags, proved. docs/PYTHON.md says how to use it."""
from importlib import import_module
from typing import TYPE_CHECKING

if TYPE_CHECKING:
    from .answer import Answer, Changed, Checked, Float, Progress, Schedule, Span, Status, Violation, ViolationKind, Why
    from .api import Project
    from .errors import BadInput, Failed, Fault, UnknownName, WrongType
    from .live_search import Search
    from .model import Absence, Activity, Lag, Point, Resource
    from .project import Goal
    from .record import Proof, Record
    from .whatif import ChangeKind
    from .work_time import WorkTime

__version__ = "1.0.0"  # CONTRIBUTING.md says where else it is spelled

__all__ = ["Absence", "Activity", "Answer", "BadInput", "ChangeKind", "Changed", "Checked", "Failed", "Fault",
           "Float", "Goal", "Lag", "Point", "Progress", "Project", "Proof", "Record", "Resource", "Schedule",
           "Search", "Span", "Status", "UnknownName", "Violation", "ViolationKind", "Why", "WorkTime", "WrongType",
           "__version__"]

# In which these are defined.
MODULES = ("errors", "work_time", "project", "model", "whatif", "record", "answer", "live_search", "api")


def __getattr__(name: str) -> object:
    """Imports the module of a name once it is asked for: `plan` needs few of them, and so starts sooner."""
    for place in MODULES if name in __all__ else ():
        module = import_module(f".{place}", __name__)
        found = vars(module).get(name)
        if getattr(found, "__module__", "") == module.__name__:
            globals()[name] = found
            return found
    raise AttributeError(f"module '{__name__}' has no attribute '{name}'")


def __dir__() -> list[str]:
    return __all__
