"""Packages of the machine that most users do without. Each is imported where it is asked for."""
import sys
from importlib import import_module
from types import ModuleType

from .errors import Failed


def extra(name: str, what: str, of_psmax: str = "") -> ModuleType:
    """The package, or one line that says what needs it and how to get it: by its name, or by that of an extra of psmax.
    `plan` starts without the packages of the machine, so these are added first."""
    try:
        if sys.flags.no_site and name not in sys.modules:
            import site
            site.main()
        return import_module(name)
    except ImportError:
        advice = f"install python3-{name}, or `pip install psmax[{of_psmax or name}]`"
        raise Failed(f"{what} needs the package {name}: {advice}") from None
