"""Faults: those of the cells of a table, and whatever else went wrong, as an exit status and a line each."""
from types import TracebackType

from ..calendars import BEYOND
from ..errors import BadInput, Failed, TimeUp
from ..letters import at_most, short
from .csv_text import letters


class CellFault(BadInput):
    """What is wrong in a cell, with its place."""

    def __init__(self, place: tuple[int, int], text: str) -> None:
        super().__init__(text)
        self.place = place


def fault_at(file: str, row: int, column: int, head: str, text: str) -> CellFault:
    """A fault in a cell, with the row and the column that a spreadsheet shows."""
    called = f"column {letters(column)}" + (f" ({short(head)})" if head else "")
    return CellFault((row, column), f"{file}: row {row}, {called}: {text}")


class Faults:
    """The faults of a table, of which all are told at once."""

    def __init__(self) -> None:
        self.found: list[CellFault] = []

    def kept(self) -> "Faults":
        """Keeps the fault of what is done meanwhile, where that has one in a cell."""
        return self

    def __enter__(self) -> None:
        pass

    def __exit__(self, kind: type[BaseException] | None, fault: BaseException | None,
                 trace: TracebackType | None) -> bool:
        if isinstance(fault, CellFault):
            self.found.append(fault)
            return True
        return False

    def tell(self) -> None:
        """Of each cell the first; what else it has may follow from that."""
        if self.found:
            first = {fault.place: str(fault) for fault in reversed(self.found)}
            raise BadInput(*at_most([first[place] for place in sorted(first)]))


def explained(fault: BaseException) -> tuple[int, tuple[str, ...]]:
    """The exit status, and a line for each fault."""
    if isinstance(fault, OverflowError):  # of dates
        return 2, (BEYOND,)
    if isinstance(fault, BadInput):
        return 2, tuple(map(str, fault.args))
    if isinstance(fault, Failed):
        return 1, (str(fault),)
    if isinstance(fault, TimeUp):
        return 1, ("psmax took too long",)
    if isinstance(fault, MemoryError):
        return 1, ("out of memory",)
    if isinstance(fault, OSError):
        return 1, (f"{fault.strerror or fault}" + (f": {fault.filename}" if fault.filename else ""),)
    return 1, (f"a fault of plan itself: {type(fault).__name__}: {fault}",)
