"""The checkers in Python of a folder, verify.py and verify_log.py: those of tests/, or copies of them that were
changed."""
import importlib.util
import io
import sys
from pathlib import Path
from types import ModuleType
from typing import NamedTuple

from harness import Ended
from judges import is_tree


class Checkers(NamedTuple):
    of_records: ModuleType
    of_logs: ModuleType

    def said(self, program: str, project: bytes, record: bytes, partial: bool = False) -> Ended:
        """What is said of a record, in the words of a program. A checker that fails says so."""
        try:
            read = self.of_records.Project(project)
            if is_tree(program, record, partial):
                out = self.of_records.verify(read, *self.of_records.read_record(record))
            else:
                out = self.of_logs.verify(read, io.BytesIO(record), partial)
        except self.of_records.Fault as fault:
            return int(getattr(fault, "status")), b"", f"{program}: {fault}\n".encode()
        except Exception as fault:
            return None, b"", repr(fault).encode()
        return 0, f"{out}\n".encode(), b""


def module(name: str, folder: Path) -> ModuleType:
    spec = importlib.util.spec_from_file_location(name, folder / f"{name}.py")
    assert spec is not None and spec.loader is not None
    made = importlib.util.module_from_spec(spec)
    sys.modules[name] = made
    spec.loader.exec_module(made)
    return made


def loaded(folder: Path) -> Checkers:
    """The checkers of a folder. Those of tests/ that are at hand stay as they are."""
    names = ["verify", "verify_log"]
    kept = {name: sys.modules.pop(name) for name in names if name in sys.modules}
    try:
        return Checkers(*(module(name, folder) for name in names))
    finally:
        for name in names:
            sys.modules.pop(name, None)
        sys.modules.update(kept)
