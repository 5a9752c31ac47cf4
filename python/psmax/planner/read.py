"""`plan read`: a table to a project and its page of names, or a text of one format to another."""
import hashlib
import os
import pathlib
import sys

from .. import formats
from ..api import Project
from ..call_files import lose_none
from ..clock import Clock
from ..errors import BadInput
from ..files import DASH, MARK, SPREADSHEET, decoded, read_bytes, read_text, read_there, without_blank_rows, write_whole
from ..letters import printable
from ..project import Goal, too_needy
from ..project_text import ProjectText
from ..psmax import Psmax
from .answer_text import answer_sheet
from .names import MADE, names_page, read_page
from .project_file import PROJECT, ProjectFile, is_other, of_table, open_table, page_of
from .read_back import count_of
from .settings import Settings, from_rows
from .table import read_table
from .table_parts import as_parts
from .wording import Words

PSPLIB = ".sch"
OTHERS = {suffix for one in formats.FORMATS.values() for suffix in one.suffixes} - {PSPLIB}  # of other formats' files
CTRL_Z = b"\x1a"  # the end of a file to old systems
OURS = "psmax reads the .sch files of the single-mode sets of RCPSP/max"
MODES = f"; a PSPLIB set with several modes for an activity (MRCPSP/max) is another problem; {OURS}"


def read(path: str, out: str | None, wanted: str | None, words: Settings) -> int:
    """By what the file holds; a name that ends in .sch says that it is none of a table."""
    data = without_blank_rows(read_bytes(path))
    if wanted is None and out is not None and pathlib.Path(out).suffix.lower() in OTHERS:
        wanted = formats.format_of_file(out)
    if data.startswith(SPREADSHEET):
        is_sch = wanted in (None, "sch")
        return read_activities(path, out, words) if is_sch else convert_table(path, out, f"{wanted}", words)
    formats.must_be_readable(path, data)
    text = decoded(data)
    is_sch = pathlib.Path(path).suffix.lower() == PSPLIB or formats.FORMATS["sch"].is_like(text)
    if out is not None and (out.endswith("/") or os.path.isdir(out)) and formats.is_shop(text):
        return write_pieces(path, text, out)
    if is_other(text) or is_sch and wanted not in (None, "sch"):
        return convert(path, out, wanted or "sch")
    if is_sch:
        return read_sch(path, out)
    if wanted not in (None, "sch"):
        return convert_table(path, out, f"{wanted}", words)
    return read_activities(path, out, words)


def convert(path: str, out: str | None, wanted: str) -> int:
    """The project in a text of another format; to standard output if no file is named."""
    lose_none({"the project": path}, [out])
    project = Project()
    formats.read(read_bytes(path), project, path)
    return put_project(path, project, out, wanted)


def write_pieces(path: str, text: str, folder: str) -> int:
    """Each instance of a text into a file of its own, once all are read."""
    there = pathlib.PurePath(path)
    files = {os.path.join(folder, name + there.suffix): piece.encode()
             for name, piece in formats.pieces(text, there.stem).items()}
    for name, data in files.items():
        formats.read(data, Project(), f"{path}: {pathlib.PurePath(name).stem}")
        if read_there(name).strip() not in (b"", data.strip()):
            raise BadInput(f"{name} is there, and would be lost; name another folder with --out")
    os.makedirs(folder, exist_ok=True)
    lose_none({"the project": path}, [*files])
    for name, data in files.items():
        write_whole(name, data)
    print(f"{folder}: {count_of(len(files), 'instance')}")
    return 0


def convert_table(path: str, out: str | None, wanted: str, words: Settings) -> int:
    """The same of a table, with its names."""
    opened = open_table(path, words)
    lose_none(opened.inputs(), [out])
    return put_project(path, as_parts(opened), out, wanted)


def put_project(path: str, project: Project, out: str | None, wanted: str) -> int:
    try:
        data = project.text(wanted).encode()
    except BadInput as fault:
        raise BadInput(*(f"{path}: {told}" for told in fault.args)) from None
    if out is None:
        sys.stdout.buffer.write(data)
        return 0
    there = read_there(out).decode("utf-8-sig", "replace")
    if there.strip() and not formats.format_named(wanted).is_like(there):
        raise BadInput(f"{out} is there, and no project of the format {wanted}, and would be lost; name another file "
                       "with --out")
    write_whole(out, data)
    return 0


def read_activities(path: str, out: str | None, words: Settings) -> int:
    """The table to a .sch file beside it, or to the one that is named, and the page of names beside that."""
    text = read_text(path, words.sheet)
    if answer_sheet(text) is not None:
        raise BadInput(f"{path}: this is an answer, and no table of activities")
    if path == DASH and out is None:
        raise BadInput("a table on standard input has no name; name a .sch file with --out")
    target = out if out is not None else os.path.splitext(path)[0] + ".sch"
    if os.path.basename(target) in ("", ".", "..") or target.endswith(".md"):
        raise BadInput(f"the project can't be written to '{target}'; name a .sch file with --out")
    named = page_of(target)
    lose_none({"the table": path} | words.files(), [target, named])
    source = printable(os.path.relpath(path, os.path.dirname(named) or "."))
    there = read_bytes(named) if os.path.exists(named) else None
    must_be_made_of(target, named, source, there, out is not None)
    told = Settings() if there is None else from_rows(read_page(there).settings, os.path.dirname(named))
    words = words.over(told)
    found = read_table(path, text, words, os.path.dirname(path))
    opened = of_table(path, found, {"the table": path}, text)
    lose_none(opened.inputs(), [target, named])
    spelled = ProjectText(opened.project)
    names = found.names
    names.source, names.digest = source, hashlib.sha256(read_bytes(path)).hexdigest()
    names.settings = (found.settings if words.first is not None else words).rows(os.path.dirname(named))
    least = Psmax(Clock(), path).earliest(opened.project)
    write_whole(target, spelled.text)
    write_whole(named, names_page(printable(pathlib.Path(target).stem), opened.project, names).encode())
    sizes = [count_of(opened.project.end - 1, "activity"), count_of(len(opened.project.capacities), "resource"),
             count_of(len(opened.project.arcs), "lag")]
    sizes += [count_of(len(opened.project.absences), "absence")] if opened.project.absences else []
    print(f"{target}: {', '.join(sizes)}; names in {named}")
    print(*found.notes, *said_of_text(spelled), *said_of_dates(opened), what_is_clear(least, opened), sep="\n")
    return 0


def said_of_text(spelled: ProjectText) -> list[str]:
    """What its own numbers mean, where they aren't those of the table."""
    hidden, goal = len(spelled.hidden), spelled.project.goal.value
    kind = "absences and times outside the hours of resources" if spelled.project.off else "absences"
    told = [f"Its last {count_of(hidden, 'activity')} before the end are {kind}."]
    return (told if hidden else []) + ([f"Its end starts {spelled.offset} after the {goal}."] if spelled.offset else [])


def said_of_dates(opened: ProjectFile) -> list[str]:
    """What the numbers leave out."""
    words, horizon = Words(opened), opened.project.horizon
    known = [] if horizon is None else [f"The text has the hours of resources up to {words.by(horizon)}, and none "
                                        "behind that."]
    less = [f"The text has less, since it knows no dates: {words.lag(arc)}. `plan solve` of the table keeps that."
            for arc in words.dated]
    return known + less


def must_be_made_of(target: str, named: str, source: str, there: bytes | None, is_named: bool) -> None:
    """A project and a page that stand there are replaced where they were made of the same table; a project also where
    it is named."""
    ours = there is not None and MADE.format(source) in there.decode("utf-8", "replace")
    for path in (named, target):
        if os.path.exists(path) and not ours and (path == named or not is_named):
            raise BadInput(f"{path} is there, and was not made from {source}; move it, or name another file with --out")
    must_be_project(target)


def must_be_project(path: str) -> None:
    """A plan, a record or a table that is there stays."""
    there = read_there(path)
    if there.strip() and not PROJECT.match(there.removeprefix(MARK)):
        raise BadInput(f"{path} is there, and no project, and would be lost; name another file with --out")


def what_is_clear(least: int | None, opened: ProjectFile) -> str:
    """What is known at once, before anything is searched."""
    needy = too_needy(opened.project)
    if needy:
        return "\n".join(f"Activity {Words(opened).needs(activity)}, so there is no schedule." for activity in needy)
    if least is None:
        return "The lags contradict each other, so there is no schedule; `plan why` says which do."
    value = f"it takes {least}" if opened.project.goal is Goal.MAKESPAN else f"the lateness is {least}"
    return (f"By the lags alone {value}; `plan solve` says whether there is a schedule that keeps the resources "
            "too.")


def read_sch(path: str, out: str | None) -> int:
    """The file without byte order mark and Ctrl-Z, once psmax has read it so; to standard output if none is named."""
    lose_none({"the project": path}, [out])
    if out is not None:
        must_be_project(out)
    data = read_bytes(path)
    clean = data.removeprefix(MARK).rstrip(b" \t\r\n" + CTRL_Z) + b"\n"
    try:
        Psmax(Clock(), path).earliest_of_text(clean)
    except BadInput as fault:
        raise BadInput(f"{fault}{MODES if is_other_modes(fault) else ''}") from None
    if out is not None:
        write_whole(out, clean)
    else:
        sys.stdout.buffer.write(clean)
    return 0


def is_other_modes(fault: BadInput) -> bool:
    return "more than one mode" in str(fault) or "other than renewable" in str(fault)
