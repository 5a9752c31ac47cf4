"""The arguments of the command line. Each command imports what it runs by itself, so that it starts soon."""
import argparse
import math
import os
import pathlib
import re
from collections.abc import Callable, Sequence
from functools import partial
from typing import TYPE_CHECKING, NoReturn

from ..errors import BadInput
from ..project import MOST_UNITS
from .csv_text import SEPARATORS
from .shared_options import (MOST_JOBS, SECONDS, add_limits, add_project, add_schedule, add_settings, add_start,
                             whole_number, opened, number_of_seconds, settings, start)

if TYPE_CHECKING:
    from .write import SheetOptions

MOST_PROJECTS = 256
Adder = Callable[[argparse.ArgumentParser], None]


class Parser(argparse.ArgumentParser):
    """Words that are not what they should be are one line, as every other fault is."""

    def error(self, message: str) -> NoReturn:
        raise BadInput(f"{message}; see {self.prog} --help")


class Version(argparse.Action):
    """Prints the versions of all that an answer depends on."""

    def __call__(self, parser: argparse.ArgumentParser, *_: object) -> None:
        from . import solve
        found = solve.versions()
        print(f"plan {found['plan']}, psmax {found['psmax']}, psprove {found['psprove']}, Python {found['python']}")
        parser.exit()


def part_of_batch(text: str) -> tuple[int, int]:
    found = re.fullmatch("([0-9]{1,6})/([0-9]{1,6})", text)
    if found is None or not 1 <= int(found[1]) <= int(found[2]):
        raise argparse.ArgumentTypeError(f"'{text}' is not a part such as 1/4, the first of four")
    return int(found[1]), int(found[2])


def parser() -> Parser:
    """The parser of what is no command: of help, the version and faults."""
    top = Parser(prog="plan", description=ABOUT, epilog=STATUSES, formatter_class=argparse.RawDescriptionHelpFormatter)
    top.add_argument("--version", action=Version, nargs=0, help="print the versions of plan, its programs and Python")
    commands = top.add_subparsers(dest="command", required=True, metavar="COMMAND")
    for name, run, adders, text, *_ in COMMANDS:
        add_arguments(commands.add_parser(name, help=text), run, adders)
    return top


def parser_of(command: str) -> Parser:
    """That of one command alone, since the parsers of all take longer than many a command."""
    name, run, adders, _, reads, example = next(one for one in COMMANDS if one[0] == command)
    epilog = f"example:\n  plan {name} {example}\n\n{STATUSES}"
    one = Parser(prog=f"plan {name}", description=reads, epilog=epilog,
                 formatter_class=argparse.RawDescriptionHelpFormatter)
    add_arguments(one, run, adders)
    return one


def add_arguments(one: argparse.ArgumentParser, run: Callable[[argparse.Namespace], int],
                  adders: Sequence[Adder]) -> None:
    for add in adders:
        add(one)
    one.set_defaults(run=run)


def parse_arguments(arguments: Sequence[str]) -> argparse.Namespace:
    """What the arguments say. Files and options may stand in any order behind the command."""
    if arguments and arguments[0] in [name for name, *_ in COMMANDS]:
        return parser_of(arguments[0]).parse_intermixed_args(arguments[1:])
    return parser().parse_args(arguments)


def add_solve(one: argparse.ArgumentParser) -> None:
    one.add_argument("--out", metavar="FILE", help="write each shorter schedule into FILE; or search in cubes, which "
                     "stand in the folder FILE/, without a limit of seconds")
    one.add_argument("--cluster", metavar="ADDRESS", help="search the cubes on a cluster of Dask, such as "
                     "tcp://HOST:8786")
    one.add_argument("--svg", metavar="FILE", help="draw the schedule into FILE")
    one.add_argument("--record", metavar="FILE", help="write the record that proves the bound into FILE")
    one.add_argument("--json", action="store_true", help="print the answer as one line of JSON")
    one.set_defaults(seconds=None)


def run_solve(options: argparse.Namespace) -> int:
    from . import solve
    out, seconds, places = options.out, options.seconds, None
    if options.cluster is not None and out is None:
        raise BadInput("--cluster needs --out, a folder for the cubes")
    if options.cluster is not None or out is not None and (out.endswith("/") or has_cubes(out)):
        from . import cubes
        places, out = cubes.Places(out, options.cluster, options.jobs, options.record), None
    if seconds is None:
        seconds = SECONDS if places is None else math.inf
    return solve.solve(opened(options), start(options), solve.SolveOptions(
        seconds, options.jobs, out, options.svg, options.record, options.json, places))


def has_cubes(folder: str) -> bool:
    if not os.path.isdir(folder):
        return False
    from ..cubes.folder import is_marked
    return is_marked(folder)


def add_verify(one: argparse.ArgumentParser) -> None:
    one.add_argument("record", metavar="RECORD", nargs="?",
                     help="a record of psprove or psmax, or a folder of cubes with one; "
                     "a folder of cubes alone has its project, too")
    one.add_argument("--jobs", type=whole_number(1, MOST_JOBS), default=1, metavar="N",
                     help="check a record of psprove in N parts at once (default 1)")
    one.add_argument("--cluster", metavar="ADDRESS", help="check its parts on a cluster of Dask, such as "
                     "tcp://HOST:8786")
    one.add_argument("--json", action="store_true", help="print the verdict as one line of JSON")


def run_verify(options: argparse.Namespace) -> int:
    from . import verify
    record = options.project if options.record is None else options.record
    if has_cubes(record):
        from ..cubes.folder import PROJECT, must_be_whole
        must_be_whole(pathlib.Path(record))
        if options.record is None:
            options.project = os.path.join(record, PROJECT)
        record = os.path.join(record, "record")
    elif options.record is None:
        raise BadInput(f"{record} is no folder of cubes; name a record behind the project")
    shares = verify.Shares(options.jobs, options.cluster) if options.cluster is not None or options.jobs > 1 else None
    return verify.verify(opened(options), record, start(options), shares, options.json)


def run_status(options: argparse.Namespace) -> int:
    from . import status
    return status.status(options.folder)


def add_folder(one: argparse.ArgumentParser) -> None:
    one.add_argument("folder", metavar="FOLDER", help="the folder of cubes that plan solve has as --out")


def add_join(one: argparse.ArgumentParser) -> None:
    one.add_argument("--record", metavar="FILE", help="write the record into FILE (default: record, in the folder)")


def run_join(options: argparse.Namespace) -> int:
    from . import join
    return join.join(options.folder, options.record)


def add_read(one: argparse.ArgumentParser) -> None:
    from ..formats import FORMATS
    one.add_argument("table", metavar="TABLE", help="a table or a project text; - for standard input")
    one.add_argument("--out", metavar="PROJECT", help="write the project there (default: beside the table, as .sch)")
    one.add_argument("--to", choices=[*FORMATS], help="the format that is written (default: as the suffix of --out "
                     "says)")


def run_read(options: argparse.Namespace) -> int:
    from . import read
    return read.read(options.table, options.out, options.to, settings(options))


def add_table(one: argparse.ArgumentParser) -> None:
    one.add_argument("--out", metavar="FILE", help="write the table into FILE")
    one.add_argument("--excel", action="store_true",
                     help="write for a spreadsheet: a byte order mark, and the table's separator")
    one.add_argument("--separator", choices=[*SEPARATORS],
                     help="between cells (default: comma; with --excel that of the table)")


def sheet_options(options: argparse.Namespace) -> "SheetOptions":
    from .write import SheetOptions
    return SheetOptions(options.out, options.excel, options.separator)


def add_write(one: argparse.ArgumentParser) -> None:
    one.add_argument("--daily", action="store_true", help="write what each resource does on each day, as a page of "
                     "HTML")
    one.add_argument("--resource", metavar="NAME",
                     help="write only what needs this resource into a calendar or a daily list")
    one.add_argument("--total", action="store_true", help="prove total floats for a spreadsheet file")


def run_write(options: argparse.Namespace) -> int:
    from . import floats, write
    total = floats.Total(options.seconds, options.jobs, start(options)) if options.total else None
    return write.write(opened(options), options.answer, sheet_options(options), options.resource, total, options.daily)


def add_float(one: argparse.ArgumentParser) -> None:
    one.add_argument("--chart", action="store_true", help="draw a chart instead of a table")
    one.add_argument("--total", action="store_true",
                     help="prove the latest start in any schedule that is no longer; --out is then a new folder, for "
                     "records")


def run_float(options: argparse.Namespace) -> int:
    from . import floats, gantt
    chart = gantt.ChartWords(options.svg, options.width, options.chart or options.svg is not None)
    total = floats.Total(options.seconds, options.jobs, start(options)) if options.total else None
    return floats.floats(opened(options), options.answer, sheet_options(options), chart, total)


def add_chart(one: argparse.ArgumentParser) -> None:
    one.add_argument("--svg", metavar="FILE", help="draw a picture into FILE instead")
    one.add_argument("--width", type=whole_number(20, 500), default=80, metavar="COLUMNS",
                     help="columns for the time, 20 to 500 (default 80)")


def run_gantt(options: argparse.Namespace) -> int:
    from . import gantt
    return gantt.gantt(opened(options), options.answer, gantt.ChartWords(options.svg, options.width), options.baseline)


def add_baseline(one: argparse.ArgumentParser) -> None:
    one.add_argument("--baseline", metavar="ANSWER", help="draw the bars of this earlier plan below those of the plan")


def add_report(one: argparse.ArgumentParser) -> None:
    one.add_argument("--out", metavar="FILE", required=True, help="write the page into FILE")
    one.add_argument("--record", metavar="RECORD", help="the record that proves the bound")
    one.add_argument("--paper", choices=["A4", "A3"], default="A4", help="what it is printed on (default A4)")


def run_report(options: argparse.Namespace) -> int:
    from . import report
    return report.report(opened(options), options.answer, start(options), report.ReportOptions(
        options.record, options.out, options.paper, options.seconds, options.jobs, options.baseline))


def add_watch(one: argparse.ArgumentParser) -> None:
    one.add_argument("table", metavar="TABLE", help="a table of activities in CSV")
    one.add_argument("--record", metavar="FILE", help="write the record of each search into FILE")
    one.add_argument("--port", type=whole_number(0, 65_535), default=0, metavar="P",
                     help="serve on this port (default: a free one)")
    one.add_argument("--open", action="store_true", help="open the page in a browser")


def run_watch(options: argparse.Namespace) -> int:
    from . import watch
    return watch.watch(options.table, settings(options), start(options), watch.WatchOptions(
        options.seconds, options.jobs, options.record, options.port, options.open))


def run_check(options: argparse.Namespace) -> int:
    from . import check
    return check.check(opened(options), options.answer)


def add_compare(one: argparse.ArgumentParser) -> None:
    one.add_argument("old", metavar="OLD", help="an answer")
    one.add_argument("new", metavar="NEW", help="a later answer")
    one.add_argument("--why", action="store_true", help="explain why no schedule ends as early as OLD")
    one.add_argument("--frozen", metavar="DAY", help="with --why: keep what starts before this day or period in OLD")
    one.add_argument("--out", metavar="FOLDER", help="write the proof into this new folder")


def run_compare(options: argparse.Namespace) -> int:
    from . import compare, why
    from .beginning import Start
    found = opened(options)
    begun = Start(options.old if options.frozen is not None else None, options.frozen)
    cause = partial(why.why, found, begun, seconds=options.seconds, jobs=options.jobs, out=options.out)
    return compare.compare(found, options.old, options.new, cause if options.why else None)


def add_why(one: argparse.ArgumentParser) -> None:
    one.add_argument("--within", type=whole_number(-MOST_UNITS, MOST_UNITS), metavar="C",
                     help="explain why no schedule ends by period C, or has a lateness of C")
    one.add_argument("--out", metavar="FOLDER", help="write the proof into this new folder")


def run_why(options: argparse.Namespace) -> int:
    from . import why
    return why.why(opened(options), start(options), options.within, options.seconds, options.jobs, options.out)


def add_whatif(one: argparse.ArgumentParser) -> None:
    one.add_argument("changes", metavar="CHANGE", nargs="*", help="a change, or some with ';' between them, such as "
                     "'sundays', 'shift 06:00-22:00', 'crew +2', 'weld hanger -2 d' or 'drop absence crane' (default: "
                     "all that plan tries)")


def run_whatif(options: argparse.Namespace) -> int:
    from . import whatif
    if options.changes:
        return whatif.asked(opened(options), options.changes, options.seconds, options.jobs, sheet_options(options))
    return whatif.whatif(opened(options), options.seconds, options.jobs, sheet_options(options))


def add_where(one: argparse.ArgumentParser) -> None:
    one.add_argument("project", metavar="PROJECT", help="a project in a .sch file")


def run_where(options: argparse.Namespace) -> int:
    from . import where
    return where.where(options.project)


def add_batch(one: argparse.ArgumentParser) -> None:
    one.add_argument("folders", metavar="FOLDER", nargs="*", help="a folder with project texts, or with tables")
    one.add_argument("--seconds", type=number_of_seconds, default=60.0, metavar="S",
                     help="stop each search after S seconds (default 60)")
    one.add_argument("--jobs", type=whole_number(1, MOST_PROJECTS), default=1, metavar="N",
                     help="search N projects at a time (default 1)")
    one.add_argument("--csv", metavar="FILE", help="write the table there, and keep its rows (default: standard "
                     "output)")
    one.add_argument("--out", metavar="FOLDER", help="write the schedules into this folder")
    one.add_argument("--record", metavar="FOLDER", help="write the records into this folder")
    one.add_argument("--known", metavar="FILE", nargs="+", default=[], help="published bounds: project, lower, upper")
    one.add_argument("--part", type=part_of_batch, default=(1, 1), metavar="I/N",
                     help="take only each N-th project from the I-th on")
    one.add_argument("--join", nargs="+", metavar="FILE", help="make one table from these, and do not search")


def run_batch(options: argparse.Namespace) -> int:
    from . import batch, batch_table
    if (not options.folders) == (options.join is None):
        raise BadInput("either a FOLDER, or --join and tables; see plan batch --help")
    if options.join is not None:
        return batch_table.join_tables(options.join, options.csv)
    return batch.batch(batch.Batch(options.folders, options.seconds, options.jobs, options.part, options.csv,
                                   options.out, options.record, options.known))


ABOUT = "Plans projects with psmax and psprove. They check or prove every claim."

STATUSES = """exit status:
  0    answered
  1    a file or a program failed; in a batch a project has a fault, or an answer
       contradicts --known
  2    the words of the command or a text have a fault
  3    the time ran out, or you ended the search, before all was known
  4    check found a violation, or verify a wrong record
  130  interrupted before anything was known"""

# Each command: its name, what runs it, its options, what it does, what it reads and prints, and an example.
COMMANDS = (
    ("solve", run_solve, (add_project, add_limits, add_start, add_solve),
     "find a shortest schedule, with a proof",
     """Reads a project. Searches until it has proved a shortest schedule, or until a
limit. Prints the answer on standard output, and its progress on standard error.""",
     "site.csv --seconds 600 --out plan.csv --record plan.rec"),
    ("status", run_status, (add_folder,),
     "show how far a search in cubes has come",
     """Reads a folder of cubes. Prints how many are refuted, how much of the tree that is,
and what is known of the project.""", "cubes"),
    ("join", run_join, (add_folder, add_join),
     "make one record of the logs of cubes",
     """Reads a folder of cubes, at any time. Writes one record, and prints what it proves.""", "cubes"),
    ("verify", run_verify, (add_project, add_verify, add_start),
     "say what a record proves of a project",
     "Reads a project and a record. Prints what it proves, or its first fault.", "site.csv plan.rec"),
    ("write", run_write, (add_schedule, add_table, add_write, add_start, add_limits),
     "write a schedule as a table in CSV",
     """Reads a project and an answer. Writes a row for each activity, with its dates.
Where --out ends in .ics it writes a calendar, and in .xml or .xer the project of
Microsoft Project or of Primavera with the dates.""", "site.csv plan.csv"),
    ("gantt", run_gantt, (add_schedule, add_chart, add_baseline),
     "draw a schedule as a chart",
     "Reads a project and an answer. Draws a chart, with every violation.", "site.csv plan.csv --svg site.svg"),
    ("float", run_float, (add_schedule, add_table, add_chart, add_float, add_start, add_limits),
     "show when each activity may start, and which are critical",
     """Reads a project and an answer. Prints the earliest and the latest start of each
activity while the others stay; with --total the latest start in any schedule that
is no longer, proved.""", "site.csv plan.csv --total"),
    ("compare", run_compare, (add_project, add_compare, add_limits),
     "show what moved from one schedule to another",
     "Reads a project and two answers. Prints what moved, what is new and what is gone.",
     "site.csv old.csv new.csv --why"),
    ("report", run_report, (add_schedule, add_report, add_baseline, add_start, add_limits),
     "write a schedule as a page of HTML, with what is proved",
     """Reads a project and an answer. Writes one page with a chart, lags, resources and
floats, which prints on paper.""", "site.csv plan.csv --record plan.rec --out site.html"),
    ("watch", run_watch, (add_watch, add_settings, add_limits, add_start),
     "show the plan in a browser, and plan again whenever the table is saved",
     """Follows a table. Prints the address of a page on this machine, which shows the plan,
what moved, and what is wrong with the table. Ctrl-C ends it, and keeps the plan.""", "site.csv --open"),
    ("check", run_check, (add_schedule,),
     "check a schedule, and list its violations, or say what was read of a table",
     """Reads a project and an answer. Prints 'feasible C', or each violation by name. Of a
table without an answer it prints what it has read: settings with their rows, the first
three weeks, absences.""", "site.csv plan.csv"),
    ("why", run_why, (add_project, add_why, add_start, add_limits),
     "explain why a project has no schedule",
     """Reads a project. Prints a smallest set of maximum lags, resources and absences
that are impossible together, and which maximum lag would open a schedule.""", "site.csv --within 30"),
    ("whatif", run_whatif, (add_project, add_whatif, add_limits, add_table),
     "show which resource, absence or maximum lag would give a shorter schedule",
     """Reads a project. Prints the makespan with one unit more of each resource, without
each absence, and with each maximum lag longer by one period or dropped. The shortest
comes first.""", "site.csv --seconds 60"),
    ("read", run_read, (add_read, add_settings),
     "make a project text from a table in CSV, or from a text of another format",
     """Reads a table, and writes a project text and a page with its names. Or reads a
project text, and writes it in another format.""", "site.csv"),
    ("where", run_where, (add_where,),
     "locate the fault in a project text",
     """Reads a project text. Prints the line and column of its fault, and what should
stand there.""", "site.sch"),
    ("batch", run_batch, (add_batch,),
     "search all projects of a folder, and make a table",
     """Reads the project texts of folders, and their tables that have none. Writes a row for
each project once it is known. The same command continues a batch that was cut off.""",
     "projects --seconds 20 --csv all.csv"),
)
