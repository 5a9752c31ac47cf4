"""The activities, the links and the calendar of a .xer file of Primavera P6."""
import datetime
from collections import Counter
from collections.abc import Callable
from dataclasses import dataclass
from functools import cached_property

from ..calendars import Calendar
from ..errors import BadInput
from ..letters import printable, short
from ..model import Group
from ..project import MOST_ACTIVITIES
from ..work_time import WorkTime
from .tool_file import Gathering, Link, longest_period, unique_names
from .mspdi import calendar_of
from .xer_calendar import MOST_SIGNS, CalendarHours, base_first, read_calendar
from .xer_tables import Row, cell_of, minutes, read_date

ENDS = {"PR_FS": (True, False), "PR_SS": (False, False), "PR_FF": (True, True), "PR_SF": (False, True)}
MILESTONES = {"TT_Mile", "TT_FinMile"}
WORK = {"TT_Task", "TT_Rsrc"} | MILESTONES
SPANNING = {"TT_LOE", "TT_WBS"}  # which take as long as others
COMPLETE = "TK_Complete"
OF_PREDECESSOR, OF_SUCCESSOR = "rcal_Predecessor", "rcal_Successor"  # whose calendar a lag counts in
OF_PROJECT, OF_CLOCK = "rcal_ProjDefault", "rcal_24Hour"


@dataclass
class XerDocument(Gathering):
    tables: dict[str, list[Row]]
    signs: int = 0  # of the calendars that were read

    def rows(self, name: str) -> list[Row]:
        """Those of the project, where the table has a column for that."""
        own = cell_of(self.project, "proj_id")
        return [row for row in self.tables.get(name, []) if row.get("proj_id", own) == own]

    @cached_property
    def project(self) -> Row:
        rows = self.tables.get("PROJECT", [])
        own = [row for row in rows if cell_of(row, "export_flag") != "N"] or rows
        if len(own) != 1:
            names = ", ".join(short(cell_of(row, "proj_short_name")) for row in own)
            raise BadInput(f"{len(own)} projects ({names}); export one alone" if own else "the file has no project")
        return own[0]

    @cached_property
    def spanning(self) -> dict[str, Row]:
        """What takes as long as others do, and has no work of its own."""
        return {cell_of(row, "task_id"): row for row in self.rows("TASK") if cell_of(row, "task_type") in SPANNING}

    @cached_property
    def activities(self) -> dict[str, Row]:
        found: dict[str, Row] = {}
        for row in self.rows("TASK"):
            uid = cell_of(row, "task_id")
            if uid in found or not uid:
                raise BadInput(f"a second activity with the task_id {short(uid)}" if uid else
                               "an activity has no task_id")
            if uid not in self.spanning:
                found[uid] = row
            if uid not in self.spanning and cell_of(row, "task_type") not in WORK:
                self.faults.append(f"{called(row)}: the unknown type '{short(cell_of(row, 'task_type'))}'")
        if len(found) > MOST_ACTIVITIES:
            raise BadInput(f"{len(found):,} activities, and a project has at most {MOST_ACTIVITIES:,}")
        return found

    @cached_property
    def names(self) -> dict[str, str]:
        names = {uid: printable(cell_of(row, "task_name") or code(row)) for uid, row in self.activities.items()}
        return unique_names(names, lambda uid: code(self.activities[uid]))

    @cached_property
    def title(self) -> str:
        """The name of the topmost row of the work breakdown, which is the project's."""
        tops = (cell_of(row, "wbs_name") for row in self.rows("PROJWBS") if cell_of(row, "proj_node_flag") == "Y")
        return printable(next(tops, cell_of(self.project, "proj_short_name")))

    def groups(self) -> list[Group]:
        """The rows of the work breakdown below the project, where their activities stand one after another."""
        rows = {cell_of(row, "wbs_id"): row for row in self.rows("PROJWBS")}
        inner = dict[str, list[int]]()
        for number, row in enumerate(self.activities.values(), 1):
            uid, seen = cell_of(row, "wbs_id"), set[str]()
            while uid in rows and uid not in seen and cell_of(rows[uid], "proj_node_flag") != "Y":
                inner.setdefault(uid, []).append(number)
                seen.add(uid)
                uid = cell_of(rows[uid], "parent_wbs_id")
        whole = {uid: range(own[0], own[-1] + 1) for uid, own in inner.items() if own[-1] - own[0] == len(own) - 1}
        return [Group(printable(cell_of(row, "wbs_name") or cell_of(row, "wbs_short_name")), whole[uid])
                for uid, row in rows.items() if uid in whole]

    def is_complete(self, uid: str) -> bool:
        return cell_of(self.activities[uid], "status_code") == COMPLETE

    def is_milestone(self, uid: str) -> bool:
        return cell_of(self.activities[uid], "task_type") in MILESTONES

    @cached_property
    def remaining(self) -> dict[str, int]:
        """Of each activity that is not complete, in minutes of work."""
        found = {uid: 0 for uid in self.activities}
        for uid, row in self.activities.items():
            with self.kept():
                names = () if self.is_complete(uid) else ("remain_drtn_hr_cnt", "target_drtn_hr_cnt")
                told = [minutes(row, name, called(row)) for name in names]
                found[uid] = next((one for one in told if one is not None), 0)
                if told == [None, None] and not self.is_milestone(uid):
                    raise BadInput(f"{called(row)}: it has no duration")
                if found[uid] < 0:
                    raise BadInput(f"{called(row)}: its duration is below 0")
        return found

    @cached_property
    def links(self) -> list[Link]:
        found: list[Link] = []
        for row in self.rows("TASKPRED"):
            with self.kept():
                found += self.link(row)
        return found

    def link(self, row: Row) -> list[Link]:
        """None where an end of it has no work of its own: that one follows the others."""
        before, after = cell_of(row, "pred_task_id"), cell_of(row, "task_id")
        ends = ENDS.get(cell_of(row, "pred_type"))
        if before in self.spanning or after in self.spanning:
            return []
        if after not in self.activities:
            raise BadInput(f"a link to the task_id {short(after)}, which is no activity of the project")
        name = called(self.activities[after])
        if before not in self.activities:
            raise BadInput(f"{name}: a link from an activity of another project, or from none "
                           f"(task_id {short(before)})")
        if ends is None or before == after:
            raise BadInput(f"{name}: a link to itself" if ends else
                           f"{name}: a link of the unknown type '{short(cell_of(row, 'pred_type'))}'")
        lag = minutes(row, "lag_hr_cnt", f"{name}: the link from {called(self.activities[before])}") or 0
        return [Link(before, after, *ends, lag)]

    @cached_property
    def data_date(self) -> datetime.datetime:
        """Up to when it is known what has been done. What has not started starts no sooner."""
        dates = [read_date(self.project, name, "the project") for name in ("last_recalc_date", "plan_start_date")]
        told = [one for one in dates if one is not None]
        if not told:
            raise BadInput("the project has no last_recalc_date and no plan_start_date")
        return max(told)

    @cached_property
    def begun(self) -> dict[str, datetime.datetime]:
        """When what has started did."""
        found: dict[str, datetime.datetime] = {}
        for uid, row in self.activities.items():
            with self.kept():
                told = [read_date(row, name, called(row)) for name in ("act_start_date", "act_end_date")]
                at = next((one for one in told if one is not None), None)
                if at is None and cell_of(row, "status_code") not in ("", "TK_NotStart"):
                    raise BadInput(f"{called(row)}: it has started, and has no act_start_date")
                if max((one for one in told if one is not None), default=self.data_date) > self.data_date:
                    raise BadInput(f"{called(row)}: it has started or ended behind the data date {self.data_date}")
                if at is not None:
                    found[uid] = at
        return found

    @cached_property
    def first(self) -> datetime.datetime:
        return min([read_date(self.project, "plan_start_date", "the project") or self.data_date, self.data_date,
                    *self.begun.values()])

    @cached_property
    def calendars(self) -> dict[str, Row]:
        return {cell_of(row, "clndr_id"): row for row in self.tables.get("CALENDAR", [])}

    def hours(self, uid: str) -> CalendarHours:
        """Those of a calendar."""
        if uid not in self.known_hours:
            self.signs += sum(len(cell_of(row, "clndr_data")) for row in base_first(self.calendars, uid))
            if self.signs > MOST_SIGNS:
                raise BadInput(f"the calendars that are used have more than {MOST_SIGNS:,} signs")
            self.known_hours[uid] = read_calendar(self.calendars, uid, self.first.date())
        return self.known_hours[uid]

    @cached_property
    def known_hours(self) -> dict[str, CalendarHours]:
        return {}

    @cached_property
    def calendar_id(self) -> str:
        """That of most activities whose calendar matters: they have work left, or a link with a lag, which their
        calendar counts. Others must be like it."""
        lagged = {uid for link in self.links if link.minutes for uid in (link.before, link.after)}
        by = {uid: cell_of(row, "clndr_id") or cell_of(self.project, "clndr_id") for uid, row in self.activities.items()
              if self.remaining[uid] or uid in lagged}
        told = [one for one, _ in Counter(by.values()).most_common()]
        told = told or [cell_of(self.project, "clndr_id"), *self.calendars]
        if not told or {*told} - {*self.calendars}:
            unknown = next((called(self.activities[uid]) for uid, one in by.items() if one not in self.calendars),
                           "the project")
            raise BadInput(f"{unknown}: its calendar is not in the file")
        for uid, one in by.items():
            if self.hours(one) != self.hours(told[0]):
                self.faults.append(f"{called(self.activities[uid])}: it has the {self.calendar_name(one)}, and most "
                                   f"have the {self.calendar_name(told[0])}; all have one calendar here")
        return told[0]

    def calendar_name(self, uid: str) -> str:
        return f"calendar '{short(cell_of(self.calendars[uid], 'clndr_name'))}'"

    @cached_property
    def clock(self) -> Calendar:
        """The calendar of minutes."""
        return calendar_of(self.work("minutes"))

    @cached_property
    def plain(self) -> tuple[str, str, tuple[datetime.date, ...]]:
        """The days with work, their hours, and days off."""
        return self.hours(self.calendar_id).plain(self.calendar_name(self.calendar_id))

    def work(self, period: str) -> WorkTime:
        workdays, shift, holidays = self.plain
        return WorkTime(self.first.isoformat(" ", "minutes"), period, workdays, holidays, shift)

    def period(self, dates: list[datetime.datetime], marks: set[int]) -> int:
        """By all lengths, by the work before these dates, and by these minutes of the day, at which hours of resources
        change."""
        lengths = [*self.remaining.values(), *(abs(link.minutes) for link in self.links),
                   *map(self.clock.from_on, dates)]
        return longest_period(self.first, self.plain[1], marks, lengths)

    def must_count_lags(self) -> None:
        """Lags count in the calendar that the options of scheduling name, and from real starts."""
        self.must_count_from_starts()
        kinds = (cell_of(row, "sched_calendar_on_relationship_lag") for row in self.rows("SCHEDOPTIONS"))
        kind = next(kinds, "") or OF_PREDECESSOR
        lagged = [link for link in self.links if link.minutes]
        own = self.hours(self.calendar_id)
        others: dict[str, Callable[[], bool]] = {
            OF_PREDECESSOR: lambda: True, OF_SUCCESSOR: lambda: True, OF_CLOCK: own.is_round_the_clock,
            OF_PROJECT: lambda: cell_of(self.project, "clndr_id") in self.calendars
            and self.hours(cell_of(self.project, "clndr_id")) == own}
        if lagged and not (kind in others and others[kind]()):
            more = f", and {len(lagged) - 1} more" if len(lagged) > 1 else ""
            raise BadInput(f"{called(self.activities[lagged[0].after])}: a link with a lag{more}, which counts in a "
                           f"calendar that is not that of the activities ({short(kind)})")

    def must_count_from_starts(self) -> None:
        """By an option a lag from the start of what has started counts from the data date."""
        if any(cell_of(row, "sched_lag_early_start_flag") == "Y" for row in self.rows("SCHEDOPTIONS")):
            self.faults += [f"{called(self.activities[link.after])}: a lag from the start of "
                            f"{called(self.activities[link.before])}, which has started; have the options of "
                            "scheduling count it from the actual start" for link in self.links if link.minutes
                            and not link.from_end and link.after not in self.begun and link.before in self.begun
                            and not self.is_complete(link.before)]


def code(row: Row) -> str:
    return printable(cell_of(row, "task_code") or cell_of(row, "task_id"))


def called(row: Row) -> str:
    """An activity as faults call it."""
    name = cell_of(row, "task_name")
    return f"activity {short(code(row))}" + (f" '{short(name)}'" if name else "")
