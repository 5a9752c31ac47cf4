"""What Microsoft Project, ProjectLibre and TaskJuggler write of summaries, of what is there when, and of tasks that are
scheduled by hand: it is taken exactly, or refused by name."""
import unittest

import psmax

HOURS = "".join(f"<WorkingTime><FromTime>{begins}:00:00</FromTime><ToTime>{ends}:00:00</ToTime></WorkingTime>"
                for begins, ends in (("08", "12"), ("13", "17")))
NIGHT = "<WorkingTime><FromTime>18:00:00</FromTime><ToTime>22:00:00</ToTime></WorkingTime>"


def week(hours: str = HOURS) -> str:
    """Monday to Friday with these hours."""
    days = (f"<WeekDay><DayType>{kind}</DayType><DayWorking>{int(1 < kind < 7)}</DayWorking>"
            + (f"<WorkingTimes>{hours}</WorkingTimes>" if 1 < kind < 7 else "") + "</WeekDay>" for kind in range(1, 8))
    return f"<WeekDays>{''.join(days)}</WeekDays>"


def days(hours: dict[int, str]) -> str:
    """These days of the week with their hours, and no other."""
    kinds = (f"<WeekDay><DayType>{kind}</DayType><DayWorking>{int(kind in hours)}</DayWorking><WorkingTimes>"
             f"{hours.get(kind, '')}</WorkingTimes></WeekDay>" for kind in range(1, 8))
    return f"<WeekDays>{''.join(kinds)}</WeekDays>"


def calendar(uid: int, more: str = "", base: int | None = None) -> str:
    """A base calendar, or one that is based on another."""
    is_base, base = int(base is None), -1 if base is None else base
    return (f"<Calendar><UID>{uid}</UID><IsBaseCalendar>{is_base}</IsBaseCalendar>"
            f"<BaseCalendarUID>{base}</BaseCalendarUID>"
            f"{more}</Calendar>")


def task(uid: int, name: str, level: int, hours: int | None = 8, more: str = "") -> str:
    duration = "" if hours is None else f"<Duration>PT{hours}H0M0S</Duration>"
    return f"<Task><UID>{uid}</UID><Name>{name}</Name><OutlineLevel>{level}</OutlineLevel>{duration}{more}</Task>"


def summary(uid: int, name: str, level: int, more: str = "") -> str:
    return task(uid, name, level, None, f"<Summary>1</Summary>{more}")


def link(before: int, kind: int = 1, hours: int = 0) -> str:
    return (f"<PredecessorLink><PredecessorUID>{before}</PredecessorUID><Type>{kind}</Type>"
            f"<LinkLag>{hours * 600}</LinkLag>"
            "</PredecessorLink>")


def resource(more: str, units: int = 4) -> str:
    return f"<Resource><UID>1</UID><Name>crew</Name><Type>1</Type><MaxUnits>{units}</MaxUnits>{more}</Resource>"


def there(units: int, begins: str = "NA", ends: str = "NA") -> str:
    return (f"<AvailabilityPeriod><AvailableFrom>{begins}</AvailableFrom><AvailableTo>{ends}</AvailableTo>"
            f"<AvailableUnits>{units}</AvailableUnits></AvailabilityPeriod>")


def project(tasks: str, resources: str = "", calendars: str = "", assignments: str = "",
            start: str = "2026-03-02T08:00:00", head: str = "") -> psmax.Project:
    return psmax.Project.read(
        f"<Project xmlns=\"http://schemas.microsoft.com/project\"><StartDate>{start}</StartDate>"
        f"<CalendarUID>1</CalendarUID>{head}<Calendars>{calendars or calendar(1, week())}</Calendars>"
        f"<Tasks>{tasks}</Tasks>"
        f"<Resources>{resources}</Resources><Assignments>{assignments}</Assignments></Project>\n")


def lags(made: psmax.Project) -> set[tuple[str, str, str, str, int | None, int | None]]:
    """Each lag by the names and the sides of its ends."""
    sides = ("start", "end")
    return {(lag.before.activity.name, sides[lag.before.is_end], lag.after.activity.name, sides[lag.after.is_end],
             lag.at_least,
             lag.at_most) for lag in made.lags}


class Meant(unittest.TestCase):
    """By hand, in periods of four hours: half a day."""

    def refused(self, texts: tuple[str, ...], *parts: str, **more: str) -> None:
        with self.assertRaises(psmax.BadInput) as caught:
            project(*parts, **more)
        self.assertEqual(len(caught.exception.args), len(texts), caught.exception)
        for text in texts:
            self.assertIn(text, f"{caught.exception}")

    def test_links_of_summaries(self) -> None:
        """To the start of each task below it, from the end of each."""
        frame = task(3, "columns", 2) + task(4, "beams", 2)
        made = project(task(1, "dig", 1) + summary(2, "frame", 1, link(1, 1, 4)) + frame
                       + task(5, "roof", 1, 8, link(2)))
        self.assertEqual(lags(made), {("dig", "end", "columns", "start", 1, None),
                                      ("dig", "end", "beams", "start", 1, None),
                                      ("columns", "end", "roof", "start", 0, None),
                                      ("beams", "end", "roof", "start", 0, None)})
        made = project(task(1, "dig", 1) + summary(2, "frame", 1, link(1, 0)) + task(3, "columns", 2))
        self.assertEqual(lags(made), {("dig", "end", "columns", "end", 0, None)})
        made = project(summary(1, "ground", 1) + summary(2, "pit", 2) + task(3, "dig", 3) + task(4, "line", 2)
                       + summary(5, "frame", 1, link(1)) + task(6, "columns", 2))
        self.assertEqual(lags(made), {(name, "end", "columns", "start", 0, None) for name in ("dig", "line")})
        self.refused(("summary 'frame': a link to its end", "task 'roof': a link from the start of summary 'frame'",
                      "task 'beams': a link to itself, or between a summary and a task of its"),
                     task(1, "dig", 1) + summary(2, "frame", 1, link(1, 0)) + task(3, "columns", 2)
                     + task(4, "beams", 2, 8, link(2)) + task(5, "roof", 1, 8, link(2, 3)))

    def test_dates_of_summaries(self) -> None:
        """Not before and not after, and the deadline, of each task below."""
        frame = task(3, "columns", 2) + task(4, "beams", 2, 8, "<Deadline>2026-03-05T17:00:00</Deadline>")
        kinds = ((4, "2026-03-04T08:00:00", ("start", 4, None)), (7, "2026-03-06T17:00:00", ("end", None, 10)))
        for kind, at, wanted in kinds:
            more = f"<ConstraintType>{kind}</ConstraintType><ConstraintDate>{at}</ConstraintDate>"
            made = project(summary(2, "frame", 1, more) + frame)
            self.assertEqual({lag[2:] for lag in lags(made)}, {(name, *wanted) for name in ("columns", "beams")})
        made = project(summary(2, "frame", 1, "<Deadline>2026-03-06T17:00:00</Deadline>") + frame)
        self.assertEqual([one.due for one in made.activities], [10, 8])
        for kind, told in ((2, "first"), (3, "last"), (5, "first"), (6, "last")):
            more = f"<ConstraintType>{kind}</ConstraintType><ConstraintDate>2026-03-04T08:00:00</ConstraintDate>"
            self.refused((f"summary 'frame': a constraint that whichever task below it is {told} has to keep",),
                         summary(2, "frame", 1, more) + frame)
            self.assertEqual(len(project(summary(2, "frame", 1, more) + task(3, "columns", 2)).lags), 1)

    def test_availability(self) -> None:
        """Four units from Wednesday noon to Friday evening, else two; and none from the week after on."""
        periods = there(2, "NA", "2026-03-04T12:00:00") + there(4, "2026-03-04T12:00:00", "2026-03-06T23:59:00") \
            + there(2, "2026-03-07T00:00:00", "2026-03-13T23:59:00")
        made = project(task(1, "dig", 1), resource(f"<AvailabilityPeriods>{periods}</AvailabilityPeriods>", 2))
        self.assertEqual([(one.begins, one.ends, one.units) for one in made.absences],
                         [(0, 5, 2), (10, 20, 2), (20, None, 4)])
        self.assertEqual(made.resources[0].capacity, 4)
        always = there(3, "1984-01-01T00:00:00", "2049-12-31T23:59:00")
        made = project(task(1, "dig", 1), resource(f"<AvailabilityPeriods>{always}</AvailabilityPeriods>", 3))
        self.assertEqual((made.resources[0].capacity, made.absences), (3, []))
        self.refused(("resource 'crew': AvailableTo is before AvailableFrom",), task(1, "dig", 1), resource(
            f"<AvailabilityPeriods>{there(3, '2026-03-04T08:00:00', '2026-03-03T08:00:00')}</AvailabilityPeriods>"))

    def test_tasks_by_hand(self) -> None:
        """They stay at their start, on a day off too until work begins; a period divides what lies before them."""
        by_hand = "<Manual>1</Manual><ManualStart>{}</ManualStart><Start>2026-03-02T08:00:00</Start>"
        made = project(task(1, "dig", 1, 8, by_hand.format("2026-03-04T10:00:00")) + task(2, "pour", 1, 8, link(1))
                       + task(3, "watch", 1, 8, by_hand.format("2026-03-07T10:00:00")))
        self.assertEqual(made.calendar.period if made.calendar else "", "2 hours")
        self.assertEqual(lags(made), {("", "start", "dig", "start", 9, 9), ("dig", "end", "pour", "start", 0, None),
                                      ("", "start", "watch", "start", 20, 20)})
        self.refused(("task 'dig': it starts at 2026-02-27 10:00:00, and the project at 2026-03-02 08:00:00",),
                     task(1, "dig", 1, 8, by_hand.format("2026-02-27T10:00:00")))

    def test_durations_that_are_not_said(self) -> None:
        """The time of work from the start to the finish: TaskJuggler writes no other."""
        dates = "<Start>2026-03-03T13:00:00</Start><Finish>2026-03-09T12:00:00</Finish>"
        made = project(task(1, "dig", 1, None, dates) + task(2, "done", 1, None, "<Milestone>1</Milestone>"))
        self.assertEqual([one.duration for one in made.activities], [8, 0])
        dates = "<Start>2026-03-06T17:00:00</Start><Finish>2026-03-11T17:00:00</Finish>"
        made = project(task(1, "dig", 1, None, dates))
        self.assertEqual([one.duration for one in made.activities], [6])
        self.refused(("task 'dig': no Duration, and no Start and Finish that give one", "task 'pour': its Finish"),
                     task(1, "dig", 1, None) + task(2, "pour", 1, None, "<Start>2026-03-05T08:00:00</Start>"
                                                    "<Finish>2026-03-04T08:00:00</Finish>"))

    def test_the_start_of_the_project(self) -> None:
        """A period divides what lies before it in the hours of work, so it begins there."""
        for start, period, first in (("2026-03-02T09:00:00", "hours", "2026-03-02 09:00"),
                                     ("2026-03-02T13:30:00", "30 minutes", "2026-03-02 13:30"),
                                     ("2026-03-02T12:30:00", "4 hours", "2026-03-02 13:00")):
            time = project(task(1, "dig", 1), start=start).calendar
            self.assertEqual((time and time.period, time and time.calendar().times(0, 1)[0]), (period, first))

    def test_calendars(self) -> None:
        """One that is based on another has its days and hours, and says what is not so there."""
        monday = "<WeekDays><WeekDay><DayType>2</DayType><DayWorking>0</DayWorking></WeekDay></WeekDays>"
        made = project(task(1, "dig", 1), calendars=calendar(1, monday, 7) + calendar(7, week(NIGHT)))
        self.assertEqual(made.calendar and (made.calendar.workdays, made.calendar.shift), ("tue-fri", "18:00-22:00"))
        crew = resource("<CalendarUID>2</CalendarUID>")
        for same in (calendar(2, "", 1), calendar(2, "", 3) + calendar(3, week()), calendar(2, week())):
            self.assertEqual(len(project(task(1, "dig", 1), crew, calendar(1, week()) + same).resources), 1)
        for other in (calendar(2, monday, 1), calendar(2, monday, 3) + calendar(3, week())):
            made = project(task(1, "dig", 1), crew, calendar(1, week()) + other)
            [hours] = made.hours.values()
            self.assertEqual((hours.days, hours.spans), ({1, 2, 3, 4}, ((480, 720), (780, 1020))))
        for other in (calendar(2, "", 3) + calendar(3, week(NIGHT)), calendar(2, week(NIGHT))):
            self.refused(("resource 'crew' has days or hours of its own: they go beyond",), task(1, "dig", 1), crew,
                         calendar(1, week()) + other)
        self.refused(("weeks with other days or hours",), task(1, "dig", 1), calendars=calendar(
            1, f"{week()}<WorkWeeks><WorkWeek>{week(NIGHT)}</WorkWeek></WorkWeeks>"))

    def test_hours_of_a_resource(self) -> None:
        """By hand, in two hours, in a project that works around the clock from 08:00 on: nights are one shift, of the
        day on which each begins. Days with different hours, other days off, and what fits into no shift are refused."""
        whole = "<WorkingTime><FromTime>00:00:00</FromTime><ToTime>00:00:00</ToTime></WorkingTime>"
        early, late = (f"<WorkingTime><FromTime>{begins}:00:00</FromTime><ToTime>{ends}:00:00</ToTime></WorkingTime>"
                       for begins, ends in (("00", "06"), ("18", "00")))
        need = "<Assignment><TaskUID>1</TaskUID><ResourceUID>1</ResourceUID><Units>2</Units></Assignment>"
        crew, all_days = resource("<CalendarUID>2</CalendarUID>"), calendar(1, days(dict.fromkeys(range(1, 8), whole)))
        nights = {2: late, 3: early + late, 4: early + late, 5: early}
        made = project(task(1, "weld", 1, 12), crew, all_days + calendar(2, days(nights), 1), need)
        [hours] = made.hours.values()
        self.assertEqual((hours.days, hours.spans, hours.text), ({0, 1, 2}, ((1080, 1800),), "mon,tue,wed 18:00-06:00"))
        self.assertEqual([(one.begins, one.ends) for one in made.numbers().off[:3]], [(0, 5), (11, 17), (23, 29)])
        off = ("<Exceptions><Exception><TimePeriod><FromDate>2026-03-05T00:00:00</FromDate>"
               "<ToDate>2026-03-05T23:59:00</ToDate>"
               "</TimePeriod><DayWorking>0</DayWorking></Exception></Exceptions>")
        for length, week_of_crew, told in ((13, days(nights),
                                            "task 'weld': it takes longer than all that it needs is there"),
                                           (1, days({2: late, 4: early}),
                                            "hours of its own: its days have different hours"),
                                           (1, days(nights) + off,
                                            "hours of its own: other days off than the project's")):
            self.refused((told,), task(1, "weld", 1, length), crew, all_days + calendar(2, week_of_crew, 1), need)

    def test_the_field_of_maximum_lags(self) -> None:
        """By the name that it has, whatever its number is. By hand, in hours: at most nine after the end, and from the
        start of the project."""
        def pour(text: str) -> str:
            return task(2, "pour", 1, 3, f"<ExtendedAttribute><FieldID>188743731</FieldID><Value>{text}</Value>"
                                         "</ExtendedAttribute>")

        head = ("<ExtendedAttributes><ExtendedAttribute><FieldID>188743731</FieldID><Alias>maximum lags</Alias>"
                "</ExtendedAttribute></ExtendedAttributes>")
        made = project(task(1, "dig", 1, 5) + pour("1FS&lt;=540 min; 0SF&lt;=1200 min"), head=head)
        self.assertEqual(lags(made), {("dig", "end", "pour", "start", None, 9), ("", "start", "pour", "end", None, 20)})
        self.assertEqual(lags(project(task(1, "dig", 1, 5) + pour("my own words"))), set())
        for text, told in (("9FS&lt;=540 min", "task 'pour': a maximum lag from 9, which is no task with work"),
                           ("soon", "the field 'maximum lags' is not such as '4FS<=480 min': 'soon'")):
            self.refused((told,), task(1, "dig", 1, 5) + pour(text), head=head)

    def test_what_is_not_active(self) -> None:
        """It is skipped, with its links and its assignments."""
        off = "<Active>0</Active>"
        need = "<Assignment><TaskUID>{}</TaskUID><ResourceUID>1</ResourceUID><Units>2</Units></Assignment>"
        tasks = task(1, "dig", 1) + task(2, "shore", 1, 8, off + link(1)) + task(3, "pour", 1, 8, link(2) + link(1))
        made = project(tasks, resource(""), assignments=need.format(2) + need.format(3))
        self.assertEqual([one.name for one in made.activities], ["dig", "pour"])
        self.assertEqual(lags(made), {("dig", "end", "pour", "start", 0, None)})
        self.assertEqual([sum(one.demands.values()) for one in made.activities], [0, 2])
        self.refused(("summary 'frame': an assignment", "task 99: an assignment"),
                     summary(2, "frame", 1) + task(3, "columns", 2), resource(""),
                     assignments=need.format(2) + need.format(99))

    def test_all_faults_at_once(self) -> None:
        self.refused(("task 'dig': a duration in elapsed time", "task 'pour': a calendar of its own",
                      "'pour': a link to 9",
                      "task 'cure': Deadline is no date", "resource 'crew' has days or hours"),
                     task(1, "dig", 1, 8, "<DurationFormat>8</DurationFormat>")
                     + task(2, "pour", 1, 8, f"<CalendarUID>9</CalendarUID>{link(9)}")
                     + task(3, "cure", 1, 8, "<Deadline>soon</Deadline>"), resource("<CalendarUID>2</CalendarUID>"),
                     calendar(1, week()) + calendar(2, week(NIGHT)))
