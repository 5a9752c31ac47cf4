"""Tables of which something was once read in silence as something else: each is now read as it is meant, or has a fault
that names its row. German and English ones, as spreadsheets write them."""
import json

from psmax.dates import read_moment

from .helpers import TWO_JOBS, InFolder, plan

# By hand: from Monday 13 April 2026 on, Monday to Friday, two days and then three of a crane.
GERMAN = """from;13.04.2026
workdays;Mo-Fr
absences;away.csv

activity;days;Kran (1);after;not before;end by;due
Gerüst stellen;2;1;;{0};{1};{2}
Träger heben;3;1;Gerüst stellen;;;
"""
ENGLISH = """from,2026-04-13
workdays,mon-fri
status,2026-04-16

activity,days,crane (1),after,started,finished
erect,2,1,,{0},{1}
lift,3,1,erect,,
"""
HOURS = """from,2026-04-13
workdays,mon-fri
shift,"07:00-12:00,13:00-16:00"
absences,away.csv

activity,hours,crane (1)
erect,2,1
lift,3,1
"""


class Tables(InFolder):
    """Helpers that solve a table or tell its faults."""

    def solved(self, table: str, *words: object) -> tuple[str, str]:
        """The status with the makespan, and what was told."""
        ran = plan("solve", self.file("p.csv", table), "--jobs", "1", "--json", *words)
        self.assertEqual(ran.returncode, 0, ran.stderr)
        found = json.loads(ran.stdout)
        return f"{found['status']} {found['makespan']}", ran.stderr

    def faults(self, table: str, *texts: str, faults: int = 1) -> None:
        self.refused(plan("solve", self.file("p.csv", table)), 2, *texts, faults=faults)


class Absences(Tables):
    """An absence touches every period that it overlaps."""

    def away(self, text: str) -> None:
        self.file("away.csv", text)

    def test_parts_of_days(self) -> None:
        """By hand: without the 14th the two days do not go together before the 15th, or three of the 15th to the 17th
        go first where nothing says the order; here the order is fixed, so two from the 15th and three from the 17th end
        at 7."""
        for cells in ("14.04.2026 06:00;14.04.2026 18:00", "14.04.2026 06:00;14.04.2026", "14.04.2026;14.04.2026 18:00",
                      "14.04.2026 23:00;14.04.2026 23:30"):
            with self.subTest(cells):
                self.away(f"resource;from;to;units\nKran;{cells};\n")
                self.assertEqual(self.solved(GERMAN.format("", "", ""))[0], "optimal 7")

    def test_parts_of_hours(self) -> None:
        """By hand: the hours from 9 to 11 are away; two before and three after, where 12 to 13 is a break: 2 + 2 +
        3."""
        self.away("resource,from,to\ncrane,2026-04-13 09:30,2026-04-13 10:30\n")
        first, told = self.solved(HOURS)
        self.assertEqual(first, "optimal 7")
        for text in ("away.csv: row 2: 2026-04-13 09:30 is within a period, and counts as its begin",
                     "away.csv: row 2: 2026-04-13 10:30 is within a period, and counts as its end"):
            self.assertIn(text, told)

    def test_between_hours(self) -> None:
        """What is away in a break is not missed."""
        self.away("resource,from,to\ncrane,2026-04-13 12:00,2026-04-13 13:00\ncrane,2026-04-11,2026-04-12\n")
        self.assertEqual(self.solved(HOURS)[0], "optimal 5")

    def test_heads(self) -> None:
        """In German too; and nothing above or beside the columns is passed over."""
        self.away("title;wer fehlt\n# von Hand\nRessource;von;bis;Anzahl\nKran;14.04.2026;14.04.2026;1\n")
        self.assertEqual(self.solved(GERMAN.format("", "", ""))[0], "optimal 7")
        self.away("Kran;13.04.2026;14.04.2026\nresource;from;to\n")
        self.faults(GERMAN.format("", "", ""), "away.csv: row 1, column A: 'Kran' stands above the columns")
        self.away("resource;from;to;bis\nKran;14.04.2026;14.04.2026;\n")
        self.faults(GERMAN.format("", "", ""), "away.csv: row 1, column D (bis): a second column 'to'")
        self.away("resource;from;to;\nKran;14.04.2026;14.04.2026;x\n")
        self.faults(GERMAN.format("", "", ""), "away.csv: row 2, column D: a cell in a column without a name")

    def test_reversed(self) -> None:
        for cells, told in (("14.04.2026 18:00;14.04.2026 06:00", "'14.04.2026 06:00' is before '14.04.2026 18:00'"),
                            ("15.04.2026;14.04.2026", "'14.04.2026' is before '15.04.2026'"),
                            ("18.04.2026;17.04.2026", "'17.04.2026' is before '18.04.2026'"),
                            ("5;14.04.2026", "is before '5'")):
            with self.subTest(cells):
                self.away(f"resource;from;to;units\nKran;{cells};\n")
                self.faults(GERMAN.format("", "", ""), "away.csv: row 2, column C (to): ", told)


class Dates(Tables):
    def setUp(self) -> None:
        super().setUp()
        self.file("away.csv", "resource,from,to\n")

    def test_days_of_a_spreadsheet(self) -> None:
        """46132 is 20 April 2026, the sixth working day: 5 + 2 + 3."""
        first, told = self.solved(GERMAN.format("46132", "", ""))
        self.assertEqual(first, "optimal 10")
        self.assertIn("p.csv: row 6: 46132 is 2026-04-20, as a spreadsheet counts days", told)
        self.file("away.csv", "resource,from,to\ncrane,46125,46125\n")
        first, told = self.solved(HOURS)
        self.assertEqual(first, "optimal 13")
        self.assertIn("away.csv: row 2: 46125 is 2026-04-13, as a spreadsheet counts days", told)

    def test_numbers_that_may_be_days(self) -> None:
        """In minutes so many are less than ten years; and without a first day of the project nothing is a date."""
        self.faults("from,2026-04-13\nactivity,minutes,not before\na,2,46132\n",
                    "row 3, column C (not before): 46132 may be "
                    "so many periods after the start, or 2026-04-20")
        self.faults("activity,days,due\na,2,46132\n", "row 2, column C (due): 46132 may be 2026-04-20")
        self.faults("from,2026-04-13\nactivity,days,due\na,2,9999\n",
                    "row 3, column C (due): 9999 is more periods than ten")
        self.faults("from,2026-04-13\nactivity,days,due\na,2,70000\n",
                    "row 3, column C (due): '70000' is more than 20 years")
        self.assertEqual(self.solved("from,2026-04-13\nactivity,minutes,not before\na,2,46132 min\n")[0],
                         "optimal 46134")

    def test_another_year(self) -> None:
        for cells, told in ((("20.04.2062", "", ""), "column E (not before): '20.04.2062' is more than 20 years after "
                             "the"),
                            (("", "", "20.04.2062"), "column G (due): '20.04.2062' is more than 20 years after the"),
                            (("20.04.2002", "", ""), "column E (not before): '20.04.2002' is more than 20 years before "
                             "the"),
                            (("", "10.04.2026", ""), "column F (end by): '10.04.2026' is before the project starts"),
                            (("", "", "10.04.2026"), "column G (due): '10.04.2026' is before the project starts")):
            with self.subTest(cells):
                self.faults(GERMAN.format(*cells), "p.csv: row 6, ", told)
        self.file("away.csv", "resource,from,to\nKran,2062-04-14,2062-04-15\n")
        self.faults(GERMAN.format("", "", ""), "away.csv: row 2, column B (from): '2062-04-14' is more than 20 years",)

        table = self.file("p.csv", "activity,days\na,2\n")
        free = self.file("free.txt", "2026-04-06\n2062-04-07\n")
        self.refused(plan("solve", table, "--from", "2026-04-13", "--holidays", free), 2,
                     "free.txt: line 2: '2062-04-07'")
        self.refused(plan("solve", table, "--from", "2026-04-13", "--status", 46132), 2,
                     "status 46132: a spreadsheet counts "
                     "2026-04-20 so; write that date")

    def test_started_after_finished(self) -> None:
        """A day before is one, though it ends where the other begins."""
        for cells in (("2026-04-15", "2026-04-14"), ("2026-04-14 14:00", "2026-04-14 13:00"),
                      ("2026-04-14 06:00", "2026-04-13")):
            with self.subTest(cells):
                self.faults(ENGLISH.format(*cells), f"row 6, column F (finished): '{cells[1]}' is before '{cells[0]}'")
        self.assertEqual(self.solved(ENGLISH.format("2026-04-14", "2026-04-14"))[0], "optimal 6")


class Above(Tables):
    """Rows above a table. By hand: from Friday 10 April 2026 on, two days end on Monday, and on Friday with
    Saturdays."""

    def end(self, table: str) -> str:
        """The day on which the only activity ends."""
        ran = plan("write", self.file("p.csv", table), self.file("a.csv", "name,start\ndig,0\n"))
        self.assertEqual(ran.returncode, 0, ran.stderr)
        at = read_moment(ran.stdout.splitlines()[1].rpartition(",")[2])
        return f"{at.at:%Y-%m-%d}" + ("" if at.is_day else f" {at.at:%H:%M}")

    def test_settings(self) -> None:
        """However a setting is spelled and parted from its value, there is no work on Sundays and holidays."""
        self.file("free.txt", "2026-04-13\n")
        for above, end in (
            ("from;10.04.2026\nworkdays,mon-fri\n", "2026-04-13"),
            ("from;10.04.2026\nworkdays: mon-fri\n", "2026-04-13"),
            ("from,10.04.2026\nworkdays=Mo-Fr;;\n", "2026-04-13"),
            (";;\n;from;10.04.2026\n;Arbeitstage:;Mo-Fr;\n", "2026-04-13"),
            ("Start date;10.04.2026\nworking days;mon-fri\n", "2026-04-13"),
            ("title;Sundays are off\nProjektbeginn;10.04.2026\nWerktage;Mo-Fr\nFeiertage;free.txt\n",
             "2026-04-14"),
            ("# no work on Mondays\nfrom;10.04.2026\nworkdays;mon-fri\nminimise;makespan\nstatus date;\n",
             "2026-04-13"),
        ):
            with self.subTest(above):
                self.assertEqual(self.end(above + "\nactivity;days;due\ndig;2;20.04.2026\n"), end)

    def test_a_table_that_begins_in_column_b(self) -> None:
        self.assertEqual(self.end(",from,2026-04-10\n,workdays,mon-fri\n,,\n,activity,days\n,dig,2\n"), "2026-04-13")
        self.faults(",activity,days\n,dig,2\nx,pour,1\n", "row 3, column A: a cell in a column without a name")

    def test_commas_in_a_table_with_semicolons(self) -> None:
        table = "from;2026-04-10\nworkdays,mon,tue,fri\nshift,08:00-12:00,13:00-17:00\nactivity;hours\ndig;17\n"
        self.assertEqual(self.end(table), "2026-04-14 09:00")

    def test_what_is_no_setting(self) -> None:
        for row, told in (("Sundays are off", "no setting 'Sundays are off'; write a title behind 'title'"),
                          ("workday,mon-fri", "no setting 'workday'; did you mean 'workdays'?"),
                          ("workdays mon-fri", "no setting 'workdays mon-fri'; did you mean 'workdays'?"),
                          ("Feiertag;free.txt", "no setting 'Feiertag'; did you mean 'feiertage'?"),
                          ("Kran,2026-04-14,2026-04-15", "no setting 'Kran'; write a title"),
                          ("absence,away.csv", "no setting 'absence'; did you mean 'absences'?"),
                          ("minimize,cost", "minimize cost: neither makespan nor lateness"),
                          ("workdays,mon-fry", "workdays mon-fry: not days such as"),
                          ("holidays,gone.txt", "gone.txt: there is no such file"),
                          ("status,2026-02-30", "status 2026-02-30: there is no such date"),
                          ("shift,7-16", "shift 7-16: not hours"), ("zone,Mars", "zone Mars: no time zone"),
                          ("period,years", "period years: not one of"),
                          ("title,a\ntitle,b", "a second row for 'title'"),
                          ("status,46132", "status 46132: a spreadsheet counts 2026-04-20 so"),
                          ("period,3 hours\nshift,08:00-12:00",
                           "shift 08:00-12:00: a part of 240 minutes has no whole")):
            with self.subTest(row):
                table = f"from,2026-04-10\n{row}\n\nactivity,days\ndig,2\n"
                self.faults(table, f"p.csv: row {2 + row.count(chr(10))}", told)
        self.faults("workdays,mon-fri\n\nactivity,days\ndig,2\n", "p.csv: row 1: --workdays needs --from")
        self.faults("from,10.4.\nworkdays,x\n\nactivity,days\ndig,2\n", "row 1", "row 2", faults=2)

    def test_german_columns(self) -> None:
        table = "from;10.04.2026\nworkdays;Mo-Fr\n\nNr.;Vorgang;Dauer;Vorgänger;Bemerkung\n1;dig;2 Tage;;\n"
        self.assertEqual(self.end(table), "2026-04-13")
        self.faults(table.replace("Vorgang;Dauer", "Vorgangs;Dauer"),
                    "row 4, column B (Vorgangs): not a column that plan",
                    "row 4 has no column for the name", faults=2)
        self.faults(table.replace("Vorgang;Dauer;Vorgänger", "Was;Wie lange;Wonach"),
                    "row 4 has no column for the name",
                    faults=5)


class Starts(Tables):
    """The moment at which the project starts."""

    def test_within_the_hours_of_work(self) -> None:
        """By hand: half days would be periods of four hours, and from 09:00 on it is hours. A day that nobody cuts is
        whole."""
        heads = "shift,08:00-12:00,13:00-17:00\n\nactivity,days\n"
        for above, days, wanted, said in (
            ("from,2026-04-13 09:00\n" + heads, "1.5", ["2026-04-13 09:00", "2026-04-14 14:00"], ""),
            ("ab,13.04.2026 13:00\n" + heads, "1.5", ["13.04.2026 13:00", "14.04.2026 17:00"], ""),
            ("from,2026-04-13 09:00\nactivity,days\n", "2", ["2026-04-13", "2026-04-14"],
             "from 2026-04-13 09:00: no period begins then, so the project starts at 2026-04-13"),
        ):
            with self.subTest(above):
                path, answer = self.file("p.csv", f"{above}dig,{days}\n"), self.file("a.csv", "name,start\ndig,0\n")
                self.assertEqual(plan("write", path, answer).stdout.splitlines()[1].split(",")[-2:], wanted)
                self.assertIn(said, plan("solve", path).stderr)


class Decimals(Tables):
    """One table has one decimal sign."""

    def test_thousands(self) -> None:
        """By hand: 1000 hours and 1.5 days of 8 hours are 1012 hours, with a comma or with a point for the part."""
        for one, other in (("1.000 h", "1,5 d"), ("1,000 h", "1.5 d"), ("1.000,0 h", "1,5 d"), ("1,000.00 h", "1.5 d")):
            with self.subTest(one):
                table = f"activity;duration;after\nheat;{one};\ncool;{other};heat\n"
                self.assertEqual(self.solved(table)[0], "optimal 1012")
        table = "ID;Vorgang;Dauer;Vorgänger\n1;heat;1.000.000 min;\n2;cool;1,5 min;1EA+1.000 min\n"
        self.assertEqual(self.solved(table.replace("1.000.000", "10.000").replace("1,5 min", "1,0 min"))[0],
                         "optimal 11001")

    def test_what_may_be_both(self) -> None:
        table = "activity;duration;after;at least\nheat;{};;\ncool;{};heat;{}\n"
        for cells, *told in (
            (("1.000 h", "8 h", ""), "row 2, column B (duration): '1.000 h' may be 1000, or 1; write that"),
            (("1,250 d", "8 h", ""), "row 2, column B (duration): '1,250 d' may be 1250, or 1,25; write that"),
            (("1,5 d", "1.5 d", ""), "row 3, column B (duration): '1.5 d' has not the decimal comma that row 2 has in "
             "'1,5 d'"),
            (("1.5 d", "8 h", "0,5 d"), "row 3, column D (at least): '0,5 d' has not the decimal point that row 2 has"),
            (("1,5 d", "1.0000 h", ""), "'1.0000 h' has not the decimal comma"),
            (("1,5 d", "1.00.000 h", ""), "'1.00.000 h' has not the decimal comma"),
            (("1.5 d", "1.000.000 h", ""), "'1.000.000 h' has not the decimal point"),
        ):
            with self.subTest(cells):
                self.faults(table.format(*cells), *told)
        self.file("away.csv", "resource;from;to\ncrane;1.000 h;2.000 h\n")
        self.faults(HOURS, "away.csv: row 2, column B (from): '1.000 h' may be 1000, or 1", "column C (to)", faults=2)

    def test_what_is_no_decimal(self) -> None:
        """Dates have points and commas of their own, and a comma stands between predecessors. By hand, in half days: b
        begins on the eighth day, at 14, and c starts three later and takes two."""
        table = ("from;13.04.2026\nactivity;days;id;predecessors;not before;notes\na;1,5;1;;14.04.2026;1.5\n"
                 'b;1;2;1;20.04.2026 08:00;\nc;1;3;"1FS+2,2SS+1,5 d";;\n')
        self.assertEqual(self.solved(table)[0], "optimal 19")


class Cells(Tables):
    """Rows that are no activities, and signs that look like others."""

    def test_a_row_without_an_id(self) -> None:
        for table in ("ID;activity;days;crew (4)\n1;dig;2;2\n2;pour;2;1\n;Summe;4 d;2\n",
                      "Nr;Vorgang;Tage;crew (4)\n1;dig;2;2\n2;pour;2;1\n;Summe;4 d;2\n"):
            with self.subTest(table):
                self.faults(table, "row 4, column A (", "'Summe' has no number, and others have")
        self.assertEqual(self.solved("ID;activity;days;summary\n;all;;yes\n1;dig;2;\n")[0], "optimal 2")

    def test_codes_that_became_dates(self) -> None:
        """The code is blamed, and not the duration that a group does not have."""
        table = "wbs;activity;days\n{};Kolonne;\n{};ausbauen;2\n{};einbauen;2\n"
        for codes, told in ((("1", "01. Jan", "1.2"), "row 3, column A (wbs): '01. Jan' is no code such as 1.2, but "
                             "the date"),
                            (("1", "1.1", "2-Jan"), "row 4, column A (wbs): '2-Jan' is no code"),
                            (("1", "2026-01-01", "1.2"), "row 3, column A (wbs): '2026-01-01' is no code"),
                            (("1", "01.01.2026", "1.2"), "row 3, column A (wbs): '01.01.2026' is no code"),
                            (("1", "1,1", "1.2"), "row 3, column A (wbs): '1,1' is no code such as 1.2, which has "
                             "points")):
            with self.subTest(codes):
                self.faults(table.format(*codes), told)
        self.faults(table.format("1", "01. Jan", "02. Jan"), "row 3", "row 4", faults=2)
        self.assertEqual(self.solved(table.format("JANUS-1", "JANUS-1.1", "JANUS-1.2"))[0], "optimal 2")

    def test_blanks(self) -> None:
        """A blank that does not break, and a line break of Alt+Enter, are blanks."""
        table = 'activity;days;"Kran\n(1)";after\nGerüst\u00a0stellen;2\u00a0d;1;\n"Träger\nheben";3;1;Gerüst stellen\n'
        self.assertEqual(self.solved(table + "fertig;0;;Träger\u202fheben\n")[0], "optimal 5")

    def test_letters_and_marks(self) -> None:
        """Ü may be typed as one sign or as two, in a table and in an answer."""
        table = "activity;days;after\nGeru\u0308st stellen;2;\nheben;3;Ger\u00fcst stellen\n"
        self.assertEqual(self.solved(table)[0], "optimal 5")
        answer = self.file("a.csv", "name,start\nGer\u00fcst stellen,0\nheben,2\n")
        self.assertEqual(plan("check", self.folder / "p.csv", answer).stdout, "feasible 5\n")
        plan("solve", self.folder / "p.csv", "--out", self.folder / "best")
        text = (self.folder / "best").read_text().replace("\\u00fc", "u\\u0308").replace("\u00fc", "u\u0308")
        self.assertEqual(plan("check", self.folder / "p.csv", self.file("old", text)).stdout, "feasible 5\n")

    def test_encodings(self) -> None:
        """As Excel writes CSV and its text in Unicode; a text in a code page is told."""
        text = "activity\tdays\tafter\nGerüst stellen\t2\t\nheben – „hoch“\t3\tGerüst stellen\n"
        starts = "name,start\nGerüst stellen,0\nheben – „hoch“,2\n"
        for encoding, told in (("utf-16", ""), ("utf-8-sig", ""),
                               ("cp1252", "p.csv is no UTF-8, and is read in code page")):
            with self.subTest(encoding):
                path = self.file("p.csv", text.encode(encoding))
                ran = plan("write", path, self.file("a.csv", starts.encode(encoding)))
                self.assertEqual((ran.returncode, "2,heben – „hoch“,2,3,5" in ran.stdout), (0, True), ran.stderr)
                self.assertIn(told, plan("solve", path).stderr)
        self.refused(plan("solve", self.file("p.csv", b"activity,days\na\x81,1\n")), 2, "p.csv: line 2 is not UTF-8")
        for text, told in (("Projekt: Umbau\n", "no table of activities, and no text of a project that plan knows, "
                            "which is"),
                           ("", "no table of activities")):
            self.refused(plan("solve", self.file("p.txt", text)), 2, told)

    def test_the_end_of_old_files(self) -> None:
        """Ctrl-Z, with which old systems end a text."""
        for tail in ("\x1a", "\x1a\x1a\n", "\r\n\x1a"):
            path = self.file("old.sch", TWO_JOBS + tail)
            with self.subTest(tail):
                self.assertEqual(plan("solve", path).stdout.partition("\n")[0], "optimal 7")
                self.assertEqual(plan("read", path).returncode, 0)


class Waiting(Tables):
    """What is open at the status date does not stay in the past."""

    def test_a_delivery(self) -> None:
        """By hand: on Thursday the trusses of Tuesday are not there; they come on Thursday, and lifting is then."""
        for table in ("from,2026-04-13\nworkdays,mon-fri\nstatus,2026-04-16\n\nactivity,days,after,not before\n"
                      "get trusses,0,,2026-04-14\nlift trusses,2,get trusses,\n",
                      "ab;13.04.2026\nArbeitstage;Mo-Fr\nStichtag;16.04.2026\n\nVorgang;Tage;nach;frühestens\n"
                      "get trusses;0;;14.04.2026\nlift trusses;2;get trusses;\n"):
            with self.subTest(table):
                path, best = self.file("p.csv", table), self.folder / "best.csv"
                best.unlink(missing_ok=True)
                self.assertEqual(plan("solve", path, "--out", best).returncode, 0)
                row = plan("write", path, best).stdout.splitlines()[1].split(",")
                self.assertEqual([*row[1:5], *(f"{read_moment(cell).at:%d %b}" for cell in row[5:])],
                                 ["get trusses", "3", "0", "3", "16 Apr", "16 Apr"])
                self.assertEqual(plan("write", path, best, "--out", self.folder / "p.ics").returncode, 0)
                self.assertIn("DTSTART;VALUE=DATE:20260416\r\n", (self.folder / "p.ics").read_bytes().decode())
