"""Spreadsheet files: read as they are shown, and written with a schedule beside the planner's own cells."""
import datetime
import importlib.util
import io
import pathlib
import sys
import unittest
import zipfile
from typing import Any
from unittest import mock

from psmax.errors import BadInput
from psmax.spreadsheet import as_csv

from . import copied
from .browser import DEBIAN
from .helpers import InFolder, plan

# By hand, eight hours a day from Monday 2 March 2026 on: a day and a half, two days and a half, a day between, and four
# hours end on Monday 9 March at 12:00.
ROWS = [["title", "Kessel"], ["from", datetime.datetime(2026, 3, 2)], ["Arbeitstage", "Mo-Fr"], [],
        ["Nr", "Vorgang", "Dauer", "Vorgänger", "Kran (1)", "Gewerk", "fällig", "erledigt"],
        [1, "Ausbau", "1,5 d", None, 1, "Rohr", datetime.datetime(2026, 3, 2), 0.0],
        [2, "=Schweißen", 2.5, "1", None, "Stahl", None, None],
        [3, "Einbau", "4 h", "2FS+1 d", 1, None, None, None]]
CSV = """title,Kessel
from,02.03.2026
Arbeitstage,Mo-Fr

Nr,Vorgang,Dauer,Vorgänger,Kran (1),Gewerk,fällig,erledigt
1,Ausbau,"1,5 d",,1,Rohr,02.03.2026,0 %
2,=Schweißen,"2,5 d",1,,Stahl
3,Einbau,4 h,2FS+1 d,1
"""
STARTS = "name,start,period\nAusbau,0,hours\n=Schweißen,12,hours\nEinbau,40,hours\n"


def is_here() -> bool:
    if importlib.util.find_spec("openpyxl") is None and DEBIAN not in sys.path:
        sys.path.append(DEBIAN)
    return importlib.util.find_spec("openpyxl") is not None


def book() -> Any:
    """A planner's file: a table below its settings, a sheet of his own with a formula, and looks of his own."""
    import openpyxl
    made = openpyxl.Workbook()
    sheet = made.active
    sheet.title = "Plan"
    for row in ROWS:
        sheet.append(row)
    for cell in ("B2", "G6"):
        sheet[cell].number_format = "DD.MM.YYYY"
    sheet["B7"].data_type = "s"
    sheet["C7"].number_format, sheet["H6"].number_format = '0.0 "d"', "0%"
    sheet["H5"].font = openpyxl.styles.Font(bold=True, color="FF123456")
    other = made.create_sheet("Kosten")
    other["A1"], other["A2"] = "=SUM(1,2)", "bleibt"
    return made


def saved(made: Any) -> bytes:
    data = io.BytesIO()
    made.save(data)
    return data.getvalue()


def with_value(data: bytes, before: str, after: str) -> bytes:
    """The file with another text in its first sheet, such as the value that a spreadsheet leaves beside a formula."""
    old, made = zipfile.ZipFile(io.BytesIO(data)), io.BytesIO()
    with zipfile.ZipFile(made, "w") as new:
        for name in old.namelist():
            part = old.read(name).replace(b"<v />", b"<v></v>")  # as some versions of openpyxl write it
            new.writestr(name, part.replace(before.encode(), after.encode()) if name.endswith("sheet1.xml") else part)
    return made.getvalue()


@unittest.skipUnless(is_here(), "python3-openpyxl isn't here")
class Read(InFolder):
    def test_cells(self) -> None:
        """As the sheet shows them: dates, shares, units of formats, and decimals by the sheet's own sign."""
        self.assertEqual(as_csv(saved(book()), "p.xlsx"), CSV)
        made = book()
        made.active.delete_rows(1, 9)
        made.active.append([datetime.datetime(2026, 3, 2, 7, 59, 59, 999_000), datetime.time(6, 30),
                            datetime.timedelta(hours=2), datetime.timedelta(hours=30), True, 1.5, 12, 0.1 + 0.2])
        self.assertEqual(as_csv(saved(made), "p.xlsx"), "2026-03-02 08:00,06:30,120 min,1800 min,true,1.5,12,0.3\n")

    def test_the_same_as_text(self) -> None:
        table, text = self.file("p.xlsx", saved(book())), self.file("p.csv", CSV)
        told, wanted = (plan("check", path).stdout.replace(path.name, "p") for path in (table, text))
        self.assertEqual(told, wanted)
        for line in ("F  Gewerk     passed over", "E  Kran (1)   resource, 1 unit", "B  Vorgang    name"):
            self.assertIn(f"  {line}\n", told)
        self.assertIn("columns of your own are passed over: 'Gewerk'", told)

    def test_sheets(self) -> None:
        made = book()
        made.move_sheet("Kosten", -1)
        table = self.file("p.xlsx", saved(made))
        self.assertEqual(plan("check", table, "--sheet", "Plan").returncode, 0)
        self.refused(plan("check", table, "--sheet", "plan"), 2, "p.xlsx: no sheet 'plan'; it has 'Kosten', 'Plan'")
        made["Kosten"].sheet_state = "hidden"
        self.assertEqual(plan("check", self.file("q.xlsx", saved(made))).returncode, 0)
        self.refused(plan("check", self.file("p.csv", CSV), "--sheet", "Plan"), 2, "--sheet is for spreadsheet files")
        self.assertEqual(plan("read", table, "--sheet", "Plan").returncode, 0)
        self.assertIn("| sheet | Plan |", (self.folder / "p.md").read_text())
        self.assertEqual(plan("gantt", self.folder / "p.sch", self.file("a.csv", STARTS)).returncode, 0)

    def test_formulas(self) -> None:
        """A formula is its value; without one, and with a fault, it is told with its cell. An empty text is a value."""
        made = book()
        made.active["C7"] = "=1+1"
        data = saved(made)
        self.refused(plan("check", self.file("p.xlsx", data)), 2,
                     "p.xlsx: cell C7: a formula without its value; open and save")
        for value, told in (("<v>3</v>", '"3 d"'), ("<v>3.5</v>", '"3,5 d"')):
            self.assertIn(f"Schweißen,{told if ',' in told else told[1:-1]},",
                          as_csv(with_value(data, "<f>1+1</f><v></v>", f"<f>1+1</f>{value}"), "p.xlsx"))
        empty = with_value(data, '<c r="C7"', '<c t="str" r="C7"')
        self.assertIn("Schweißen,,1,", as_csv(empty, "p.xlsx"))
        error = with_value(with_value(data, '<c r="C7"', '<c t="e" r="C7"'), "<v></v>", "<v>#REF!</v>")
        with self.assertRaisesRegex(BadInput, "cell C7: #REF!"):
            as_csv(error, "p.xlsx")

    def test_what_is_none(self) -> None:
        self.refused(plan("check", self.file("p.xlsx", b"PK\x03\x04")), 2,
                     "this is a spreadsheet file, and it can't be read")
        made = io.BytesIO()
        with zipfile.ZipFile(made, "w") as parts:
            parts.writestr("mimetype", "application/vnd.oasis.opendocument.spreadsheet")
        self.refused(plan("check", self.file("p.ods", made.getvalue())), 2, "OpenDocument; save it as .xlsx or as CSV")
        with mock.patch("psmax.spreadsheet.MOST_UNPACKED", 1_000):
            self.refused(plan("check", self.file("p.xlsx", saved(book()))), 2, "unpacked it has more than 1,000 bytes")
        table = self.file("p.xlsx", saved(book()))
        with mock.patch.dict(sys.modules, {"openpyxl": None}):
            self.refused(plan("check", table), 1, "needs the package openpyxl: install "
                         "python3-openpyxl, or `pip install psmax[xlsx]`")


@unittest.skipUnless(is_here(), "python3-openpyxl isn't here")
class Written(InFolder):
    def setUp(self) -> None:
        super().setUp()
        self.table, self.out = self.file("p.xlsx", saved(book())), self.folder / "out.xlsx"
        self.answer = self.file("a.csv", STARTS)

    def written(self, path: pathlib.Path) -> Any:
        import openpyxl
        ran = plan("write", path, self.answer, "--out", self.out)
        self.assertEqual(ran.returncode, 0, ran.stderr)
        return openpyxl.load_workbook(self.out)

    def test_what_lies_there(self) -> None:
        """A stranger's file at --out is looked at by a process with limits, of which there is no other here."""
        there, table = self.file("there.xlsx", saved(book())), self.file("p.csv", CSV)
        with mock.patch("psmax.process_limits.begin", side_effect=copied.begin_answer) as begun:
            self.refused(plan("write", table, self.answer, "--out", there), 2, "there.xlsx is there, and was not")
        self.assertEqual(begun.call_count, 1)

    def test_beside_his_own(self) -> None:
        made = self.written(self.table)
        sheet = made["Plan"]
        self.assertEqual([cell.value for cell in sheet[5]][8:], ["Anfang", "Ende", "freier Puffer", "verspätet"])
        found = [[cell.value for cell in row[8:]] for row in sheet.iter_rows(min_row=6, max_row=8)]
        time = datetime.datetime
        self.assertEqual(found, [[time(2026, 3, 2, 8), time(2026, 3, 3, 12), 0, "4 h"],
                                 [time(2026, 3, 3, 13), time(2026, 3, 5, 17), 0, None],
                                 [time(2026, 3, 9, 8), time(2026, 3, 9, 12), 0, None]])
        self.assertEqual((sheet["I6"].number_format, sheet["G6"].number_format), ("dd.mm.yyyy hh:mm", "DD.MM.YYYY"))
        self.assertEqual((sheet["I5"].font.b, sheet["H5"].font.color.rgb, sheet["B7"].value, sheet["B7"].data_type),
                         (True, "FF123456", "=Schweißen", "s"))
        self.assertEqual((made["Kosten"]["A1"].value, made["Kosten"]["A2"].value), ("=SUM(1,2)", "bleibt"))

    def test_chart(self) -> None:
        """By hand: Monday and Tuesday, Tuesday to Thursday, and the Monday after; Saturday and Sunday are shaded."""
        sheet = self.written(self.table)["plan chart"]
        self.assertEqual(sheet["A1"].value, "feasible, ends Mon 09.03. 12:00 (44 h)")
        self.assertEqual([cell.value for cell in sheet[3]][4:], [2, 3, 4, 5, 6, 7, 8, 9])
        painted = ["".join("#" if cell.fill.fgColor.rgb.endswith("0072B2") else "-" if cell.fill.fill_type else "."
                           for cell in
                           row[4:]) for row in sheet.iter_rows(min_row=4, max_row=6)]
        self.assertEqual(painted, ["##...--.", ".###.--.", ".....--#"])
        self.assertEqual([cell.value for cell in sheet[8]], [None, "Kran", "of 1", None, 1, 1, *[None] * 5, 1])

    def test_again_and_back(self) -> None:
        """What was written is a table and an answer, and is written again in the same columns."""
        self.written(self.table)
        self.assertIn("feasible, ends Mon 09.03. 12:00 (44 h)", plan("check", self.table, self.out).stdout)
        again = self.folder / "again.xlsx"
        self.assertEqual(plan("write", self.out, self.answer, "--out", again).returncode, 0)
        self.assertEqual(plan("check", again).stdout.replace("again.xlsx", "out.xlsx"), plan("check", self.out).stdout)
        self.refused(plan("write", self.table, self.answer, "--out", self.table), 2, "which would be lost")
        own = self.file("own.xlsx", saved(book()))
        self.refused(plan("write", self.table, self.answer, "--out", own), 2,
                     "was not written by plan, and would be lost")
        other = self.file("b.xlsx", "a,b\n")
        self.refused(plan("write", self.table, self.answer, "--out", other), 2,
                     "was not written by plan, and would be lost")

    def test_limits(self) -> None:
        """Of what openpyxl makes of a file to write it again, which is counted before: by hand, 31 cells of the table,
        two of the other sheet, and two that are merged."""
        made = book()
        made.active.merge_cells("A20:B20")
        table, words = self.file("q.xlsx", saved(made)), (self.answer, "--out", self.out)
        for name, most, told in (("MOST_KEPT", 100, "unpacked it has more than 100 signs <"),
                                 ("MOST_MADE", 34, "at most 34 cells in its sheets, with all that are merged or a "
                                  "link, and this one has 35")):
            with mock.patch(f"psmax.spreadsheet.{name}", most):
                self.refused(plan("write", table, *words), 2, told)
        with mock.patch("psmax.spreadsheet.MOST_MADE", 35):
            self.assertEqual(plan("write", table, *words).returncode, 0)

    def test_of_a_text(self) -> None:
        """A table in CSV, and parts of what may pause: its row has the begin of the first and the end of the last."""
        table = self.file("p.csv", 'from,2026-03-02 06:00\nactivity,hours,"crew (1, days)",may pause\nweld,30,1,yes\n')
        self.answer = self.file("b.csv", "name,start\n"
                                + "".join(f"weld ({k} of 3),{24 * k - 24}\n" for k in (1, 2, 3)))
        made = self.written(table)
        self.assertEqual(made.sheetnames, ["table", "plan chart"])
        self.assertEqual([cell.value for cell in made["table"][3]][4:6],
                         [datetime.datetime(2026, 3, 2, 6), datetime.datetime(2026, 3, 4, 12)])


class Columns(InFolder):
    def test_own_columns(self) -> None:
        """Words for people alone are passed over. What may be meant for something else is a fault."""
        for head, cell, told in (("Gewerk", "Rohr", ""), ("Equipment", "E-101", ""),
                                 ("deadline", "2026-03-02", "not a column"),
                                 ("crane", "1", "a resource has its capacity"),
                                 ("Status", "fertig", "stands in started"),
                                 ("predecesors", "x1", "did you mean 'predecessors'?"),
                                 ("Ressource", "Kran", "each resource has a column of its own")):
            with self.subTest(head):
                ran = plan("check", self.file("p.csv", f"activity,days,{head}\na,1,{cell}\n"))
                self.assertIn(told or f"columns of your own are passed over: '{head}'", ran.stdout + ran.stderr)
                self.assertEqual(ran.returncode, 2 if told else 0)

    def test_one_name_under_two_numbers(self) -> None:
        table = self.file("p.csv", "ID,activity,days,predecessors\n7,weld,1,\n8,weld,2,7\n9,test,1,8\n")
        told = plan("check", table, self.file("a.csv", "name,start\nweld (7),0\nweld (8),1\ntest,2\n")).stdout
        self.assertIn("9 (test) must start no sooner than 8 (weld (8)) ends", told)
        self.refused(plan("check", self.file("q.csv", "activity,days\nweld,1\nweld,2\n")), 2,
                     "a second activity 'weld'")
