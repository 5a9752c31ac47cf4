"""Texts of strangers that are made to take long: file names, and what the files hold. All have a fault."""
import io
import zipfile
from collections.abc import Iterator

LONG = 16_000_000  # bytes
SHORT = 4_194_000  # of a table or JSON, which may have 4,194,304
UNPACKED = 60_000_000  # of a part of a spreadsheet file, whose parts may have 67,108,864

HEADS = "activity,days"
XML = '<Project xmlns="http://schemas.microsoft.com/project">'
ENTITIES = "<!DOCTYPE a [<!ENTITY a0 'x'>" + "".join(f"<!ENTITY a{i} '{f'&a{i - 1};' * 10}'>"
                                                     for i in range(1, 9)) + "]>"
XER = "ERMHDR\t8.0\n%T\tPROJECT\n%F\tproj_id\tclndr_id\tplan_start_date\n%R\t1\t1\t2026-03-02 08:00\n"
CALENDARS = "%T\tCALENDAR\n%F\tclndr_id\tbase_clndr_id\tclndr_data\n"
TASKS = "%T\tTASK\n%F\ttask_id\tproj_id\tclndr_id\ttask_code\ttask_name\ttarget_drtn_hr_cnt\ttask_type\n"
TASK = "%R\t{0}\t1\t1\tA{0}\tn{0}\t8\tTT_Task\n"
NEEDS = "%T\tTASKRSRC\n%F\ttask_id\tproj_id\trsrc_id\ttarget_qty_per_hr\n"
WEEK = "(0||CalendarData()((0||DaysOfWeek()((0||2()((0||0(s|08:00|f|16:00)())))))(0||Exceptions()({}))))"
PLAIN = f"{CALENDARS}%R\t1\t\t{WEEK.format('')}\n"
OWN = f"%R\t2\t\t{WEEK.format('').replace('16:00', '15:00')}\n"  # another calendar

Texts = Iterator[tuple[str, str | bytes]]

# What a file holds over and over, whatever it is called.
PIECES = {"newlines": "\n", "commas": ",", "braces": "{}", "quotes": '"', "line": "a", "titles": "title,x\n",
          "deep": "[",
          "nuls": "\0"}
SUFFIXES = "csv", "tsv", "json", "xlsx", "xer", "xml", "mpp"


def filled(text: str, size: int = LONG) -> str:
    return text * (size // len(text))


def numbered(text: str, count: int) -> str:
    return "".join(text.format(number) for number in range(1, count + 1))


def long() -> Texts:
    """Of 16 MB."""
    for name, piece in PIECES.items():
        for suffix in SUFFIXES:
            yield f"{name}.{suffix}", filled(piece)
    yield "ole.mpp", b"\xd0\xcf\x11\xe0\xa1\xb1\x1a\xe1" + bytes(LONG)


def tables() -> Texts:
    """As long as a table may be, with many cells, columns, rows, names that are like others, and groups one in
    another."""
    for name in ("commas", "braces", "quotes", "titles", "line"):
        yield f"short-{name}.csv", filled(PIECES[name], SHORT)
    yield "names.csv", f"{HEADS}\n" + f"{'a' * 32_000},1\n" * 130
    yield "columns.csv", f"{HEADS}," + numbered("word {},", 240_000)
    yield "resources.csv", numbered("c{} (1),", 1_990) + f"{HEADS}\n" + f"{'1,' * 1_990}a,1\n" * 120
    yield "words.csv", f"{HEADS}," + numbered("word {},", 1_990) + "\n" + f"a,1,{'x,' * 1_990}\n" * 120
    yield "rows.csv", f"{HEADS},after\n" + numbered("a long name {0},1,zz{0}\n", 9_000)
    yield "continued.csv", f"{HEADS},after\n" + numbered("n{},1,\n", 990) + numbered(",,zn{}\n", 9_000)
    yield "levels.csv", f"{HEADS},level,after\n" + numbered("n{0},1,{0},none\n", 9_000)
    yield "starts", "0 0\n" * 1_000_000


def lists() -> Texts:
    """What is no list of days or absences, and no answer, and what is many."""
    for name in ("commas", "braces", "quotes", "line", "titles", "nuls"):
        yield f"{name}.txt", filled(PIECES[name])
    yield "lines.txt", filled("1 0\n", SHORT)
    yield "days.txt", numbered("2026-03-02 .. 2030-03-02, {}\n", 9_000)
    yield "codes.txt", filled("DE\n", 900_000)


def objects() -> Texts:
    yield "short-deep.json", filled("[", SHORT)
    yield "digits.json", '{"a": ' + filled("9", SHORT)
    yield "text.json", '{"a": "' + filled("x", SHORT)
    rows = numbered('{{"name": "a{0}"}}, ', 180_000)
    yield "activities.json", '{"format": "psmax-project 1", "activities": [' + rows + "7]}"


def elements() -> Texts:
    yield "flat.xml", XML + filled("<a/>")
    yield "deep.xml", XML + filled("<a>")
    yield "text.xml", XML + filled("x")
    yield "attributes.xml", "<Project " + numbered('a{}="" ', 120_000) * 12 + "/>"
    yield "comment.xml", "<Project><!--" + filled("x")
    yield "tags.xml", XML + numbered("<a{}/>", 20_000) * 80
    yield "entities.xml", f"{ENTITIES}{XML}<Name>&a8;</Name></Project>"


def exports() -> Texts:
    yield "fields.xer", f"{XER}%T\tTASK\n%F\t" + filled("a\t") + "\n%E\n"
    yield "rows.xer", XER + TASKS + numbered(TASK, 30_000) * 10 + "%E\n"
    yield "other.xer", f"{XER}%T\tOTHER\n" + filled("%R\t\n") + "%E\n"
    crews = "%T\tRSRC\n%F\trsrc_id\trsrc_name\tclndr_id\n" + numbered("%R\t{0}\tr{0}\t2\n", 50_000)
    needs = NEEDS + numbered("%R\t1\t1\t{}\t1\n", 50_000)
    yield "needs.xer", XER + PLAIN + OWN + crews + TASKS + TASK.format(1) + needs + "%E\n"
    days = WEEK.format(filled("(0||0(d|40000)())"))
    yield "days.xer", f"{XER}{CALENDARS}%R\t1\t\t{days}\n{TASKS}{TASK.format(1)}%E\n"
    bases = "".join(f"%R\t{i}\t{i + 1}\t{WEEK.format('')}\n" for i in range(1, 50_000))
    yield "bases.xer", f"{XER}{CALENDARS}{bases}{TASKS}{TASK.format(1)}%E\n"


def spreadsheets(book: bytes) -> Texts:
    """What is no such file, and the file, in which a part has much in little room."""
    yield "zip.xlsx", b"PK\3\4" + bytes(LONG)
    sheet, end = b"<worksheet xmlns='%s'><sheetData>" % SPACE, b"</sheetData></worksheet>"
    cell = b"<row><c t='inlineStr'><is>"
    for name, part, begin, piece, stop in (
            ("runs", SHEET, sheet + cell, b"<r><t>a</t></r>", b"</is></c></row>" + end),
            ("text", SHEET, sheet + cell + b"<t>", b"a", b"</t></is></c></row>" + end),
            ("deep", SHEET, sheet, b"<a>", b""),
            ("styles", "xl/styles.xml", b"<styleSheet xmlns='%s'><cellXfs>" % SPACE, b"<xf/>",
             b"</cellXfs></styleSheet>"),
            ("kinds", "[Content_Types].xml", b"<Types>", b"<a/>", b"</Types>")):
        yield f"{name}.xlsx", with_part(book, part, begin + piece * (UNPACKED // len(piece)) + stop)
    yield "far.xlsx", with_part(book, SHEET, sheet + b"<row r='999999999'><c r='ZZZZZ999999999'><v>1</v></c></row>"
                                + end)
    yield "more.xlsx", with_part(book, "xl/media/image1.png", bytes(2 * UNPACKED))
    entities = ENTITIES.encode() + sheet + cell + b"<t>&a8;</t></is></c></row>" + end
    yield "entities.xlsx", with_part(book, SHEET, entities)


def kept(book: bytes) -> Texts:
    """The file, in which openpyxl would make many cells of little where it is written again."""
    sheet = zipfile.ZipFile(io.BytesIO(book)).read(SHEET)
    for name, tag in (("merged", b"<mergeCells><mergeCell ref='A20:XFD1048576'/></mergeCells>"),
                      ("links", b"<hyperlinks><hyperlink ref='A20:XFD1048576' location='A1'/></hyperlinks>")):
        yield f"{name}.xlsx", with_part(book, SHEET, sheet.replace(b"</sheetData>", b"</sheetData>" + tag))


SPACE, SHEET = b"http://schemas.openxmlformats.org/spreadsheetml/2006/main", "xl/worksheets/sheet1.xml"


def with_part(data: bytes, name: str, part: bytes) -> bytes:
    """A zip file with another part."""
    old, made = zipfile.ZipFile(io.BytesIO(data)), io.BytesIO()
    with zipfile.ZipFile(made, "w", zipfile.ZIP_DEFLATED, compresslevel=1) as new:
        for other in {*old.namelist(), name}:
            new.writestr(other, part if other == name else old.read(other))
    return made.getvalue()
