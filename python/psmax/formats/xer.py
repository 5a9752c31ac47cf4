"""A .xer file of Primavera P6 as a project."""
from ..errors import BadInput
from ..model import Parts
from .tool_file import must_fit_hours
from .xer_document import XerDocument, called, code
from .xer_limits import Actuals
from .xer_resources import ActivityNeeds
from .xer_tables import read_tables


def read(text: str, project: Parts) -> None:
    document = XerDocument(read_tables(text))
    with document.kept():
        fill_from_document(document, project)
    document.tell()


def fill_from_document(document: XerDocument, project: Parts) -> None:
    if not document.activities:
        raise BadInput("the project has no activities")
    progress = Actuals(document)
    project.name, project.calendar = document.title, progress.work_time
    with document.kept():
        document.must_count_lags()
    needs = ActivityNeeds(document, progress.calendar, progress.crews)
    with document.kept():
        needs.fill(project)
    due = progress.due_dates()
    for uid, row in document.activities.items():
        made = project.activity(document.names[uid], progress.duration(uid), needs.of.get(uid), due.get(uid))
        project.ids[made.number] = code(row)
    progress.fill(project)
    project.groups = document.groups()
    rows = dict(enumerate(document.activities.values(), 1))
    must_fit_hours(project, document, lambda activity: called(rows[activity.number]))
