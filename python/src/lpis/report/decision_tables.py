"""Who accepted what, and why: the rows of findings.csv that somebody accepted, as a page shows them, with each column
that he wrote (who, why, when, any other)."""

from __future__ import annotations

from ..preparation import decisions
from ..preparation.decisions import ACCEPTED, BY_OPTION, BY_OTHERS
from . import html_page
from .finding_views import Picture

HEAD = ["kind", "layer", "identifiers", "#area m\u00b2", "accepted by"]
LAST = ["file", "words"]
USUAL = ("who", "why", "when")  # the columns of notes that come first
MOST = 10_000  # on a page; findings.csv has all


def tables_of(folder: str, picture: Picture | None = None) -> list[html_page.Table]:
    """The table of a folder, or none where nobody accepted a row by a table of marks. A click on a row shows what
    `picture` has of it on the map."""
    rows = [row for row in decisions.records(folder) if row.get("state") == ACCEPTED and is_told(row)]
    if not rows:
        return []
    notes = [decisions.notes_of(row) for row in rows]
    columns = {name: None for name in USUAL if any(name in note for note in notes)}
    kept = set(decisions.kept_columns(folder)[0])
    columns.update(dict.fromkeys(name for note in notes for name in note if name not in kept))
    cells = [
        [
            *(row.get(name, "") for name in ("kind", "layer", "identifiers", "area_m2", "accepted_by")),
            *(note.get(name, "") for name in columns),
            *(row.get(name, "") for name in LAST),
        ]
        for row, note in zip(rows, notes)
    ]
    shown = {str(one.number): key for one, key in zip(picture.shown, picture.keys)} if picture else {}
    more = f" (the first {MOST} of {len(rows)}: {decisions.FILE} has all)" if len(rows) > MOST else ""
    title = f"Who accepted what, and why{more}: {decisions.in_words(decisions.counts(folder))}"
    keys = [shown.get(row.get("number", "")) for row in rows[:MOST]]
    return [html_page.Table(title, [*HEAD, *columns, *LAST], cells[:MOST], keys, is_mixed=True)]


def is_told(row: dict[str, str]) -> bool:
    """Whether somebody accepted a row for itself, in a table of marks."""
    return bool(row.get("sha256")) or row.get("accepted_by") not in (BY_OPTION, BY_OTHERS, "", None)
