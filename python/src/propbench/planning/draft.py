"""A plan as somebody writes it down, before it is known whether it can be: tables of texts, as a
spreadsheet has them, which are changed row by row. A change makes another draft, so that one can go
back to each."""

import json
import re
from collections.abc import Iterable, Iterator, Mapping, Sequence
from dataclasses import dataclass, field, replace
from datetime import date, timedelta

from propbench.planning.brief import Brief
from propbench.planning.headings import COLUMNS, SORTS, texts_of
from propbench.planning.reading import sorted_sheets
from propbench.planning.sheets import Sheet

# A row: the texts that stand in it, by the headings above them.
DraftRow = Mapping[str, str]
# The columns that give names, by table, and those in which these names stand, by table too.
_NAMES = {"tasks": "task", "people": "person"}
_NAMED: dict[str, dict[str, tuple[str, ...]]] = {
    "tasks": {"tasks": ("after",), "wishes": ("task",)},
    "people": {"tasks": ("who", "uses"), "absences": ("person",), "setups": ("person",)},
}
# What a row can't do without, where it stands in it.
_NEEDED = {
    "absences": ("person",),
    "wishes": ("task", "wish"),
    "setups": ("person", "from", "to"),
}
_BETWEEN = re.compile(r"(\s*[,;\n&+]\s*|\s+(?:and|or)\s+)")
# What may stand in front of a name: `2 of ana`, `2 crew`.
_BEFORE = re.compile(r"(?:(?:\d{1,6}|one|any)\s+(?:of\s+)?)", re.I)


@dataclass(frozen=True)
class Draft:
    """The rows of each table, in order; and `others` are sheets that are none of a plan's."""

    tables: Mapping[str, tuple[DraftRow, ...]] = field(default_factory=dict)
    others: tuple[Sheet, ...] = ()

    def rows(self, table: str) -> tuple[DraftRow, ...]:
        """The rows of a table."""
        return self.tables.get(table, ())

    def with_rows(self, table: str, rows: Sequence[DraftRow]) -> "Draft":
        """The same with other rows of a table."""
        return replace(self, tables={**self.tables, table: tuple(rows)})

    def with_row(self, table: str, place: int | None, row: DraftRow) -> "Draft":
        """The same with a row in the place of another, or behind all. Where a task or somebody is
        called otherwise then, it is so wherever that stands. Raises ValueError for no such place.
        """
        rows = list(self.rows(table))
        if place is None:
            return self.with_rows(table, [*rows, row])
        before, rows[place] = rows[_checked(place, rows)], row
        made = self.with_rows(table, rows)
        if table not in _NAMED:
            return made
        made = made._without_kind(before.get("kind"), row.get("kind"), self._kinds())
        own = _NAMES[table]
        old, new = before.get(own, ""), row.get(own, "")
        if old == new or not new or any(each.get(own) == old for each in rows):
            return made
        return made._renamed(table, old, new)

    def without_row(self, table: str, place: int) -> "Draft":
        """The same without a row; and where a task or somebody is gone by that, without what is
        said of them elsewhere. Raises ValueError for no such place."""
        rows = list(self.rows(table))
        gone = rows.pop(_checked(place, rows))
        made = self.with_rows(table, rows)
        if table not in _NAMED:
            return made
        own = _NAMES[table]
        made = made._without_kind(gone.get("kind"), None, self._kinds())
        if any(each.get(own) == gone.get(own) for each in rows):
            return made
        made = made._renamed(table, gone.get(own, ""), "")
        return made._without_lost()

    def _without_lost(self) -> "Draft":
        """The same without rows that can't do without what is gone."""
        made = self
        for table, columns in _NEEDED.items():
            if rows := self.rows(table):
                kept = [row for row in rows if all(row.get(it) != "" for it in columns)]
                made = made.with_rows(table, kept)
        return made._without_empty()

    def _kinds(self) -> set[str | None]:
        """The kinds of tasks that there are."""
        return {row.get("kind") for row in self.rows("tasks")}

    def _without_kind(self, old: str | None, new: str | None, before: set[str | None]) -> "Draft":
        """The same where no task is of a kind any more, if so: setup times speak of a new one in
        its place, which wasn't there `before`, or are gone."""
        if old is None or old in self._kinds():
            return self
        called = "" if new is None or new in before else new
        rows = [
            {key: called if key in ("from", "to") and text == old else text for key, text in it}
            for it in (row.items() for row in self.rows("setups"))
        ]
        return self.with_rows("setups", rows)._without_lost() if rows else self

    def _without_empty(self) -> "Draft":
        """The same without texts in which nothing stands."""
        rows = {
            table: tuple(
                {key: text for key, text in row.items() if text} for row in self.rows(table)
            )
            for table in self.tables
        }
        return replace(self, tables=rows)

    def _renamed(self, table: str, old: str, new: str) -> "Draft":
        """The same where a task or somebody is called otherwise, or nothing where it is gone."""
        made = self
        for other, columns in _NAMED[table].items():
            rows = [
                {
                    key: _listed(text, old, new) if key in columns else text
                    for key, text in row.items()
                }
                for row in made.rows(other)
            ]
            made = made.with_rows(other, rows) if rows else made
        names = {old, *(str(row.get(it)) for own, it in _NAMES.items() for row in self.rows(own))}
        wishes = [_said(row, (old, new), names) for row in made.rows("wishes")]
        return made.with_rows("wishes", wishes) if wishes else made

    def is_but_for_given_up(self, other: "Draft") -> bool:
        """Whether another is the same but for what is given up."""
        return all(self.rows(it) == other.rows(it) for it in COLUMNS if it != "given up")

    def sheets(self) -> list[Sheet]:
        """The tables that have rows as sheets, in the order in which they are read."""
        found = [_sheet(table, self.rows(table)) for table in COLUMNS if self.rows(table)]
        return [*found, *self.others]


def _checked(place: int, rows: Sequence[DraftRow]) -> int:
    if not 0 <= place < len(rows):
        raise ValueError("there is no such row any more: look again")
    return place


def _said(row: DraftRow, names: tuple[str, str], known: Iterable[str]) -> DraftRow:
    """A wish that is said in words, where something is called otherwise, or nothing if gone."""
    if not {*row} <= {"wish", "weight"}:
        return row
    (old, new), longest = names, sorted(known, key=len, reverse=True)
    # (a name may stand within another)
    any_name = re.compile(rf"(?<!\w)(?:{'|'.join(map(re.escape, longest))})(?!\w)", re.I)
    found = {each.casefold() for each in any_name.findall(row["wish"])}
    if old.casefold() not in found:
        return row
    if not new:
        return {**row, "wish": ""}

    def called(name: re.Match[str]) -> str:
        return new if name[0].casefold() == old.casefold() else name[0]

    return {**row, "wish": any_name.sub(called, row["wish"])}


def _listed(text: str, old: str, new: str) -> str:
    """A list of names of which one is called otherwise, or is gone."""
    parts = _BETWEEN.split(text)
    kept: list[str] = []
    for place in range(0, len(parts), 2):
        before = _BEFORE.match(parts[place])
        front = before[0] if before and parts[place] != old else ""
        name = parts[place][len(front) :]
        called = new if name == old else name
        if called:
            kept += [parts[place - 1]] if kept and place else []
            kept.append(front + called)
    return "".join(kept)


def _sheet(table: str, rows: Sequence[DraftRow]) -> Sheet:
    """A table as a sheet: the columns in which something stands, and those that it needs."""
    columns = COLUMNS[table]
    used = {key for row in rows for key, text in row.items() if text} | {*columns.needed}
    heads = [key for key in columns.names if key in used]
    heads += sorted(used - {*heads})
    lines = [tuple(row.get(head, "") for head in heads) for row in rows]
    return Sheet(table, tuple(enumerate([tuple(heads), *lines], 1)))


def draft_of(sheets: Sequence[Sheet]) -> Draft:
    """What tables say, as a draft. Raises SheetError where something can't be taken."""
    written = [sheet for sheet in sheets if sheet.rows]
    sorts = sorted_sheets(written) if written else {}
    tables = {sort: tuple(texts_of(sheet, COLUMNS[sort])) for sort, sheet in sorts.items()}
    return Draft(tables, tuple(it for it in written if it not in sorts.values()))


def with_people(draft: Draft, brief: Brief) -> Draft:
    """The same with a row for each who is named in it, and each resource."""
    known = {row.get("person") for row in draft.rows("people")}
    people = [{"person": name} for name in brief.people if name not in known]
    holds = {name: str(number) for name, (number, _) in brief.resources.items()}
    things = [{"person": name, "holds": holds[name]} for name in holds if name not in known]
    return draft.with_rows("people", [*draft.rows("people"), *people, *things])


def new_draft(today: date) -> Draft:
    """A plan without a task as yet, which begins next Monday, with weekends off."""
    start = today + timedelta(days=-today.weekday() % 7)
    return Draft({"plan": ({"start": start.isoformat(), "off": "sat sun"},)})


def lines_of(draft: Draft) -> list[str]:
    """A draft as lines that can be read again: a row each."""
    rows = [[table, dict(row)] for table in draft.tables for row in draft.rows(table)]
    others = [["", sheet.name, sheet.rows] for sheet in draft.others]
    return [json.dumps(each) for each in (*rows, *others)]


def draft_in(lines: Sequence[str]) -> Draft:
    """The draft of such lines. Raises ValueError for what are none."""
    made = Draft()
    try:
        for table, *told in map(json.loads, lines):
            if table == "":
                name, rows = told
                sheet = Sheet(str(name), tuple((int(n), tuple(texts)) for n, texts in rows))
                made = replace(made, others=(*made.others, sheet))
            elif not is_table(table):
                raise ValueError(f"a plan has no table {table!r}")
            else:
                made = made.with_row(table, None, dict(clean(table, told[0])))
    except (KeyError, TypeError, IndexError, AttributeError, RecursionError) as error:
        raise ValueError("these lines are no plan") from error
    return made


def is_table(name: object) -> bool:
    """Whether a plan has such a table."""
    return isinstance(name, str) and name in SORTS


def clean(table: str, row: Mapping[str, object]) -> Iterator[tuple[str, str]]:
    """The texts of a row as it was written, of the columns of a table. Raises ValueError for what
    is no such row."""
    for key, text in row.items():
        if not isinstance(text, str) or (key not in COLUMNS[table].names and key != "notes"):
            raise ValueError(f"a row of {table} has texts under its headings")
        if text.strip():
            yield key, text.strip()
