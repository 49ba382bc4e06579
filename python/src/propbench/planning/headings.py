"""How planners call their tables and the columns of these, and the rows below such headings."""

from collections.abc import Iterator, Sequence
from dataclasses import dataclass

from propbench.nearby import near_names
from propbench.planning.sheets import Field, Sheet
from propbench.questions.shown import listed
from propbench.showing import cut

# A column that is for people.
_UNREAD = ("notes", "note", "comment", "comments", "remark", "remarks")


@dataclass(frozen=True)
class Columns:
    """The headings of a sort of table: what each is called, with other names for it. Those in
    `needed` have to be there."""

    names: dict[str, tuple[str, ...]]
    needed: tuple[str, ...]

    def known(self, head: str) -> str | None:
        """The column that a heading names."""
        plain = " ".join(head.lower().replace("_", " ").split())
        return next((name for name, others in self.names.items() if plain in (name, *others)), None)


TASKS = Columns(
    {
        "task": ("tasks", "activity", "name", "what"),
        "days": ("duration", "takes", "length", "work", "day"),
        "who": ("person", "people", "by", "resource", "resources", "assigned to"),
        "after": ("predecessor", "predecessors", "depends on", "needs"),
        "earliest": ("not before", "start after", "from"),
        "latest": ("deadline", "due", "done by", "to", "until"),
        "cost": ("costs", "price"),
        "way": ("option", "how", "alternative"),
        "started": ("begun", "began"),
        "finished": ("ended", "done"),
        "left": ("days left", "remaining"),
        "pauses": ("pause",),
        "uses": ("use", "room", "machine"),
        "kind": ("sort", "type"),
    },
    ("task", "days"),
)
PEOPLE = Columns(
    {
        "person": ("people", "who", "name", "resource"),
        "works": ("weekdays", "works on"),
        "skills": ("skill", "can"),
        "holds": ("capacity", "number", "how many"),
        "off": ("days off", "holidays", "calendar"),
        "cost": ("costs", "a day", "rate", "cost a day"),
        "weight": (),
    },
    ("person",),
)
ABSENCES = Columns(
    {
        "person": ("who", "people", "name", "resource"),
        "from": ("first", "first day", "start"),
        "to": ("last", "last day", "until", "end"),
        "reason": ("why", "absence"),
        "weight": (),
    },
    ("person", "from"),
)
SETUPS = Columns(
    {
        "person": ("who", "machine", "people", "resource"),
        "from": ("first", "from kind"),
        "to": ("then", "to kind"),
        "days": ("takes", "day"),
        "weight": (),
    },
    ("person", "from", "to", "days"),
)
WISHES = Columns(
    {
        "wish": ("wishes", "name", "what"),
        "task": ("of", "for"),
        "earliest": ("not before", "start after", "from"),
        "latest": ("deadline", "due", "done by", "to", "until"),
        "cost": ("at most", "budget"),
        "way": ("option", "how"),
        "weight": (),
    },
    ("wish",),
)
PLAN = Columns(
    {
        "start": ("begins", "first day", "from"),
        "off": ("days off", "holidays", "weekend", "closed"),
        "days": ("at most", "length"),
        "today": ("now",),
    },
    (),
)
BASELINE = Columns(
    {
        "task": ("tasks",),
        "who": ("person", "people"),
        "from": ("start",),
        "to": ("end",),
        "days": (),
        "how": ("way", "option"),
        "cost": (),
        "uses": (),
    },
    ("task", "from", "to"),
)
GIVEN_UP = Columns({"premise": ("given up", "what")}, ("premise",))
HOLIDAYS = Columns(
    {
        "date": ("day", "from", "first", "start"),
        "to": ("last", "until", "end"),
        "holiday": ("name", "reason", "what", "summary", "occasion"),
    },
    ("date",),
)
# The sorts of tables, by what a sheet may be called.
SORTS = {
    "tasks": ("tasks", "task", "activities", "work"),
    "people": ("people", "persons", "resources", "team", "staff"),
    "absences": ("absences", "absence", "leave", "away"),
    "wishes": ("wishes", "wish", "constraints", "goals"),
    "setups": ("setups", "setup", "setup times", "changeovers"),
    "plan": ("plan", "calendar", "project", "settings"),
    "baseline": ("baseline", "agreed"),
    "given up": ("given up",),
}
# The columns of each.
COLUMNS = {
    "plan": PLAN,
    "people": PEOPLE,
    "tasks": TASKS,
    "absences": ABSENCES,
    "wishes": WISHES,
    "setups": SETUPS,
    "baseline": BASELINE,
    "given up": GIVEN_UP,
}


def rows_of(sheet: Sheet, columns: Columns) -> Iterator[dict[str, Field]]:
    """The rows of a sheet under its headings, each with the fields in which something stands; a row
    of notes alone is left out. Raises SheetError for a heading that isn't known, for one that is
    missing, and for a text below none."""
    if not sheet.rows:
        return
    (number, heads), *rows = sheet.rows
    places = _places(Sheet(sheet.name, ((number, heads),)), columns)
    for number, row in rows:
        _check_headed(heads, row, Field("", sheet.name, number, ""))
        found = {
            name: Field(row[place], sheet.name, number, f"{_letter(place)} ({heads[place]})")
            for place, name in places.items()
            if place < len(row) and row[place]
        }
        if found:
            yield found


def texts_of(sheet: Sheet, columns: Columns) -> Iterator[dict[str, str]]:
    """The same as texts, of which those stay that nobody reads, as notes. Raises SheetError."""
    if not sheet.rows:
        return
    (number, heads), *rows = sheet.rows
    known = _places(Sheet(sheet.name, ((number, heads),)), columns)
    for number, row in rows:
        _check_headed(heads, row, Field("", sheet.name, number, ""))
        found = {known.get(place, heads[place]): text for place, text in enumerate(row) if text}
        if found:
            yield found


def _places(sheet: Sheet, columns: Columns) -> dict[int, str]:
    """Which column stands at which place of the headings."""
    [(number, heads)] = sheet.rows
    places: dict[int, str] = {}
    for place, head in enumerate(heads):
        field = Field(head, sheet.name, number, _letter(place))
        name = columns.known(head)
        if name is not None and name in places.values():
            raise field.wrong(f"the heading `{cut(head)}` says the same as one before it")
        if name is not None:
            places[place] = name
        elif head and head.lower() not in _UNREAD:
            near = near_names(head, columns.names)
            hint = f" Did you mean {near[0]}?" if near else ""
            others = listed([*columns.names, "notes"], "or")
            raise field.wrong(f"the heading `{cut(head)}` isn't known: write {others}.{hint}")
    for needed in columns.needed:
        if needed not in places.values():
            raise Field("", sheet.name, number, "A").wrong(f"there is no heading `{needed}`")
    return places


def _check_headed(heads: Sequence[str], row: Sequence[str], where: Field) -> None:
    """Raises SheetError for a text that stands under no heading."""
    for place, text in enumerate(row):
        if text and not (place < len(heads) and heads[place]):
            field = Field(text, where.sheet, where.row, _letter(place))
            raise field.wrong(f"`{cut(text)}` stands under no heading")


def _letter(place: int) -> str:
    """A column as spreadsheets call it: A, B, .. Z, AA."""
    letters = ""
    while place >= 0:
        letters = chr(ord("A") + place % 26) + letters
        place = place // 26 - 1
    return letters
