"""A schedule as one page of HTML, for a browser and for a printer: the chart, the days, what makes
the end, who does what. It loads nothing, and runs nothing."""

from collections.abc import Iterable, Iterator, Sequence
from html import escape

from propbench.planning.schedule import Schedule
from propbench.questions.shown import said
from propbench.showing import printable

_STYLE = """\
body { font: 11pt/1.4 sans-serif; color: #111; background: #fff; margin: 2em auto; max-width: 70em;
  padding: 0 1em; }
h1 { font-size: 1.5em; margin: 0; }
h2 { font-size: 1.15em; margin: 1.5em 0 0.4em; }
table { border-collapse: collapse; width: 100%; }
th, td { text-align: left; vertical-align: top; padding: 0.25em 0.8em 0.25em 0;
  border-bottom: 1px solid #ccc; }
th { border-bottom: 2px solid #555; }
.chart { overflow-x: auto; }
svg { max-width: 100%; height: auto; }
rect { print-color-adjust: exact; -webkit-print-color-adjust: exact; }
@media screen and (max-width: 40em) {
  table { display: block; overflow-x: auto; }
  td:nth-child(-n+2):not(:last-child) { white-space: nowrap; }
}
@page { size: A4 landscape; margin: 12mm; }
@media print {
  body { margin: 0; max-width: none; padding: 0; font-size: 9.5pt; }
  .chart { overflow: visible; }
  tr { break-inside: avoid; }
  thead { display: table-header-group; }
  h2 { break-after: avoid; }
}
"""
# (what is shown is text; should it ever be more, a browser runs and loads none of it)
_POLICY = "default-src 'none'; style-src 'unsafe-inline'"


def page_of(schedule: Schedule, title: str) -> str:
    """The page of a schedule."""
    told = _text(title)
    parts = [
        "<!DOCTYPE html>",
        '<html lang="en"><head><meta charset="utf-8">',
        f'<meta http-equiv="Content-Security-Policy" content="{_POLICY}">',
        '<meta name="viewport" content="width=device-width, initial-scale=1">',
        f"<title>{told}</title>",
        f"<style>\n{_STYLE}</style></head><body>",
        f"<h1>{told}</h1>",
        f"<p>{_text(schedule.headline().rstrip(':'))}.</p>",
        f'<div class="chart">\n{schedule.to_svg()}</div>',
        "<h2>By date</h2>",
        _table(schedule.heads(), schedule.rows()),
    ]
    if schedule.chain:
        heads = (*schedule.heads()[:2], "task", "who", "waits for")
        parts += ["<h2>What makes the end</h2>", _table(heads, _links(schedule))]
    if doings := schedule.doings():
        parts += ["<h2>By person</h2>", _table(("who", "does"), doings)]
    return "\n".join([*parts, "</body></html>", ""])


def _links(schedule: Schedule) -> Iterator[tuple[object, ...]]:
    """The tasks that make the end, in order, with what each waits for."""
    for entry in schedule.by_date():
        if entry.task in schedule.chain:
            waits = schedule.chain[entry.task]
            yield *schedule.ends(entry), entry.task, entry.needs, waits


def _table(heads: Sequence[str], rows: Iterable[Sequence[object]]) -> str:
    head = "".join(f"<th>{_text(each)}</th>" for each in heads)
    body = "\n".join(
        f"<tr>{''.join(f'<td>{_text(said(each))}</td>' for each in row)}</tr>" for row in rows
    )
    return f"<table><thead><tr>{head}</tr></thead><tbody>\n{body}\n</tbody></table>"


def _text(text: str) -> str:
    return escape(printable(text))
