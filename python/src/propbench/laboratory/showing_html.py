"""What a report is made of in HTML: tables, bars of intervals, and the page that prints well."""

import re
from collections.abc import Iterable, Sequence
from decimal import Decimal
from html import escape

from propbench.laboratory.reported import Bar, By
from propbench.model.measures import Interval
from propbench.showing import printable

_POWER = re.compile(r"(?<=[A-Za-zΩ°µ)])\^?(-?\d+)")
# The width of the field of bars, its height, and how much of it lies beside what is shown.
_WIDE, _HIGH, _BESIDE = 400, 14, 0.08
_COLORS = {By.READING: "#666", By.GIVEN_UP: "#b3261e", By.OTHERS: "#666", By.ALL: "#0b57a4"}

STYLE = """
:root { color-scheme: light; }
body { font: 11pt/1.4 "Liberation Sans", Arial, Helvetica, sans-serif; color: #111;
  background: #fff; max-width: 46em; margin: 2em auto; padding: 0 1em; }
h1 { font-size: 1.5em; margin: 0 0 .2em; }
h2 { font-size: 1.1em; margin: 1.6em 0 .4em; border-bottom: 1.5px solid #111; break-after: avoid; }
h3 { font-size: 1em; margin: 1em 0 .2em; break-after: avoid; }
p { margin: .3em 0; }
.small { font-size: .85em; color: #444; }
table { border-collapse: collapse; width: 100%; font-size: .9em; }
th { text-align: left; border-bottom: 1px solid #111; padding: .2em .8em .2em 0; }
td { border-bottom: 1px solid #ccc; padding: .2em .8em .2em 0; vertical-align: baseline;
  overflow-wrap: anywhere; }
sup { font-size: .7em; line-height: 0; }
tr { break-inside: avoid; }
thead { display: table-header-group; }
.number { white-space: nowrap; font-variant-numeric: tabular-nums; }
td.result { font-weight: bold; }
td.name { min-width: 5em; }
figure { margin: .6em 0; break-inside: avoid; }
.bars td { border: 0; padding: .05em .8em .05em 0; vertical-align: middle; }
.bars td:first-child { width: 28%; }
.bars td:nth-child(2) { width: 44%; }
.bars svg { display: block; width: 100%; height: 1.1em; }
.bars tr.all td { font-weight: bold; border-top: 1px solid #ccc; }
pre, code { font-family: "Liberation Mono", Consolas, monospace; font-size: .9em; }
ul { margin: .3em 0; padding-left: 1.2em; }
@page { size: A4; margin: 18mm 16mm; }
@media print { body { margin: 0; max-width: none; padding: 0; font-size: 10pt; }
  a { color: inherit; text-decoration: none; } .screen { display: none; } }
"""


def page(title: str, body: str) -> str:
    """A whole page: it needs nothing else, and runs nothing."""
    head = f'<meta charset="utf-8"><title>{said(title)}</title><style>{STYLE}</style>'
    policy = "default-src 'none'; style-src 'unsafe-inline'; img-src data:"
    meta = f'<meta http-equiv="Content-Security-Policy" content="{policy}">'
    head = f'<html lang="en"><head>{meta}{head}</head>'
    return f"<!DOCTYPE html>\n{head}<body>\n{body}\n</body></html>\n"


def said(text: object) -> str:
    """A text as HTML has it."""
    return escape(printable(str(text)))


def unit(text: str) -> str:
    """A unit with its powers raised; nothing for a bare number."""
    return "" if text == "1" else _POWER.sub(r"<sup>\1</sup>", said(text)).replace("-", "−")


def number(text: object) -> str:
    """A number, with a true minus."""
    return said(text).replace("-", "−")


def table(heads: Iterable[str], rows: Iterable[Sequence[str]], kinds: Sequence[str] = ()) -> str:
    """A table of cells that are HTML already; `kinds` are the classes of its columns."""
    head = "".join(f"<th>{said(each)}</th>" for each in heads)
    body = "".join(f"<tr>{_cells(row, kinds)}</tr>" for row in rows)
    return f"<table><thead><tr>{head}</tr></thead><tbody>{body}</tbody></table>"


def _cells(row: Sequence[str], kinds: Sequence[str]) -> str:
    named = [*kinds, *([""] * (len(row) - len(kinds)))]
    return "".join(
        f'<td class="{kind}">{cell}</td>' if kind else f"<td>{cell}</td>"
        for cell, kind in zip(row, named)
    )


def bars(found: Sequence[Bar]) -> str:
    """Intervals above each other, over one axis: that of the readings and of what all tell; what
    goes on beyond has an open end there."""
    low, high = _axis([bar for bar in found if bar.by is By.ALL or not _is_wide(bar, found)])
    rows = "".join(
        f'<tr class="{bar.by.value}"><td>{said(bar.label)}</td>'
        f'<td>{_drawn(bar, low, high)}</td><td class="number">{between(bar.interval)}</td></tr>'
        for bar in found
    )
    return f'<figure><table class="bars"><tbody>{rows}</tbody></table></figure>'


def _is_wide(bar: Bar, found: Sequence[Bar]) -> bool:
    """Whether an interval is so much wider than the narrowest that the others would be dots."""
    least = min((each.interval.width for each in found if each.interval.width), default=Decimal(1))
    return bar.interval.width > 25 * least


def _axis(shown: Sequence[Bar]) -> tuple[float, float]:
    low = min(float(bar.interval.low) for bar in shown)
    high = max(float(bar.interval.high) for bar in shown)
    beside = (high - low or abs(high) or 1.0) * _BESIDE
    return low - beside, high + beside


def _drawn(bar: Bar, low: float, high: float) -> str:
    """The bar as a drawing: an end within the axis is a stroke, one beyond it an arrow."""
    ends = [
        (float(each) - low) / (high - low) * _WIDE for each in (bar.interval.low, bar.interval.high)
    ]
    left, right = (min(max(end, 0.0), float(_WIDE)) for end in ends)
    color, middle = _COLORS[bar.by], _HIGH / 2
    thick = 6 if bar.by is By.ALL else 3
    marks = [
        f'<line x1="{left:.1f}" y1="{middle}" x2="{max(right, left + 1):.1f}" y2="{middle}" '
        f'stroke-width="{thick}"/>'
    ]
    for end, at, sign in ((ends[0], left, 1), (ends[1], right, -1)):
        if 0 <= end <= _WIDE:
            marks.append(
                f'<line x1="{at:.1f}" y1="1" x2="{at:.1f}" y2="{_HIGH - 1}" stroke-width="2"/>'
            )
        else:
            tip = f"{at:.1f},{middle} {at + 7 * sign:.1f},2 {at + 7 * sign:.1f},{_HIGH - 2}"
            marks.append(f'<polygon points="{tip}" fill="{color}" stroke="none"/>')
    return (
        f'<svg viewBox="0 0 {_WIDE} {_HIGH}" preserveAspectRatio="none" role="img" '
        f'aria-label="{said(bar.interval)}" stroke="{color}">{"".join(marks)}</svg>'
    )


def between(interval: Interval) -> str:
    """Both ends, rounded outward, and the unit."""
    text = str(interval)
    name = "" if interval.unit == "1" else f" {interval.unit}"
    return f"{number(text.removesuffix(name)).replace('..', ' to ')} {unit(interval.unit)}"
