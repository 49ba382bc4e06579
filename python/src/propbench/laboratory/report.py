"""A report: what was read, what follows, and what shows it, as one page that prints, or as text."""

import os
import textwrap
from base64 import b64encode
from collections.abc import Iterator, Sequence
from dataclasses import dataclass, replace
from datetime import date
from typing import TYPE_CHECKING

from propbench.files import write_file
from propbench.given import path_given
from propbench.laboratory import showing_html as html
from propbench.laboratory.paths import paths_in
from propbench.laboratory.reported import (
    ReportFound,
    ReportStated,
    bars_of,
    certificate_of,
    stated_in,
)
from propbench.laboratory.results import Result
from propbench.model.answers import Conflict
from propbench.questions.certificate import Certificate
from propbench.questions.clock import Clock
from propbench.questions.shown import Shown, listed
from propbench.showing import printable, shown
from propbench.tables import table

if TYPE_CHECKING:
    from propbench.workbench import Workbench

_BOUNDS = (
    "Each quantity lies between its bounds, if the readings named with it are right: the half"
    " width "
    "is a bound, and no coverage factor belongs to it. It is rounded up, so that value and half "
    "width hold all that is between the bounds."
)
_ESTIMATES = (
    "An estimate is another statement than the bounds: there errors add up, and here by their "
    "squares; a bound is taken for a rectangular distribution, where its reading names no other."
)
_PROVED = (
    "That readings conflict, and the bounds in whole numbers, are answers of a proved program."
)
_UNPROVED = "The program that answered is not known to be proved."
_WIDE = 100


@dataclass(frozen=True)
class Report:
    """A report of a bench: `html` is one page, which needs nothing else, `text` the same as
    text."""

    title: str
    day: date
    stated: ReportStated
    found: ReportFound
    is_proved: bool

    @property
    def certificates(self) -> dict[str, Certificate]:
        """What shows the `conflict`, where there is one, and the `bounds`: each by its name."""
        outliers, bounds = self.found.outliers, self.found.certificate
        found = {"conflict": outliers.certificate} if outliers else {}
        return found if bounds is None else {**found, "bounds": bounds}

    @property
    def html(self) -> str:
        """The report as a page."""
        return html.page(self.title, "\n".join(self._sections()))

    @property
    def text(self) -> str:
        """The report as text."""
        return "\n".join(self._paragraphs()) + "\n"

    def save(self, path: str | os.PathLike[str]) -> None:
        """Writes the report: as text where the file is called `.txt`, else as a page. Raises
        OSError."""
        is_text = os.fspath(path_given(path)).endswith(".txt")
        write_file(path, self.text if is_text else self.html)

    def __str__(self) -> str:
        return self.text

    def _repr_html_(self) -> str:
        return "\n".join(self._sections())

    def _headline(self) -> str:
        conflict = self.found.conflict
        if conflict is None:
            return f"Nothing speaks against any of {len(self.stated.readings)} readings."
        if self.found.given_up:
            without = listed(self.found.given_up)
            return f"Readings are in conflict. The results are those without {without}."
        return "Readings are in conflict, and there are no results."

    def _notes(self) -> list[str]:
        """What is to be known of the results."""
        notes = list(self.found.results.notes) if self.found.results else []
        notes = [note for note in notes if "proved" not in note]
        return [*notes, self._program(), *filter(None, [self.found.without_estimates])]

    def _program(self) -> str:
        return _PROVED if self.is_proved else _UNPROVED

    # --- as a page ---

    def _sections(self) -> Iterator[str]:
        yield f"<h1>{html.said(self.title)}</h1>"
        yield f'<p class="small">{self.day.isoformat()}</p><p>{html.said(self._headline())}</p>'
        if self.found.results is not None:
            yield "<h2>Results</h2>"
            heads = ("Quantity", "Result", "Bounds", "Because of")
            kinds = ("", "result number", "number", "small")
            yield html.table(heads, map(_result, self.found.results), kinds)
            yield f'<p class="small">{html.said(_BOUNDS)}</p>'
            yield from (f'<p class="small">{html.said(each)}</p>' for each in self._notes())
        if self.found.estimates is not None:
            yield "<h2>Estimates, which are tested and not proved</h2>"
            yield _as_html(self.found.estimates)
            yield f'<p class="small">{html.said(_ESTIMATES)}</p>'
        if self.found.outliers is not None:
            yield "<h2>Conflict</h2>"
            yield _as_html(self.found.outliers)
        if self.found.bars:
            yield "<h2>By each reading or way, and together</h2>"
            for name, bars in self.found.bars.items():
                yield f"<section><h3>{html.said(name)}</h3>{html.bars(bars)}</section>"
        yield "<h2>Laws</h2>"
        laws = (f"<li><code>{html.said(_law(*each))}</code></li>" for each in self.stated.laws)
        yield f"<ul>{''.join(laws)}</ul>" if self.stated.laws else "<p>None.</p>"
        if self.stated.devices:
            yield "<h2>Devices</h2>"
            yield html.table(
                ("Device", "Error"), [(html.said(a), html.said(b)) for a, b in self.stated.devices]
            )
        yield "<h2>Readings</h2>"
        of_readings = ("Reading", "Of", "Says", "By", "")
        kinds = ("name", "name", "", "name")
        yield html.table(of_readings, map(_reading, self._rows()), kinds)
        yield "<h2>Certificates</h2>"
        yield from (_certificate(name, it) for name, it in self.certificates.items())

    def _rows(self) -> list[tuple[str, str, str, str, str]]:
        """The readings, with what is said of those that don't count."""
        return [
            (each.premise or "always", each.of, each.says, each.by, self._standing(each.premise))
            for each in self.stated.readings
        ]

    def _standing(self, premise: str) -> str:
        if premise in self.found.given_up:
            return "given up"
        known = [each.is_believed for each in self.stated.readings if each.premise == premise]
        return "" if all(known) else "not believed"

    # --- as text ---

    def _paragraphs(self) -> Iterator[str]:
        yield from (printable(self.title), self.day.isoformat(), "", self._headline(), "")
        if self.found.results is not None:
            rows = [_plain(each) for each in self.found.results]
            yield table(("result", "half width", "bounds", "because of"), rows, most=_WIDE)
            yield from ("", *_filled(_BOUNDS), *self._notes(), "")
        if self.found.estimates is not None:
            yield from (shown(str(self.found.estimates)), *_filled(_ESTIMATES), "")
        if self.found.outliers is not None:
            yield from (shown(str(self.found.outliers)), "")
        yield from ("laws", *(f"  {printable(_law(*each))}" for each in self.stated.laws), "")
        if self.stated.devices:
            yield from ("devices", *(f"  {printable(text)}" for _, text in self.stated.devices), "")
        yield table(("reading", "of", "says", "by", ""), self._rows())
        for name, certificate in self.certificates.items():
            yield from ("", f"certificate of the {name}, as `propdesk check` checks it:")
            yield f"  its last line is {certificate.lines[-1]}"


def report_of(w: "Workbench", title: str, clock: Clock) -> Report:
    """The report of a workbench, as far as there is time."""
    stated = stated_in(w.network.events, w.model)
    try:
        found = _found(w, clock)
    except Conflict as conflict:
        outliers = w.outliers(seconds=clock.seconds_left(), progress=clock.progress)
        found = ReportFound(None, {}, None, conflict, outliers)
        given_up = sorted(outliers[0]) if outliers else []
        if given_up:
            with w.what_if(kick=given_up) as without:
                rest = _found(without, clock, given_up)
            found = replace(rest, conflict=conflict, outliers=outliers, given_up=given_up)
    return Report(title, date.today(), stated, found, w.proved)


def _found(w: "Workbench", clock: Clock, given_up: Sequence[str] = ()) -> ReportFound:
    """What follows. Raises Conflict."""
    results = w.results(seconds=clock.seconds_left())
    bars = paths_in(w, results, clock)
    bars |= bars_of(w, w.network.events, results, given_up, clock)
    estimates, without = None, ""
    try:
        estimates = w.adjust(seconds=clock.seconds_left())
    except (ImportError, ValueError) as error:
        without = f"There are no estimates: {error}"
    certificate = certificate_of(w.model, results, clock)
    return ReportFound(results, bars, certificate, estimates=estimates, without_estimates=without)


def _result(each: Result) -> tuple[str, str, str, str]:
    because = html.said(", ".join(each.because) or "what holds always")
    if each.interval is None or each.rounded is None:
        return html.said(each.name), "not known", "", because
    written = (
        html.number(each.rounded.value)
        if not each.rounded.half
        else (f"({html.number(f'{each.rounded.value:f}')} ± {each.rounded.half:f})")
    )
    name = html.unit(each.interval.unit)
    return html.said(each.name), f"{written} {name}", html.between(each.interval), because


def _plain(each: Result) -> tuple[str, str, str, str]:
    because = ", ".join(each.because) or "what holds always"
    if each.interval is None or each.rounded is None:
        return each.name, "not known", "", because
    value, half = f"{each.name} = {each.rounded.value:f}", f"{each.rounded.half:f}"
    return value, half, str(each.interval), because


def _law(text: str, under: str) -> str:
    return f"{text} (under {under})" if under else text


def _reading(row: Sequence[str]) -> list[str]:
    cells = [html.said(each) for each in row]
    if not row[-1]:
        return cells
    return [*(f"<s>{each}</s>" for each in cells[:-1]), cells[-1]]


def _as_html(found: Shown) -> str:
    """A question's result, as a table of the page."""
    rows = [[html.said(each) for each in row] for row in found.rows()]
    return f"<p>{html.said(found.headline())}</p>{html.table(found.heads(), rows)}"


def _certificate(name: str, certificate: Certificate) -> str:
    """A certificate, in the page: a link by which it is saved."""
    data = b64encode("".join(f"{line}\n" for line in certificate.lines).encode()).decode()
    link = f'<a download="{name}.txt" href="data:text/plain;base64,{data}">{name}.txt</a>'
    checksum = html.said(certificate.lines[-1])
    return (
        f"<p>What shows the {name} is in this page, to be saved: {link}. A fresh program checks"
        " it by "
        f"<code>propdesk check {name}.txt</code>.</p>"
        f'<p class="small">Its last line is <code>{checksum}</code>.</p>'
    )


def _filled(text: str) -> list[str]:
    """A text in lines that aren't long."""
    return textwrap.wrap(text, _WIDE)
