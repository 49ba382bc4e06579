"""A page in HTML that tells what is to blame: the model with its conflicts, and what was said.

It needs nothing else, and runs nothing.
"""

from collections.abc import Iterator, Sequence
from html import escape

from propbench.flatzinc.compiling import Compiled
from propbench.flatzinc.picture import dot_of, drawn
from propbench.questions.conflicts import Conflicts, Repairs
from propbench.showing import printable

_STYLE = """
body { font: 11pt/1.4 sans-serif; color: #111; max-width: 60em; margin: 2em auto; padding: 0 1em; }
h1 { font-size: 1.5em; } h2 { font-size: 1.1em; border-bottom: 1.5px solid #111; }
pre { font: 10pt/1.5 monospace; overflow-x: auto; }
mark { background: #ffe08a; } mark.up { background: #f4c7a1; }
svg { max-width: 100%; height: auto; }
"""
_POLICY = "default-src 'none'; style-src 'unsafe-inline'"


def page_of(made: Compiled, conflicts: Conflicts, repairs: Repairs, lines: Sequence[str]) -> str:
    """The page: what was said, the picture where Graphviz is there, and the model, in which each
    constraint is marked that stands in a conflict."""
    parts = ["<h1>What is to blame</h1>", f"<pre>{_said(chr(10).join(lines))}</pre>"]
    svg = drawn(dot_of(conflicts, repairs, made.texts), "svg") if conflicts else None
    if svg is not None:
        text = svg.decode("utf-8", "replace")
        parts += ["<h2>Conflicts</h2>", text[max(0, text.find("<svg")) :]]
    if made.source:
        model = "".join(_model(made, conflicts, repairs))
        parts += ["<h2>The model</h2>", f"<pre>{model}</pre>"]
    head = f'<meta charset="utf-8"><title>What is to blame</title><style>{_STYLE}</style>'
    meta = f'<meta http-equiv="Content-Security-Policy" content="{_POLICY}">'
    begin = f'<!DOCTYPE html>\n<html lang="en"><head>{meta}{head}</head><body>'
    return "\n".join([begin, *parts, "</body></html>", ""])


def _model(made: Compiled, conflicts: Conflicts, repairs: Repairs) -> Iterator[str]:
    """The model's text, with what stands in a conflict marked, and told which."""
    given_up = set(repairs[0]) if repairs else set()
    found: dict[tuple[int, int], list[tuple[str, int]]] = {}
    for number, conflict in enumerate(conflicts, 1):
        for label in conflict:
            mark = made.marks.get(label, "")
            if mark:
                found.setdefault(made.model.of(mark).place, []).append((label, number))
    since = 0
    for begin, end in sorted(found):
        here = found[begin, end]
        title = "; ".join(f"{label}: conflict {number}" for label, number in here)
        sort = ' class="up"' if any(label in given_up for label, _ in here) else ""
        yield _said(made.source[since:begin])
        yield f'<mark{sort} title="{_said(title)}">{_said(made.source[begin:end])}</mark>'
        since = end
    yield _said(made.source[since:])


def _said(text: str) -> str:
    return escape("\n".join(map(printable, text.split("\n"))))
