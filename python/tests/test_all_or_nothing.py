"""Each call that states something does so whole, or not at all: whichever of its lines goes wrong,
answers and files are those of before, and all can be stated behind it as if nothing had been.
"""

from collections.abc import Callable, Iterator
from contextlib import contextmanager
from fractions import Fraction
from pathlib import Path
from tempfile import TemporaryDirectory

import pytest
from conftest import TIMES
from faults import COMES_TO, KINDS, Faults, Interrupting
from hypothesis import given, settings
from hypothesis import strategies as st

from propbench import Conflict, Workbench

# Names of premises and choices, of which some are alike on lines.
NAMES = ("old", "out", "ill", "a takes 2", "new", "n.1", "n 1", "way")


class Front:
    """A workbench with a project, cells, quantities and premises, and what can be seen of them."""

    def __init__(self, folder: Path) -> None:
        self.w = w = Workbench()
        self.path = folder / "saved.prop"
        self.x, self.colour = w.number("x", 0, 9), w.symbol("colour")
        self.size = w.domain("size", "small large")
        w.require(self.x >= 2, under="old")
        w.tell("out", self.x, 3, 8)
        w.kick("out")
        self.q, self.r = (w.measured(name, "m", 1, 100, 1) for name in "qr")
        self.p = w.project(days=20, people="ana ben")
        self.a = self.p.task("a", 2, who="ana", cost=3)
        self.p.task("b", 3, who="ben", after=[self.a])
        self.p.away("ana", 1, 4, under="ill")

    def seen(self) -> list[object]:
        """What there is, what follows, and what is saved. (Not because of what: of several reasons
        a program that was begun anew may name others.)"""
        w, p = self.w, self.p
        w.save(self.path)
        saved = self.path.read_text(encoding="utf-8")
        names = [each.name for each in w.cells]
        tasks = list(map(str, p.tasks.values()))
        stated = [names, w.premises, w.believed, tasks, p.facts, saved]
        if w.settle():
            answers = [cell.ask() for cell in w.cells]
            return [[(it.value, it.choices, it.settled) for it in answers], *stated]
        with pytest.raises(Conflict):
            self.x.ask()
        return ["a conflict", *stated]

    def law(self, under: str | None = None) -> None:
        """A law with a root in it, which has a quantity of its own."""
        self.w.law(self.q <= (self.r * self.r + "9 m2") ** Fraction(1, 2) + self.r, under)

    def task(self, name: str, under: str | None = None) -> None:
        """A task behind others, of one who is away."""
        self.p.task(name, 1, who="ana ben", after=[self.a], cost=2, under=under)

    def done_in_two_ways(self, name: str) -> None:
        """A task that is a choice."""
        ways = {"slow": dict(days=3), "fast": dict(days=1, cost=5)}
        self.p.task(name, who="ana", options=ways)

    def chosen(self, name: str) -> None:
        """A choice between constraints."""
        self.w.choose(name, {"low": [self.x <= 3, self.x != 1], "high": [self.x * self.x == 36]})

    def what_if(self, name: str) -> None:
        """Something for a while."""
        with self.w.what_if(kick="old", bring="out", tell=[(name, self.x, 3)]):
            self.p.task("c", 1)

    def loaded(self) -> None:
        """Another workbench of the same."""
        self.w.save(self.path)
        Workbench.load(self.path).close()


Call = Callable[[Front], object]


def calls(name: str) -> dict[str, Call]:
    """Calls that state something: new cells, and what has a name."""
    return {
        "number": lambda f: f.w.number("n 1", 0, 9),
        "truth": lambda f: f.w.truth("n.1"),
        "domain": lambda f: f.w.domain("day", "mon tue"),
        "element": lambda f: f.w.element("n 3", f.size),
        "symbol": lambda f: f.w.symbol("n 4"),
        "fix symbol": lambda f: f.w.fix(f.colour, "dark red"),
        "measured": lambda f: f.w.measured("n 5", "m", 0, 9),
        "law": lambda f: f.law(),
        "law under": lambda f: f.law(name),
        "read": lambda f: f.w.read(name, f.r, "4 +- 1 m"),
        "fix": lambda f: f.w.fix(f.r, "4 +- 1 m"),
        "tell": lambda f: f.w.tell(name, f.x, 3, 5),
        "require": lambda f: f.w.require((f.x * f.x == 9) | (f.x == 4)),
        "require under": lambda f: f.w.require((f.x * f.x == 9) | (f.x == 4), under=name),
        "choose": lambda f: f.w.choose(name, f.x, [(7, 9), 3, 2]),
        "choose constraints": lambda f: f.chosen(name),
        "kick": lambda f: f.w.kick(name),
        "bring": lambda f: f.w.bring(name),
        "forget": lambda f: f.w.forget(name),
        "task": lambda f: f.task(name),
        "task under": lambda f: f.task("c", name),
        "task in two ways": lambda f: f.done_in_two_ways(name),
        "away": lambda f: f.p.away("ana", 4, 5, under=name),
        "away for nobody's task": lambda f: f.p.away("ben", 0, 1),
        "done by": lambda f: f.p.done_by(9, under=name),
        "task done by": lambda f: f.p.done_by(9, task=f.a),
        "wish of somebody": lambda f: f.p.wish("ana", name, before=9, not_on=4),
        "wish of a task": lambda f: f.p.wish(f.a, name, after=1, not_on=4),
        "end": lambda f: f.p.end,
        "total cost": lambda f: f.p.total_cost,
        "what if": lambda f: f.what_if(name),
        "load": lambda f: f.loaded(),
    }


def is_carried_out(f: Front, call: Call, faults: Faults, kinds: list[str]) -> bool:
    """Has each line of a call go wrong in turn, in these ways, one after the other: all is as
    before each time. And whether the call is carried out then; where it is refused anyway, all is
    too."""
    before, count = f.seen(), 0
    while True:
        lines = f.w.session.lines
        faults.at(count, kinds[count % len(kinds)])
        try:
            call(f)
            error = None
        except COMES_TO as caught:
            error = caught
        has_come = faults.stop()
        if error is not None:
            # (of what is refused without the program it hears nothing)
            assert has_come or isinstance(error, ValueError) and f.w.session.lines == lines
            assert f.seen() == before
        if not has_come:
            return error is None
        assert error is not None
        count += 1


@pytest.fixture
def faults() -> Iterator[Faults]:
    with pytest.MonkeyPatch.context() as patch:
        yield Faults(patch)


# Which premise is spoken of, where it has to be one that is there.
OF = {"kick": "old", "bring": "out", "forget": "out"}


@pytest.mark.parametrize("call", calls(""))
def test_each_line_of_a_call_may_go_wrong(tmp_path: Path, faults: Faults, call: str) -> None:
    carried_out = calls(OF.get(call, "n.1"))[call]
    f, other = Front(tmp_path), Front(tmp_path)
    shift = list(calls("")).index(call) % len(KINDS)
    kinds = [*KINDS[shift:], *KINDS[:shift]]
    with f.w, other.w:
        for kind in KINDS if TIMES > 1 else ():
            with f.w.what_if():
                assert is_carried_out(f, carried_out, faults, [kind])
        before = f.seen()
        assert is_carried_out(f, carried_out, faults, kinds)
        assert (f.seen() != before) is (call not in ("what if", "load"))
        carried_out(other)
        assert f.seen() == other.seen()


@pytest.mark.parametrize("call", ["number", "law", "forget", "task", "done by", "total cost"])
def test_ctrl_c_may_come_at_any_place(tmp_path: Path, call: str) -> None:
    """Between any two lines of the package: a call is carried out whole then, or not at all."""
    carried_out = calls(OF.get(call, "n.1"))[call]
    f, other = Front(tmp_path), Front(tmp_path)
    with f.w, other.w:
        before, counting = f.seen(), Interrupting()
        assert counting.run(lambda: carried_out(other))
        after, shares = other.seen(), 10 * TIMES
        for share in range(shares):
            at = 1 + counting.count * share // shares
            # (how many lines there are depends on how long the program takes)
            if Interrupting(at).run(lambda: carried_out(f)) or f.seen() != before:
                break
        assert f.seen() in (before, after) and before != after
        if f.seen() == before:
            carried_out(f)
        assert f.seen() == after


some_calls = st.tuples(st.sampled_from(list(calls(""))), st.sampled_from(NAMES))
some_kinds = st.lists(st.sampled_from(KINDS), min_size=1, max_size=4)


@settings(max_examples=8 * TIMES)
@given(st.lists(some_calls, min_size=1, max_size=6), some_kinds)
def test_a_workbench_is_what_was_carried_out(
    drawn: list[tuple[str, str]], kinds: list[str]
) -> None:
    """Whatever was refused before, on whichever line: it is as another to which only that was
    stated which was carried out."""
    with TemporaryDirectory() as folder, pytest.MonkeyPatch.context() as patch:
        f, other, faults = Front(Path(folder)), Front(Path(folder)), Faults(patch)
        with f.w, other.w:
            for call, name in drawn:
                if is_carried_out(f, calls(name)[call], faults, kinds):
                    calls(name)[call](other)
            assert f.seen() == other.seen()
