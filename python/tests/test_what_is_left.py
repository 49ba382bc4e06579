"""What is left behind a what-if, and of a premise that was forgotten: nothing, in the workbench,
its projects and quantities, its names, and its files.
"""

from collections.abc import Callable, Iterator
from pathlib import Path

import pytest

from propbench import Workbench
from propbench.measuring.quantities import Quantity


@pytest.fixture
def w() -> Iterator[Workbench]:
    with Workbench() as made:
        yield made


def saved(w: Workbench, folder: Path) -> str:
    """What `save` writes, which has to be a workbench."""
    w.save(folder / "saved.prop")
    with Workbench.load(folder / "saved.prop") as loaded:
        assert loaded.premises == w.premises and loaded.believed == w.believed
    return (folder / "saved.prop").read_text(encoding="utf-8")


def seen(w: Workbench) -> list[object]:
    """What there is, what follows, and the lines."""
    answers = [str(cell.ask()) for cell in w.cells]
    return [answers, w.premises, w.believed, w.model.base()]


def state_much(w: Workbench) -> None:
    """All that can be stated, under names of which several have one stem."""
    day = w.domain("a day", "mon tue")
    d, x = w.element("d.1", day), w.number("x.1", 0, 9)
    t, s = w.truth("t.1"), w.symbol("s.1")
    q, r = (w.measured(name, "m", 1, 100, 1) for name in ("q.1", "r.1"))
    law = q <= (r * r + "1 m2") ** 0.5 + r
    w.law(law, under="a law")
    assert len(w.cells) > 6  # (the root has one too)
    w.read("a tape", r, "2 +- 1 m")
    w.require((x >= 3) & t, under="a rule")
    w.tell("a guess", d, "tue")
    w.fix(s, "a colour")
    w.choose("a choice", x, [3, (5, 6)])
    w.choose("another choice", {"a": [x >= 3], "b": [x == 2]})
    p = w.project(days=9, people="ana")
    p.task("a task", 2, who="ana", cost=3)
    p.away("ana", 0, 3)
    p.done_by(7)
    assert p.total_cost.ask().value == 3
    w.try_first(([x], True))
    w.kick("a guess")
    w.forget("a rule")
    assert (q.ask().value is not None) and x.ask().value == 3 and w.room(law)


def begun(w: Workbench) -> None:
    """Something that a what-if begins with."""
    x = w.number("x", 0, 9)
    w.require(x >= 2, under="some")
    w.tell("more", x, 3, 8)
    w.kick("more")


def ended(w: Workbench, folder: Path) -> list[object]:
    """What is so behind it, when all is stated again."""
    state_much(w)
    return [seen(w), saved(w, folder)]


@pytest.mark.parametrize("error", [None, RuntimeError, KeyboardInterrupt])
def test_a_what_if_leaves_nothing(
    w: Workbench, tmp_path: Path, error: type[BaseException] | None
) -> None:
    """Also within others, and when it ends by an exception; and all is free to be stated again."""
    begun(w)
    leaves_nothing(w, tmp_path, error)


def test_a_what_if_leaves_nothing_in_what_was_loaded(w: Workbench, tmp_path: Path) -> None:
    begun(w)
    w.save(tmp_path / "it.prop")
    with Workbench.load(tmp_path / "it.prop") as loaded:
        leaves_nothing(loaded, tmp_path, None)


def leaves_nothing(w: Workbench, tmp_path: Path, error: type[BaseException] | None) -> None:
    before, lines = (seen(w), saved(w, tmp_path)), w.session.lines

    def state() -> None:
        with w.what_if(bring="more", tell=[("a.guess", "x", 3)]):
            w.kick("some")
            inner = seen(w), saved(w, tmp_path)
            with w.what_if():
                state_much(w)
            assert (seen(w), saved(w, tmp_path)) == inner
            state_much(w)
            if error:
                raise error

    if error:
        with pytest.raises(error):
            state()
    else:
        state()
    assert w.session.lines == lines
    assert (seen(w), saved(w, tmp_path)) == before
    with Workbench() as other:
        begun(other)
        seen(other)
        assert ended(w, tmp_path) == ended(other, tmp_path)


def test_a_project_is_as_it_was_behind_a_what_if(w: Workbench) -> None:
    """Two tasks of one person, of 5 and 2 days: 7 days, whoever was ill in a what-if."""
    p = w.project(days=40, people="ana ben")
    a = p.task("a", 5, who="ana")
    with w.what_if():
        p.away("ana", 0, 20, under="ill")
        p.task("c", 9, who="ana", after=[a])
        with w.what_if():
            p.task("d", 2, who="ben", after=[a])
            assert list(p.tasks) == ["a", "c", "d"] and w.least(p.end).value == 20 + 5 + 9
        assert list(p.tasks) == ["a", "c"] and "d takes 2" not in p.facts
        assert w.least(p.end).value == 20 + 5 + 9
    assert (list(p.tasks), p.facts, w.premises) == (["a"], ("a takes 5",), ("a takes 5",))
    p.task("b", 2, who="ana", after=[a])
    assert w.least(p.end).value == 7
    assert p.facts == ("a takes 5", "b takes 2", "b after a")
    assert w.premises == (*p.facts, "ana does one thing at a time")


def test_what_was_made_in_a_what_if_says_that_it_is_gone(w: Workbench) -> None:
    p = w.project(days=9, people="ana")
    with w.what_if():
        b = p.task("b", 2)
        x, q = w.number("x", 0, 9), w.measured("q", "m", 0, 9)
        law = q * q == "4 m2"
        w.law(law)
    gone: list[Callable[[], object]] = [
        x.ask,
        x.core,
        x.how,
        lambda: w.require(x >= 3),
        lambda: w.fix(x, 3),
        lambda: w.choose("either", {"a": [x == 3], "b": [True]}),
        lambda: w.read("tape", q, 3),
        lambda: w.law(law),
        lambda: w.table(x),
        lambda: p.done_by(3, task=b),
    ]

    def all_are_gone() -> None:
        for call in gone:
            with pytest.raises(ValueError, match="was made in a what-if that is over"):
                call()

    all_are_gone()
    # (others of the same names are not what was meant)
    w.number("x", 0, 99)
    w.measured("q", "cm", 0, 9)
    p.task("b", 3)
    all_are_gone()
    with pytest.raises(ValueError, match="was not stated"):
        w.room(law)
    with pytest.raises(ValueError, match="was not required"):
        w.lines(law)
    with pytest.raises(ValueError, match="c: the task 'b' is none of this workbench"):
        p.task("c", 1, after=[b])


def test_what_is_forgotten_is_no_longer_a_project_s(w: Workbench) -> None:
    """Two tasks of one person, of 5 and 2 days: 7 days, when she is no longer ill."""
    p = w.project(days=30, people="ana ben")
    a = p.task("a", 5, who="ana")
    p.away("ana", 0, 20, under="ill")
    p.away("ben", 0, 30)
    w.forget("ill")
    b = p.task("b", 2, who="ana", after=[a])
    assert w.least(p.end).value == 7 and "ill" not in w.premises
    assert p.facts == ("a takes 5", "b takes 2", "b after a")
    w.forget("b after a")
    w.forget("b takes 2")
    assert p.facts == ("a takes 5",) and set(p.tasks) == {"a", "b"}
    # (it is no fact of the project, which has no such name of its own any more)
    w.tell("b takes 2", b.days, 4)
    assert p.facts == ("a takes 5",) and w.least(p.end).value == 9
    assert w.repairs(keep=p.facts) == [frozenset()]


def test_what_is_forgotten_is_no_longer_a_law(w: Workbench) -> None:
    x, y = (w.measured(name, "m", 1, 100, 1) for name in "xy")
    law = x <= (y * y + "9 m2") ** 0.5 + y
    w.law(law, under="guess")
    w.read("tape", y, 4)
    assert ends(x, 9) and w.room(law) and w.lines(law)
    w.forget("guess")
    assert x.ask().because == ()
    with pytest.raises(ValueError, match="was not stated"):
        w.room(law)
    with pytest.raises(ValueError, match="was not required"):
        w.lines(law)
    w.law(law)
    assert ends(x, 9) and x.ask().because == ("tape",) and w.room(law) and w.lines(law)


def ends(quantity: Quantity, number: int) -> bool:
    """Whether an answer ends at a number, to within a hundredth."""
    high = quantity.ask().high
    return high is not None and number <= high <= number + 0.01


def test_a_file_has_no_names_of_what_is_gone(w: Workbench, tmp_path: Path) -> None:
    """Names on lines are told apart where they have one stem: of what is gone none is left."""
    x = w.number("x", 0, 9)
    w.tell("a guess", x, 2)
    with w.what_if(tell=[("a+guess", x, 2)]):
        w.number("x 2", 0, 9)
    w.forget("a guess")
    w.tell("a.guess", x, 3)
    w.number("x.2", 4, 4)
    text = saved(w, tmp_path)
    with Workbench() as other:
        other.tell("a.guess", other.number("x", 0, 9), 3)
        other.number("x.2", 4, 4)
        # (the cell was made before the premise was stated, in both)
        assert sorted(text.splitlines()) == sorted(saved(other, tmp_path).splitlines())
