"""What views see: the network that lines make, what bears on a cell, steps, conflicts, wishes.

What is expected is worked out by hand, by the bare program, or by trying all sets of premises.
"""

import random
from itertools import combinations
from pathlib import Path

import pytest
from conftest import REPOSITORY, TIMES, Bare

from propbench import NoSuchCell, Session, Workbench
from propbench.running import RunAs
from propbench.watching import NetworkSeen, Use, Watched, bears
from propbench.watching.bearing import bearing
from propbench.watching.of_session import SessionWatched
from propbench.watching.of_workbench import WorkbenchWatched
from propbench.watching.opening import opened
from propbench.watching.steps import Frame

ORDERS = (["--order", "fifo"], ["--order", "lifo"], ["--order", "mixed", "--seed", "7"])


def network_of(lines: list[str], program: str) -> NetworkSeen:
    with Session(program) as session:
        session.send_all(lines)
        return SessionWatched(session).network()


def texts(use: Use) -> list[str]:
    return [f"{leaf.text} {' '.join(leaf.cells)}{leaf.given}" for leaf in use.leaves()]


COMPOUNDS = [
    "define triple x z = local y like x ; sum x x y ; sum y x z",
    "define scaled x z = local k span ; product x k z by *",
    "define both x z = triple x z ; scaled x z by 5",
    "cell a span",
    "cell c span",
    "attach both a c",
    "attach scaled a c by 3",
    "attach adder a a c",
    "choose w a 3 or 4..5",
    "fix c 3..9",
    "tell ana a 4",
    "tell ana c 5..7",
    "tell ben c 8",
    "kick ben",
]


def test_a_compound_is_taken_apart(program: str) -> None:
    network = network_of(COMPOUNDS, program)
    both, scaled, adder = network.uses
    assert texts(both) == [
        "adder a a 1.1.y",
        "subtracter 1.1.y a a",
        "subtracter 1.1.y a a",
        "adder 1.1.y a c",
        "subtracter c 1.1.y a",
        "subtracter c a 1.1.y",
        "multiplier a 1.2.k c5",
        "divider c 1.2.k a5",
        "divider c a 1.2.k5",
    ]
    assert [(cell.name, cell.text, cell.kind) for cell in both.inner_cells()] == [
        ("1.1.y", "y", "span"),
        ("1.2.k", "k", "span"),
    ]
    assert [part.text for part in both.parts] == ["triple", "scaled"]
    assert scaled.given == "3" and texts(scaled)[0] == "multiplier a 2.k c3"
    assert texts(adder) == ["adder a a c"] and adder.one_way and not adder.parts


def test_what_was_said_is_seen(program: str) -> None:
    network = network_of(COMPOUNDS, program)
    assert [(cell.name, cell.kind) for cell in network.cells] == [("a", "span"), ("c", "span")]
    says = {each.name: [said.text for said in each.says] for each in network.premises}
    assert says == {"ana": ["a = 4", "c = 5..7"], "ben": ["c = 8"]}
    assert [each.is_believed for each in network.premises] == [True, False]
    assert [(each.name, each.sides, each.cells) for each in network.choices] == [
        ("w", ("a = 3", "a = 4..5"), ("a",))
    ]
    assert [(said.cell, said.text) for said in network.fixed] == [("c", "c = 3..9")]


def test_lines_that_are_taken_back(program: str) -> None:
    with Session(program) as session:
        watched = SessionWatched(session)
        session.send_all(["cell x span", "cell y span", "attach copier x y", "tell a x 3"])
        assert len(watched.network().uses) == 1 and len(watched.network().premises) == 1
        session.replay(session.lines[:2])
        assert watched.network().uses == () == watched.network().premises
        session.send("attach copier y x")
        assert texts(watched.network().uses[0]) == ["copier y x"]


def random_lines(draw: random.Random, both_ways: bool) -> list[str]:
    """A network of sums, comparisons and truths over told numbers. Where it goes one way, each cell
    is told of earlier ones alone."""
    numbers = draw.randint(3, 9)
    lines = [f"cell x{at} span" for at in range(numbers)] + ["cell t truth", "cell u truth"]
    for at in range(2, numbers):
        for _ in range(draw.choice((0, 1, 1, 2))):
            one, other = draw.sample(range(at), 2)
            lines.append(f"attach {'sum' if both_ways else 'adder'} x{one} x{other} x{at}")
    one, other = draw.sample(range(numbers), 2)
    lines.append(f"attach {'less' if both_ways else 'lesser'} x{one} x{other} t")
    lines.append(f"attach {'not' if both_ways else 'inverter'} t u")
    for at in range(draw.randint(2, 7)):
        cell = draw.randrange(numbers) if draw.random() < 0.3 else at % 3
        low = draw.randint(0, 9)
        lines.append(f"tell p{at % 4} x{cell} {low}..{low + draw.randint(5, 25)}")
    lines += ["fix u no"] if both_ways and draw.random() < 0.3 else []
    return [*lines, *(["kick p1"] if draw.random() < 0.3 else [])]


@pytest.mark.parametrize("both_ways", (False, True))
def test_what_bears_is_enough(program: str, bare: Bare, both_ways: bool) -> None:
    """What is lit of a network, with its premises alone, says of the cell what all of it says."""
    looked = 0
    for seed in range(60 * TIMES):
        lines = random_lines(random.Random(seed), both_ways)
        with Session(program) as session:
            session.send_all(lines)
            watched = SessionWatched(session)
            seen = watched.see()
            found = [(each, bears(watched, seen, each)) for each in seen.values.values()]
        attached = [line for line in lines if line.startswith("attach")]
        for shown, lit in found:
            if not shown.is_known:
                continue
            kept = [line for line in lines if line.startswith("cell")]
            kept += [line for at, line in enumerate(attached, 1) if str(at) in lit.uses]
            kept += [
                line
                for line in lines
                if line.startswith("fix")
                or line.startswith("tell")
                and line.split()[1] in lit.premises
            ]
            said = bare([*kept, f"ask {shown.cell}"], []).split("\n")[-2]
            assert said == f"{shown.cell} = {shown.text}", (seed, shown, kept)
            assert lit.premises == {reason.premise for reason in shown.because}
            looked += 1
    assert looked > 100


def test_what_does_not_bear_is_not_lit(program: str) -> None:
    lines = [f"cell {name} span" for name in "abcdef"]
    lines += ["attach sum a b c", "attach sum d e f", "attach sum c c f"]
    lines += ["tell p a 3", "tell q b 4", "tell r d 1..2", "tell s e 0..90"]
    with Session(program) as session:
        session.send_all(lines)
        watched = SessionWatched(session)
        seen, network = watched.see(), watched.network()
        lit = bearing(network, seen, seen.values["c"])
        assert (set(lit.cells), set(lit.uses), set(lit.premises)) == (
            {"a", "b", "c"},
            {"1"},
            {"p", "q"},
        )
        lit = bearing(network, seen, seen.values["e"])
        assert (set(lit.uses), set(lit.premises)) == ({"1", "2", "3"}, {"p", "q", "r"})
        assert lit.cells == set("abcdef")


def first_steps(session: Session) -> list[Frame]:
    steps = SessionWatched(session).steps()
    frames = steps.take(50)
    steps.close()
    return frames


def said_of(told: str, cell: str) -> tuple[str, list[str]]:
    """The value of a cell in what the program told, and the premises that it rests on."""
    [said] = [each for each in told.split("\n") if each.startswith(f"{cell} = ")]
    value, _, because = said.partition(" = ")[2].replace(" unsettled", "").partition(" because ")
    return value, [each for each in because.split(" ") if "=" not in each]


@pytest.mark.parametrize("options", ORDERS)
def test_steps_are_the_program_s(program: str, bare: Bare, options: list[str]) -> None:
    order, seed = options[1], int(options[3]) if len(options) > 2 else 0
    ends = set()
    small = ["cell x0 span", "cell x1 span", "cell x2 span", "attach sum x0 x1 x2"]
    drawn = [random_lines(random.Random(100 + draw), True) for draw in range(6)]
    for lines in [[*small, "tell p x2 7..9", "tell q x2 4..8"], *drawn]:
        lines += ["choose c x0 1 or 5..9 or 3", "choose d x1 0 or 2"]
        cells = [line.split()[1] for line in lines if line.startswith("cell")]
        asks = ["limit 0", *(f"why {cell}" for cell in cells), "nogoods"]
        with Session(program, order=order, seed=seed) as session:
            session.send_all(lines)
            frames = first_steps(session)
        known: dict[str, str] = {}
        nogoods = 0
        for frame in frames:
            for change in frame.changes:
                because = ", ".join(reason.text for reason in change.because) or "no premise"
                known[change.cell] = f"{change.after} because {because}"
            nogoods += len(frame.nogoods)
            run = [*lines, "limit 1", *["settle"] * frame.number]
            last = run if frame.number else [*lines, "limit 0", "settle"]
            end = bare(last, options).split("\n")[-2]
            assert frame.end.partition(":")[0] == end.partition(":")[0].replace("unsettled", "")
            told = bare([*run, *asks], options)
            ends.add(frame.end.partition(":")[0])
            if end.startswith("contradiction"):
                break
            for cell in cells:
                value, named = said_of(told, cell)
                shown = known.get(cell, "nothing because no premise")
                assert shown.startswith(f"{value} because"), (frame.number, cell)
                assert all(each in shown for each in named)
            assert told.count("nogood: ") == nogoods
        assert [frame.number for frame in frames] == [*range(len(frames))]
        assert frames[-1].end or len(frames) == 51
    assert ends == {"", "settled", "contradiction"}


def test_conflicts_and_repairs_of_a_session(program: str, bare: Bare) -> None:
    seen = set()
    for seed in range(12 * TIMES):
        draw = random.Random(seed)
        lines = [f"cell x{at} span" for at in range(4)]
        lines += ["attach sum x0 x1 x2", "attach sum x1 x2 x3"]
        premises = [f"p{at}" for at in range(5)]
        for premise in premises:
            low = draw.randint(0, 9)
            lines.append(f"tell {premise} x{draw.randrange(4)} {low}..{low + draw.randint(0, 6)}")
        conflicts: set[frozenset[str]] = set()
        for size in range(6):
            for kept in (frozenset(each) for each in combinations(premises, size)):
                kicks = [f"kick {each}" for each in premises if each not in kept]
                is_new = not any(each <= kept for each in conflicts)
                if is_new and "contradiction" in bare([*lines, *kicks, "settle"], []):
                    conflicts.add(kept)
        with Session(program) as session:
            session.send_all(lines)
            found = SessionWatched(session).mend()
            assert found.complete and session.lines == lines
        # a minimal conflict that no repair needs may stay unfound; all that are found are minimal
        assert {frozenset(each) for each in found.conflicts} <= conflicts
        hits: set[frozenset[str]] = set()
        for size in range(6):
            for out in (frozenset(each) for each in combinations(premises, size)):
                if all(out & each for each in conflicts) and not any(each <= out for each in hits):
                    hits.add(out)
        assert {frozenset(each) for each in found.repairs} == hits
        seen.add(len(conflicts))
    assert len(seen) >= 3


def bench(program: str) -> Workbench:
    w = Workbench(program)
    days, price = w.number("days", 0, 60), w.number("the price", 0, 9000)
    w.require(price >= 400 * days)
    w.require(price <= 2000, under="cheap")
    w.require(price == 401 * days, under="odd")
    w.kick("odd")
    w.tell("Ana's wish", days, 1, 10)
    w.fix(price, 100, 8000)
    w.choose("venue", {"hotel": [days == 2], "uni": [days == 3, price <= 1800]})
    w.choose("pay", price, [800, 1300, (1500, 1700)])
    return w


def test_a_workbench_as_views_see_it(program: str) -> None:
    with bench(program) as w:
        watched: Watched = WorkbenchWatched(w)
        network = watched.network()
        assert [cell.text for cell in network.cells] == ["days", "the price"]
        assert [(use.text, use.cells, use.premise) for use in network.uses] == [
            ("the price >= 400 * days", ("the price", "days"), ""),
            ("the price == 401 * days", ("the price", "days"), "odd"),
        ]
        says = {
            each.name: [(said.text, said.cell) for said in each.says] for each in network.premises
        }
        assert says == {
            "cheap": [("the price <= 2000", "the price")],
            "odd": [("the price == 401 * days", "")],
            "Ana's wish": [("days = 1..10", "days")],
        }
        assert [each.is_believed for each in network.premises] == [True, False, True]
        assert [(said.text, said.cell) for said in network.fixed] == [
            ("days = 0..60", "days"),
            ("the price = 0..9000", "the price"),
            ("the price = 100..8000", "the price"),
        ]
        assert [(each.name, each.sides, set(each.cells)) for each in network.choices] == [
            ("venue", ("hotel", "uni"), {"days", "the price"}),
            ("pay", ("800", "1300", "1500..1700"), {"the price"}),
        ]
        seen = watched.see()
        assert {name: each.text for name, each in seen.values.items()} == {
            "days": "2",
            "the price": "800",
        }
        assert seen.plan == {"venue": 0, "pay": 0} and seen.settled
        assert [reason.choice for reason in seen.values["days"].because] == ["venue"]


def test_what_bears_in_a_workbench(program: str) -> None:
    """Constraints go all ways, and begin at what cells were declared as."""
    with Workbench(program) as w:
        x, y, z = w.number("x", 0, 20), w.number("y", 0, 20), w.number("z")
        day = w.domain("day", "mon tue wed")
        d = w.element("d", day)
        w.require(x + 3 * y <= 17)
        w.require(z == y + 1, under="one more")
        w.require((d == "mon") == (x > 30))
        watched = WorkbenchWatched(w)
        network = watched.network()

        def lit(cell: str) -> tuple[set[str], set[str], set[str]]:
            seen = watched.see()
            found = bearing(network, seen, seen.values[cell])
            return set(found.cells), {*found.uses}, {*found.premises}

        assert watched.see().values["x"].text == "0..17"
        assert lit("x") == ({"x", "y", "d"}, {"1", "3"}, set())
        assert lit("z") == ({"x", "y", "z", "d"}, {"1", "2", "3"}, {"one more"})
        assert watched.see().values["d"].text == "{tue wed}"
        assert lit("d")[0] == {"d", "x", "y"}


def test_wishes(program: str) -> None:
    with bench(program) as w:
        watched = WorkbenchWatched(w)
        watched.wish("venue", 1)
        assert watched.see().plan == {"venue": 1, "pay": 1} and watched.wished() == {"venue": 1}
        watched.wish("pay", 2)
        assert watched.see().plan == {"venue": 1, "pay": 2}
        watched.wish("venue", 0)
        assert watched.see().plan == {"venue": 0, "pay": 2}
        assert watched.wished() == {"venue": 0, "pay": 2}
        watched.wish("venue", 1)
        watched.wish("pay", None)
        assert watched.see().plan == {"venue": 1, "pay": 1} and watched.wished() == {"venue": 1}
        w.forget("venue: uni")
        watched.wish("venue", 1)
        assert watched.see().plan == {"venue": 1, "pay": 1}
        # wishes are premises like others
        assert "venue: uni" in w.premises and watched.see().values["days"].text == "3"
        before = w.believed
        clash = watched.without(["venue: uni", "Ana's wish"])
        assert clash.plan == {"venue": 0, "pay": 0} and w.believed == before


def test_what_holds_always_can_t(program: str) -> None:
    with Workbench(program) as w:
        x = w.number("x", 0, 9)
        w.require(x + x > 30)
        clash = WorkbenchWatched(w).see().clash
        assert clash and clash.premises == () and "x + x > 30" in clash.text
    with Session(program) as session:
        session.send_all(["cell x span", "fix x 3", "fix x 4"])
        clash = SessionWatched(session).see().clash
        assert clash and clash.premises == () and clash.text == "What is fixed can't all hold."
        assert SessionWatched(session).mend().repairs == ()


def test_files(program: str, tmp_path: Path) -> None:
    path = str(tmp_path / "w.prop")
    with bench(program) as w:
        w.save(path)
    with opened(path, RunAs(), program) as watched:
        assert isinstance(watched, WorkbenchWatched)
        watched.believe("cheap", False)
        assert watched.see().values["days"].text == "2"
        assert watched.saved()[0].startswith("# A workbench") and watched.saved()[-1] == "kick odd"
    with opened(str(REPOSITORY / "examples/planning/talks.prop"), RunAs(), program) as watched:
        assert isinstance(watched, SessionWatched)
        text = (REPOSITORY / "examples/planning/talks.prop").read_text()
        assert "".join(f"{line}\n" for line in watched.saved()) == text
        watched.see()
        watched.believe("bus", False)
        assert watched.saved()[-1] == "kick bus" and len(watched.saved()) == text.count("\n") + 1
    (tmp_path / "bad.prop").write_text("cell x span\n# three\nask y\n")
    with pytest.raises(NoSuchCell) as refused:
        with opened(str(tmp_path / "bad.prop"), RunAs(), program):
            pass
    assert refused.value.line_number == 3


def test_least_and_greatest_of_a_session(program: str) -> None:
    """Beside all points of small numbers, by the meaning of the compounds."""
    for seed in range(6 * TIMES):
        draw = random.Random(seed)
        low, high, sum_, product = (
            draw.randint(*ends) for ends in ((0, 3), (4, 9), (5, 14), (4, 30))
        )
        lines = [f"cell {name} span" for name in "xysp"]
        lines += ["attach sum x y s", "attach product x y p"]
        lines += [f"fix x {low}..{high}", f"tell ana y {low}..{high}", f"tell ben s 0..{sum_}"]
        lines += [f"tell cleo p {product}..99", "tell dora x 77", "kick dora"]
        lines += [f"choose c y {low} or {low + 1}..{high}"]
        points = [
            (x, y)
            for x in range(low, high + 1)
            for y in range(low, high + 1)
            if x + y <= sum_ and product <= x * y <= 99
        ]
        with Session(program) as session:
            session.send_all(lines)
            watched = SessionWatched(session)
            for sort, pick in (("least", min), ("greatest", max)):
                found = watched.best("x", sort)
                assert found.proved and session.lines == lines
                if points:
                    wanted = pick(x for x, _ in points)
                    assert found.text == f"The {sort} x is {wanted}:"
                    plan = dict(found.plan)
                    assert (int(plan["x"]), int(plan["y"])) in points
                else:
                    assert found.text == f"The {sort} x: nothing fits."
