"""No certificate that was spoilt is believed: by hand, and by mutation against all points."""

import copy
import json
import random
import re
from collections.abc import Iterator
from contextlib import ExitStack
from pathlib import Path
from typing import Any

import pytest
from conftest import TIMES
from judging import Judge
from lines_model import LineModel
from spoilt import HONEST, PLAN, SPOILT, certificate, spoilt

from propbench import Session, Workbench
from propbench.desk import main
from propbench.questions import Certificate, CertificateError

# How many are mutated; 5 $PROPBENCH_TESTS gives ten thousand over two programs.
MUTATED = 1000 * TIMES
# What Python calls what went wrong, which is no word for a user.
PYTHON = re.compile("Error|Traceback|object at|<class|NoneType")

MODELS = {
    "days": """domain day mon tue wed
relation before day day = mon tue ; mon wed ; tue wed
cell a span
cell b span
cell c span
cell t truth
cell d day
cell e day
fix a 0..3
fix b 0..3
fix c 0..6
attach sum a b c
attach less a b t
attach link d e by before
choose pick c 2 or 4 or 5
tell p a 2..3
tell q c 2..4
tell r t yes
tell s e {mon tue}
tell u d tue""",
    "halves": """cell x span
cell y span
cell z span
define twice v w = local k like v ; same v k ; sum k v w
fix x 0..6
fix y 0..6
fix z 0..12
attach twice x z
attach sum x y z
tell p x 3..6
tell q z 0..8
tell r y 4..6
tell s x 0..3""",
    "truths": """cell f truth
cell g truth
cell h truth
cell n span
cell m span
cell o span
fix n 0..5
fix m 0..5
fix o 0..5
attach and f g h
attach conditional f n m o
attach alike n m g
tell p h no
tell q f yes
tell r o 4..5
tell s m 0..3
tell u n 1""",
}
NUMBERS = {"days": "c", "halves": "z", "truths": "o"}
SHOWN = {"days": ["a", "d"], "halves": ["x"], "truths": ["f", "o"]}


def made(model: LineModel, number: str, shown: list[str]) -> Iterator[Certificate]:
    """Certificates of all sorts for a model, in which not all premises fit together."""
    premises = model.premises()
    yield model.conflicts().certificate
    yield model.conflicts(keep=premises[:1]).certificate
    yield model.conflicts(most=1).certificate
    yield model.repairs().certificate
    yield model.repairs(keep=premises[1:2]).certificate
    for premise in model.repairs()[0]:
        model.send(f"kick {premise}")
    yield model.least(number).certificate
    yield model.greatest(number).certificate
    yield model.critical(number).certificate
    yield model.slack(number).certificate
    yield model.plans(shown).certificate
    yield model.plans(shown, most=2).certificate


def answers(model: LineModel) -> Certificate:
    """A certificate of what is answered now."""
    given, claims = model.believed(), []
    for cell in model.cells():
        said = str(model.session.send(f"ask {cell}"))
        claim = {"given": given, "told": [], "ask": f"ask {cell}", "said": said}
        claims.append(["answer", claim])
    evidence = {"basis": [], "rooms": {}, "choices": [], "plans": [], "trees": [], "mark": "_q0_"}
    return certificate(claims, evidence, model.base())


def places(value: Any) -> Iterator[tuple[Any, Any]]:
    """Each place within a value of JSON: what it stands in, and its key there."""
    if isinstance(value, dict | list):
        for key in list(value) if isinstance(value, dict) else range(len(value)):
            yield value, key
            yield from places(value[key])


class Mutating:
    """Draws what stands in place of something in a certificate."""

    def __init__(self, chance: random.Random, words: list[str]) -> None:
        self.chance, self.words = chance, words

    def mutate(self, whole: list[Any]) -> None:
        """Changes something in claims or evidence."""
        chance = self.chance
        there = list(places(whole[chance.randrange(2) if chance.random() < 0.5 else 0]))
        if not there:
            return
        at, key = chance.choice(there)
        drawn = chance.random()
        if isinstance(at, list) and drawn < 0.15:
            del at[key]
        elif isinstance(at, list) and drawn < 0.3:
            at.insert(chance.randrange(len(at) + 1), copy.deepcopy(at[key]))
        elif isinstance(at, list) and drawn < 0.35:
            chance.shuffle(at)
        elif isinstance(at, dict) and drawn < 0.05:
            at.pop(key)
        elif drawn < 0.45:
            other, name = chance.choice(there)
            at[key] = copy.deepcopy(other[name])
        else:
            at[key] = self.drawn(at[key])

    def drawn(self, value: Any) -> Any:
        """Another value, most often of the same type."""
        chance = self.chance
        if chance.random() < 0.08:
            odd: list[Any] = [
                None,
                "",
                0,
                True,
                [],
                {},
                "open",
                "none",
                "04",
                "nothing",
                10**30,
                -1,
                "x = 3",
                ["p"],
            ]
            return copy.deepcopy(chance.choice(odd))
        if isinstance(value, bool):
            return not value
        if isinstance(value, int):
            return value + chance.choice([-2, -1, 1, 2])
        if isinstance(value, str):
            return self.text(value)
        if isinstance(value, list):
            return [*value, chance.choice(self.words)]
        return value

    def text(self, text: str) -> str:
        """Another text: a word more, or a number more or less."""
        chance = self.chance
        numbers = list(re.finditer(r"-?\d+", text))
        if numbers and chance.random() < 0.6:
            found = chance.choice(numbers)
            number = int(found.group()) + chance.choice([-1, 1])
            return f"{text[: found.start()]}{number}{text[found.end() :]}"
        return chance.choice(self.words)


@pytest.fixture(scope="module")
def honest(program: str) -> Iterator[list[tuple[Judge, Certificate]]]:
    """Certificates with who judges of each."""
    with ExitStack() as stack:
        found = []
        for name, text in MODELS.items():
            model = LineModel(stack.enter_context(Session(program)), text.split("\n"))
            judge = Judge(LineModel(stack.enter_context(Session(program)), text.split("\n")))
            found += [(judge, each) for each in made(model, NUMBERS[name], SHOWN[name])]
            found.append((judge, answers(model)))
        yield found


def holds(certificate: Certificate) -> bool:
    """Whether it is believed; where it isn't, that is told in words."""
    try:
        return certificate.check(base=certificate.base)
    except CertificateError as error:
        assert str(error) and not PYTHON.search(str(error)), error
        return False


@pytest.mark.parametrize("name", HONEST)
def test_honest_ones_hold(name: str) -> None:
    assert spoilt(name, {}).check()


def test_spoilt_ones_are_refused() -> None:
    assert len(SPOILT) >= 100
    believed = [each for each in SPOILT if holds(spoilt(*each))]
    assert not believed


# What a certificate has where the program finds by a search that nothing fits, and what is none.
SEARCHED = [[[["cheap", "evil"], []], "none"]]
NO_SEARCH: list[Any] = ["none ", "None", "no", "", "open", 0, 1, True, {}, [], ["none"]]
NO_SEARCH += [["price", "none"], ["price", [["0..9", "None"]]], ["price", [["0..8", "none"]]]]
NO_SEARCH += [["zz", [["0..9", "none"]]], {"none": None}, {**PLAN}, "none none"]


def test_spoilt_ones_by_search_are_refused() -> None:
    with Session() as session:
        if not session.seeks:
            pytest.skip("the program doesn't search")
    trees = "evidence/trees"
    changed: list[tuple[str, dict[str, Any]]] = []
    for name, each in SPOILT:
        if name in ("conflicts", "repairs", "kept"):
            changed.append((name, {**each, trees: SEARCHED}))
    changed += [("conflicts", {trees: [[SEARCHED[0][0], tree]]}) for tree in NO_SEARCH]
    for names in (["Ana", "cheap"], ["Ana"], ["cheap"], [], ["cheap", "Bob"]):
        sets = {"claims/0/1/sets": [names], trees: [[[names, []], "none"]]}
        changed.append(("conflicts", sets))
    assert len(changed) >= 30
    assert all(spoilt(name, {trees: SEARCHED}).check() for name in ("conflicts", "repairs"))
    assert not [each for each in changed if holds(spoilt(*each))]


def test_mutated_ones_are_refused_or_true(honest: list[tuple[Judge, Certificate]]) -> None:
    believed, refused = 0, 0
    for seed in range(MUTATED):
        chance = random.Random(seed)
        judge, each = honest[seed % len(honest)]
        whole = [json.loads(each.lines[1]), json.loads(each.lines[2])]
        cells, kinds = judge.model.cells(), judge.model.domains()
        words = [
            *cells,
            *judge.model.premises(),
            *(name for kind in kinds.values() for name in kind),
        ]
        words += [str(number) for number in range(8)] + ["0..3", "2..9", "{yes no}", "least"]
        words += ["greatest", "fits", "fails", "open", *(f"ask {cell}" for cell in cells)]
        mutating = Mutating(chance, words)
        for _ in range(chance.choice([1, 1, 2, 3])):
            mutating.mutate(whole)
        changed = certificate(whole[0], whole[1], list(each.base))
        if not holds(changed):
            refused += 1
            continue
        believed += 1
        assert whole[0] and all(map(judge.is_true, whole[0])), (seed, whole)
    assert believed > MUTATED // 50 and refused > MUTATED // 4
