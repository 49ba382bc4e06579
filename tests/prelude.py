"""The prelude: for each use of a procedure in each compound an example that needs it.

The compounds stand here as the language's page tells them, and not as the program has them. Each
example is asked of the program's own compound; and of the compound as it stands here without that
one use, where the answer has to be another: so no use can be lost unseen.
"""
from typing import Callable, Iterator, Optional

from case import Case, answered, as_bytes

DECLARED = ["domain d a b c", "relation r d d = a b ; a c"]
KINDS = {"t": "truth", "n": "truth"}

# A compound: its cells, the kind of those that are no truth by name, and its steps.
COMPOUNDS = {
    "sum": ("x y z", "span", ["adder x y z", "subtracter z x y", "subtracter z y x"]),
    "product": (
        "x y z",
        "span",
        ["multiplier x y z by *", "divider z y x by *", "divider z x y by *"],
    ),
    "square": ("x y", "span", ["squarer x y", "rooter y x x"]),
    "less": ("x y t", "span", ["lesser x y t", "below t y x", "above t x y"]),
    "same": ("x y", "span", ["copier x y", "copier y x"]),
    "alike": (
        "x y t",
        "span",
        ["comparer x y t", "passer t x y", "passer t y x", "parter t x y y", "parter t y x x"],
    ),
    "switch": ("t x y", "span", ["passer t x y"]),
    "conditional": (
        "t a b o",
        "span",
        ["local n truth", "inverter t n", "passer t a o", "passer n b o"],
    ),
    "not": ("x y", "truth", ["inverter x y", "inverter y x"]),
    "and": ("x y z", "truth", ["conjoiner x y z", "conjoin_back z y x", "conjoin_back z x y"]),
    "or": ("x y z", "truth", ["disjoiner x y z", "disjoin_back z y x", "disjoin_back z x y"]),
    "link": ("x y", "d", ["imager x y by *", "coimager y x by *"]),
}

# The compound, the use that the example needs, what is stated, and what follows.
EXAMPLES = [
    ("sum", "adder x y z", "x 3..5, y 10", "z = 13..15"),
    ("sum", "subtracter z x y", "x 3..5, z 10", "y = 5..7"),
    ("sum", "subtracter z y x", "y 3..5, z 10", "x = 5..7"),
    ("product", "multiplier x y z by *", "x -2..3, y 4..5", "z = -10..15"),
    ("product", "divider z y x by *", "y 3..4, z 12", "x = 3..4"),
    ("product", "divider z x y by *", "x 3..4, z 12", "y = 3..4"),
    ("product by 2", "multiplier x y z by *", "x 7, y 3", "z = 10..11"),
    ("product by 2", "divider z y x by *", "z 10, y 3", "x = 7"),
    ("product by 2", "divider z x y by *", "z 10, x 3", "y = 7"),
    ("square", "squarer x y", "x -3..2", "y = 0..9"),
    ("square", "rooter y x x", "y 9..20, x -3..2", "x = -3"),
    ("less", "lesser x y t", "x 0..2, y 3..7", "t = yes"),
    ("less", "below t y x", "t yes, y 3..7, x 0..10", "x = 0..6"),
    ("less", "above t x y", "t no, x 3..10, y 0..20", "y = 0..10"),
    ("same", "copier x y", "x 3..5", "y = 3..5"),
    ("same", "copier y x", "y 3..5", "x = 3..5"),
    ("alike", "comparer x y t", "x 5, y 5", "t = yes"),
    ("alike", "passer t x y", "t yes, x 1..5", "y = 1..5"),
    ("alike", "passer t y x", "t yes, y 4..9", "x = 4..9"),
    ("alike", "parter t x y y", "t no, x 5, y 5..9", "y = 6..9"),
    ("alike", "parter t y x x", "t no, y 5, x 5..9", "x = 6..9"),
    ("switch", "passer t x y", "t yes, x 3..5", "y = 3..5"),
    ("conditional", "inverter t n", "t no, b 7", "o = 7"),
    ("conditional", "passer t a o", "t yes, a 3", "o = 3"),
    ("conditional", "passer n b o", "t no, b 7", "o = 7"),
    ("not", "inverter x y", "x yes", "y = no"),
    ("not", "inverter y x", "y yes", "x = no"),
    ("and", "conjoiner x y z", "x no", "z = no"),
    ("and", "conjoin_back z y x", "z no, y yes", "x = no"),
    ("and", "conjoin_back z x y", "z no, x yes", "y = no"),
    ("or", "disjoiner x y z", "x yes", "z = yes"),
    ("or", "disjoin_back z y x", "z yes, y no", "x = yes"),
    ("or", "disjoin_back z x y", "z yes, x no", "y = yes"),
    ("link by r", "imager x y by *", "x a", "y = {b c}"),
    ("link by r", "coimager y x by *", "y b", "x = a"),
]


def session(compound: str, stated: str, asked: str, defined: str = "") -> list[str]:
    """The lines of an example, of which the last one asks. It attaches the compound that is there,
    or `other` where that one's definition is given."""
    name, by, parameter = compound.partition(" ")
    cells, kind, _ = COMPOUNDS[name]
    lines = [*DECLARED, *([defined] if defined else [])]
    lines += [f"cell {cell} {KINDS.get(cell, kind)}" for cell in cells.split()]
    lines.append(f"attach {'other' if defined else name} {cells}{by}{parameter}")
    return [*lines, *(f"fix {it}" for it in stated.split(", ")), f"ask {asked}"]


def lacks(lines: list[str], answer: str) -> Callable[[bytes], Optional[str]]:
    """Says what is wrong where the output is not `ok` to each line but the last, and something else
    than the answer to it."""

    def wrong(output: bytes) -> Optional[str]:
        replies = output.decode().splitlines()
        if replies[:-1] != ["ok"] * (len(lines) - 1):
            return f"it wrote {replies}"
        return f"the last answer is {answer!r} without it too" if replies[-1] == answer else None

    return wrong


def without(steps: list[str], use: str) -> list[str]:
    """The steps without this one; where none is left, a step that says nothing."""
    return [it for it in steps if it != use] or ["local nothing_said span"]


def cases() -> Iterator[Case]:
    seen = {(compound.split()[0], use) for compound, use, _, _ in EXAMPLES}
    missing = [
        (name, use)
        for name, (_, _, steps) in COMPOUNDS.items()
        for use in steps
        if (name, use) not in seen and not use.startswith("local")
    ]
    assert not missing, missing
    for compound, use, stated, answer in EXAMPLES:
        cells, _, steps = COMPOUNDS[compound.split()[0]]
        lines = session(compound, stated, answer.split()[0])
        yield Case(
            f"prelude: {compound} needs {use}", as_bytes(*lines), answered(len(lines) - 1, answer)
        )
        defined = f"define other {cells} = {' ; '.join(without(steps, use))}"
        less = session(compound, stated, answer.split()[0], defined)
        yield Case(f"prelude: {compound} without {use}", as_bytes(*less), lacks(less, answer))
