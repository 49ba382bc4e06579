"""The procedures of the kit and the definitions of the prelude: what cells they take.

Translated from docs/LANGUAGE.md ("Definitions" and "Procedures"), with which a test compares it.
"""

from dataclasses import dataclass

# The kinds of a place: a number, a truth, any kind (the same at each such place), and the first and
# the second domain of the relation that is given.
SPAN, TRUTH, ANY, FROM, TO = "S", "T", "A", "From", "To"


@dataclass(frozen=True)
class Procedure:
    """A procedure of the kit: its cells as the documents name them, the kind of each, the output
    last, and what it takes behind `by`: "" for nothing, "scale" where one may be given, and
    "relation" where one has to be."""

    cells: tuple[str, ...]
    kinds: tuple[str, ...]
    given: str = ""


def _procedure(cells: str, given: str = "") -> Procedure:
    names, kinds = zip(*(each.split() for each in cells.split(", ")))
    return Procedure(names, kinds, given)


KIT = {
    "adder": _procedure("x S, y S, z S"),
    "subtracter": _procedure("z S, x S, y S"),
    "multiplier": _procedure("x S, y S, z S", "scale"),
    "divider": _procedure("z S, y S, x S", "scale"),
    "squarer": _procedure("x S, y S"),
    "rooter": _procedure("y S, x S, x S"),
    "lesser": _procedure("x S, y S, t T"),
    "below": _procedure("t T, y S, x S"),
    "above": _procedure("t T, x S, y S"),
    "copier": _procedure("x A, y A"),
    "comparer": _procedure("x A, y A, t T"),
    "parter": _procedure("t T, x A, y A, y A"),
    "passer": _procedure("t T, x A, y A"),
    "inverter": _procedure("x T, y T"),
    "conjoiner": _procedure("x T, y T, z T"),
    "conjoin_back": _procedure("z T, y T, x T"),
    "disjoiner": _procedure("x T, y T, z T"),
    "disjoin_back": _procedure("z T, y T, x T"),
    "imager": _procedure("x From, y To", "relation"),
    "coimager": _procedure("y To, x From", "relation"),
}

PRELUDE = (
    "define sum x y z = adder x y z ; subtracter z x y ; subtracter z y x",
    "define product x y z = multiplier x y z by * ; divider z y x by * ; divider z x y by *",
    "define square x y = squarer x y ; rooter y x x",
    "define less x y t = lesser x y t ; below t y x ; above t x y",
    "define same x y = copier x y ; copier y x",
    "define alike x y t = comparer x y t ; passer t x y ; passer t y x ; parter t x y y"
    " ; parter t y x x",
    "define switch t x y = passer t x y",
    "define conditional t a b o = local n truth ; inverter t n ; passer t a o ; passer n b o",
    "define not x y = inverter x y ; inverter y x",
    "define and x y z = conjoiner x y z ; conjoin_back z y x ; conjoin_back z x y",
    "define or x y z = disjoiner x y z ; disjoin_back z y x ; disjoin_back z x y",
    "define link x y = imager x y by * ; coimager y x by *",
)
