"""The claims of a certificate in words, as `propdesk check` tells them once they are checked.

Cells and premises are called as on the lines of the network.
"""

import json
from collections.abc import Mapping, Sequence
from typing import Any  # (what JSON gives: the checker has looked at its form)

from propbench.questions.shown import listed
from propbench.words import MOST_NUMBER, ends_of

# So many names, cells of a plan, and plans are told at the most.
_NAMES, _CELLS, _PLANS = 12, 16, 20
# How it was checked that nothing else fits, where the program searches for plans itself.
_ANEW = "is what the program finds, asked anew: proved of it, and not looked at here."


def claims_in(lines: Sequence[str]) -> list[str]:
    """A sentence or more for each claim of a certificate that the checker has found to hold."""
    plans = json.loads(lines[2])["plans"]
    return [said for sort, claim in json.loads(lines[1]) for said in _TELLS[sort](claim, plans)]


def _fits(claim: Any, plans: Any) -> list[str]:
    told, given = claim["told"], claim["given"]
    return [f"{_with(given)} it fits{_where(told)}, {_plan(plans, given, told)}"]


def _fails(claim: Any, plans: Any) -> list[str]:
    return [f"{_with(claim['given'])} nothing fits{_where(claim['told'])}."]


def _optimum(claim: Any, plans: Any) -> list[str]:
    cell, value, bound = (claim[key] for key in ("cell", "value", "bound"))
    than = "at least" if claim["sort"] == "least" else "at most"
    is_best = "" if value == bound else f"can be {value}, "
    plan = _plan(plans, claim["given"], [[cell, str(value)]])
    return [f"{_with(claim['given'])} {cell} is {than} {bound}, {is_best}{plan}"]


def _best(claim: Any, plans: Any) -> list[str]:
    """The best value, with its plan, and what the rest hangs on."""
    cell, value, by = (claim[key] for key in ("cell", "value", "because"))
    than, beyond = ("at least", "less") if claim["sort"] == "least" else ("at most", "more")
    plan = _plan(plans, claim["given"], [[cell, str(value)]])
    said = f"{_with(claim['given'])} {cell} is {than} {value}, {plan}"
    return [said, f"That it can't be {beyond}, by {_some(by)}, {_ANEW}"]


def _refuted(claim: Any, plans: Any) -> list[str]:
    return [f"{_with(claim['given'])} nothing fits. That {_ANEW}"]


def _listed(claim: Any, plans: Any) -> list[str]:
    """Plans, and what the rest hangs on."""
    said = _plans_are({**claim, "complete": claim["because"] is not None}, plans)
    return [*said, f"That these fit{_no_others(claim['because'])}, {_ANEW}"]


def _no_others(by: Sequence[str] | None) -> str:
    return "" if by is None else f", and no others, by {_some(by)}"


def _conflicts(claim: Any, plans: Any) -> list[str]:
    """What can't hold, what to give up, and whether that is all."""
    given, sets, outs = (claim[key] for key in ("given", "sets", "outs"))
    beside = f", beside {_some(claim['keep'])}," if claim["keep"] else ""
    where = _where(claim["told"])
    said = [f"{_not_all(names, beside)}{where}{_least(names)}." for names in sets]
    if claim["full"] and not sets:
        said.append(f"{_with(given)} it fits{where}.")
    elif claim["full"]:
        said.append(f"There is no other minimal conflict among {_some(given)}{where}.")
    if outs:
        ways = "; or ".join(_some(names) if names else "nothing" for names in outs)
        others = ", and in no other minimal way" if claim["full"] else ""
        said.append(f"The rest of {_some(given)} fits{where} without {ways}{others}.")
    return said


def _not_all(names: Sequence[str], beside: str) -> str:
    if not names:
        return f"What always holds can't hold{beside}".removesuffix(",")
    can = {1: "can't hold", 2: "can't both hold"}.get(len(names), "can't all hold")
    return f"{_some(names)} {can}{beside}".removesuffix(",")


def _least(names: Sequence[str]) -> str:
    return ", but without any one of them" if len(names) > 1 else ""


def _plans_are(claim: Any, plans: Any) -> list[str]:
    show, found = claim["show"], claim["plans"]
    rows = [", ".join(f"{cell} = {value}" for cell, value in zip(show, plan)) for plan in found]
    told = "; ".join(rows[:_PLANS]) + (f"; and {len(rows) - _PLANS} more" * (len(rows) > _PLANS))
    if not claim["complete"]:
        return [f"{_with(claim['given'])} there are such plans, and maybe others: {told}."]
    if not found:
        return [f"{_with(claim['given'])} nothing fits."]
    number = "is this plan" if len(rows) == 1 else f"are these {len(rows)} plans"
    return [f"{_with(claim['given'])} there {number} over {_some(show)}, no others: {told}."]


def _answer(claim: Any, plans: Any) -> list[str]:
    told = _where(claim["told"])
    return [f"{_with(claim['given'])} the program is asked{told}, and answers {claim['said']}."]


_TELLS = {
    "fits": _fits,
    "fails": _fails,
    "optimum": _optimum,
    "conflicts": _conflicts,
    "plans_are": _plans_are,
    "answer": _answer,
    "best": _best,
    "refuted": _refuted,
    "listed": _listed,
}


def _some(names: Sequence[str]) -> str:
    """Names in a sentence, not all where they are many."""
    if len(names) <= _NAMES:
        return listed(names) or "no premise"
    return f"{', '.join(names[:_NAMES])} and {len(names) - _NAMES} more"


def _with(given: Sequence[str]) -> str:
    return f"With {_some(given)}," if given else "Whatever is believed,"


def _where(told: Sequence[Sequence[str]]) -> str:
    return f" where {listed([_said(*pair) for pair in told])}" if told else ""


def _said(cell: str, text: str) -> str:
    low, _, high = text.partition("..")
    if low == str(-MOST_NUMBER) and high:
        return f"{cell} is at most {high}"
    if high == str(MOST_NUMBER):
        return f"{cell} is at least {low}"
    return f"{cell} = {text}"


def _plan(plans: Any, given: Sequence[str], told: Sequence[Sequence[str]]) -> str:
    """The first plan of an evidence that has these premises, and values among those told."""
    fits = (
        plan["values"]
        for plan in plans
        if set(given) <= set(plan["in"])
        and all(_is_within(plan["values"][cell], text) for cell, text in told)
    )
    cells = [f"{cell} = {value}" for cell, value in next(fits).items() if cell[0] != "_"]
    more = [f"and {len(cells) - _CELLS} more"] if len(cells) > _CELLS else []
    return f"with this plan: {', '.join([*cells[:_CELLS], *more])}."


def _is_within(value: str, text: str) -> bool:
    one, ends = ends_of(value), ends_of(text)
    if one is None or ends is None:
        return value in text.strip("{}").split()
    return ends[0] <= one[0] <= ends[1]
