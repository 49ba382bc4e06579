"""Certificates that tell lies, or that are none: how each is made from one that holds.

Each honest one is claims, evidence and a base; each spoilt one is the name of one of these, a path
into it, and what stands there instead.
"""

import copy
import hashlib
import json
from typing import Any

from propbench.questions import Certificate
from propbench.questions.checker import HEAD

# cost is twice price: with Ana and cheap it is 6; evil wants 18, which cheap does not.
BASE = """domain colour red green
cell price span
cell cost span
cell hue colour
cell ok truth
fix price 0..9
fix cost 0..20
attach sum price price cost
tell Ana price 3..9
tell cheap cost 0..6
tell evil cost 18
tell nored hue green
tell noyes ok no""".split(
    "\n"
)
MOST = 10**18
PLAN = {"price": "3", "cost": "6", "hue": "green", "ok": "no"}
OTHER = {"price": "9", "cost": "18", "hue": "green", "ok": "no"}
IN = ["Ana", "cheap", "nored", "noyes"]
EVIDENCE: dict[str, Any] = {
    "mark": "_q0_",
    "basis": [],
    "rooms": {},
    "choices": [],
    "plans": [
        {"in": IN, "values": PLAN},
        {"in": ["Ana", "evil", "nored", "noyes"], "values": OTHER},
    ],
    "trees": [],
}
SETS = {"given": ["Ana", "cheap", "evil"], "keep": [], "told": [], "full": True}
HONEST: dict[str, list[Any]] = {
    "fits": ["fits", {"given": ["Ana"], "told": [["cost", "0..7"], ["hue", "{green red}"]]}],
    "fails": ["fails", {"given": ["Ana"], "told": [["cost", "0..5"]]}],
    "least": [
        "optimum",
        {"given": ["Ana", "cheap"], "sort": "least", "cell": "cost", "value": 6, "bound": 6},
    ],
    "greatest": [
        "optimum",
        {"given": ["Ana", "cheap"], "sort": "greatest", "cell": "cost", "value": 6, "bound": 6},
    ],
    "conflicts": ["conflicts", {**SETS, "sets": [["cheap", "evil"]], "outs": []}],
    "repairs": [
        "conflicts",
        {**SETS, "sets": [["cheap", "evil"]], "outs": [["cheap"], ["evil"]]},
    ],
    "kept": [
        "conflicts",
        {**SETS, "keep": ["cheap"], "sets": [["evil"]], "outs": [["evil"]]},
    ],
    "plans": [
        "plans_are",
        {
            "given": ["Ana", "cheap", "noyes"],
            "show": ["hue", "cost"],
            "plans": [["red", "6"], ["green", "6"]],
            "tree": [
                "hue",
                [
                    [
                        "red",
                        ["cost", [["6", {**PLAN, "hue": "red"}], ["0..5", None], ["7..20", None]]],
                    ],
                    ["green", ["cost", [["6", PLAN], ["0..5", None], ["7..20", None]]]],
                ],
            ],
            "complete": True,
        },
    ],
    "answer": ["answer", {"given": ["Ana"], "told": [], "ask": "ask cost", "said": "cost = 6..18"}],
}
# The rooms that the trees above want, and one tree that is not needed, but holds.
ROOMS = {"cost": "0..18", "price": "0..9"}
TREES = [[[["Ana"], [["cost", "0..5"]]], ["price", [["0..2", None], ["3..9", None]]]]]


def parts(name: str) -> dict[str, Any]:
    """The claims, the evidence and the base of an honest certificate."""
    evidence = {**EVIDENCE, "rooms": ROOMS, "trees": TREES}
    return copy.deepcopy({"claims": [HONEST[name]], "evidence": evidence, "base": BASE})


def certificate(claims: Any, evidence: Any, base: list[str]) -> Certificate:
    """The certificate of these, as if it had been written so."""
    return signed([HEAD, as_json(claims), as_json(evidence), *base])


def as_json(value: Any) -> str:
    """A value as JSON has it; a text that begins with `=` as it is behind that."""
    return value[1:] if isinstance(value, str) and value[:1] == "=" else json.dumps(value)


def signed(lines: list[str]) -> Certificate:
    """A certificate of these lines, as if it had been written so."""
    text = "\n".join(lines).encode("utf-8", "replace")
    return Certificate((*lines, hashlib.sha256(text).hexdigest()))


# What takes away what stands at a path, or puts more behind it.
GONE, MORE = object(), "more"


def spoilt(name: str, changes: dict[str, Any]) -> Certificate:
    """An honest certificate with other values at some paths."""
    made: Any = parts(name)
    for path, value in changes.items():
        *way, last = path.split("/")
        at = made
        for step in way:
            at = at[int(step) if isinstance(at, list) else step]
        if last == MORE:
            at += value if isinstance(value, list) else [value]
        elif value is GONE:
            del at[int(last) if isinstance(at, list) else last]
        else:
            at[int(last) if isinstance(at, list) else last] = value
    return certificate(made["claims"], made["evidence"], made["base"])


_SAYS = "claims/0/1"
_AT = "evidence/plans/0"
_VALUES = f"{_AT}/values"
# Lines that are smuggled in with a comment more in the base, so that replies stand in line.
_COMMENT = {"base/more": "# more"}
SPOILT: list[tuple[str, dict[str, Any]]] = [
    # Lines within strings.
    ("fits", {f"{_SAYS}/told/1/1": "green\n# red"}),
    ("fits", {f"{_VALUES}/hue": "green\n# red"}),
    ("fits", {f"{_AT}/in/0": "Ana\nfix price 8", **_COMMENT}),
    ("fits", {f"{_VALUES}/hue": "green\nkick Ana", **_COMMENT}),
    ("fails", {f"{_SAYS}/given/0": "Ana\nfix price 8", **_COMMENT}),
    ("fails", {f"{_SAYS}/told/0/1": "0..5\nfix price 1", **_COMMENT}),
    ("fails", {f"{_SAYS}/told/0/0": "cost 0..5\n# "}),
    ("least", {f"{_SAYS}/cell": "cost 6\n#"}),
    ("answer", {f"{_SAYS}/ask": "ask cost\nkick Ana", **_COMMENT}),
    ("fits", {"evidence/basis": ["Ana\nfix price 8"], **_COMMENT}),
    ("fits", {"evidence/mark": "_q\nfix price 8\n# "}),
    ("fits", {"evidence/rooms": {"hue": "green\n"}}),
    ("fits", {"evidence/choices": [["hue", "red or green\nfix hue red"]], **_COMMENT}),
    ("fits", {"base/0": "domain colour red green\nfix price 8"}),
    ("fits", {"base/more": "# a comment"}),
    ("fits", {"base/more": ""}),
    ("fits", {"base/more": "   "}),
    ("fits", {"base/more": "\t# a comment"}),
    # Questions that are none, and answers that nobody gave.
    ("answer", {f"{_SAYS}/ask": "tell liar cost 6..18", f"{_SAYS}/said": "ok"}),
    ("answer", {f"{_SAYS}/ask": "kick Ana", f"{_SAYS}/said": "ok"}),
    ("answer", {f"{_SAYS}/ask": "fix cost 18", f"{_SAYS}/said": "ok"}),
    ("answer", {f"{_SAYS}/ask": "limit 0", f"{_SAYS}/said": "ok"}),
    ("answer", {f"{_SAYS}/ask": "settle", f"{_SAYS}/said": "settled"}),
    ("answer", {f"{_SAYS}/ask": "why cost", f"{_SAYS}/said": "cost = 6..18 because Ana"}),
    ("answer", {f"{_SAYS}/ask": "ask nothing", f"{_SAYS}/said": "error 5: not a name"}),
    ("answer", {f"{_SAYS}/ask": "ask zz", f"{_SAYS}/said": "error 9: no such cell"}),
    ("answer", {f"{_SAYS}/ask": "zz", f"{_SAYS}/said": "error 3: unknown command"}),
    ("answer", {f"{_SAYS}/said": "cost = 6..17"}),
    ("answer", {f"{_SAYS}/said": "cost = 6"}),
    ("answer", {f"{_SAYS}/ask": "ask price"}),
    ("answer", {f"{_SAYS}/given": []}),
    ("answer", {"evidence/choices": [["cost", ""]], f"{_SAYS}/said": "cost = 6"}),
    (
        "answer",
        {
            "claims": [
                ["answer", {"given": [], "told": [], "ask": "tell liar cost 18", "said": "ok"}],
                ["fails", {"given": ["cheap"], "told": []}],
            ]
        },
    ),
    # Conflicts and repairs.
    ("conflicts", {f"{_SAYS}/sets": []}),
    ("conflicts", {f"{_SAYS}/sets": [["cheap", "evil"], ["cheap", "evil"]]}),
    ("conflicts", {f"{_SAYS}/sets": [["cheap", "evil"], ["evil", "cheap"]]}),
    ("conflicts", {f"{_SAYS}/sets": [["cheap", "evil", "cheap"]]}),
    ("conflicts", {f"{_SAYS}/sets": [["Ana", "cheap"]]}),
    ("conflicts", {f"{_SAYS}/sets": [["Ana", "cheap", "evil"]]}),
    ("conflicts", {f"{_SAYS}/sets": [[]]}),
    ("conflicts", {f"{_SAYS}/given": ["Ana"]}),
    ("conflicts", {f"{_SAYS}/given": ["Ana", "cheap"], f"{_SAYS}/full": False}),
    ("conflicts", {f"{_SAYS}/given": ["Ana"], f"{_SAYS}/keep": ["evil"], f"{_SAYS}/sets": []}),
    ("conflicts", {f"{_SAYS}/given": ["cheap"], f"{_SAYS}/keep": ["evil"], f"{_SAYS}/sets": []}),
    ("conflicts", {f"{_SAYS}/keep": ["cheap"]}),
    ("repairs", {f"{_SAYS}/outs": [["cheap"]]}),
    ("repairs", {f"{_SAYS}/outs": [["cheap"], ["evil"], ["evil"]]}),
    ("repairs", {f"{_SAYS}/outs": [["cheap"], ["evil"], ["Ana", "evil"]]}),
    ("repairs", {f"{_SAYS}/outs": [["cheap"], ["evil"], ["Ana"]]}),
    ("repairs", {f"{_SAYS}/outs": [["cheap"], ["evil"], []]}),
    ("repairs", {f"{_SAYS}/outs": [["cheap"], ["evil"], ["nored"]]}),
    ("repairs", {f"{_SAYS}/outs": [["cheap", "evil"]], f"{_SAYS}/full": False}),
    ("kept", {f"{_SAYS}/outs": [["cheap"]]}),
    ("kept", {f"{_SAYS}/outs": [["cheap"]], f"{_SAYS}/full": False}),
    ("kept", {f"{_SAYS}/outs": [["cheap", "evil"]], f"{_SAYS}/full": False}),
    ("kept", {f"{_SAYS}/keep": ["noyes"], f"{_SAYS}/sets": [], f"{_SAYS}/outs": []}),
    ("kept", {f"{_SAYS}/sets": [], f"{_SAYS}/outs": [], f"{_SAYS}/full": False}),
    ("kept", {f"{_SAYS}/full": "no"}),
    ("kept", {f"{_SAYS}/full": 1}),
    ("kept", {f"{_SAYS}/full": None}),
    # The best.
    ("least", {f"{_SAYS}/sort": "greatest", f"{_SAYS}/bound": 5}),
    ("least", {f"{_SAYS}/sort": "smallest"}),
    ("greatest", {f"{_SAYS}/sort": "most"}),
    ("greatest", {f"{_SAYS}/sort": "Greatest"}),
    ("least", {f"{_SAYS}/sort": ["least"]}),
    ("least", {f"{_SAYS}/value": 7}),
    ("least", {f"{_SAYS}/bound": 7}),
    ("least", {f"{_SAYS}/value": 18, f"{_SAYS}/bound": 18}),
    ("least", {f"{_SAYS}/value": "6"}),
    ("least", {f"{_SAYS}/value": 6.0}),
    ("least", {f"{_SAYS}/bound": True}),
    ("least", {f"{_SAYS}/bound": None}),
    ("least", {f"{_SAYS}/bound": -MOST}),
    ("least", {f"{_SAYS}/bound": MOST + 2}),
    ("least", {f"{_SAYS}/bound": 10**300}),
    ("greatest", {f"{_SAYS}/bound": 5}),
    ("least", {f"{_SAYS}/cell": "hue"}),
    ("least", {f"{_SAYS}/cell": "zz"}),
    ("least", {f"{_SAYS}/cell": ["cost"]}),
    # Plans.
    ("plans", {f"{_SAYS}/plans/more": ["red", "06"]}),
    ("plans", {f"{_SAYS}/plans/more": ["red", "6..6"]}),
    ("plans", {f"{_SAYS}/plans/0": ["{red}", "6..6"], f"{_SAYS}/plans/more": ["red", "6"]}),
    ("plans", {f"{_SAYS}/plans/more": ["red", "6"]}),
    ("plans", {f"{_SAYS}/plans/1": GONE}),
    ("plans", {f"{_SAYS}/plans/1": ["green", "7"]}),
    ("plans", {f"{_SAYS}/plans/1": ["green"]}),
    ("plans", {f"{_SAYS}/plans/1": ["green", "6", "6"]}),
    ("plans", {f"{_SAYS}/show": ["hue"]}),
    ("plans", {f"{_SAYS}/show": ["hue", "ok"]}),
    ("plans", {f"{_SAYS}/show": ["hue", "zz"]}),
    ("plans", {f"{_SAYS}/given": ["Ana", "noyes"]}),
    ("plans", {f"{_SAYS}/given": ["Ana", "cheap", "noyes", "nored"]}),
    ("plans", {f"{_SAYS}/tree/1/0": GONE, f"{_SAYS}/plans/0": GONE}),
    ("plans", {f"{_SAYS}/tree/1/0/1": None, f"{_SAYS}/plans/0": GONE}),
    ("plans", {f"{_SAYS}/tree/1/0/1": "open", f"{_SAYS}/plans/0": GONE}),
    ("plans", {f"{_SAYS}/tree/1/0/1": "", f"{_SAYS}/plans/0": GONE}),
    ("plans", {f"{_SAYS}/tree/1/0/1": False, f"{_SAYS}/plans/0": GONE}),
    ("plans", {f"{_SAYS}/tree/1/1/0": "red"}),
    ("plans", {f"{_SAYS}/tree/1/1/0": "{green red}"}),
    ("plans", {f"{_SAYS}/tree/0": "ok"}),
    ("plans", {f"{_SAYS}/tree/0": "zz"}),
    ("plans", {f"{_SAYS}/tree/1/1/1/1/0": ["6..20", PLAN], f"{_SAYS}/tree/1/1/1/1/2": GONE}),
    ("plans", {f"{_SAYS}/tree/1/1/1/1/0/1/cost": "6..7"}),
    ("plans", {f"{_SAYS}/tree/1/1/1/1/0/1/hue": "red"}),
    ("plans", {f"{_SAYS}/complete": "no"}),
    ("plans", {f"{_SAYS}/complete": 0}),
    # Plans of the evidence.
    ("fits", {f"{_VALUES}/price": "4"}),
    ("fits", {f"{_VALUES}/cost": "0..7"}),
    ("fits", {f"{_VALUES}/hue": "{green red}"}),
    ("fits", {f"{_VALUES}/ok": GONE}),
    ("fits", {f"{_VALUES}/zz": "3"}),
    ("fits", {f"{_VALUES}/price": 3}),
    ("fits", {f"{_VALUES}/price": "٣"}),
    ("fits", {f"{_VALUES}/price": " 3"}),
    ("fits", {f"{_VALUES}/price": "3 "}),
    ("fits", {f"{_VALUES}/price": "+3"}),
    ("fits", {f"{_VALUES}/price": "3..2"}),
    ("fits", {f"{_VALUES}/price": "nothing"}),
    ("fits", {f"{_VALUES}/hue": "blue"}),
    ("fits", {f"{_VALUES}/hue": "{}"}),
    ("fits", {f"{_VALUES}/hue": "{ green}"}),
    ("fits", {_VALUES: [["price", "3"]]}),
    ("fits", {f"{_AT}/in/more": "evil"}),
    ("fits", {f"{_AT}/in/more": "Ana"}),
    ("fits", {f"{_AT}/in": "Ana"}),
    ("fits", {f"{_AT}/note": "checked by Bob"}),
    ("fits", {"evidence/plans": []}),
    ("fits", {f"{_SAYS}/given": ["Ana", "evil"]}),
    ("fits", {f"{_SAYS}/told/0/1": "7"}),
    # Cases, rooms and choices.
    ("fails", {f"{_SAYS}/told/0/1": "0..6"}),
    ("fails", {f"{_SAYS}/told": []}),
    ("fails", {f"{_SAYS}/told": {"cost": "0..5"}}),
    ("fails", {f"{_SAYS}/told": ["cost"]}),
    ("fails", {f"{_SAYS}/told": ["x3"]}),
    ("fails", {f"{_SAYS}/given": "Ana"}),
    ("fails", {f"{_SAYS}/given": ["Ana", "Ana"]}),
    ("fails", {f"{_SAYS}/given": ["Ana", "Bob"]}),
    ("fails", {f"{_SAYS}/given": []}),
    ("fails", {"evidence/trees/0/1/1/1": GONE}),
    ("fails", {"evidence/trees/0/1/1/1/1": "open"}),
    ("fails", {"evidence/trees/0/1/1/1/1": PLAN}),
    ("fails", {"evidence/trees/0/1/1/0/0": "0..1"}),
    ("fails", {"evidence/trees/0/1/0": "zz"}),
    ("fails", {"evidence/trees/0/1/1": []}),
    ("fails", {"evidence/trees/0/1/1": "03"}),
    ("fails", {f"{_SAYS}/told": [["hue", "red"]], "evidence/rooms": {"hue": "green"}}),
    ("fails", {f"{_SAYS}/told": [], "evidence/choices": [["price", "0 or 1 or 2"]]}),
    ("fails", {f"{_SAYS}/told": [], "evidence/choices": [["price", "0..2 or 0..2"]]}),
    ("fails", {f"{_SAYS}/told": [], "evidence/rooms": {"price": "0..2"}}),
    ("fails", {f"{_SAYS}/told": [], "evidence/rooms": {"ok": "nothing"}}),
    ("fails", {f"{_SAYS}/told": [], "evidence/rooms": {"zz": "3"}}),
    ("fails", {f"{_SAYS}/told": [], "evidence/choices": [["hue", ""]]}),
    ("fails", {f"{_SAYS}/told": [], "evidence/choices": [["hue", None]]}),
    ("fails", {f"{_SAYS}/told": [], "evidence/choices": [["zz", ""]]}),
    ("fits", {"evidence/basis": ["evil"]}),
    ("fits", {"evidence/basis": ["Bob"]}),
    ("fits", {"evidence/mark": ""}),
    ("fits", {"evidence/mark": "co"}),
    ("fits", {"evidence/mark": "_q 0"}),
    ("fits", {"evidence/mark": 3}),
    # Cells that a user doesn't see, for which there is no value.
    ("fits", {"base/more": ["cell _a span", "attach sum _a _a price"]}),
    ("fits", {"base/more": ["cell _a span"]}),
    ("fits", {"base/more": ["define two x = local a ; sum a a x", "attach two price"]}),
    ("fits", {"base/more": ["define t x=local a span;sum a a x", "attach t price"]}),
    ("fits", {"base/more": ["define t x = local a like x ; sum a a x", "attach t price"]}),
    (
        "fits",
        {
            "base/more": ["cell zero span", "fix zero 0", "attach divider cost zero price"],
            "evidence/plans": [{"in": IN, "values": {**PLAN, "zero": "0"}}],
        },
    ),
    (
        "fits",
        {
            "base/more": ["define d z y x=divider z y x", "cell o span", "attach d cost o price"],
            "evidence/plans": [{"in": IN, "values": {**PLAN, "o": "0"}}],
        },
    ),
    (
        "fits",
        {
            "base/more": "cell tag symbol",
            "evidence/rooms": {"tag": "nothing"},
            "evidence/plans": [],
            _SAYS: {
                "given": [],
                "show": ["tag"],
                "plans": [["a"]],
                "tree": {"price": "3", "cost": "6", "hue": "red", "ok": "no", "tag": "a"},
                "complete": True,
            },
            "claims/0/0": "plans_are",
        },
    ),
    # What is no certificate.
    ("fits", {"claims": []}),
    ("fits", {"claims": {}}),
    ("fits", {"claims": None}),
    ("fits", {"claims/0/0": "check"}),
    ("fits", {"claims/0/0": "__init__"}),
    ("fits", {"claims/0/0": "believe"}),
    ("fits", {"claims/0/0": ["fits"]}),
    ("fits", {"claims/0/1": []}),
    ("fits", {"claims/0/1": None}),
    ("fits", {"claims/0/more": {}}),
    ("fits", {f"{_SAYS}/told": GONE}),
    ("fits", {f"{_SAYS}/note": "checked by Bob"}),
    ("fits", {f"{_SAYS}/self": 3}),
    ("fits", {"evidence": []}),
    ("fits", {"evidence": None}),
    ("fits", {"evidence/plans": GONE}),
    ("fits", {"evidence/note": "checked by Bob"}),
    ("fits", {"claims": "=" + "[" * 100_000}),
    ("fits", {"claims": "=" + "[" * 100_000 + "]" * 100_000}),
    ("fits", {"evidence": "=" + '{"mark":' * 5000 + "3" + "}" * 5000}),
    ("fits", {"claims": "="}),
    ("fits", {"claims": "=[NaN]"}),
    ("fits", {"claims": "=[Infinity]"}),
    ("fits", {"claims": "=" + "9" * 10_000}),
    ("fits", {"claims": '=["fits"'}),
    ("least", {f"{_SAYS}/value": float("nan")}),
    ("least", {f"{_SAYS}/value": float("inf")}),
    ("fits", {f"{_SAYS}/given/0": "\ud800"}),
    ("fits", {"base/more": "tell \ud800 cost 3"}),
    ("fits", {"base": []}),
    ("fits", {"base/more": "ask cost"}),
    ("fits", {"base/more": "limit 0"}),
    ("fits", {"base/more": "fix cost 18"}),
    ("fits", {"base/more": "go on"}),
]
