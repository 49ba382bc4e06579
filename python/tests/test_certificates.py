"""Certificates check, and no spoilt one does."""

import copy
import hashlib
import json
import subprocess
import sys
from pathlib import Path
from typing import Any

import pytest
from drawn_models import model_lines
from conftest import PROGRAMS, TIMES
from hypothesis import given, settings
from hypothesis import strategies as st
from lines_model import LineModel
from modelling import Recipe, bench, built, truths

from propbench import Session, Workbench
from propbench.desk import main
from propbench.questions import Certificate, CertificateError, Plan
from propbench.questions import checker as checker_file
from propbench.questions import completing

# Three wishes of which two fit, and a sum that nobody can choose: day + length == end.
WISHES = """cell day span
cell length span
cell end span
fix day 0..40
fix length 3..9
fix end 0..60
attach sum day length end
cell early truth
cell ten span
fix ten 10
attach less end ten early
tell late day 5..40
tell long length 7..9
tell soon end 0..11
tell morning early yes""".split(
    "\n"
)


def certificates(model: LineModel) -> dict[str, Certificate]:
    """A certificate of each sort."""
    found = {"conflicts": model.conflicts().certificate, "repairs": model.repairs().certificate}
    model.send("kick long", "kick morning")
    found |= {
        "least": model.least("end").certificate,
        "greatest": model.greatest("day").certificate,
        "critical": model.critical("end").certificate,
        "slack": model.slack("day").certificate,
        "plans": model.plans(["day", "length"]).certificate,
        "plans of truths": model.plans(["early"]).certificate,
    }
    return found


@pytest.fixture(scope="module")
def found(program: str) -> dict[str, Certificate]:
    with Session() as session:
        return certificates(LineModel(session, WISHES))


def signed(lines: list[str]) -> Certificate:
    """A certificate of these lines, as if it had been written so."""
    return Certificate((*lines, hashlib.sha256("\n".join(lines).encode()).hexdigest()))


def spoilt(certificate: Certificate, claims: Any = None, evidence: Any = None) -> Certificate:
    """The same with other claims or another evidence."""
    head, said, shown, *base = certificate.lines[:-1]
    told = said if claims is None else json.dumps(claims)
    return signed([head, told, shown if evidence is None else json.dumps(evidence), *base])


def parts(certificate: Certificate) -> tuple[list[Any], dict[str, Any]]:
    """The claims and the evidence."""
    return json.loads(certificate.lines[1]), json.loads(certificate.lines[2])


def refused(certificate: Certificate) -> None:
    with pytest.raises(CertificateError):
        certificate.check()


def test_each_checks(found: dict[str, Certificate], tmp_path: Path) -> None:
    for name, certificate in found.items():
        assert certificate.check() is True, name
        path = tmp_path / "claim"
        certificate.save(path)
        assert path.read_text().split("\n")[:-1] == list(certificate.lines)
        assert main(["check", str(path)]) == 0


def test_the_checker_reads_nothing_else(found: dict[str, Certificate], tmp_path: Path) -> None:
    with open(checker_file.__file__, encoding="utf-8") as file:
        text = file.read()
    assert sum(map(bool, text.split("\n"))) < 300 and "propbench." not in text
    found["least"].save(tmp_path / "claim")
    (tmp_path / "alone.py").write_text(text)
    with Session() as session:
        program = session.program
    words = [sys.executable, "-I", str(tmp_path / "alone.py"), str(tmp_path / "claim"), program]
    assert subprocess.run(words, capture_output=True, text=True).stdout == "True\n"


def test_a_changed_line_shows(found: dict[str, Certificate], tmp_path: Path) -> None:
    for name, certificate in found.items():
        for number in range(len(certificate.lines)):
            for changed in ("", certificate.lines[number].replace("0", "1") + " "):
                lines = [*certificate.lines[:number], changed, *certificate.lines[number + 1 :]]
                refused(Certificate(tuple(lines)))
            refused(Certificate((*certificate.lines[:number], *certificate.lines[number + 1 :])))
    path = tmp_path / "claim"
    text = "\n".join(found["least"].lines) + "\n"
    for spoiled in (text.replace("cell", "sell"), text[1:], text.partition("\n")[2], text[:-2]):
        path.write_text(spoiled)
        assert main(["check", str(path)]) == 1


def test_another_network_shows(found: dict[str, Certificate], tmp_path: Path) -> None:
    certificate = found["least"]
    assert certificate.check(base=["# a comment", *certificate.base])
    with pytest.raises(CertificateError, match="another network; gone since then: cell day span$"):
        certificate.check(base=certificate.base[1:])
    with pytest.raises(CertificateError, match="another network; since then: kick late$"):
        certificate.check(base=[*certificate.base, "kick late"])
    with pytest.raises(CertificateError, match="its lines stand in another order$"):
        certificate.check(base=[*certificate.base[1:], certificate.base[0]])
    (tmp_path / "saved").write_text("\n".join(["#: a note", *certificate.base, ""]))
    certificate.save(tmp_path / "claim")
    assert certificate.check(base=tmp_path / "saved")
    words = ["check", str(tmp_path / "claim"), "--base", str(tmp_path / "saved")]
    assert main(words) == 0
    (tmp_path / "saved").write_text("\n".join(certificate.base[1:]))
    assert main(words) == 1
    lines = [line.replace("fix length 3", "fix length 2") for line in certificate.lines[:-1]]
    refused(signed(lines))


def test_conflicts_with_a_premise_more_or_less(found: dict[str, Certificate]) -> None:
    claims, _ = parts(found["conflicts"])
    sets = claims[0][1]["sets"]
    for number, names in enumerate(sets):
        for other in [names[1:], names[:-1], sorted({*names, "late", "long", "soon", "morning"})]:
            if other in sets:
                continue
            changed = copy.deepcopy(claims)
            changed[0][1]["sets"][number] = other
            refused(spoilt(found["conflicts"], changed))
        changed = copy.deepcopy(claims)
        del changed[0][1]["sets"][number]
        refused(spoilt(found["conflicts"], changed))


def test_repairs_with_a_premise_more_or_less(found: dict[str, Certificate]) -> None:
    claims, _ = parts(found["repairs"])
    outs = claims[0][1]["outs"]
    for number, names in enumerate(outs):
        for other in [names[1:], sorted({*names, "late", "long", "soon", "morning"})]:
            changed = copy.deepcopy(claims)
            changed[0][1]["outs"][number] = other
            if other != names:
                refused(spoilt(found["repairs"], changed))
        changed = copy.deepcopy(claims)
        del changed[0][1]["outs"][number]
        refused(spoilt(found["repairs"], changed))


def test_another_optimum(found: dict[str, Certificate]) -> None:
    for name in ("least", "greatest", "slack"):
        claims, _ = parts(found[name])
        if claims[0][0] == "best":
            another_best(found[name], claims)
            continue
        for by in (-1, 1):
            for keys in (["value"], ["bound"], ["value", "bound"]):
                changed = copy.deepcopy(claims)
                for key in keys:
                    changed[0][1][key] += by
                weaker = keys == ["bound"] and by == (-1 if claims[0][1]["sort"] == "least" else 1)
                if not weaker:
                    refused(spoilt(found[name], changed))


def another_best(certificate: Certificate, claims: list[Any]) -> None:
    """What a program that searches has found, with another value or fewer premises, doesn't
    hold."""
    for by in (-1, 1):
        changed = copy.deepcopy(claims)
        changed[0][1]["value"] += by
        refused(spoilt(certificate, changed))
    changed = copy.deepcopy(claims)
    changed[0][1]["because"] = []
    refused(spoilt(certificate, changed))
    changed = copy.deepcopy(claims)
    changed[0][1]["sort"] = {"least": "greatest", "greatest": "least"}[claims[0][1]["sort"]]
    refused(spoilt(certificate, changed))
    changed[0][1] = {**claims[0][1], "cell": "length"}
    refused(spoilt(certificate, changed))
    changed[0][1] = {**claims[0][1], "because": ["morning"]}
    refused(spoilt(certificate, changed))


def test_what_is_listed_spoilt(wide: str) -> None:
    with Session(wide) as session:
        model = LineModel(session, WISHES)
        model.send("kick long", "kick morning", "kick soon", "tell few day 0..7")
        certificate = model.plans(["day"]).certificate
    assert certificate.check(wide)
    claims, _ = parts(certificate)
    [[sort, claim]] = claims
    assert sort == "listed" and len(claim["plans"]) == 3 and len(claim["because"]) == 2
    less, other = claim["plans"][1:], [*claim["plans"][1:], ["9"]]
    open_ = [*claim["plans"][1:], ["5..6"]]
    for changed in (
        {"plans": less},
        {"plans": other},
        {"plans": open_},
        {"plans": [*claim["plans"], claim["plans"][0]]},
        {"plans": other, "because": None},
        {"plans": [], "because": None},
        {"because": claim["because"][1:]},
        {"because": ["long"]},
        {"show": ["length"]},
        {"show": []},
        {"show": ["day", "day"]},
        {"given": ["late"]},
    ):
        with pytest.raises(CertificateError):
            spoilt(certificate, [[sort, {**claim, **changed}]]).check(wide)
    assert spoilt(certificate, [[sort, {**claim, "plans": less, "because": None}]]).check(wide)


def test_what_is_refuted_spoilt(wide: str) -> None:
    """Three that differ, each of two values: no run alone finds that out."""
    lines = ["cell t truth", "fix t no", *(f"cell {cell} span" for cell in "xyz")]
    lines += [*(f"fix {cell} 0..9" for cell in "xyz"), "attach alike x y t", "attach alike y z t"]
    lines += ["attach alike x z t", "tell a x 1..2", "tell b y 1..2", "tell c z 1..2"]
    with Session(wide) as session:
        found = LineModel(session, lines).least("x")
    assert found.value is None and found.proved and found.because == ("a", "b", "c")
    assert json.loads(found.certificate.lines[1]) == [["refuted", {"given": ["a", "b", "c"]}]]
    assert found.certificate.check(wide)
    for given in (["a", "b"], ["a", "b", "d"], [], None):
        with pytest.raises(CertificateError):
            spoilt(found.certificate, [["refuted", {"given": given}]]).check(wide)


def test_plans_spoilt(found: dict[str, Certificate]) -> None:
    claims, evidence = parts(found["plans"])
    changed = copy.deepcopy(claims)
    del changed[0][1]["plans"][0]
    refused(spoilt(found["plans"], changed))
    changed = copy.deepcopy(claims)
    changed[0][1]["plans"][0][0] = "40"
    refused(spoilt(found["plans"], changed))
    if claims[0][0] == "listed":
        return
    tree = claims[0][1]["tree"]
    for number in range(len(tree[1])):
        changed = copy.deepcopy(claims)
        del changed[0][1]["tree"][1][number]
        refused(spoilt(found["plans"], changed))
    changed = copy.deepcopy(claims)
    changed[0][1]["tree"][1][0][1] = "open"
    refused(spoilt(found["plans"], changed))
    narrower = copy.deepcopy(evidence)
    narrower["rooms"]["day"] = "0..1"
    refused(spoilt(found["plans"], evidence=narrower))


def test_plans_of_the_evidence_spoilt(found: dict[str, Certificate]) -> None:
    for name in ("conflicts", "repairs", "least", "critical"):
        _, evidence = parts(found[name])
        assert evidence["plans"]
        for plan in range(len(evidence["plans"])):
            for cell in evidence["plans"][plan]["values"]:
                changed = copy.deepcopy(evidence)
                del changed["plans"][plan]["values"][cell]
                refused(spoilt(found[name], evidence=changed))
            changed = copy.deepcopy(evidence)
            changed["plans"][plan]["values"]["end"] = "59"
            refused(spoilt(found[name], evidence=changed))
            changed["plans"][plan]["values"]["end"] = "0..60"
            refused(spoilt(found[name], evidence=changed))


def test_a_choice_that_leaves_out_a_value(found: dict[str, Certificate]) -> None:
    """Plans exist with the value that the choice leaves out: so the claim would be a lie."""
    claims = [["fails", {"given": ["late", "long"], "told": [["end", "0..12"]]}]]
    evidence: dict[str, object] = {"basis": [], "mark": "_q", "plans": [], "trees": []}
    evidence |= {"rooms": {"length": "3..9"}, "choices": [["length", "3 or 4 or 5"]]}
    lines = [found["least"].lines[0], json.dumps(claims), json.dumps(evidence), *WISHES]
    refused(signed(lines))


def meeting() -> Workbench:
    """Wishes for a meeting, of which not all fit; what is wished is worked out in inner cells."""
    w = Workbench()
    days, price, cost = (
        w.number("days", 1, 30),
        w.number("price", 0, 9000),
        w.number("cost", 0, 20000),
    )
    w.require(cost == price * days)
    w.tell("Ana", days, 4, 10)
    w.require(cost + days <= 2500, under="cheap")
    w.require((price >= 500) & (price % 7 == 3), under="comfort")
    w.require((cost // days > 700) | (cost < 10), under="odd")
    return w


def test_plans_that_give_up_a_premise() -> None:
    """What belongs to a premise that is given up is open: a certificate shows values for it too."""
    with meeting() as w:
        for found in (w.repairs(), w.conflicts()):
            certificate = found.certificate
            assert certificate.check()
            _, evidence = parts(certificate)
            inner = [
                cell for plan in evidence["plans"] for cell in plan["values"] if cell[0] == "_"
            ]
            assert inner
            for plan in evidence["plans"]:
                for cell in [cell for cell in plan["values"] if cell[0] == "_"]:
                    del plan["values"][cell]
            refused(spoilt(certificate, evidence=evidence))


def test_a_plan_that_cannot_be_made_whole(monkeypatch: pytest.MonkeyPatch) -> None:
    monkeypatch.setattr(completing, "_TRIES", 0)
    monkeypatch.setattr(completing, "_HANDS_ON", ())
    with meeting() as w:
        found = w.repairs()
        assert found.complete and found
        if w.session.blames:
            # (it tells a plan with all these cells)
            assert found.certificate.check()
            return
        with pytest.raises(ValueError, match="a plan leaves open cells that you never see"):
            found.certificate


@settings(max_examples=12 * TIMES)
@given(st.lists(truths, min_size=2, max_size=4))
def test_random_wishes(program: str, recipes: list[Recipe]) -> None:
    """A certificate that the package makes holds. (Of a wish that contradicts itself it may be that
    it makes none: what is worked out for it alone has no values then.)"""
    made = bench(program)
    with made.workbench as w:
        for number, each in enumerate(recipes):
            w.require(built(each, made.cells), under=f"w{number}")
        for found in (w.conflicts(), w.repairs()):
            try:
                certificate = found.certificate
            except ValueError as error:
                assert "no values were found" in str(error)
                continue
            assert certificate.check(program)


def save_claims(tmp_path: Path) -> None:
    """Claims and bases as the page has them: with the hotel at 900 or the university at 300 a
    day."""
    with Workbench() as w:
        days, price, cost = (w.number(name, 0, 9000) for name in ("days", "price", "cost"))
        w.choose("venue", {"hotel": [price == 900], "uni": [price == 300]})
        w.require(cost == price * days)
        w.tell("Ana", days, 4, 10)
        w.require(cost <= 2500, under="cheap")
        w.require(price >= 500, under="comfort")
        w.save(tmp_path / "all.prop")
        w.repairs().certificate.save(tmp_path / "repairs.claim")
        w.kick("comfort")
        w.save(tmp_path / "plan.prop")
        w.least(cost).certificate.save(tmp_path / "least.claim")
        w.plans([days, price]).certificate.save(tmp_path / "plans.claim")
        table = w.scenarios({"Ben": dict(tell=[("Ben", days, 7, 9)])}, [cost])
        table.certificate.save(tmp_path / "table.claim")
        (tmp_path / "none.prop").write_text("")


def test_what_is_claimed_is_told_in_words(
    tmp_path: Path, capsys: pytest.CaptureFixture[str]
) -> None:
    save_claims(tmp_path)

    def told(name: str, base: str | None = None) -> list[str]:
        words = ["check", str(tmp_path / f"{name}.claim")]
        status = main(words + (["--base", str(tmp_path / f"{base}.prop")] if base else []))
        out = capsys.readouterr().out.split("\n")
        assert status == (0 if "certificate holds" in out[0] else 1)
        return out

    assert told("least", "plan")[1] == (
        "- With Ana and cheap, cost is at least 1200, with this plan: days = 4, price = 300, "
        "cost = 1200."
    )
    assert told("repairs", "all")[1:4] == [
        "- Ana, cheap and comfort can't all hold, but without any one of them.",
        "- There is no other minimal conflict among Ana, cheap and comfort.",
        "- The rest of Ana, cheap and comfort fits without Ana; or cheap; or comfort, and in no "
        "other minimal way.",
    ]
    assert told("plans", "plan")[1].startswith(
        "- With Ana and cheap, there are these 5 plans over days and price, no others: days = 4, "
        "price = 300; days = 5,"
    )
    assert told("table", "plan")[1] == (
        "- With Ana and cheap, the program is asked where days = 7..9, "
        "and answers cost = 2100..2400."
    )
    assert any("--base FILE compares" in line for line in told("least"))
    assert told("least", "all")[0] == (
        "The certificate doesn't hold: it is of another network; gone since then: kick comfort"
    )
    assert "gone since then: cell _yes truth, " in told("least", "none")[0]


def test_a_certificate_is_read_again(tmp_path: Path) -> None:
    save_claims(tmp_path)
    for name, base in (("least", "plan"), ("repairs", "all"), ("table", "plan")):
        read = Certificate.load(tmp_path / f"{name}.claim")
        written = (tmp_path / f"{name}.claim").read_text(encoding="utf-8")
        assert "".join(f"{line}\n" for line in read.lines) == written
        assert read.check(base=tmp_path / f"{base}.prop")
        with pytest.raises(CertificateError, match="another network"):
            read.check(base=tmp_path / "none.prop")
    with pytest.raises(CertificateError, match="not as it was written"):
        Certificate.load(tmp_path / "plan.prop").check()
    with pytest.raises(OSError):
        Certificate.load(tmp_path / "no.claim")
    with pytest.raises(TypeError, match=r"Certificate.load\('least.claim'\) reads a file"):
        Certificate("least.claim")


def test_what_a_program_lacks_is_said(
    wide: str, tmp_path: Path, capsys: pytest.CaptureFixture[str]
) -> None:
    """A certificate of propwide, shown to propbench, which has no line `least`."""
    with Workbench(wide) as w:
        x = w.number("x", 0, 9)
        w.require(x * x >= 5)
        w.least(x).certificate.save(tmp_path / "least.claim")
    words, says = ["check", str(tmp_path / "least.claim"), "--program"], "This program is not"
    assert main([*words, wide]) == 0 and says not in capsys.readouterr().out
    assert main([*words, PROGRAMS["propbench"]]) == 1 and says in capsys.readouterr().out


def test_what_is_no_certificate_is_told_in_words(
    tmp_path: Path, capsys: pytest.CaptureFixture[str]
) -> None:
    for second in ("[" * 100_000, "[" * 100_000 + "]" * 100_000, "[NaN]", "9" * 9999, "", "\udcff"):
        lines = [checker_file.HEAD, second, "{}", "cell x span"]
        text = "\n".join(lines).encode("utf-8", "surrogateescape")
        path = tmp_path / "claim"
        path.write_bytes(text + b"\n" + hashlib.sha256(text).hexdigest().encode() + b"\n")
        assert main(["check", str(path)]) == 1
        out = capsys.readouterr().out
        assert out.startswith("The certificate doesn't hold: ") and "Error" not in out


@settings(max_examples=30 * TIMES)
@given(model_lines(), st.data())
def test_random_values_spoilt(lines: list[str], data: st.DataObject) -> None:
    """A plan of a random model with another value checks just where that is a plan too."""
    with Session() as session:
        model = LineModel(session, lines)
        plan: Plan | None = next(model.all_plans(model.believed()), None)
        if plan is None:
            return
        values = {cell: model.literal(cell, point) for cell, point in plan.items()}
        cell = data.draw(st.sampled_from(model.cells()))
        room = model.candidates(cell) or ()
        other = data.draw(st.sampled_from([str(value) for value in room]))
        changed: Plan = {**plan, cell: model.point(cell, other)}
        evidence = {"in": model.believed(), "values": {**values, cell: other}}
        shown = {"basis": [], "mark": "_q", "plans": [evidence], "trees": [], "rooms": {}}
        claims = [["fits", {"given": model.believed(), "told": [[cell, other]]}]]
        said = [checker_file.HEAD, json.dumps(claims), json.dumps({**shown, "choices": []})]
        certificate = signed([*said, *model.base()])
        if model.violated(changed, model.believed()) is None:
            assert certificate.check()
        elif not any(line.endswith("by 2") for line in lines):
            refused(certificate)
