"""`propdesk plan`: a schedule of a planner's tables, and what stands in its way."""

import os
from collections.abc import Callable, Sequence
from dataclasses import dataclass, field, replace
from pathlib import Path

from propbench.planning.brief import Given
from propbench.outputs import check_ending
from propbench.planning.exports import ENDINGS
from propbench.planning.planner import WeighedProject, best_of, goals_of, plan_of, taking
from propbench.planning.project import Project
from propbench.planning.reading import brief_of
from propbench.planning.schedule import Schedule
from propbench.planning.sheets import sheets_of
from propbench.planning.what_ifs import suppose
from propbench.questions.asking import CellLike
from propbench.questions.bounding import Optimum
from propbench.questions.goals import Optima
from propbench.questions.shown import listed
from propbench.showing import printable, shown
from propbench.workbench import Workbench

# A plan has so many days more where something is to be supposed, by which it may end later.
_SPARE = 400


@dataclass(frozen=True)
class PlanOptions:
    """What is asked of a plan: to give up the cheapest that stands in the way, what to suppose, why
    it ends no sooner, where to write it, how long all that may take, and between which goals to
    trade in its place."""

    given: Given = Given()
    gives_up: bool = False
    what_ifs: Sequence[str] = ()
    why: bool = False
    files: dict[str, str] = field(default_factory=dict)
    seconds: float | None = None
    goals: Sequence[str] = ()


def plan_file(path: str, asked: PlanOptions, program: str | None) -> int:
    """Plans what the tables of a file or a folder want, tells the schedule and writes it; and gives
    the exit status: 1 where there is no plan, or none was found in time. Raises SheetError and
    ValueError for what can't be taken, OSError, NoSheetReader, and as `Workbench` does."""
    for what, file in asked.files.items():
        check_ending(file, ENDINGS[what])
        if asked.goals and what in ("html", "ics"):
            raise ValueError(f"a trade-off is written by --csv and --svg, and not by --{what}")
    folder = path if os.path.isdir(path) else os.path.dirname(path)
    brief = brief_of(sheets_of(path), replace(asked.given, folder=folder))
    if "ics" in asked.files and brief.calendar is None:
        raise ValueError("a calendar needs dates: say when the plan begins, as --start 2026-03-02")
    for name in brief.unread:
        print(f"The sheet {printable(name)} is not read: it is called like none of a plan's.")
    if brief.given_up:
        print(f"Given up already: {printable(listed(brief.given_up))}.")
    with Workbench(program) as w:
        plan = plan_of(w, brief, _SPARE if asked.what_ifs else 0).in_force()
        goals = goals_of(plan, asked.goals)
        best = best_of(plan.project, asked.seconds)
        if best.plan is None:
            if not _is_mended(plan, best, asked):
                return 1
            best = best_of(plan.project, asked.seconds)
            if best.plan is None:
                print(shown(best.headline()))
                return 1
        elif asked.gives_up:
            print("All fits: nothing has to be given up.")
        if goals:
            _trade(plan, goals, asked)
            return 0
        _tell(plan.project, best, Path(path).stem, asked)
        for text in asked.what_ifs:
            _suppose(plan.project, plan.project.schedule(best), text, asked.seconds)
    return 0


def _trade(plan: WeighedProject, goals: Sequence[CellLike], asked: PlanOptions) -> None:
    """Tells what one goal costs the other, and writes it."""
    first, second = goals
    found = plan.project.workbench.trade_off(first, second, seconds=asked.seconds)
    print(shown(str(found)))
    if "wishes" in asked.goals:
        for (one, other), each in zip(found.pairs, found):
            lost = plan.wishes_lost(each.plan or {})
            says = f"without {listed(lost)}" if lost else "with all that is wished for"
            print(shown(f"At {found.cells[0]} {one} and {found.cells[1]} {other}: {says}."))
    writers = {"csv": found.to_csv, "svg": found.to_svg}
    for what, file in asked.files.items():
        writers[what](file)
        print(f"The trade-off is in {printable(file)}.")


def _tell(project: Project, best: Optimum | Optima, title: str, asked: PlanOptions) -> None:
    """Prints the schedule, and writes it."""
    schedule = project.schedule(best)
    print(shown(str(schedule)))
    if not best.proved:
        print("That there is a better plan is not refuted: there was no time.")
    writers: dict[str, Callable[[str], str]] = {
        "html": lambda file: schedule.to_html(file, title),
        "csv": schedule.to_csv,
        "ics": schedule.to_ics,
        "svg": schedule.to_svg,
    }
    if project.baseline is not None:
        print(shown(f"Since what was agreed on: {schedule.since(project.baseline)}"))
    for what, file in asked.files.items():
        writers[what](file)
        print(f"The schedule is in {printable(file)}.")
    if asked.why:
        print(shown(str(project.critical(best, seconds=asked.seconds))))


def _is_mended(plan: WeighedProject, best: Optimum | Optima, asked: PlanOptions) -> bool:
    """Tells what stands in the way; whether the cheapest of what helps is given up then."""
    w, facts = plan.project.workbench, plan.facts
    if not best.proved:
        print(shown(best.headline()))
        return False
    print(shown(str(w.conflicts(keep=facts, seconds=asked.seconds))))
    repairs = w.repairs(plan.weights_of(w.premises), keep=facts, seconds=asked.seconds)
    print(shown(str(repairs)))
    if repairs and (wanted := taking(plan.project, repairs[0])):
        print(shown(f"The first of these takes {listed(wanted)}."))
    if not repairs or not asked.gives_up:
        if repairs:
            print("With --give-up the first of these is given up.")
        return False
    for premise in repairs[0]:
        w.kick(premise)
    print(f"Without {listed(sorted(repairs[0]))}:")
    return True


def _suppose(project: Project, before: Schedule, text: str, seconds: float | None) -> None:
    """Tells what becomes of a schedule where something is otherwise."""
    w = project.workbench
    print(f"\nWhat if {printable(text)}?")
    with w.what_if():
        suppose(project, text)
        best = best_of(project, seconds)
        if best.plan is None:
            print(f"Then there is no plan: {shown(best.headline())}")
            if best.proved:
                print(shown(str(w.conflicts(keep=project.facts, seconds=seconds))))
            return
        behind = project.schedule(best)
    cost = behind.cost - before.cost
    more = f" It costs {abs(cost)} {'more' if cost > 0 else 'less'}." if cost else ""
    print(f"All is done {behind.end_said()}.{more}")
    print(shown(str(behind.since(before))))
