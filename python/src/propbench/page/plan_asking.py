"""What a page asks of a plan, and what comes of it: its schedule, what stands in its way, and the
changes of who works on it."""

from collections.abc import Callable, Mapping
from dataclasses import asdict

from propbench.files import OpenedFile
from propbench.page.asking import CHANGING, ServedNetwork, Stopped, place_in, text_in
from propbench.planning.draft import is_table, lines_of
from propbench.planning.open_plan import OpenPlan
from propbench.planning.seen import (
    cells_by_task,
    chain_seen,
    groups_of,
    says_of,
    schedule_seen,
    trade_seen,
)
from propbench.planning.sheet_files import written
from propbench.questions.asking import Interrupted
from propbench.questions.bounding import Optimum
from propbench.questions.goals import Optima
from propbench.watching import SeenNow
from propbench.watching.of_workbench import WorkbenchWatched

# A question of a page has so many seconds.
_SECONDS = 60.0


class PlanAsking(ServedNetwork):
    """A plan that is served: as any workbench, and by its days too."""

    def __init__(self, plan: OpenPlan, title: str, file: OpenedFile | None) -> None:
        super().__init__(WorkbenchWatched(plan.workbench), title, file)
        self._plan = plan
        # What is written in the file.
        self._saved = plan.draft
        self._changing = CHANGING | {"put", "drop", "undo", "redo", "agree", "give up"}
        # Whether somebody looks at the network: what follows there isn't needed before.
        self._has_network = False
        self._does |= {
            "plan": lambda asked: _unless_stopped(self._planned, asked),
            "why": lambda asked: _unless_stopped(self._why, asked),
            "hinders": lambda asked: _unless_stopped(self._hinders, asked),
            "without": lambda asked: _unless_stopped(self._without, asked),
            "suppose": lambda asked: _unless_stopped(self._suppose, asked),
            "trade": lambda asked: _unless_stopped(self._trade, asked),
            "give up": self._give_up,
            "put": self._put,
            "drop": self._drop,
            "undo": self._undo,
            "redo": self._redo,
            "agree": self._agree,
        }

    def close(self) -> None:
        super().close()
        self._plan.close()

    def file_text(self) -> bytes:
        """The file that it is saved as: the tables of what is written down, by its ending."""
        if self._plan.draft is None or self._file is None:
            return super().file_text()
        return written(self._plan.draft.sheets(), self._file.path)

    def _kept(self) -> list[str]:
        return super()._kept() if self._plan.draft is None else lines_of(self._plan.draft)

    def _is_saved(self) -> bool:
        return super()._is_saved() if self._plan.draft is None else self._plan.draft == self._saved

    def _save(self, asked: Mapping[str, object]) -> dict[str, object]:
        told = super()._save(asked)
        self._saved = self._plan.draft if told["saved"] else self._saved
        return told

    # --- questions ---

    def _look_again(self, asked: Mapping[str, object]) -> dict[str, object]:
        self._has_network, self._seen = True, None
        return self._with_network(self._told())

    def _look(self) -> SeenNow:
        return super()._look() if self._has_network else SeenNow()

    def _planned(self, asked: Mapping[str, object]) -> dict[str, object]:
        """The plan that ends soonest, as far as there is time for it."""
        seconds = asked.get("seconds")
        limit = float(seconds) if isinstance(seconds, int | float) else _SECONDS
        with self._plan.aside():
            return self._best_seen(min(limit, _SECONDS))

    def _best_seen(self, seconds: float) -> dict[str, object]:
        found = self._plan.best(seconds, self._telling)
        project, last = self._plan.project, self._plan.last
        if found is None or project is None:
            return {"empty": True}
        if found.plan is None or last is None:
            says = "There is no plan." if found.proved else "No plan was found yet."
            return {"empty": False, "found": None, "none": found.proved, "says": says}
        return {"empty": False, "found": schedule_seen(project, last, found), "none": False}

    def _why(self, asked: Mapping[str, object]) -> dict[str, object]:
        """The chain, with the room of the other tasks."""
        project = self._plan.project
        if project is None:
            raise ValueError("there is no task as yet")
        with self._plan.aside():
            chain = project.critical(seconds=_SECONDS, progress=self._telling)
        return {
            "says": chain.headline(),
            "chain": [*chain_seen(chain)],
            "rooms": [{"task": task, "days": days} for task, days in chain.rooms.items()],
            "others": list(chain.others),
        }

    def _hinders(self, asked: Mapping[str, object]) -> dict[str, object]:
        """Why there is no plan, and what would help."""
        return asdict(self._plan.hindrances(_SECONDS, self._telling))

    def _without(self, asked: Mapping[str, object]) -> dict[str, object]:
        """What the plan would be without some premises."""
        found = self._plan.without(self._premises(asked), _SECONDS, self._telling)
        return {"says": self._said(found)}

    def _suppose(self, asked: Mapping[str, object]) -> dict[str, object]:
        """What the plan would be if something were otherwise."""
        text = text_in(asked, "text")
        return {"says": self._said(self._plan.supposed(text, _SECONDS, self._telling))}

    def _trade(self, asked: Mapping[str, object]) -> dict[str, object]:
        """What an earlier end costs, in money or in wishes."""
        goal = text_in(asked, "goal")
        if goal not in ("cost", "wishes"):
            raise ValueError(f"no end is traded for {goal!r}")
        traded = self._plan.traded(goal, _SECONDS, self._telling)
        return trade_seen(traded.found, traded.lost)

    def _said(self, found: Optimum | Optima) -> str:
        """A plan that isn't made, in a sentence."""
        project = self._plan.project
        if found.plan is None or project is None:
            return "There would be no plan." if found.proved else "No plan was found in time."
        schedule = project.schedule(found)
        more = schedule.cost - (self._plan.last.cost if self._plan.last else schedule.cost)
        cost = f" It would cost {abs(more)} {'more' if more > 0 else 'less'}." if more else ""
        return f"All would be done {schedule.end_said()}.{cost}"

    # --- changes ---

    def _believe(self, asked: Mapping[str, object]) -> dict[str, object]:
        premise = self._premise(text_in(asked, "premise"))
        self._plan.believe([premise], asked.get("believed") is True)
        return self._changed_told()

    def _give_up(self, asked: Mapping[str, object]) -> dict[str, object]:
        self._plan.believe(self._premises(asked), False)
        return self._changed_told()

    def _apply(self, asked: Mapping[str, object]) -> dict[str, object]:
        return self._give_up(asked)

    def _put(self, asked: Mapping[str, object]) -> dict[str, object]:
        row = asked.get("row")
        if not isinstance(row, dict):
            raise ValueError("a row has texts under its headings")
        place = None if asked.get("place") is None else place_in(asked)
        self._plan.put(self._table(asked), place, row)
        return self._made_anew()

    def _drop(self, asked: Mapping[str, object]) -> dict[str, object]:
        self._plan.drop(self._table(asked), place_in(asked))
        return self._made_anew()

    def _undo(self, asked: Mapping[str, object]) -> dict[str, object]:
        self._plan.undo()
        return self._made_anew()

    def _redo(self, asked: Mapping[str, object]) -> dict[str, object]:
        self._plan.redo()
        return self._made_anew()

    def _agree(self, asked: Mapping[str, object]) -> dict[str, object]:
        self._plan.agree(self._plan.last if asked.get("agreed") is True else None)
        return self._made_anew()

    def _table(self, asked: Mapping[str, object]) -> str:
        name = text_in(asked, "table")
        if not is_table(name):
            raise ValueError(f"a plan has no table {name!r}")
        return name

    def _made_anew(self) -> dict[str, object]:
        """What is seen where the plan may have another workbench."""
        if self._watched.session is not self._plan.workbench.session:
            self._watched = WorkbenchWatched(self._plan.workbench)
        return self._with_network(self._changed_told())

    # --- what is told ---

    def _told(self) -> dict[str, object]:
        plan, project = self._plan, self._plan.project
        tables = {} if plan.draft is None else {k: list(v) for k, v in plan.draft.tables.items()}
        return {
            **super()._told(),
            "plan": {
                "editable": plan.draft is not None,
                "tables": tables,
                "groups": {} if plan.plan is None else groups_of(plan.plan),
                "says": {} if project is None else says_of(project),
                "cells": {} if project is None else cells_by_task(project),
                "undo": plan.undoes,
                "redo": plan.redoes,
                "agreed": project is not None and project.baseline is not None,
            },
        }


def _unless_stopped(
    ask: Callable[[Mapping[str, object]], dict[str, object]], asked: Mapping[str, object]
) -> dict[str, object]:
    """What comes of a question, or that it was stopped: somebody changes the plan meanwhile, and
    asks again then."""
    try:
        return ask(asked)
    except (Stopped, Interrupted):
        return {"stopped": True}
