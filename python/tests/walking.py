"""A walk of calls over a workbench, with its project and its what-ifs, beside what stands of them.

After each call what can be seen has to be what stands, and what is refused has to be what the plain
model says. Questions are held to a workbench that is made afresh, and to trying all points.
"""

from collections.abc import Callable, Iterator, Mapping, Sequence
from contextlib import AbstractContextManager
from pathlib import Path
from tempfile import TemporaryDirectory
from typing import Any

from holding import Held, alternative, begun, fresh, given, law_of, say, told_in
from modelling import Recipe, built
from propbench import Workbench
from propbench.measuring.quantities import Quantity
from propbench.model.cells import ElementCell
from propbench.planning import Project, Task
from standing import Call, Said, Standing, Values
from trying import Tried


class Walk:
    """A workbench under way, and what stands."""

    def __init__(self, program: str) -> None:
        self.program = program
        self.w = begun(program)
        self.standing = Standing()
        self.project: Project | None = None
        self._inside: list[tuple[AbstractContextManager[object], Project | None]] = []
        self._gone: dict[str, Any] = {}
        self._gone_tasks: dict[str, Task] = {}
        # What is known of what stands: the workbench made afresh, and what fits.
        self._fresh: Workbench | None = None
        self._tried: Tried | None = None

    def close(self) -> None:
        """Ends what-ifs that are under way, and the program."""
        while self._inside:
            self._inside.pop()[0].__exit__(None, None, None)
        self.w.close()
        self._stand(self.standing)

    def _stand(self, standing: Standing) -> None:
        """Takes in what stands."""
        if self._fresh is not None:
            self._fresh.close()
        self.standing, self._fresh, self._tried = standing, None, None

    def call(self, call: Call) -> None:
        """Carries out a call, or has it refused."""
        name, *given_to = call
        if name in _ASKS:
            _ASKS[name](self.held(self.w), *given_to)
            return
        wanted = self.standing.after(call)
        try:
            _DOES[name](self, *given_to)
        except (ValueError, TypeError) as refused:
            if wanted is not None:
                raise AssertionError("refused, though nothing is wrong") from refused
        else:
            assert wanted is not None, "not refused, though something is wrong"
            self._stand(wanted)
        self.look()

    def held(self, w: Workbench) -> Held:
        """A workbench with what stands, to be held to that."""
        if self._fresh is None:
            self._fresh = fresh(self.program, self.standing)
            self._tried = Tried(self.standing, self.standing.believed)
        assert self._tried is not None
        return Held(w, self._fresh, self.standing, self._tried)

    def look(self) -> None:
        """Holds what can be seen without a question to what stands."""
        w, standing = self.w, self.standing
        assert w.premises == tuple(standing.premises)
        assert w.believed == tuple(standing.believed)
        cells = [cell.name for cell in w.cells if not cell.name.endswith(".sqrt()")]
        assert cells == list(standing.cells)
        if self.project is not None:
            assert standing.project is not None
            assert list(self.project.tasks) == list(standing.project.tasks)
            assert self.project.facts == standing.project.facts

    # --- what is called ---

    def number(self, name: str, low: int, high: int) -> None:
        self.w.number(name, low, high)

    def truth(self, name: str) -> None:
        self.w.truth(name)

    def element(self, name: str) -> None:
        self.w.element(name, self.w.network.domains["day"])

    def measured(self, name: str, low: Any, high: Any) -> None:
        self.w.measured(name, low=low, high=high, step=1)

    def require(self, premise: str | None, recipe: Recipe) -> None:
        self.w.require(built(recipe, _Cells(self.w)), premise)

    def law(self, premise: str | None, *law: Any) -> None:
        self.w.law(law_of(("law", *law), _Cells(self.w)), premise)

    def tell(self, premise: str | None, of: str, values: Values) -> None:
        cell = self.w.cell(of)
        say(self.w, Said(premise, ("told", ("cell", of), values)), self.standing.cells)

    def read(self, premise: str, of: str, low: Any, high: Any) -> None:
        self.w.read(premise, self.w.cell(of), (low, high))  # type: ignore[arg-type]

    def choose(self, name: str, sides: Sequence[tuple[str, Sequence[Recipe]]]) -> None:
        cells = _Cells(self.w)
        self.w.choose(name, {it: [built(r, cells) for r in recipes] for it, recipes in sides})

    def pick(self, name: str, of: str, several: Sequence[Values]) -> None:
        cell = self.w.cell(of)
        values = [alternative(given(it, self.standing.cells[of])) for it in several]
        self.w.choose(name, cell, values)

    def kick(self, premise: str) -> None:
        self.w.kick(premise)

    def bring(self, premise: str) -> None:
        self.w.bring(premise)

    def forget(self, premise: str) -> None:
        self.w.forget(premise)

    def what_if(
        self, kick: Sequence[str], bring: Sequence[str], tell: Sequence[tuple[str, str, Values]]
    ) -> None:
        changed = self.w.what_if(kick=kick, bring=bring, tell=told_in(self.standing, tell))
        changed.__enter__()
        self._inside.append((changed, self.project))

    def behind(self, error: bool) -> None:
        if not self._inside:
            raise ValueError("there is no what-if")
        there = {cell.name: cell for cell in self.w.cells}
        tasks = dict(self.project.tasks) if self.project else {}
        changed, self.project = self._inside.pop()
        raised = RuntimeError("within") if error else None
        changed.__exit__(type(raised) if raised else None, raised, None)
        left = {cell.name for cell in self.w.cells}
        self._gone |= {name: cell for name, cell in there.items() if name not in left}
        now = self.project.tasks if self.project else {}
        self._gone_tasks |= {name: it for name, it in tasks.items() if name not in now}

    def load(self) -> None:
        with TemporaryDirectory() as folder:
            path = Path(folder) / "walk.prop"
            self.w.save(path)
            loaded = Workbench.load(path, self.program)
        if self._inside:
            with loaded:
                self.held(loaded).all()
            return
        self.w.close()
        self.w, self.project, self._gone, self._gone_tasks = loaded, None, {}, {}

    def gone(self, name: str) -> None:
        """Uses a cell that is gone."""
        cell = self._gone[name]
        is_measured = isinstance(cell, Quantity)
        uses: list[Callable[[], object]] = [
            lambda: self.w.law(cell == cell) if is_measured else self.w.require(cell == cell),
            lambda: self.w.tell("gone", cell, "mon" if isinstance(cell, ElementCell) else 1),
            cell.ask,
            lambda: self.w.scenarios({"row": {}}, [cell]),
            lambda: self.w.slack(cell),
        ]
        for use in uses:
            try:
                use()
            except (ValueError, TypeError):
                continue
            return
        raise ValueError("it is gone")

    def plan(self, days: int) -> None:
        self.project = self.w.project(days=days, people="ana ben")

    def task(
        self,
        name: str,
        ways: Sequence[tuple[int, int]],
        who: Sequence[str],
        after: Sequence[str],
        under: str | None,
    ) -> None:
        p = self._project()
        before: list[Any] = [p.tasks.get(it) or self._gone_tasks.get(it) or it for it in after]
        if len(ways) > 1:
            options = {f"way {n}": dict(days=d, cost=c) for n, (d, c) in enumerate(ways)}
            p.task(name, who=who, after=before, options=options, under=under, pauses=False)
        else:
            [(days, cost)] = ways
            p.task(name, days, cost=cost, who=who, after=before, under=under, pauses=False)

    def away(self, person: str, first: int, last: int, under: str | None) -> None:
        self._project().away(person, first, last, under)

    def done_by(self, day: int, under: str | None, name: str | None) -> None:
        p = self._project()
        task: Any = None if name is None else p.tasks.get(name) or self._gone_tasks[name]
        p.done_by(day, under, task)

    def end(self) -> None:
        self._project().end

    def total_cost(self) -> None:
        self._project().total_cost

    def _project(self) -> Project:
        if self.project is None:
            raise ValueError("there is no project")
        return self.project


class _Cells(Mapping[str, Any]):
    """The cells of a workbench by name; what is not there is asked for as a user would."""

    def __init__(self, w: Workbench) -> None:
        self._w = w

    def __getitem__(self, name: str) -> Any:
        return self._w.cell(name)

    def __iter__(self) -> Iterator[str]:
        return (cell.name for cell in self._w.cells)

    def __len__(self) -> int:
        return len(self._w.cells)


_ASKS: dict[str, Callable[..., None]] = {
    "ask": Held.ask,
    "over all": Held.over_all,
    "best": Held.best,
    "some": Held.some,
    "room": Held.room,
    "plans": Held.plans,
    "conflicts": Held.conflicts,
    "repairs": Held.repairs,
    "row": Held.row,
    "shave": Held.shave,
    "all": Held.all,
}
_DOES: dict[str, Callable[..., None]] = {
    "number": Walk.number,
    "truth": Walk.truth,
    "element": Walk.element,
    "measured": Walk.measured,
    "require": Walk.require,
    "law": Walk.law,
    "tell": Walk.tell,
    "read": Walk.read,
    "choose": Walk.choose,
    "pick": Walk.pick,
    "kick": Walk.kick,
    "bring": Walk.bring,
    "forget": Walk.forget,
    "what if": Walk.what_if,
    "behind": Walk.behind,
    "load": Walk.load,
    "gone": Walk.gone,
    "plan": Walk.plan,
    "task": Walk.task,
    "away": Walk.away,
    "done by": Walk.done_by,
    "end": Walk.end,
    "total cost": Walk.total_cost,
}
