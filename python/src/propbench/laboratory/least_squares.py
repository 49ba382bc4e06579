"""A weighted least-squares adjustment: readings with standard uncertainties, under laws that hold.

The sum of squares of (reading - value) / u is made least among the points that fit the laws, step
by step: at each point the laws are taken for planes, and what is free on these is solved for by
SciPy. What is worked out here is floating arithmetic and statistics, and proves nothing.
"""

from collections.abc import Mapping, Sequence
from dataclasses import dataclass
from importlib import import_module
from typing import Any

from propbench.laboratory.slopes import sloped
from propbench.measuring.terms import Law
from propbench.model.nodes import Declared

_ROUNDS, _CLOSE, _FREE = 60, 1e-11, 1e-10
# A variance below this, as a part of what the quantity is squared, is rounding.
_NOTHING = 1e-26
# An array of numpy. It comes with SciPy, which may be missing where types are checked.
_Array = Any


class NoScipy(ImportError):
    """SciPy isn't installed."""


class NoEstimate(ValueError):
    """No estimate was found."""


@dataclass(frozen=True)
class Observation:
    """A reading of a quantity: its premise, its value and its standard uncertainty, in base
    units."""

    premise: str
    cell: Declared
    value: float
    deviation: float


@dataclass(frozen=True)
class Tested:
    """A reading in an adjustment: how far it is from the estimate, and the same as a multiple of
    that difference's own standard deviation, None where nothing else controls the reading."""

    observation: Observation
    residual: float
    w: float | None


@dataclass(frozen=True)
class Correlations:
    """How far the errors of quantities go together, of those that have any: `table` is a square,
    with a row and a column at each quantity's place."""

    places: Mapping[Declared, int]
    table: _Array

    def of(self, one: Declared, other: Declared) -> float | None:
        """From -1 to 1; None where one of both isn't determined, or is exact."""
        if one not in self.places or other not in self.places:
            return None
        return float(self.table[self.places[one], self.places[other]])


@dataclass(frozen=True)
class Estimates:
    """What least squares give: for each quantity its value and standard uncertainty, None for one
    that the readings don't determine; the tests of the readings, and of all together."""

    values: Mapping[Declared, tuple[float, float] | None]
    tests: Sequence[Tested]
    degrees: int
    chi_square: float
    correlations: Correlations


def scipy(part: str) -> Any:
    """A part of SciPy, which has no types. Raises NoScipy, which says how to get it."""
    try:
        return import_module(part)
    except ImportError:
        raise NoScipy(
            "statistics need SciPy, which isn't installed: `sudo apt install python3-scipy`"
        ) from None


def adjusted(
    laws: Sequence[Law], observations: Sequence[Observation], begin: Mapping[Declared, float]
) -> Estimates:
    """The estimates of all quantities from a point on. Raises NoEstimate, NoValue and NoScipy."""
    return _Adjusting(laws, observations, begin).estimates()


class _Adjusting:
    """An adjustment on its way: quantities in units of their own size."""

    def __init__(
        self,
        laws: Sequence[Law],
        observations: Sequence[Observation],
        begin: Mapping[Declared, float],
    ) -> None:
        self._numpy, self._linalg = scipy("numpy"), scipy("scipy.linalg")
        self._laws, self._observations = laws, observations
        self._cells = list(begin)
        self._place = {cell: place for place, cell in enumerate(self._cells)}
        self._size = self._numpy.array([_size(cell, begin[cell]) for cell in self._cells])
        self._x = self._numpy.array([begin[cell] for cell in self._cells]) / self._size
        self._weighed = self._numpy.zeros((len(observations), len(self._cells)))
        for row, each in enumerate(observations):
            place = self._place[each.cell]
            self._weighed[row, place] = self._size[place] / each.deviation
        self._shown = self._numpy.array([each.value / each.deviation for each in observations])

    def estimates(self) -> Estimates:
        """Goes on until nothing changes any more."""
        for _ in range(_ROUNDS):
            free, step = self._step()
            self._x = self._x + step
            if self._numpy.max(self._numpy.abs(step), initial=0.0) < _CLOSE:
                return self._estimates(free)
        raise NoEstimate(
            "least squares came to no end: give quantities narrower ends, or read more"
        )

    def _step(self) -> tuple[_Array, _Array]:
        """What is free under the laws at the point, by columns, and the step to the next point."""
        slopes, off = self._planes()
        if not len(slopes):
            free, towards = self._numpy.eye(len(self._cells)), 0.0 * self._x
        else:
            free = self._linalg.null_space(slopes, rcond=_FREE)
            towards = self._linalg.lstsq(slopes, -off, cond=_FREE)[0]
        left = self._shown - self._weighed @ (self._x + towards)
        if free.shape[1] and len(left):
            towards = towards + free @ self._linalg.lstsq(self._weighed @ free, left, cond=_FREE)[0]
        return free, towards

    def _planes(self) -> tuple[_Array, _Array]:
        """The slopes of the laws at the point, each row of length 1, and how far they are off."""
        at = dict(zip(self._cells, map(float, self._x * self._size)))
        rows = self._numpy.zeros((len(self._laws), len(self._cells)))
        off = self._numpy.zeros(len(self._laws))
        for row, law in enumerate(self._laws):
            found = sloped(law.left, at).plus(sloped(law.right, at).times(-1.0))
            for cell, slope in found.slopes.items():
                rows[row, self._place[cell]] = slope * self._size[self._place[cell]]
            length = float(self._numpy.linalg.norm(rows[row])) or 1.0
            rows[row] /= length
            off[row] = found.value / length
        return rows, off

    def _estimates(self, free: _Array) -> Estimates:
        """The estimates at the point that was found, with their covariances."""
        design = self._weighed @ free
        # (of nothing LAPACK makes an error)
        found, right = self._numpy.zeros(0), self._numpy.zeros((0, free.shape[1]))
        if design.size:
            _, found, right = self._linalg.svd(design, full_matrices=False)
        kept = found > _FREE * max(found, default=1.0)
        rank = int(kept.sum())
        spread = free @ (right[kept].T / found[kept])
        covariance = spread @ spread.T
        undetermined = free - (free @ right[kept].T) @ right[kept]
        is_open = self._numpy.linalg.norm(undetermined, axis=1) > 1e-6
        values = {
            cell: None
            if is_open[place]
            else (
                float(self._x[place] * self._size[place]),
                _deviation(float(covariance[place, place])) * float(self._size[place]),
            )
            for place, cell in enumerate(self._cells)
        }
        residuals = self._shown - self._weighed @ self._x
        controlled = 1 - self._numpy.einsum("ij,jk,ik->i", self._weighed, covariance, self._weighed)
        tests = [
            Tested(
                each, float(off) * each.deviation, float(off / part**0.5) if part > 1e-6 else None
            )
            for each, off, part in zip(self._observations, residuals, controlled)
        ]
        degrees, chi_square = len(self._observations) - rank, float(residuals @ residuals)
        together = self._correlations(covariance, values)
        return Estimates(values, tests, degrees, chi_square, together)

    def _correlations(
        self, covariance: _Array, values: Mapping[Declared, tuple[float, float] | None]
    ) -> Correlations:
        """Those of the quantities that have a deviation."""
        varying = [cell for cell, value in values.items() if value is not None and value[1]]
        rows = [self._place[cell] for cell in varying]
        shared = covariance[self._numpy.ix_(rows, rows)]
        deviations = self._numpy.sqrt(self._numpy.diag(shared))
        table = self._numpy.clip(shared / self._numpy.outer(deviations, deviations), -1.0, 1.0)
        return Correlations({cell: place for place, cell in enumerate(varying)}, table)


def _deviation(square: float) -> float:
    """The root of a variance; of one that is nothing but rounding it is 0."""
    return float(square**0.5) if square > _NOTHING else 0.0


def _size(cell: Declared, value: float) -> float:
    """A size of a quantity by which it is counted: that of its ends, where it begins at nothing."""
    measure = cell.measure
    assert measure is not None
    return abs(value) or float(max(abs(measure.low), abs(measure.high))) or 1.0
