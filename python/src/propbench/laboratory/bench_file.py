"""A bench as a file in TOML: its quantities, devices and laws, so that no Python is needed.

    title = "The density of a ring"
    laws = ["density == mass / volume"]

    [quantities]
    density = { unit = "g/cm3", low = 1, high = 25, step = 0.01 }

    [devices]
    balance = { offset = "0.02 g" }

    [curves]
    probe = { of = "mV", unit = "degC", within = 0.1, points = [[0, 20.1], [10, 30.0]] }
"""

import os
from collections.abc import Callable, Iterable, Mapping, Sequence
from dataclasses import dataclass
from decimal import Decimal
from functools import partial
from importlib import import_module
from pathlib import Path
from typing import Any, Protocol, TypeVar

from propbench.laboratory.curve_files import points_of_file
from propbench.measuring.elementary import Calibration, curve
from propbench.nearby import near_names
from propbench.showing import printable, quoted

_TOP = ("title", "laws", "quantities", "devices", "curves")
_QUANTITY = ("unit", "low", "high", "step")
_DEVICE = ("offset", "scale")
_POINTS = "points"
_CURVE = (_POINTS, "of", "unit", "within")
_LAW = ("law", "under")


_Made = TypeVar("_Made")
# What a table of the file may hold, but for the points of a curve.
_Entry = str | int | Decimal


class BadBench(ValueError):
    """A file is no bench: which part of it, and what would do."""


class Stating(Protocol):
    """What a bench is stated to: a workbench."""

    def measured(
        self,
        name: str,
        unit: str = "1",
        low: _Entry | None = None,
        high: _Entry | None = None,
        step: _Entry | None = None,
    ) -> object:
        """Makes a quantity."""

    def device(
        self, name: str, offset: _Entry | None = None, scale: _Entry | None = None
    ) -> object:
        """Makes a device."""

    def law(
        self, law: str, under: str | None = None, *, curves: Iterable[Calibration] = ()
    ) -> None:
        """States a law."""

    def read_laws(self, path: Path, *, curves: Iterable[Calibration] = ()) -> int:
        """States the laws of a file."""


@dataclass(frozen=True)
class BenchFile:
    """A bench as it is written: laws by themselves, or the file that has them."""

    path: Path
    title: str
    quantities: Mapping[str, Mapping[str, _Entry]]
    devices: Mapping[str, Mapping[str, _Entry]]
    curves: Mapping[str, Mapping[str, object]]
    laws: Sequence[Mapping[str, str]] | Path

    def state(self, to: Stating) -> None:
        """States all of it. Raises BadBench, which names the part, and OSError."""
        for name, given in self.quantities.items():
            self._state(f"quantities.{name}", partial(to.measured, name, **given))
        for name, given in self.devices.items():
            self._state(f"devices.{name}", partial(to.device, name, **given))
        made = [
            self._state(f"curves.{name}", partial(self._curve, name, given))
            for name, given in self.curves.items()
        ]
        if isinstance(self.laws, Path):
            to.read_laws(self.laws, curves=made)
            return
        for place, law in enumerate(self.laws, 1):
            call = partial(to.law, law["law"], law.get("under"), curves=made)
            self._state(f"laws, {place}", call)

    def _curve(self, name: str, given: Mapping[str, object]) -> Calibration:
        """A curve by its points, or by those of the file that it names."""
        # (Whether the rest is what it should be, `curve` sees.)
        rest: dict[str, Any] = dict(given)
        points = rest.pop(_POINTS)
        if isinstance(points, str):
            points = points_of_file(self.path.parent / points)
        return curve(name, points, **rest)

    def _state(self, part: str, call: Callable[[], _Made]) -> _Made:
        try:
            return call()
        except (ValueError, TypeError) as error:
            raise BadBench(f"{printable(str(self.path))}: {printable(part)}: {error}") from None


def bench_in(path: str | os.PathLike[str]) -> BenchFile:
    """The bench of a file. Raises BadBench and OSError."""
    with open(path, "rb") as file:
        data = file.read()
    try:
        return _bench(Path(path), _toml_in(data.decode("utf-8")))
    except ValueError as error:
        raise BadBench(f"{printable(os.fspath(path))}: {error}") from None


def _toml_in(text: str) -> Mapping[str, object]:
    """What a text in TOML says, by Python's own reader from 3.11 on. Raises ValueError."""
    for name in ("tomllib", "tomli"):
        try:
            loads: Callable[..., dict[str, object]] = import_module(name).loads
        except ImportError:
            continue
        return loads(text, parse_float=Decimal)
    raise BadBench("to read TOML Python 3.11 is needed, or the package tomli (python3-tomli)")


def _bench(path: Path, read: Mapping[str, object]) -> BenchFile:
    _check_keys("the file", read, _TOP)
    quantities = _tables("quantities", read.get("quantities", {}), _QUANTITY)
    if not quantities:
        raise BadBench(
            'it has no `[quantities]`, each as `mass = { unit = "g", low = 0, high = 9 }`'
        )
    title = read.get("title", path.stem)
    if not isinstance(title, str):
        raise BadBench("`title` is a text")
    devices = _tables("devices", read.get("devices", {}), _DEVICE)
    curves = _curves(read.get("curves", {}))
    return BenchFile(path, title, quantities, devices, curves, _laws(path, read.get("laws", [])))


def _curves(given: object) -> Mapping[str, Mapping[str, object]]:
    """Curves by name, each with its points or the name of a file that has them."""
    found = _tables("curves", given, _CURVE)
    for name, table in found.items():
        if not isinstance(table.get(_POINTS), list | str):
            raise BadBench(
                f"curves.{name}: `points` are pairs, as [[0, 20.1], [10, 30.0]], or the name of a "
                "file with two columns"
            )
    return found


def _laws(path: Path, given: object) -> Sequence[Mapping[str, str]] | Path:
    if isinstance(given, str):
        return path.parent / given
    if not isinstance(given, list):
        raise BadBench("`laws` are a list of texts, or the name of a file that has them")
    found = [{"law": each} if isinstance(each, str) else each for each in given]
    for place, law in enumerate(found, 1):
        if not isinstance(law, dict) or not all(isinstance(it, str) for it in law.values()):
            raise BadBench(f"laws, {place}: a law is a text, or has `law` and `under`")
        _check_keys(f"laws, {place}", law, _LAW)
        if "law" not in law:
            raise BadBench(f"laws, {place}: `law` is missing")
    return found


def _tables(name: str, given: object, keys: Sequence[str]) -> dict[str, dict[str, _Entry]]:
    """Tables by name, which have no other keys than these, and texts and numbers behind them (a
    curve's points are looked at elsewhere)."""
    if not isinstance(given, dict) or not all(isinstance(it, dict) for it in given.values()):
        raise BadBench(f"`{name}` has a table for each, as `name = {{ {keys[0]} = .. }}`")
    for each, table in given.items():
        _check_keys(f"{name}.{each}", table, keys)
        plain = {key: it for key, it in table.items() if key != _POINTS}
        wrong = [key for key, it in plain.items() if not isinstance(it, str | int | Decimal)]
        if wrong:
            raise BadBench(f"{name}.{each}: `{wrong[0]}` is a text or a number")
    return given


def _check_keys(where: str, table: Mapping[str, object], keys: Sequence[str]) -> None:
    for key in table:
        if key not in keys:
            near = near_names(key, keys)
            hint = f"did you mean `{near[0]}`?" if near else f"there are {', '.join(keys)}"
            raise BadBench(f"{printable(where)} has {quoted(key)}, which is not known: {hint}")
