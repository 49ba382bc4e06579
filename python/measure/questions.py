#!/usr/bin/python3
"""What questions of many asks take, beside what others take for the same.

usage: measure/questions.py [--seconds N] [--premises N ..] [--seeds N]

- Wishes over ten numbers, of which many can't all hold: both this package and MARCO over z3 find
the
  minimal conflicts and repairs among them, 100 at the most, and the same ones where there are
  fewer.
- The shortest plans of tasks on three people, and all 360 and 10,000 plans of a product of choices,
  beside MiniZinc with Gecode, which has to find as many and as short ones.

What is told are seconds of one processor, for making the network and for all that is begun for it,
so that what else the machine does counts little; and the peer's share, which tells how many times
as long it takes. Debian has them as python3-z3 and minizinc; where one is not there, nothing stands
beside.
"""

import argparse
import shutil
import sys
from collections.abc import Iterator
from functools import partial
from importlib import import_module
from pathlib import Path
from typing import Any

sys.path.insert(0, str(Path(__file__).resolve().parents[1] / "src"))

import schedules  # noqa: E402
from spent import Spent  # noqa: E402
from wishes import bench_of, conflicts_by_z3, wishes  # noqa: E402

MOST = 100
PRODUCTS = ((3, 4, 5, 6), (10, 10, 10, 10))


def row(what: str, ours: Spent[Any], peer: Spent[Any] | None, said: str = "") -> str:
    """A line of the table."""
    beside = "" if peer is None else f"{peer.seconds:8.2f}{peer.seconds / ours.seconds:8.2f}"
    return f"{what:26}{ours.seconds:8.2f}{beside:16}  {said}".rstrip()


def asked(count: int, seed: int, seconds: float) -> tuple[Any, Any]:
    """The conflicts and the repairs among some wishes."""
    with bench_of(wishes(count, seed)) as w:
        return w.conflicts(most=MOST, seconds=seconds), w.repairs(most=MOST, seconds=seconds)


def measure_wishes(counts: list[int], seeds: int, seconds: float) -> Iterator[str]:
    """A line for each number of wishes and each seed."""
    try:
        z3 = import_module("z3")
    except ImportError:
        z3 = None
    for count in counts:
        for seed in range(seeds):
            ours = Spent.of(partial(asked, count, seed, seconds))
            found, mended = ours.result
            checked = Spent.of(found.certificate.check).seconds
            said = (
                f"{_number(found)} conflicts, {_number(mended)} repairs, checked in {checked:.2f}"
            )
            peer: Spent[Any] | None = None
            if z3 is not None:
                peer = Spent.of(partial(conflicts_by_z3, z3, wishes(count, seed), MOST, seconds))
                conflicts, repairs, is_all = peer.result
                said += f"; {len(conflicts)} and {len(repairs)}{'' if is_all else ' so far'}"
                assert not is_all or not found.complete or set(found) == conflicts
                assert not is_all or not mended.complete or set(mended) == repairs
            yield row(f"{count} wishes, seed {seed}", ours, peer, said)


def _number(found: Any) -> str:
    return f"{len(found)}{'' if found.complete else ' of the'}"


def measure_plans(seeds: int, seconds: float) -> Iterator[str]:
    """A line for each product, and for each seed of tasks."""
    has_peer = shutil.which("minizinc") is not None
    for sizes in PRODUCTS:
        ours = Spent.of(partial(schedules.all_here, sizes))
        peer = Spent.of(partial(schedules.all_there, sizes)) if has_peer else None
        assert peer is None or peer.result == ours.result
        yield row(f"all {ours.result} plans", ours, peer)
    for seed in range(seeds):
        plan = schedules.drawn(seed)
        best = Spent.of(partial(schedules.shortest_here, plan, seconds))
        peer = Spent.of(partial(schedules.shortest_there, plan)) if has_peer else None
        assert peer is None or best.result in (None, peer.result)
        said = "not proved in time" if best.result is None else f"{best.result} days"
        yield row(f"shortest plan, seed {seed}", best, peer, said)


def main(words: list[str]) -> int:
    """Measures, and prints a line for each."""
    read = argparse.ArgumentParser(
        description=__doc__, formatter_class=argparse.RawTextHelpFormatter
    )
    read.add_argument("--seconds", type=float, default=60.0, help="for each question, by the clock")
    read.add_argument("--premises", type=int, nargs="*", default=[12, 20, 40, 80])
    read.add_argument("--seeds", type=int, default=3)
    options = read.parse_args(words)
    print(f"{'':26}{'here':>8}{'peer':>8}{'times':>8}")
    for line in measure_plans(options.seeds, options.seconds):
        print(line, flush=True)
    for line in measure_wishes(options.premises, options.seeds, options.seconds):
        print(line, flush=True)
    return 0


if __name__ == "__main__":
    sys.exit(main(sys.argv[1:]))
