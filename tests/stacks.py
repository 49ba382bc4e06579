"""Sessions over a stack of 64 kB: none of them takes more, however large or deep what it holds
is."""
import subprocess
from dataclasses import dataclass
from typing import Iterable, Iterator, Optional

import made
from case import SECONDS, Case, answered, as_bytes

LEVELS = 1_000
CELLS = 6_000


@dataclass
class OnSmallStack(Case):
    """A run whose stack holds 64 kB, and whose memory holds so many kB in all."""

    memory: int | str = "unlimited"

    def wrong(self, program: str) -> Optional[str]:
        # (no core is left where it dies, and no words of an environment lie on the stack)
        confined = [
            "/bin/sh",
            "-c",
            f'ulimit -c 0 && ulimit -s 64 && ulimit -v {self.memory} && exec "$0" "$@"',
        ]
        try:
            ran = subprocess.run(
                [*confined, program, *self.options],
                input=self.input(),
                capture_output=True,
                timeout=SECONDS,
                env=dict[str, str](),
                check=False,
            )
        except subprocess.TimeoutExpired:
            return f"no end in {SECONDS} seconds"
        return self.wrong_with(ran.returncode, ran.stdout, ran.stderr)


def on_small_stack(case: Case) -> OnSmallStack:
    return OnSmallStack(
        f"stack of 64 kB: {case.name}", case.sent, case.wanted, case.options, case.status, case.told
    )


def nested() -> list[str]:
    """A definition for each level, which has a local of its own and uses the one before."""
    lines = ["define d0 x y = copier x y"]
    lines += [
        f"define d{n + 1} x y = local m span ; d{n} x m ; copier m y" for n in range(LEVELS - 1)
    ]
    return [*lines, "cell a span", "cell b span"]


def deep() -> Iterator[Case]:
    lines = [*nested(), f"attach d{LEVELS - 1} a b"]
    name = "stack of 64 kB: 1,000 definitions in one another"
    yield OnSmallStack(
        name, as_bytes(*lines, "fix a 7", "ask b"), answered(len(lines) + 1, "b = 7")
    )
    # (cells take what memory is left)
    lines[-1:-1] = [f"cell c{n} span" for n in range(CELLS)]
    for kilobytes in range(4_000, 5_000, 100):
        yield OnSmallStack(
            f"{name}, and {kilobytes} kB in all",
            as_bytes(*lines),
            lambda output: wrong_where_refused(output, len(lines)),
            memory=kilobytes,
        )


MEMORY = "error 90: out of memory"
# What a line is answered that names what a line would have made that was refused memory.
MISSING = ("error 9: no such cell", "error 11: no such procedure")


def wrong_where_refused(output: bytes, count: int) -> Optional[str]:
    """What is wrong with the replies to so many lines, each of which is carried out, refused
    memory, or lacks what a line before it was refused memory for."""
    replies = output.decode().splitlines()
    first = replies.index(MEMORY) if MEMORY in replies else len(replies)
    other = [reply for reply in replies[:first] if reply != "ok"]
    other += [reply for reply in replies[first:] if reply not in ("ok", MEMORY, *MISSING)]
    return (
        f"{len(replies)} replies, wanted {count}, and among them {other[:1]}"
        if other or len(replies) != count
        else None
    )


def cases(worked: Iterable[Case]) -> Iterator[Case]:
    yield from map(on_small_stack, worked)
    for large in (
        made.large_uses,
        made.long_ways,
        made.limits,
        made.sides_among_premises,
        made.sizes,
        made.steps,
    ):
        yield from map(on_small_stack, large())
    yield from deep()
