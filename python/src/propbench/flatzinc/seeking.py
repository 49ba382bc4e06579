"""propwide's own search for a question, in slices of steps; several side by side, where wanted.

Of these the first goes by the search annotations, and each other calls procedures in another order;
every second one has the program decide as it will.
"""

import time
from contextlib import ExitStack, suppress
from dataclasses import dataclass, field
from threading import Event, Lock

from propbench.closing import Closing
from propbench.flatzinc.asking import SolutionQuestion
from propbench.points import Several, SoFar
from propbench.questions.clock import Clock
from propbench.questions.model import Model
from propbench.questions.seeking import Seeker
from propbench.replies import UNSETTLED, Reply
from propbench.session import Session

# What is known is told after so many steps, and where each better solution is wanted after so many.
_SLICE, _SHORT_SLICE = 50_000, 8_000
# A search stands still where so many slices behind one another tell nothing new, and would have to
# take more steps a second than this.
_STILL, _FASTEST = 50, 10_000_000
# Beyond so many searches side by side there is nothing to be gained.
_MOST = 64


@dataclass(frozen=True)
class SearchWay:
    """How the program searches: in short slices where each better solution is wanted, and so many
    searches side by side, by orders of calls from a seed on."""

    is_each: bool = False
    count: int = 1
    seed: int = 0


class _Ended(Exception):
    """A search needn't go on."""


@dataclass
class _One:
    """One of the searches, and what it has told of its question since it was asked."""

    seeker: Seeker
    asked: SolutionQuestion
    is_free: bool
    lock: Lock
    ended: Event
    slice_of: int
    steps: int = 0
    is_still: bool = False
    # The steps of what is asked, as far as they were counted.
    _counted: int = 0
    _last: Reply = UNSETTLED
    _rows: int = 0
    _slices: int = 0
    _since: float = 0.0

    def run(self, seconds: float) -> None:
        """Has it search for so many seconds. Raises Unlike where what is found doesn't hold."""
        self._rows, self._slices, self._counted, self._since = 0, 0, 0, time.monotonic()
        self.seeker.reply, self.seeker.heard = UNSETTLED, self._hear
        with suppress(_Ended):
            self.seeker.ask(self.asked.line(self.seeker, self.is_free), seconds)

    def _hear(self, reply: Reply) -> None:
        """Takes in what is known after one slice more."""
        with self.lock:
            if self.asked.is_done or self.ended.is_set():
                raise _Ended
            if self._is_news(reply):
                self.asked.take(self.seeker, self._fresh(reply))
            if self.asked.is_done or self.is_still:
                raise _Ended

    def _is_news(self, reply: Reply) -> bool:
        """Whether a slice has told something new, and if not, whether the search stands still."""
        now = time.monotonic()
        self._slices += 1
        is_slow = now - self._since > self._slices * self.slice_of / _FASTEST
        self.steps += self.seeker.steps - self._counted if is_slow else 0
        self._counted = self.seeker.steps
        self.is_still = self._slices >= _STILL and not is_slow
        # (the best so far is told by the same object as long as it says the same)
        if reply is self._last or not isinstance(reply, SoFar) and reply == self._last:
            return False
        self._last, self._slices, self._since = reply, 0, now
        return True

    def _fresh(self, reply: Reply) -> Reply:
        """A reply without the solutions that it had before."""
        if not isinstance(reply, Several):
            return reply
        rows, self._rows = reply.rows[self._rows :], len(reply.rows)
        return Several(rows, reply.others)


@dataclass
class Sought(Closing):
    """The searches of the program for a question, which end with it."""

    model: Model
    clock: Clock
    asked: SolutionQuestion
    way: SearchWay
    _searches: list[_One] = field(default_factory=list)
    _opened: ExitStack = field(default_factory=ExitStack)

    def __post_init__(self) -> None:
        lock, self._ended = Lock(), Event()
        steps = _SHORT_SLICE if self.way.is_each else _SLICE
        try:
            for number in range(max(1, min(self.way.count, _MOST))):
                seeker = self._opened.enter_context(self._seeker(number))
                seeker.session.steps_of_slice = steps
                self._searches.append(
                    _One(seeker, self.asked, number % 2 == 1, lock, self._ended, steps)
                )
            if len(self._searches) > 1:
                # (which one search has no use for, and takes long to import)
                from concurrent.futures import ThreadPoolExecutor

                self._pool = self._opened.enter_context(ThreadPoolExecutor(len(self._searches)))
        except BaseException:
            self.close()
            raise

    def close(self) -> None:
        """Ends the searches; those that are under way end behind their slice."""
        self._ended.set()
        self._opened.close()

    @property
    def steps(self) -> int:
        """How many steps they took, about."""
        return sum(each.steps for each in self._searches)

    @property
    def is_still(self) -> bool:
        """Whether all of them stand still."""
        return all(each.is_still for each in self._searches)

    def run(self, seconds: float) -> None:
        """Has them search for so many seconds. Raises Unlike where what is found doesn't hold."""
        if len(self._searches) == 1:
            self._searches[0].run(seconds)
        else:
            for each in [self._pool.submit(it.run, seconds) for it in self._searches]:
                each.result()

    def _seeker(self, number: int) -> Seeker:
        if number == 0:
            return Seeker(self.model, self.clock)
        seed = self.way.seed + number
        session = Session(self.model.session.program, order="mixed", seed=seed)
        return Seeker(self.model, self.clock, session)
