"""No real solution is lost by functions: random laws over random reals, worked out to 80 digits."""

import random

import pytest
from conftest import TIMES

pytest.importorskip("mpmath")

from propbench import Workbench
from real_functions import Unfit, lost, read_some, redraw, stated_case, unmet

CASES = 60 * TIMES


@pytest.mark.parametrize("seed", range(CASES))
def test_reals_lie_in_every_answer(wide: str, seed: int) -> None:
    """Where what is read holds, there is no conflict, and each real lies in its answer; what is
    told of curves holds at other reals too, pieces that answers asked for among it."""
    draw = random.Random(seed)
    with Workbench(program=wide) as w:
        try:
            case = stated_case(w, draw)
        except (Unfit, ValueError):
            pytest.skip("no law was drawn that can be told")
        assert unmet(case) == []
        read_some(case)
        assert lost(case, is_shaved=seed % 10 == 0) == []
        if seed % 10 == 1:
            assert not any(w.outliers(seconds=20)[:1])
        for _ in range(5):
            try:
                redraw(case)
            except Unfit:
                continue
            assert unmet(case, is_read=False) == []
