"""No real solution is lost: random laws over random reals that fit them, exact in fractions."""

import random

from hypothesis import assume, given, settings
from hypothesis import strategies as st

from conftest import TIMES
from propbench import Workbench
from real_laws import Unfit, lost, read_some, stated_case, unmet


@settings(max_examples=1000 * TIMES)
@given(st.randoms(use_true_random=True))
def test_reals_lie_in_every_answer(draw: random.Random) -> None:
    """Where what is read holds, there is no conflict, and each real lies in its answer."""
    with Workbench() as w:
        try:
            case = stated_case(w, draw)
        except (Unfit, ValueError):
            assume(False)
            return
        read_some(case)
        assert lost(case) == []
        try:
            assert unmet(case) == []
        except Unfit:
            pass
