"""Sets that hit others come in order, each least one once, against trying all sets."""

from hypothesis import given
from hypothesis import strategies as st

from propbench.questions.checker import hitting
from propbench.questions.hitting import Hitting, bits_of


def least_hitting(conflicts: list[int], count: int) -> set[int]:
    """The minimal sets that hit all of these, by trying each."""
    hits = [hit for hit in range(1 << count) if all(hit & conflict for conflict in conflicts)]
    return {hit for hit in hits if not any(other != hit and other & hit == other for other in hits)}


@given(
    st.integers(1, 6).flatmap(
        lambda count: st.tuples(
            st.lists(st.sampled_from([0, 0.5, 1, 2, 5]), min_size=count, max_size=count),
            st.lists(st.integers(0, (1 << count) - 1), max_size=6),
        )
    )
)
def test_each_least_set_comes_once_cheapest_first(drawn: tuple[list[float], list[int]]) -> None:
    weights, conflicts = drawn
    hits = Hitting(weights)
    found: list[int] = []
    left = list(conflicts)
    while (hit := hits.next()) is not None:
        assert hits.next() == hit
        missed = [conflict for conflict in left if not conflict & hit]
        if missed:
            left.remove(missed[0])
            hits.learn(missed[0])
        else:
            found.append(hit)
            hits.finish(hit)
    wanted = least_hitting(conflicts, len(weights))
    assert set(found) == wanted and len(found) == len(wanted)
    costs = [sum(weights[bit.bit_length() - 1] for bit in bits_of(hit)) for hit in found]
    assert costs == sorted(costs)
    named = [frozenset(str(bit) for bit in bits_of(conflict)) for conflict in conflicts]
    mine = [frozenset(each) for each in hitting(named)]
    assert set(mine) == {frozenset(str(bit) for bit in bits_of(hit)) for hit in wanted}
    assert len(mine) == len(wanted)


def test_many_sets_are_hit_soon() -> None:
    """Of 24 names in a ring two each that stand side by side: the minimal ways to hit all these
    pairs are few beside all ways to take one of each."""
    ring = [frozenset((f"{number}", f"{(number + 1) % 24}")) for number in range(24)]
    found = {frozenset(each) for each in hitting(ring)}
    assert all(each & pair for each in found for pair in ring)
    assert min(map(len, found)) == 12 and len(found) == 853


def test_sets_that_overlap_are_hit_at_once() -> None:
    """One bit may hit several: so what is left of them costs no more than the cheapest of these."""
    p, q, a, b, c, d = (1 << place for place in range(6))
    hits = Hitting([1, 3, 1, 1, 1, 1])
    for conflict in (p | q, a | b | q, a | c | q, a | d | q):
        hits.learn(conflict)
    found = []
    while (hit := hits.next()) is not None:
        found.append(hit)
        hits.finish(hit)
    assert found[:2] == [p | a, q]


def test_nothing_is_looked_at_where_the_time_is_over() -> None:
    hits = Hitting([1, 2])
    hits.learn(3)
    assert hits.next(lambda: True) is None and not hits.is_done
    assert hits.next(lambda: False) == 1
    hits.finish(1)
    assert hits.next() == 2
    hits.finish(2)
    assert hits.next() is None and hits.is_done
