"""Small projects with all that a plan may have answer as a search of all their plans does."""

import pytest
from conftest import TIMES
from drawn_projects import faults


@pytest.mark.parametrize("first", range(0, 100 * TIMES, 10))
def test_drawn_projects(wide: str, monkeypatch: pytest.MonkeyPatch, first: int) -> None:
    """(Of many more somebody asks by hand: `drawn_projects.py FIRST COUNT`.)"""
    monkeypatch.setenv("PROPBENCH", wide)
    counts: dict[str, int] = {}
    assert [fault for seed in range(first, first + 10) for fault in faults(seed, counts)] == []
    assert sum(counts.values()) >= 60
