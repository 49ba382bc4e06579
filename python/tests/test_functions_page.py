"""The examples of the page on functions do what is said of them."""

import pytest
from conftest import REPOSITORY
from page_examples import carried_out

pytest.importorskip("mpmath")

PAGE = REPOSITORY / "docs/FUNCTIONS.md"
MOST_BYTES = 4_600


def test_the_page(
    wide: str, monkeypatch: pytest.MonkeyPatch, capsys: pytest.CaptureFixture[str]
) -> None:
    monkeypatch.setenv("PROPBENCH", wide)
    text = PAGE.read_text(encoding="utf-8")
    assert len(text.encode()) <= MOST_BYTES
    carried_out(text, 1, capsys)
