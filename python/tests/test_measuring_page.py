"""The examples of the page on measured quantities do what is said of them."""

import pytest
from conftest import REPOSITORY
from page_examples import carried_out

PAGE = REPOSITORY / "docs/MEASURING.md"
MOST_BYTES = 8_500


def test_the_page(
    program: str, monkeypatch: pytest.MonkeyPatch, capsys: pytest.CaptureFixture[str]
) -> None:
    monkeypatch.setenv("PROPBENCH", program)
    text = PAGE.read_text(encoding="utf-8")
    assert len(text.encode()) <= MOST_BYTES
    carried_out(text, 3, capsys)
