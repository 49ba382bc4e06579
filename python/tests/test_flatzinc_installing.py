"""`propdesk minizinc`: the file by which MiniZinc knows of the solver, in a home of the test's
own."""

import json
import os
import shutil
import subprocess
from pathlib import Path

import pytest
from solved_models import MODELS

from propbench.desk import main


@pytest.fixture
def home(tmp_path: Path, monkeypatch: pytest.MonkeyPatch) -> Path:
    """An empty home."""
    monkeypatch.setenv("HOME", str(tmp_path))
    return tmp_path / ".minizinc/solvers/propbench.msc"


def test_the_file_is_written_and_removed(home: Path, capsys: pytest.CaptureFixture[str]) -> None:
    assert main(["minizinc"]) == 1 and not home.exists()
    assert main(["minizinc", "--install"]) == 0
    told = json.loads(home.read_text())
    assert told["id"] == "org.propbench.propbench" and os.access(told["executable"], os.X_OK)
    assert (Path(told["mznlib"]) / "redefinitions.mzn").is_file()
    assert main(["minizinc"]) == 0 and str(home) in capsys.readouterr().out
    assert main(["minizinc", "--install"]) == 0
    assert main(["minizinc", "--remove"]) == 0 and not home.exists()
    assert main(["minizinc", "--remove"]) == 2
    assert "there is no" in capsys.readouterr().err


@pytest.mark.parametrize("text", ['{"id": "org.other"}', "no JSON"])
@pytest.mark.parametrize("word", ["--install", "--remove"])
def test_another_solvers_file_stays(
    home: Path, capsys: pytest.CaptureFixture[str], text: str, word: str
) -> None:
    home.parent.mkdir(parents=True)
    home.write_text(text)
    assert main(["minizinc", word]) == 2
    assert home.read_text() == text and "another solver's" in capsys.readouterr().err


@pytest.mark.skipif(shutil.which("minizinc") is None, reason="MiniZinc isn't there")
def test_minizinc_knows_it_then(home: Path, program: str) -> None:
    words = ["minizinc", "--solver", "propbench", str(MODELS / "venue.mzn")]
    environment = {**os.environ, "HOME": str(home.parents[2]), "PROPBENCH": program}
    if not Path("/usr/share/minizinc/solvers/propbench.msc").exists():
        assert subprocess.run(words, env=environment, capture_output=True).returncode != 0
    assert main(["minizinc", "--install"]) == 0
    named = subprocess.run(
        ["minizinc", "--solvers"], env=environment, text=True, capture_output=True
    )
    assert "propbench 1.0 (org.propbench.propbench, cp, int, float, set)" in named.stdout
    ran = subprocess.run(words, env=environment, text=True, capture_output=True)
    assert ran.stdout.startswith("venue = uni;\ndays = 8;\ncost = 2300;\n")
