"""Runs a session by `rt try` itself, which reads its input to the end before the first reply."""
import re
import subprocess
import sys

from proved import TOP

# In what `rt try` says, the lines that tell how it ended.
OWN = re.compile(r"^(?:checked: ended status=|run=ended status=.* proved=no$)")
# Seconds that a session may take.
SECONDS = "86400"


def run(of: str, words: list[str]) -> int:
    """Runs a program with these arguments on standard input. Returns its status."""
    said = ["rt", "try", "--seconds", SECONDS, "--", *words]
    done = subprocess.run(said, cwd=f"{TOP}/crates/{of}", stderr=subprocess.PIPE, text=True)
    for line in done.stderr.splitlines():
        if not OWN.match(line):
            print(line, file=sys.stderr)
    return done.returncode
