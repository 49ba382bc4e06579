#!/usr/bin/python3
"""The program on a machine on which a step takes long: each run takes as long as its limit says.

usage: slow_program.py OPTIONS, with the program in $SLOW_OF, the seconds of a step in $SLOW_BY, and
in $SLOW_HOW whether it is at work so long (`works`), or waits
"""

import os
import subprocess
import sys
import time

RUNNING = (b"ask", b"why", b"core", b"settle", b"worldview", b"nogoods", b"step")
# (a test has failed long before)
MOST = 60.0


def pause(seconds: float) -> None:
    """Waits so long, or is at work."""
    until = time.monotonic() + seconds
    if os.environ.get("SLOW_HOW") != "works":
        time.sleep(seconds)
    while time.monotonic() < until:
        pass


def main() -> None:
    """Hands lines to the program, those that run it after the time of a whole run."""
    limit, step = int(sys.argv[sys.argv.index("--limit") + 1]), float(os.environ["SLOW_BY"])
    program = subprocess.Popen([os.environ["SLOW_OF"], *sys.argv[1:]], stdin=subprocess.PIPE)
    assert program.stdin
    for line in sys.stdin.buffer:
        word = line.split(None, 1)[:1]
        if word == [b"limit"]:
            limit = int(line.split()[1])
        elif word and word[0] in RUNNING:
            pause(min(limit * step, MOST))
        program.stdin.write(line)
        program.stdin.flush()
    program.stdin.close()
    sys.exit(program.wait())


if __name__ == "__main__":
    main()
