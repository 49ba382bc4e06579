#!/usr/bin/python3
"""The program, at work on each line of some commands as long as a file is there that names them.

usage: held_program.py OPTIONS, with the program in $HELD_OF, and the file in $HELD_BY
"""

import os
import subprocess
import sys


def held() -> set[bytes]:
    """The commands that are held."""
    try:
        with open(os.environ["HELD_BY"], "rb") as file:
            return set(file.read().split())
    except FileNotFoundError:
        return set()


def main() -> None:
    """Hands lines to the program, those that are held once they are not any more."""
    program = subprocess.Popen([os.environ["HELD_OF"], *sys.argv[1:]], stdin=subprocess.PIPE)
    assert program.stdin
    for line in sys.stdin.buffer:
        while held() & set(line.split(None, 1)[:1]):
            pass
        program.stdin.write(line)
        program.stdin.flush()
    program.stdin.close()
    sys.exit(program.wait())


if __name__ == "__main__":
    main()
