"""How ./propbench and ./propwide run their programs."""
import os
import signal
import sys

from proved import TOP, proved_program

TEXTS = {"-h": "help", "--help": "help", "-V": "version", "--version": "version"}


def text_for(of: str, words: list[str]) -> str | None:
    """What these arguments ask for that needs no program, or None."""
    if len(words) != 1 or words[0] not in TEXTS:
        return None
    with open(f"{TOP}/tools/start/texts/{of}.{TEXTS[words[0]]}", encoding="utf-8") as it:
        return it.read()


def become(program: str, words: list[str]) -> int:
    """Runs the program in place of this script, and does not return."""
    # (these two Python ignores, and a program that is begun by it would too)
    for it in (signal.SIGPIPE, signal.SIGXFSZ):
        signal.signal(it, signal.SIG_DFL)
    os.execv(program, [program, *words])


def start(of: str, words: list[str]) -> int:
    """Runs the program of this name with these arguments. Returns a status where it can't be."""
    text = text_for(of, words)
    if text:
        sys.stdout.write(text)
        return 0
    program = proved_program(of)
    if program:
        return become(program, words)
    # (what is needed only where nothing is proved is read only there)
    from unproved import run_unproved

    return run_unproved(of, become, words)
