#!/usr/bin/python3
"""Worked sessions in which what they ask the machine for is refused: memory, a read, a write; or
whose input is cut.

usage: tests/refusals.py PROGRAM SESSION

refuses each request for memory of the lines of the file SESSION in turn, once each. The gate runs
worked sessions so.
"""
import atexit
import os
import shutil
import subprocess
import sys
import tempfile
from dataclasses import dataclass
from functools import cache
from typing import Iterable, Iterator, Optional

from case import SECONDS, first_difference
from transcripts import Transcript

# Stands before the C library: the Nth request for memory, the Nth read of standard input or the Nth
# write to standard output is refused where REFUSED is mN, rN or wN; with rN a read brings one byte,
# with nN the Nth write takes nothing, with s1 each write takes a half. With aN the Nth read would
# have to wait, with bN the Nth write; with iN a signal interrupts each read and each write N times
# before it is carried out. With cN the requests for memory are counted, and told on standard error
# at the end. All else goes to the C library. It needs no header.
STANDING_BEFORE = r"""
typedef unsigned long size;
void *__libc_malloc(size); void *__libc_realloc(void *, size);
long __read(int, void *, size); long __write(int, const void *, size);
char *getenv(const char *);
int *__errno_location(void);

static long counted, at = -1;
static char kind;

static int is_refused(char of) {
    if (at < 0) {
        char *said = getenv("REFUSED");
        at = 0;
        if (said) {
            kind = *said++;
            while (*said >= '0' && *said <= '9') at = 10 * at + (*said++ - '0');
        }
    }
    return of == kind && ++counted == at;
}

__attribute__((destructor)) static void tell(void) {
    char digits[21], *begin = digits + 20;
    long left = counted;
    *begin = '\n';
    do { *--begin = '0' + left % 10; left /= 10; } while (left);
    if (kind == 'c') __write(2, begin, digits + 21 - begin);
}

/* whether a signal comes before this call is carried out */
static int is_interrupted(void) {
    static long tries;
    is_refused(0);
    return kind == 'i' && tries++ % (at + 1) != at;
}

static long failed(int why) { *__errno_location() = why; return -1; }

void *malloc(size n) {
    is_refused('c');
    return is_refused('m') ? (failed(12), (void *)0) : __libc_malloc(n);
}
void *realloc(void *p, size n) {
    is_refused('c');
    return is_refused('m') ? (failed(12), (void *)0) : __libc_realloc(p, n);
}
long read(int f, void *to, size n) {
    if (f != 0) return __read(f, to, n);
    if (is_interrupted()) return failed(4);
    if (is_refused('r')) return failed(5);
    return is_refused('a') ? failed(11) : __read(f, to, (kind == 'r' || kind == 'a') && n ? 1 : n);
}
long write(int f, const void *from, size n) {
    if (f != 1) return __write(f, from, n);
    if (is_interrupted()) return failed(4);
    if (is_refused('w')) return failed(5);
    if (is_refused('b')) return failed(11);
    return kind == 'n' && is_refused('n') ? 0 : __write(f, from, kind == 's' && n > 1 ? n / 2 : n);
}
"""

COMPILERS = ["cc", "gcc", "clang", "/opt/rattle/toolchain/bin/clang"]

OUT_OF_MEMORY = b"error 90: out of memory\n"


@cache
def library() -> str:
    """The library that stands before the C library, built once."""
    folder = tempfile.mkdtemp()
    atexit.register(shutil.rmtree, folder)
    source, built = os.path.join(folder, "before.c"), os.path.join(folder, "before.so")
    with open(source, "w", encoding="utf-8") as file:
        file.write(STANDING_BEFORE)
    for compiler in COMPILERS:
        if shutil.which(compiler):
            made = subprocess.run(
                [
                    compiler,
                    "-shared",
                    "-fPIC",
                    "-O1",
                    "-nostdlib",
                    "-fno-builtin",
                    "-w",
                    "-o",
                    built,
                    source,
                ],
                capture_output=True,
                check=False,
            )
            if made.returncode == 0:
                return built
    raise SystemExit("no C compiler: the sessions whose memory is refused can't be run")


def run(program: str, lines: list[bytes], refused: str = "") -> tuple[int, bytes, bytes]:
    """What the program writes for the lines where one call is refused: its status, its output and
    what it says on standard error."""
    ran = subprocess.run(
        [program],
        input=b"".join(lines),
        capture_output=True,
        timeout=SECONDS,
        check=False,
        env={**os.environ, "LD_PRELOAD": library(), "REFUSED": refused},
    )
    return ran.returncode, ran.stdout, ran.stderr


@dataclass
class Refusals:
    """A worked session, run anew for each of the calls that may be refused."""

    name: str
    session: Transcript

    def numbers(self, program: str) -> Iterable[int]:
        """Which calls are refused, one after the other."""
        raise NotImplementedError

    def wrong_at(self, program: str, number: int) -> Optional[str]:
        """What is wrong where the call of this number is refused, or None."""
        raise NotImplementedError

    def wrong(self, program: str) -> Optional[str]:
        """What is wrong with the first run that is wrong, or None."""
        for number in self.numbers(program):
            wrong = self.wrong_at(program, number)
            if wrong:
                return f"number {number}: {wrong}"
        return None


class EachAllocation(Refusals):
    """Each request for memory is refused in turn. Before the first line the program goes on without
    it, or ends with status 4. Behind it either the line for which memory was refused says so, and
    all is as if it had not been given: given once more, it and all others have their replies. Or no
    line does, and all have their replies: what is kept to save time is done without."""

    def numbers(self, program: str) -> Iterable[int]:
        self.before, asked = requests(program, []), requests(program, self.session.lines())
        assert self.before < asked
        return range(1, asked + 2)

    def wrong_at(self, program: str, number: int) -> Optional[str]:
        lines, replies = self.session.lines(), self.session.replies()
        status, output, told = run(program, lines, f"m{number}")
        if status == 4:
            return (
                None
                if (output, told) == (b"", b"propbench: out of memory\n") and number <= self.before
                else f"it wrote {output!r} and said {told!r}"
            )
        refused = self.refused(output)
        if refused is not None:
            lines, replies = (
                lines[:refused] + lines[refused : refused + 1] + lines[refused:],
                replies[:refused] + [OUT_OF_MEMORY] + replies[refused:],
            )
            status, output, told = run(program, lines, f"m{number}")
        return (
            first_difference(output, b"".join(replies))
            if (status, told) == (0, b"")
            else f"the status is {status}, it said {told!r}"
        )

    def refused(self, output: bytes) -> Optional[int]:
        """Which line was refused, where those before it have their replies; none where no line
        was."""
        before = b""
        for number, reply in enumerate(self.session.replies()):
            if reply and output.startswith(before + OUT_OF_MEMORY):
                return number
            before += reply
        return None


def requests(program: str, lines: list[bytes]) -> int:
    """How many requests for memory the program makes."""
    return int(run(program, lines, "c0")[2])


class EachRead(Refusals):
    """The input comes byte by byte, and each read fails in turn: the lines that came whole have
    their replies, and no other is carried out."""

    kind = "r"

    def numbers(self, program: str) -> Iterable[int]:
        return range(1, len(b"".join(self.session.lines())) + 2)

    def wrong_at(self, program: str, number: int) -> Optional[str]:
        came = b"".join(self.session.lines())[: number - 1]
        wanted = b"".join(self.session.replies()[: came.count(b"\n")])
        status, output, told = run(program, self.session.lines(), f"{self.kind}{number}")
        return (
            first_difference(output, wanted)
            if (status, told) == (2, b"propbench: read fault\n")
            else f"the status is {status}, it said {told!r}"
        )


class EachReadThatWouldWait(EachRead):
    """The same where each read in turn would have to wait: it is a fault as any other, and is not
    tried again."""

    kind = "a"


class EachWrite(Refusals):
    """Each write fails in turn, or takes nothing: each reply before it was written, by one write
    with its line feed, and nothing else. One write more is none."""

    kind = "w"

    def numbers(self, program: str) -> Iterable[int]:
        return range(1, len(self.spoken()) + 2)

    def spoken(self) -> list[bytes]:
        """The replies that are no silence."""
        return [reply for reply in self.session.replies() if reply]

    def wrong_at(self, program: str, number: int) -> Optional[str]:
        spoken = self.spoken()
        ended = (2, b"propbench: write fault\n") if number <= len(spoken) else (0, b"")
        status, output, told = run(program, self.session.lines(), f"{self.kind}{number}")
        return (
            first_difference(output, b"".join(spoken[: number - 1]))
            if (status, told) == ended
            else f"the status is {status}, it said {told!r}"
        )


class EachWriteThatWouldWait(EachWrite):
    kind = "b"


class EachWriteOfNothing(EachWrite):
    kind = "n"


class HalfWrites(Refusals):
    """Each write takes a half of what it is given: all is written all the same."""

    def numbers(self, program: str) -> Iterable[int]:
        return [1]

    def wrong_at(self, program: str, number: int) -> Optional[str]:
        status, output, told = run(program, self.session.lines(), "s1")
        return (
            first_difference(output, b"".join(self.session.replies()))
            if (status, told) == (0, b"")
            else f"the status is {status}, it said {told!r}"
        )


class Interrupted(Refusals):
    """A signal interrupts each read and each write, once or often, before it is carried out: all
    goes its way. One that is interrupted each time is a fault in the end."""

    def numbers(self, program: str) -> Iterable[int]:
        return [1, 1_000, 65_535, 65_536]

    def wrong_at(self, program: str, number: int) -> Optional[str]:
        lines, replies = self.session.lines()[:2], self.session.replies()[:2]
        if number == 1:
            lines, replies = self.session.lines(), self.session.replies()
        wanted = (
            (0, b"".join(replies), b"") if number < 65_536 else (2, b"", b"propbench: read fault\n")
        )
        ended = run(program, lines, f"i{number}")
        return None if ended == wanted else f"it ended with {ended}, wanted {wanted}"


class EachCut(Refusals):
    """The input ends after each byte in turn: the whole lines have their replies, and what is left
    is carried out as a last line."""

    def numbers(self, program: str) -> Iterable[int]:
        return range(len(b"".join(self.session.lines())) + 1)

    def wrong_at(self, program: str, number: int) -> Optional[str]:
        came = b"".join(self.session.lines())[:number]
        whole = b"".join(self.session.replies()[: came.count(b"\n")])
        status, output, told = run(program, [came])
        ended = run(program, [came, b"" if came.endswith(b"\n") or not came else b"\n"])
        if (status, output, told) != ended or not output.startswith(whole):
            return (
                f"it wrote {output!r}, with a line feed {ended!r}, and whole lines want {whole!r}"
            )
        left = came.rpartition(b"\n")[2]
        return (
            None
            if (output == whole) == (not left.strip())
            else f"what is left, {left!r}, was answered {output.removeprefix(whole)!r}"
        )


# The sessions whose requests for memory are refused.
HUNGRY = [
    "compounds: the same and by its fall",
    "choices: the second side where the first clashes, and back where that no longer does",
    "choices: premises and sides that lie far apart: "
    "back over sixteen choices that clash with nothing",
    "compounds: a definition with a local cell, and what is refused",
    "compounds: elements that are alike",
    "cores: two that are needed, and one that is not",
    "forgetting: a contradiction, and one of its two premises is forgotten",
    "forgetting: a choice goes back to its first side, "
    "and what was learned without the premise stays",
]

# The session on devices that fail.
CHOOSING = HUNGRY[1]


def cases(transcripts: list[Transcript]) -> Iterator[Refusals]:
    by_name = {each.name: each for each in transcripts}
    yield from (EachAllocation(f"refusals: memory, {name}", by_name[name]) for name in HUNGRY)
    for kind in [
        EachRead,
        EachReadThatWouldWait,
        EachWrite,
        EachWriteThatWouldWait,
        EachWriteOfNothing,
        HalfWrites,
        Interrupted,
        EachCut,
    ]:
        yield kind(f"refusals: {kind.__name__}, {CHOOSING}", by_name[CHOOSING])


def answered(program: str, path: str) -> Transcript:
    """The lines of a file, each with what the program writes for it."""
    with open(path, "rb") as file:
        lines = file.read().splitlines(keepends=True)
    outputs = [run(program, lines[:count])[1] for count in range(len(lines) + 1)]
    replies = [after.removeprefix(before) for before, after in zip(outputs, outputs[1:])]
    return Transcript(path, [], list(zip(lines, replies)))


def main(program: str, path: str) -> str | int:
    return EachAllocation(path, answered(program, path)).wrong(program) or 0


if __name__ == "__main__":
    sys.exit(main(*sys.argv[1:]))
