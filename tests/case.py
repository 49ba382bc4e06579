"""One run of the program: what it is given, and what it has to write."""
import os
import resource
import subprocess
import tempfile
import time
from dataclasses import dataclass, field, replace
from typing import Callable, Iterable, Iterator, Optional

SECONDS = 60
NO_END = f"no end in {SECONDS} seconds"

# The orders in which waiting procedures may be called, as options of the program; the first is the
# one where none is chosen.
ORDERS: list[list[str]] = [[], ["--order", "lifo"], ["--order", "mixed", "--seed", "7"]]


def as_bytes(*lines: str) -> bytes:
    """These lines as they are sent, or written, each with its end."""
    return "".join(line + "\n" for line in lines).encode()


def answered(count: int, *last: str) -> bytes:
    """What is written where so many lines are answered `ok`, and those behind them so."""
    return as_bytes(*["ok"] * count, *last)


def first_difference(got: bytes, wanted: bytes) -> Optional[str]:
    """Where two outputs part, or None."""
    if got == wanted:
        return None
    lines, known = got.split(b"\n"), wanted.split(b"\n")
    for number, (one, other) in enumerate(zip(lines, known), 1):
        if one != other:
            return f"line {number} of the output is {one!r}, wanted {other!r}"
    return f"{len(lines) - 1} lines of output, wanted {len(known) - 1}"


@dataclass
class Check:
    """Something that is looked at: a function of the program's path says what is wrong with it."""

    name: str
    look: Callable[[str], Optional[str]]

    def wrong(self, program: str) -> Optional[str]:
        """What is wrong with it, or None."""
        return self.look(os.path.abspath(program))


@dataclass
class Case:
    """A session, or a function that makes it, with its wanted output: bytes, or a function that
    says what is wrong with an output."""

    name: str
    sent: bytes | Callable[[], bytes]
    wanted: bytes | Callable[[bytes], Optional[str]]
    options: list[str] = field(default_factory=list)
    status: int = 0
    # What standard error has to hold.
    told: bytes = b""

    def input(self) -> bytes:
        """What the program is given."""
        return self.sent() if callable(self.sent) else self.sent

    def wrong(self, program: str) -> Optional[str]:
        """What is wrong with the program's run, or None."""
        try:
            ran = subprocess.run(
                [program, *self.options],
                input=self.input(),
                capture_output=True,
                timeout=SECONDS,
                check=False,
            )
        except subprocess.TimeoutExpired:
            return NO_END
        return self.wrong_with(ran.returncode, ran.stdout, ran.stderr)

    def wrong_with(self, status: int, output: bytes, told: bytes) -> Optional[str]:
        """What is wrong with how a run ended and what it wrote, or None."""
        if status != self.status:
            return f"the status is {status}, wanted {self.status}; it said {told!r}"
        if self.told not in told or bool(told) != bool(self.told):
            return f"it said {told!r}, wanted {self.told!r}"
        return (
            self.wanted(output) if callable(self.wanted) else first_difference(output, self.wanted)
        )


class OnDevices(Case):
    """A run over files in place of pipes: what standard input and standard output are."""

    def __init__(self, name: str, reads: str, writes: str, status: int, told: bytes) -> None:
        super().__init__(name, b"", b"", status=status, told=told)
        self.reads, self.writes = reads, writes

    def wrong(self, program: str) -> Optional[str]:
        reads = os.open(self.reads, os.O_RDONLY)
        writes = os.open(self.writes, os.O_WRONLY)
        ran = subprocess.run(
            [program],
            stdin=reads,
            stdout=writes,
            stderr=subprocess.PIPE,
            timeout=SECONDS,
            check=False,
        )
        os.close(reads)
        os.close(writes)
        return self.wrong_with(ran.returncode, b"", ran.stderr)


# How many bytes a file may have that may not grow further.
FILE_LIMIT = 1_000


class OnAFullFile(Case):
    """A run into a file that may not grow further, under a caller that ignores the signal for it:
    so does Python, and it hands that on."""

    def wrong(self, program: str) -> Optional[str]:
        with tempfile.TemporaryFile() as file:
            ran = subprocess.run(
                [program],
                input=self.input(),
                stdout=file,
                stderr=subprocess.PIPE,
                timeout=SECONDS,
                check=False,
                restore_signals=False,
                preexec_fn=lambda: resource.setrlimit(
                    resource.RLIMIT_FSIZE, (FILE_LIMIT, FILE_LIMIT)
                ),
            )
            file.seek(0)
            return self.wrong_with(ran.returncode, file.read(), ran.stderr)


class ByteByByte(Case):
    """A run over a pipe that brings one byte at a time."""

    def wrong(self, program: str) -> Optional[str]:
        with subprocess.Popen(
            [program],
            stdin=subprocess.PIPE,
            stdout=subprocess.PIPE,
            stderr=subprocess.PIPE,
            bufsize=0,
        ) as ran:
            assert ran.stdin
            for byte in self.input():
                ran.stdin.write(bytes([byte]))
                time.sleep(0.001)
            output, told = ran.communicate(timeout=SECONDS)
        return self.wrong_with(ran.returncode, output, told)


class Unheard(Case):
    """A run whose output nobody reads."""

    def wrong(self, program: str) -> Optional[str]:
        read, write = os.pipe()
        os.close(read)
        ran = subprocess.run(
            [program],
            input=self.input(),
            stdout=write,
            stderr=subprocess.PIPE,
            timeout=SECONDS,
            check=False,
        )
        os.close(write)
        return self.wrong_with(ran.returncode, b"", ran.stderr)


def in_each_order(cases: Iterable[Case]) -> Iterator[Case]:
    """Each case in each order, but for one that chooses its order itself."""
    for case in cases:
        for order in [[]] if "--order" in case.options else ORDERS:
            yield replace(case, name=" ".join([case.name, *order]), options=[*case.options, *order])
