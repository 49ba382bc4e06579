"""Worked sessions: lines, and below each the replies that it wants."""
import os
import re
from dataclasses import dataclass
from typing import Iterator

from case import Case


@dataclass
class Transcript:
    """A session line by line, each with what is written for it."""

    name: str
    options: list[str]
    exchanges: list[tuple[bytes, bytes]]

    def lines(self) -> list[bytes]:
        return [line for line, _ in self.exchanges]

    def replies(self) -> list[bytes]:
        return [reply for _, reply in self.exchanges]

    def case(self) -> Case:
        return Case(self.name, b"".join(self.lines()), b"".join(self.replies()), self.options)


def with_bytes(text: str) -> bytes:
    """A line of input with the bytes that its escapes stand for."""
    said = {"t": b"\t", "r": b"\r"}
    parts = re.split(r"\\(t|r|x[0-9a-f]{2})", text)
    return b"".join(
        part.encode() if i % 2 == 0 else said.get(part) or bytes([int(part[1:], 16)])
        for i, part in enumerate(parts)
    )


def exchanges(lines: list[str]) -> list[tuple[bytes, bytes]]:
    """Each line that is sent, with the replies below it."""
    found: list[tuple[bytes, bytes]] = []
    for line in lines:
        if line.startswith(">"):
            found.append((with_bytes(line[1:].removeprefix(" ")) + b"\n", b""))
        elif line:
            sent, reply = found.pop()
            found.append((sent, reply + line.encode() + b"\n"))
    return found


def transcripts(path: str) -> Iterator[Transcript]:
    """The sessions of one file."""
    with open(path, encoding="utf-8", newline="\n") as it:
        text = it.read()
    file = os.path.splitext(os.path.basename(path))[0]
    for session in re.split(r"^== ", text, flags=re.M)[1:]:
        title, *lines = session.split("\n")
        options = re.search(r" \((--.*)\)$", title)
        yield Transcript(
            f"{file}: {title}", options[1].split() if options else [], exchanges(lines)
        )
