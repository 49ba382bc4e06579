"""The pictures of the page that documents show are there, are small, and can be taken anew."""

import random
import re
import struct
import zlib
from typing import Any

import pytest
from conftest import REPOSITORY
from screens import FOLDER, SIZES, WHAT, packed, points_of, size_of, taken

MOST_BYTES = 100_000


def test_the_pictures_of_documents_are_there() -> None:
    names = {f"{what}-{screen}.png" for what in WHAT for screen in SIZES}
    assert {path.name for path in FOLDER.iterdir()} == names
    page = (REPOSITORY / "docs/PLANNING.md").read_text(encoding="utf-8")
    assert set(re.findall(r"!\[[^\]]+\]\(screens/(\S+)\)", page)) == names
    for name in names:
        picture = (FOLDER / name).read_bytes()
        screen = name.removesuffix(".png").split("-")[1]
        assert size_of(picture) == SIZES[screen] and len(picture) < MOST_BYTES


def test_pictures_are_taken(wide: str, monkeypatch: pytest.MonkeyPatch, browser: Any) -> None:
    monkeypatch.setenv("PROPBENCH", wide)
    found = dict(taken(browser, ["phone"]))
    assert list(found) == [f"{what}-phone.png" for what in WHAT]
    for picture in found.values():
        assert size_of(picture) == SIZES["phone"] and 5_000 < len(picture) < MOST_BYTES
    assert len({*found.values()}) == len(WHAT)


def chunk(name: bytes, told: bytes) -> bytes:
    return struct.pack(">I", len(told)) + name + told + struct.pack(">I", zlib.crc32(name + told))


def picture_of(lines: list[bytes], sorts: list[int]) -> bytes:
    """Lines of red, green and blue as a picture, each by a filter."""
    data, before = b"", bytes(len(lines[0]))
    for line, sort in zip(lines, sorts):
        lefts, corners = bytes(3) + line[:-3], bytes(3) + before[:-3]
        data += bytes([sort])
        for byte, left, up, corner in zip(line, lefts, before, corners):
            evenly = left + up - corner
            near = sorted((abs(evenly - it), at) for at, it in enumerate((left, up, corner)))[0][1]
            told = (0, left, up, (left + up) // 2, (left, up, corner)[near])[sort]
            data += bytes([(byte - told) % 256])
        before = line
    head = struct.pack(">IIBBBBB", len(lines[0]) // 3, len(lines), 8, 2, 0, 0, 0)
    parts = [chunk(b"IHDR", head), chunk(b"IDAT", zlib.compress(data)), chunk(b"IEND", b"")]
    return b"\x89PNG\r\n\x1a\n" + b"".join(parts)


def test_a_small_picture_has_the_same_points() -> None:
    draw = random.Random(7)
    colours = [draw.randbytes(3) for _ in range(20)]
    lines = [b"".join(draw.choices(colours, k=9)) for _ in range(10)]
    wanted = [line[at : at + 3] for line in lines for at in range(0, 27, 3)]
    picture = picture_of(lines, [0, 1, 2, 3, 4] * 2)
    assert points_of(picture) == wanted
    small = packed(picture)
    [colour] = re.findall(rb"PLTE(.*)....\0.*IDAT", small, flags=re.S)
    data = zlib.decompress(small[small.index(b"IDAT") + 4 :])
    places = [place for at in range(0, 100, 10) for place in data[at + 1 : at + 10]]
    assert [colour[3 * place : 3 * place + 3] for place in places] == wanted
