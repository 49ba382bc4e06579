"""Sessions that are made: large ones, command lines, devices that fail."""
import os
import re
from functools import partial
from typing import Callable, Iterator, Optional

from case import (
    FILE_LIMIT,
    ORDERS,
    ByteByByte,
    Case,
    OnAFullFile,
    OnDevices,
    Unheard,
    answered,
    as_bytes,
)

# (a session that says something)
FIRST = os.path.join(os.path.dirname(os.path.realpath(__file__)), "..", "examples", "first.prop")

PRELUDE = [
    "sum",
    "product",
    "square",
    "less",
    "same",
    "alike",
    "switch",
    "conditional",
    "not",
    "and",
    "or",
    "link",
]


def doubled(first: str) -> list[str]:
    """A definition `d0`, and `d1` to `d199`, each of which uses the one before twice."""
    lines = [f"define d0 x y = {first}"]
    lines += [f"define d{n + 1} x y = d{n} x y ; d{n} x y" for n in range(199)]
    return lines + ["cell a span", "cell b span"]


def large_uses() -> Iterator[Case]:
    limit = "error 16: limit reached: "
    uses = [
        "attach d199 a b",
        "attach d18 a b",
        "attach d17 a b",
        "attach d17 a b",
        "fix a 7",
        "ask b",
    ]
    yield Case(
        "large uses: more instances than there may be are refused at once",
        as_bytes(*doubled("copier x y"), *uses),
        answered(
            202, limit + "instances", limit + "instances", "ok", limit + "instances", "ok", "b = 7"
        ),
    )
    uses = [
        "attach d199 a b",
        "attach d17 a b",
        "attach d16 a b",
        "attach d16 a b",
        "attach d15 a b",
        "attach d15 a b",
        "ask b",
    ]
    yield Case(
        "large uses: more fresh cells than there may be are refused at once",
        as_bytes(*doubled("local m span ; copier x m"), *uses),
        answered(
            202,
            limit + "cells",
            limit + "cells",
            "ok",
            limit + "cells",
            "ok",
            limit + "cells",
            "b = nothing",
        ),
    )


def linked(name: str, params: list[str], first: str, links: int, passed: str = "") -> list[str]:
    """A definition that does this first, and so many more, each of which does nothing but use the
    one before on its parameters from the last to the first, and passes this."""
    lines = [f"define {name}0 {' '.join(params)} = {first}"]
    return lines + [
        f"define {name}{n + 1} {' '.join(params)} = {name}{n} {' '.join(params[::-1])}{passed}"
        for n in range(links)
    ]


def long_ways() -> Iterator[Case]:
    """Uses that go down through 1,000 definitions cost no more than what they make."""
    params = " ".join(f"p{n}" for n in range(60))
    cells = [f"c{n}" for n in range(60)]
    lines = linked("d", params.split(), "copier p0 p59", 982) + [
        f"define w0 {params} = d982 {params}"
    ]
    lines += [f"define w{n + 1} {params} = w{n} {params} ; w{n} {params}" for n in range(17)]
    lines += [f"cell {cell} span" for cell in cells] + [f"attach w17 {' '.join(cells)}", "fix c0 7"]
    yield Case(
        "long ways: 131,072 instances, each down through 1,000 definitions",
        as_bytes(*lines, "ask c59", "ask c58"),
        answered(len(lines), "c59 = 7", "c58 = nothing"),
    )
    yield from which_cell_is_which()


def which_cell_is_which() -> Iterator[Case]:
    """The parameters of long ways, and what is passed on them."""
    lines = linked("d", ["x", "y", "z"], "adder x y z", 999) + [
        f"cell {cell} span" for cell in "abce"
    ]
    lines += ["attach d999 a b c", "attach d998 c c e", "fix b 2", "fix c 3"]
    yield Case(
        "long ways: which cell is which",
        as_bytes(*lines, "ask a", "ask e"),
        answered(len(lines), "a = 5", "e = 6"),
    )
    lines = linked("m", ["x", "y", "z"], "multiplier x y z by *", 500, " by *") + linked(
        "n", ["x", "y", "z"], "m500 x y z", 50
    )
    lines += linked("k", ["x", "y"], "copier x y", 1, " by 2") + linked(
        "l", ["x", "y"], "k1 x y", 400
    )
    lines += [f"cell {cell} span" for cell in "abc"] + [
        "attach m500 a b c by 10",
        "fix a 60",
        "fix b 7",
    ]
    wrong = "error 14: wrong parameter"
    yield Case(
        "long ways: what is passed, and where nobody takes it",
        as_bytes(
            *lines,
            "attach n50 a b c by 10",
            "attach l400 a b",
            "attach n50 a b c by 0",
            "ask c",
            "attach k0 a b",
            "attach k0 a b by 2",
        ),
        answered(len(lines), wrong, wrong, "error 6: not a number in range", "c = 42", "ok", wrong),
    )


def limits() -> Iterator[Case]:
    """Each limit: what stands before, a line for each number below the limit, and one too many,
    which is refused and changes nothing."""
    elements = [f"e{n}" for n in range(65)]
    kinds: list[tuple[str, int, list[str], Callable[[int], str]]] = [
        ("cells", 100_000, [], lambda n: f"cell c{n} span"),
        ("instances", 200_000, ["cell a span", "cell b span"], lambda n: "attach copier a b"),
        ("premises", 4_096, ["cell a span"], lambda n: f"tell p{n} a 1"),
        ("statements", 1_000_000, ["cell a span"], lambda n: "fix a 1"),
        ("domains", 1_024, [], lambda n: f"domain d{n} e"),
        ("elements", 1, [], lambda n: f"domain d{n} {' '.join(elements[: 64 + n])}"),
        ("relations", 1_024, ["domain d e"], lambda n: f"relation r{n} d d = e e"),
        ("definitions", 1_024 - len(PRELUDE), [], lambda n: f"define f{n} x y = copier x y"),
        (
            "symbols",
            100_000,
            [f"cell c{n} symbol" for n in range(101)],
            lambda n: f"fix c{n // 1_000} s{n}",
        ),
        ("choices", 64, ["cell a span"], lambda n: f"choose k{n} a 1 or 2"),
    ]
    for word, most, before, line in kinds:
        yield Case(
            f"limits: {word}",
            partial(up_to, most, before, line),
            partial(wrong_at_limit, word, most + len(before)),
        )


def up_to(most: int, before: list[str], line: Callable[[int], str]) -> bytes:
    """What stands before, so many lines and one too many, twice, a cell, and the first line
    again."""
    return as_bytes(*before, *map(line, range(most + 1)), line(most), "cell last span", line(0))


def wrong_at_limit(word: str, taken: int, output: bytes) -> Optional[str]:
    """What is wrong with the replies, of which so many are to be `ok` and the two behind them
    refusals."""
    replies, refusal = output.decode().splitlines(), f"error 16: limit reached: {word}"
    if replies[:taken] != ["ok"] * taken:
        return f"not all of the first {taken} replies are ok"
    if replies[taken : taken + 2] != [refusal, refusal]:
        return f"line {taken + 1} and the next are answered by {replies[taken : taken + 2]}"
    return None if len(replies) == taken + 4 else f"{len(replies)} replies, wanted {taken + 4}"


def sides_among_premises() -> Iterator[Case]:
    """Each side of a choice takes one of the numbers of premises; a choice that finds too few of
    them is refused before the limit of choices is looked at."""
    limit = "error 16: limit reached: premises"
    eight = " or ".join(map(str, range(1, 9)))
    lines = [
        "cell a span",
        *(f"choose k{n} a {eight}" for n in range(62)),
        *(f"tell p{n} a 1" for n in range(3_598)),
    ]
    yield Case(
        "limits: premises, of which the sides of choices are some",
        as_bytes(
            *lines,
            "choose c a 1 or 2 or 3",
            "choose c a 1 or 2",
            "tell q a 1",
            "choose d a 1 or 2",
            "choose c a 1 or 2",
            "tell p0 a 1",
        ),
        answered(len(lines), limit, "ok", limit, limit, "error 7: name taken", "ok"),
    )


LINE = 4_096


def sizes() -> Iterator[Case]:
    """Each size of what a line lists, as far as a line holds it: with ample memory none is
    refused."""
    yield from relations()
    yield from definitions()
    yield from elements()
    yield from explanations()


def relations() -> Iterator[Case]:
    """Pairs of a relation."""
    letters = [chr(ord("a") + n) for n in range(26)]
    pairs = [f"{x} {y}" for x in letters for y in letters]
    lines = [f"relation r{n} d d = {' ; '.join(pairs[:n])}" for n in range(1, len(pairs) + 1)]
    lines = [line for line in lines if len(line) <= LINE]
    uses = [f"attach link x y by r{n + 1}" for n in range(len(lines))]
    yield Case(
        "sizes: pairs of a relation",
        as_bytes(
            f"domain d {' '.join(letters)}",
            "cell x d",
            "cell y d",
            *lines,
            *uses,
            "fix x a",
            "ask y",
        ),
        answered(4 + 2 * len(lines), "y = a"),
    )


def definitions() -> Iterator[Case]:
    """Parameters and steps of a definition."""
    cells = [f"c{n}" for n in range(64)]
    lines = [f"cell {cell} span" for cell in cells]
    lines += [f"define f{n} {' '.join(cells[:n])} = copier c0 {cells[n - 1]}" for n in range(2, 65)]
    lines += [f"attach f{n} {' '.join(cells[:n])}" for n in range(2, 65)]
    yield Case(
        "sizes: parameters of a definition",
        as_bytes(*lines, "fix c0 7", *(f"ask {cell}" for cell in cells)),
        answered(len(lines) + 1, *(f"{cell} = 7" for cell in cells)),
    )
    lines = [f"define g{n} x y = {' ; '.join(['copier x y'] * n)}" for n in range(1, 400)]
    lines = [line for line in lines if len(line) <= LINE]
    lines += [f"attach g{n + 1} a b" for n in range(len(lines))]
    yield Case(
        "sizes: steps of a definition",
        as_bytes("cell a span", "cell b span", *lines, "fix a 7", "ask b"),
        answered(len(lines) + 3, "b = 7"),
    )


def elements() -> Iterator[Case]:
    """Elements of a domain, and sides of a choice."""
    lines = [f"domain d{n} {' '.join(f'e{m}' for m in range(n))}" for n in range(1, 65)] + [
        f"cell x{n} d{n}" for n in range(1, 65)
    ]
    lines += [f"fix x{n} {{{' '.join(f'e{m}' for m in range(n))}}}" for n in range(2, 65)]
    lines += [f"choose k{n} x64 {' or '.join(f'e{m}' for m in range(n))}" for n in range(2, 9)]
    yield Case(
        "sizes: elements, and sides of a choice",
        as_bytes(*lines, "ask x64"),
        answered(len(lines), "x64 = e0"),
    )


def explanations() -> Iterator[Case]:
    """Premises of an explanation."""
    count = 200
    lines = [f"cell {name}{n} span" for n in range(count) for name in "xs"] + [
        "attach same x0 s0",
        *(f"attach sum s{n - 1} x{n} s{n}" for n in range(1, count)),
    ]
    lines += [f"tell p{n} x{n} {n}" for n in range(count)]
    because = [
        f"s{n} = {n * (n + 1) // 2} because {' '.join(f'p{m}' for m in range(n + 1))}"
        for n in range(count)
    ]
    yield Case(
        "sizes: premises of an explanation",
        as_bytes(*lines, *(f"why s{n}" for n in range(count))),
        answered(len(lines), *because),
    )


def line_lengths() -> Iterator[Case]:
    for length, end, is_too_long in [
        (4096, b"", False),
        (4097, b"", True),
        (4095, b"\r", False),
        (4096, b"\r", True),
    ]:
        yield Case(
            f"lines: {length} bytes and {end!r}",
            b"#" * length + end + b"\nsettle\n",
            b"error 1: line too long\nsettled\n" if is_too_long else b"settled\n",
        )
    yield Case(
        "lines: the last one without its end",
        b"settle\r\ngo",
        b"settled\nerror 3: unknown command\n",
    )
    yield Case(
        "lines: a long one in pieces", b"ask x\n" * 10_000, b"error 9: no such cell\n" * 10_000
    )


def command_lines() -> Iterator[Case]:
    stepping = as_bytes(
        "cell x span", "cell one span", "attach adder x one x", "fix one 1", "fix x 0..10", "ask x"
    )
    limited: list[tuple[list[str], str]] = [
        ([], "contradiction: no premise"),
        (["--limit", "3"], "x = 3..10 unsettled"),
        (["--limit=0"], "x = 0..10 unsettled"),
        (["--limit", "007"], "x = 7..10 unsettled"),
        (["--limit", "1000000000000000"], "contradiction: no premise"),
    ]
    for options, answer in limited:
        yield Case(f"command lines: {options}", stepping, answered(5, answer), options)
    yield from refused_words()
    for options in [
        ["--order", "fifo"],
        ["--order=lifo"],
        ["--order", "mixed"],
        ["--order", "mixed", "--seed", "18446744073709551615"],
        ["--seed=0"],
    ]:
        yield Case(
            f"command lines: {options}", stepping, answered(5, "contradiction: no premise"), options
        )
    yield Case("command lines: help", b"settle\n", wrong_help, ["--help"])


def wrong_help(output: bytes) -> Optional[str]:
    """What is wrong where help doesn't tell of each option."""
    told = [b"--limit <N>", b"--order <ORDER>", b"--seed <N>"]
    return None if all(it in output for it in told) else f"it wrote {output!r}"


def refused_words() -> Iterator[Case]:
    """Command lines that are refused: nothing is carried out."""
    for options, told in [
        (["--limit", "1000000000000001"], b"the limit is not a number from 0 to 1000000000000000"),
        (["--limit=-1"], b"the limit is not a number from 0 to 1000000000000000"),
        (["--limit", "1e3"], b"the limit is not a number from 0 to 1000000000000000"),
        (["--limit"], b"--limit"),
        (["more"], b"more"),
        (["--limits", "1"], b"--limits"),
    ]:
        yield Case(f"command lines: {options}", b"settle\n", b"", options, status=1, told=told)
    for options, told in [
        (["--order", "random"], b"the order is none of fifo, lifo and mixed"),
        (["--order"], b"--order"),
        (["--seed=-1"], b"the seed is not a number from 0 to 18446744073709551615"),
        (
            ["--seed", "18446744073709551616"],
            b"the seed is not a number from 0 to 18446744073709551615",
        ),
        (["--seed", "x"], b"the seed is not a number from 0 to 18446744073709551615"),
    ]:
        yield Case(f"command lines: {options}", b"settle\n", b"", options, status=1, told=told)


def steps() -> Iterator[Case]:
    """A sum that feeds itself, cut short in each order: whatever was called, the ends have moved by
    no more than one a step."""
    looping = [
        "cell x span",
        "cell one span",
        "cell y span",
        "attach sum x one y",
        "attach same x y",
        "fix one 1",
        "tell p x 0..1000000",
        "limit 100",
        "ask x",
    ]
    for order in ORDERS:
        yield Case(
            " ".join(["limits: a sum that feeds itself", *order]),
            as_bytes(*looping),
            wrong_in_loop,
            order,
        )


def wrong_in_loop(output: bytes) -> Optional[str]:
    *before, answer = output.decode().splitlines()
    found = re.fullmatch(r"x = (\d+)\.\.(\d+) unsettled", answer)
    if before != ["ok"] * 8 or not found:
        return f"it wrote {output!r}"
    low, high = int(found[1]), int(found[2])
    return None if low <= 100 and 999_900 <= high <= 1_000_000 else f"it answered {answer!r}"


def devices() -> Iterator[Case]:
    yield OnDevices("devices: a reader that fails", "/", "/dev/null", 2, b"propbench: read fault\n")
    yield OnDevices(
        "devices: a writer that is full", FIRST, "/dev/full", 2, b"propbench: write fault\n"
    )
    yield OnAFullFile(
        "devices: a file that may not grow further",
        b"ask x\n" * 100,
        (b"error 9: no such cell\n" * 100)[:FILE_LIMIT],
        status=2,
        told=b"propbench: write fault\n",
    )
    yield Unheard(
        "devices: a writer that nobody reads",
        b"settle\n",
        b"",
        status=2,
        told=b"propbench: write fault\n",
    )
    yield ByteByByte(
        "devices: a reader of one byte at a time",
        b"cell x span\r\n\nfix x 3..5\nask x\ngo",
        b"ok\nok\nx = 3..5\nerror 3: unknown command\n",
    )


def prelude() -> Iterator[Case]:
    """Each compound of the prelude stands before the first line."""
    for name in PRELUDE:
        yield Case(
            f"prelude: {name} is taken",
            as_bytes(f"define {name} x y = copier x y"),
            b"error 7: name taken\n",
        )


def cases() -> Iterator[Case]:
    yield from large_uses()
    yield from long_ways()
    yield from limits()
    yield from sides_among_premises()
    yield from sizes()
    yield from line_lengths()
    yield from command_lines()
    yield from steps()
    yield from devices()
    yield from prelude()
