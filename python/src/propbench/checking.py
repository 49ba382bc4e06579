"""`propdesk check`: a report of `propdesk run --json`, or a certificate, held against a fresh
session.

A report is compared with what the program tells to the same lines. A certificate says what was
found by many questions, and the program is asked what shows that.
"""

import re

from propbench.finding import find_wide
from propbench.overview import UNPROVED
from propbench.questions.certificate import check_base, check_lines
from propbench.questions.checker import HEAD, CertificateError
from propbench.questions.claimed import claims_in
from propbench.reports import NoReport, report_in
from propbench.showing import printable

# What a certificate ends with, whatever is wrong with it otherwise.
_CHECKSUM = re.compile(r"\n[0-9a-f]{64}\s*$")
# How the program answers a command that it doesn't have.
_NO_COMMAND = ": error 3: unknown command"
_NO_BASE = (
    "Whether its network is yours was not looked at: --base FILE compares it with a saved one."
)


def check_file(path: str, program: str | None, base: str | None = None) -> int:
    """Whether a fresh session tells what the report tells, or what the certificate claims: 0, or 1
    where it doesn't, with what differs. The network of a certificate has to be made of the lines of
    the file `base`, where one is given. Raises OSError, NoReport where the file is neither, and as
    `Session` does."""
    with open(path, encoding="utf-8", errors="surrogateescape", newline="\n") as file:
        text = file.read()
    if text.startswith(HEAD) or _CHECKSUM.search(text):
        return _check_certificate(text.removesuffix("\n").split("\n"), program, base)
    if base is not None:
        raise NoReport(f"{printable(path)}: no certificate, whose base could be compared")
    try:
        report = report_in(text)
    except NoReport as error:
        raise NoReport(f"{printable(path)}: {error}") from error
    found, proved = report.differences(program)
    for each in found:
        print(printable(each))
    if not found:
        print(f"All {report.told.count} answers of the report are the program's.")
    if not proved:
        print(UNPROVED)
    return 1 if found else 0


def _check_certificate(lines: list[str], program: str | None, base: str | None) -> int:
    """The same for a certificate, whose claims are told in words where they hold."""
    found = find_wide(program)
    try:
        if base is not None:
            check_base(lines, base)
        check_lines(lines, found.path)
    except CertificateError as error:
        print(printable(f"The certificate doesn't hold: {error}"))
        if str(error).endswith(_NO_COMMAND):
            print("This program is not propwide, which is asked for that: name one by --program.")
        return 1
    print(f"The certificate holds, of a network of {len(lines) - 4} lines:")
    for said in claims_in(lines):
        print(f"- {printable(said)}")
    if base is None:
        print(_NO_BASE)
    if not found.proved:
        print(UNPROVED)
    return 0
