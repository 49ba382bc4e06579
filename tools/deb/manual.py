"""The man pages: what --help prints, and sections of the documents behind it."""
import os
import re
import subprocess
import tempfile

TOP = os.path.dirname(os.path.dirname(os.path.dirname(os.path.realpath(__file__))))
NAME = "a workbench for propagator networks with truth maintenance"
NAMES = {"propbench": NAME, "propwide": f"{NAME}, with more rules"}
NAME_OF_SOLVER = "solve a MiniZinc model by propbench"
NAME_OF_DESK = "work with propbench by files and in a shell"
COMMANDS = """
A line is answered
.B ok
where nothing else is said, and by
.BI error " N" :
and a text where it is refused.
"""
KINDS = """
S is a number, T a truth, A any kind, the same at each A in a line.
"""
SEE_ALSO = """
The documents and examples lie in
.IR /usr/share/doc/propbench :
README.md says what is proved, docs/TUTORIAL.md begins from nothing, docs/LANGUAGE.md has every
command, reply and refusal, docs/WIDE.md what propwide has beside that, and docs/PIPE.md is for who
drives the program from another one.
"""


def document(path: str) -> str:
    with open(f"{TOP}/{path}", encoding="utf-8") as it:
        return it.read()


def section(text: str, title: str) -> str:
    """The text of the section of this title, up to the next one."""
    found = re.search(rf"^## {re.escape(title)}\n(.*?)(?=^## |\Z)", text, flags=re.M | re.S)
    if not found:
        raise ValueError(f"no section {title!r}")
    return found[1].strip()


def roff(text: str) -> str:
    """Words of a document as roff: code in bold, titles of links without their places."""
    text = re.sub(r"\[([^]]*)\]\([^)]*\)", r"\1", text).replace("\\", "\\e").replace("-", "\\-")
    text = re.sub(r"`([^`]*)`", r"\\fB\1\\fR", text)
    text = re.sub(r"\*(\w+)\*", r"\\fI\1\\fR", text)
    return re.sub(r"^(?=[.'])", r"\\&", text, flags=re.M)


def paragraphs(text: str) -> str:
    """Paragraphs of a document as roff. Blocks that are indented stand as they are."""
    shown = []
    for each in text.strip("\n").split("\n\n"):
        if each.startswith("    "):
            lines = "\n".join(roff(line[4:]) for line in each.split("\n"))
            shown.append(f".RS 4\n.nf\n{lines}\n.fi\n.RE")
        else:
            shown.append(f".PP\n{roff(each)}")
    return "\n".join(shown)


def rows(text: str) -> list[list[str]]:
    """The cells of a table's rows, without its head."""
    lines = [line for line in text.split("\n") if line.startswith("| ")]
    # (a bar within code is one of the text)
    return [[it.strip() for it in re.split(r"(?<!\\)\|", line)[1:-1]] for line in lines[1:]]


def entry(head: str, said: str) -> str:
    return f".TP\n{roff(head)}\n{roff(said)}"


def commands(language: str) -> str:
    """The commands as entries, each with its reply where that is not `ok`."""
    shown = []
    for command, said, reply in rows(section(language, "Commands")):
        said = re.sub(r'\("(\w+)" below\)', r'("\1" in LANGUAGE.md)', said)
        shown.append(entry(command, said if reply == "`ok`" else f"{said}; answered {reply}"))
    return "\n".join(shown)


def first_session() -> str:
    """README's first session, as a block."""
    found = re.search(r"(?:^    .*\n)+", document("README.md"), flags=re.M)
    assert found
    return found[0].rstrip("\n")


def more_rules() -> str:
    """The rules and compounds that propwide has beside the kit's, as entries."""
    wide = document("docs/WIDE.md")
    listed = [*rows(section(wide, "Compounds")), *rows(section(wide, "Procedures"))]
    # (of the rows of one rule or compound the first tells what it means)
    first = {row[0].split()[0]: row for row in reversed(listed)}
    found = (first[name] for name in dict.fromkeys(row[0].split()[0] for row in listed))
    return "\n".join(entry(f"{name} ({cells})", said) for name, cells, said, *_ in found)


def more_of(wide: str) -> dict[str, str]:
    """What WIDE has beside its tables, as the lines that propwide alone knows, by title."""
    titles = re.findall(r"^## (.*)$", wide, flags=re.M)
    texts = {title: section(wide, title) for title in titles}
    return {it.upper(): paragraphs(text) for it, text in texts.items() if "\n| " not in text}


def sections(name: str) -> dict[str, str]:
    """What stands in the page of a program behind what --help prints."""
    language, pipe = document("docs/LANGUAGE.md"), document("docs/PIPE.md")
    begins = language.split("\n\n")[1]
    more = {}
    if name == "propwide":
        begins = re.sub(r" `propwide` reads.*", "", begins, flags=re.S).replace("propbench", name)
        more["MORE RULES"] = f"{KINDS.strip()}\n{more_rules()}"
        more |= more_of(document("docs/WIDE.md"))
    ends = [row for row in rows(section(pipe, "How it ends")) if "./propbench" not in row[1]]
    return {
        "DESCRIPTION": paragraphs(f"{begins}\n\n{section(language, 'Lines')}"),
        "COMMANDS": f"{COMMANDS.strip()}\n{commands(language)}",
        **more,
        "EXIT STATUS": "\n".join(entry(status, why) for status, why in ends),
        "EXAMPLE": paragraphs(first_session()),
        "SEE ALSO": SEE_ALSO.strip(),
    }


def ran(words: list[str], **more: str) -> str:
    """What a command prints, run with these in its environment."""
    path = {**os.environ, "LC_ALL": "C.UTF-8", "TZ": "UTC", **more}
    done = subprocess.run(words, env=path, stdin=subprocess.DEVNULL, capture_output=True, text=True)
    if done.returncode:
        raise OSError(f"{words[0]}: {done.stderr.strip() or done.stdout.strip()}")
    return done.stdout


def page(command: str, name: str, version: str, seconds: int, *more: str) -> str:
    """What help2man makes of a command's --help. Errors: OSError with what it said."""
    said = ["--no-info", "--name", name, "--version-string", version]
    return ran(["help2man", *said, *more, command], SOURCE_DATE_EPOCH=str(seconds))


def of_program(name: str, program: str, version: str, seconds: int) -> str:
    """The page of a program, whose --help is asked, dated by seconds since 1970.

    Errors: OSError where help2man says what went wrong."""
    with tempfile.TemporaryDirectory(prefix="manual-") as room:
        named, more = f"{room}/{name}", f"{room}/more"
        os.symlink(os.path.abspath(program), named)
        with open(more, "w", encoding="utf-8") as it:
            it.writelines(f"[{title}]\n{text}\n\n" for title, text in sections(name).items())
        return page(named, NAMES[name], version, seconds, "--include", more)


def desk_help(*command: str) -> str:
    """What propdesk prints for --help, or one of its commands, in lines as long as they are."""
    words = ["/usr/bin/python3", "-m", "propbench", *command, "--help"]
    return ran(words, PYTHONPATH=f"{TOP}/python/src", PYTHONDONTWRITEBYTECODE="1", COLUMNS="1000")


def desk_commands() -> list[str]:
    """The commands of propdesk. Errors: OSError where it prints no help."""
    return re.findall(r"^ {4}([a-z]\w*)(?:  |$)", desk_help(), flags=re.M)


# (help2man knows heads that begin with a capital)
HEADS = [("usage:", "Usage:"), ("options:", "Options:"), ("positional arguments:", "Arguments:")]
SHOWS = """\
#!/bin/sh
cat <<'THE END'
{text}
THE END
"""


def shown(room: str, named: tuple[str, str], text: str, version: str, seconds: int) -> str:
    """What help2man makes of the help that a command shows, of which its name and what it is for
    are told."""
    name, about = named
    for head, capital in HEADS:
        text = re.sub(rf"^{head}", capital, text, flags=re.M)
    with open(f"{room}/{name}", "w", encoding="utf-8") as it:
        it.write(SHOWS.format(text=text))
    os.chmod(f"{room}/{name}", 0o755)
    return page(f"{room}/{name}", about, version, seconds)


def desk_page(room: str, version: str, seconds: int, *command: str) -> str:
    """What help2man makes of propdesk's help, or of one of its commands'."""
    return shown(room, ("propdesk", NAME_OF_DESK), desk_help(*command), version, seconds)


def of_solver(version: str, seconds: int) -> str:
    """The page of fzn-propbench. Errors: OSError where help2man says what went wrong."""
    words = ["/usr/bin/python3", f"{TOP}/python/src/propbench/flatzinc/fzn-propbench", "--help"]
    text = ran(words, PYTHONDONTWRITEBYTECODE="1", COLUMNS="1000")
    with tempfile.TemporaryDirectory(prefix="manual-") as room:
        return shown(room, ("fzn-propbench", NAME_OF_SOLVER), text, version, seconds)


def of_desk(version: str, seconds: int) -> str:
    """The page of propdesk: what it prints for --help, and behind that each of its commands does.

    Errors: OSError where help2man says what went wrong."""
    with tempfile.TemporaryDirectory(prefix="manual-") as room:
        whole = desk_page(room, version, seconds)
        for command in desk_commands():
            _, _, told = desk_page(room, version, seconds, command).partition(".SH SYNOPSIS\n")
            told = re.sub(r"^\.S[SH] \"?(.*?):?\"?$", r".SS \1", told, flags=re.M)
            whole += f".SH PROPDESK {command.upper()}\n{told}"
        return whole
