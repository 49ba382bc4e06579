"""The handbook: README.md, docs/, examples/ and what is said of the Python package, in HTML.

The documents are copied into a folder, ready for Sphinx: their indented blocks as code of a
language, their links to examples as links to pages of these. A page of an example has its code,
what it prints or is answered, and its picture. Sphinx makes pages of all that, by conf.py beside
this file, with contents and a search that needs no server.
"""
import ast
import glob
import os
import re
import shutil
import subprocess
import sys
import tempfile
import tomllib
from collections.abc import Iterator

HERE = os.path.dirname(os.path.realpath(__file__))
TOP = os.path.dirname(os.path.dirname(HERE))
# The contents of the handbook: parts, and the documents of each.
CONTENTS = {
    "To begin": ["docs/TUTORIAL", "docs/CLASS", "examples/README"],
    "In Python": [
        *(f"docs/{name}" for name in ("WORKBENCH", "QUESTIONS", "PLANNING", "MEASURING")),
        *(f"docs/{name}" for name in ("FUNCTIONS", "LABORATORY", "MINIZINC", "SEEING")),
        "python/README",
    ],
    "The language": [f"docs/{name}" for name in ("LANGUAGE", "WIDE", "FITTING", "PIPE")],
    "The proofs": ["docs/CLAIMS", "docs/TRUST", "docs/PRIMER", "python/REALS"],
    "Around it": [
        *(f"docs/{name}" for name in ("COMPARE", "BENCHMARKS", "SECURITY", "PROMISES")),
        "CHANGELOG",
    ],
    "To build on it": [
        f"docs/{name}" for name in ("ARCHITECTURE", "HOSTING", "DEVELOPING", "DECISIONS")
    ],
}
NEEDED = {"sphinx": "python3-sphinx", "myst_parser": "python3-myst-parser", "furo": "furo"}
BLOCK = re.compile(r"(?:^    .*\n|^\n(?=    ))+", re.M)
LINK = re.compile(r"\]\(([^)\s#]+)(#[^)\s]*)?\)")
# What begins a block of commands for a shell.
SHELL = """
python3 propdesk rt sudo cd ./propbench tools/build tools/believed /usr/bin/python3
PYTHONPATH=python/src
""".split()
# Replies that say how many lines follow.
COUNTED = re.compile(r"(?:nogoods|step|how|list|plans?|least|greatest) (\d+)")


def read_from(path: str) -> str:
    with open(path, encoding="utf-8") as it:
        return it.read()


def read(path: str) -> str:
    return read_from(f"{TOP}/{path}")


def documents() -> list[str]:
    """The documents of the handbook, but README.md, in the order of the contents."""
    return [f"{name}.md" for names in CONTENTS.values() for name in names]


def lacking() -> list[str]:
    """The Debian packages that are needed and are not there."""
    code = "import importlib.util as u, sys; sys.exit(u.find_spec(sys.argv[1]) is None)"
    words = ["/usr/bin/python3", "-c", code]
    return [package for it, package in NEEDED.items() if subprocess.call([*words, it])]


def is_code(text: str) -> bool:
    """Whether this is Python that does something."""
    try:
        return any(not isinstance(each, ast.Expr) for each in ast.parse(text).body) or "(" in text
    except SyntaxError:
        return False


def is_table(text: str) -> bool:
    """Whether this is TOML."""
    try:
        return bool(tomllib.loads(text))
    except tomllib.TOMLDecodeError:
        return False


def language(text: str, before: str, commands: set[str]) -> str:
    """The language of a block, behind this line of its document."""
    word = text.split()[0]
    if before.startswith("This prints"):
        return "text"
    if word in commands:
        return "session"
    if word in SHELL:
        return "bash"
    if is_table(text):
        return "toml"
    return "python" if is_code(text) else "none"


def with_fences(text: str, commands: set[str]) -> str:
    """A document whose indented blocks stand between fences that tell their language."""

    def fenced(found: re.Match[str]) -> str:
        code = re.sub(r"^    ", "", found[0].strip("\n"), flags=re.M)
        lines = text[: found.start()].rstrip("\n").rsplit("\n", 1)
        return f"```{language(code, lines[-1], commands)}\n{code}\n```\n"

    return re.sub(BLOCK, lambda it: it[0] if not it[0].strip() else fenced(it), text)


def examples() -> dict[str, str]:
    """The page of each example, by what there is to read of it: a program, a session, tables."""
    found = glob.glob("examples/*/*.py", root_dir=TOP)
    found += glob.glob("examples/**/*.prop", root_dir=TOP, recursive=True)
    folders = {os.path.dirname(it) for it in glob.glob("examples/*/*/*.csv", root_dir=TOP)}
    pages = {path: f"{path}.md" for path in sorted(found)}
    return pages | {folder: f"{folder}/tables.md" for folder in sorted(folders)}


def transcript(path: str) -> str:
    """A session with its replies below its lines, but for `ok`."""
    replies = iter(read(f"{path.removesuffix('.prop')}.out").splitlines())
    shown = []
    for line in read(path).splitlines():
        shown.append(line)
        if line.strip() and not line.startswith("#"):
            first = next(replies)
            counted = COUNTED.fullmatch(first)
            more = 1 if first.startswith("in:") else int(counted[1]) if counted else 0
            shown += [it for it in [first, *(next(replies) for _ in range(more))] if it != "ok"]
    return "\n".join(shown)


def example(path: str) -> Iterator[str]:
    """The page of an example, in pieces."""
    name = path.removeprefix("examples/")
    yield f"# {name}\n"
    if path.endswith(".py"):
        yield f"```python\n{read(path)}```\n"
        yield f"## What it prints\n\n```text\n{read(path[:-3] + '.txt')}```\n"
    elif path.endswith(".prop"):
        yield f"```session\n{transcript(path)}\n```\n"
    else:
        for table in sorted(glob.glob(f"{path}/*", root_dir=TOP)):
            yield f"## {os.path.basename(table)}\n\n```text\n{read(table)}```\n"
    picture = f"{os.path.splitext(path)[0]}.svg"
    if os.path.isfile(f"{TOP}/{picture}") and not os.path.isdir(f"{TOP}/{path}"):
        yield f"## Picture\n\n![{name}]({os.path.basename(picture)})\n"


def linked(path: str, text: str, pages: dict[str, str]) -> str:
    """A document whose links to examples lead to the pages of these, and pictures to the page that
    has them."""
    folder = os.path.dirname(path)

    def led(found: re.Match[str]) -> str:
        target, anchor = found[1], found[2] or ""
        if re.match(r"\w+:", target):
            return found[0]
        place = os.path.normpath(f"{folder}/{target}".lstrip("/"))
        stem, kind = os.path.splitext(place)
        if kind == ".svg":
            place = next(it for it in (f"{stem}.py", f"{stem}.prop") if it in pages)
            anchor = "#picture"
        place = "index.md" if place == "README.md" else pages.get(place, place)
        return f"]({os.path.relpath(place, folder or '.')}{anchor})"

    return LINK.sub(led, text)


def contents(parts: dict[str, list[str]], folder: str = "") -> str:
    """The contents, as Sphinx reads them."""
    text = ""
    for part, names in parts.items():
        inside = "\n".join(os.path.relpath(it, folder or ".") for it in names)
        text += f"\n```{{toctree}}\n:hidden:\n:caption: {part}\n\n{inside}\n```\n"
    return text


def commands() -> set[str]:
    """The words that begin a line of the language."""
    found = re.findall(r"^\| `(\w+)", read("docs/LANGUAGE.md").partition("### ")[0], flags=re.M)
    told = "step how list solve least greatest plans conflicts repairs mark"
    return {*found, *told.split()}


def lay_out(to: str) -> None:
    """Writes what Sphinx reads into a folder."""
    pages, words = examples(), commands()
    texts = {path: "\n".join(example(path)) for path in pages}
    for path in ["README.md", *documents()]:
        texts[path] = linked(path, with_fences(read(path), words), pages)
    texts["README.md"] += contents(CONTENTS)
    texts["examples/README.md"] += contents({"Examples": [*pages.values()]}, "examples")
    for path in (*glob.glob("examples/**/*.*", root_dir=TOP, recursive=True), *outside(texts)):
        if os.path.isfile(f"{TOP}/{path}") and not path.endswith(".md"):
            os.makedirs(os.path.dirname(f"{to}/{path}"), exist_ok=True)
            shutil.copyfile(f"{TOP}/{path}", f"{to}/{path}")
    for path, text in texts.items():
        file = f"{to}/{'index.md' if path == 'README.md' else pages.get(path, path)}"
        os.makedirs(os.path.dirname(file), exist_ok=True)
        with open(file, "w", encoding="utf-8") as it:
            it.write(text)


def outside(texts: dict[str, str]) -> Iterator[str]:
    """The files beside documents and examples that documents link to."""
    for path, text in texts.items():
        for target, _ in LINK.findall(text):
            yield os.path.normpath(f"{os.path.dirname(path)}/{target}".lstrip("/"))


def mend(path: str) -> None:
    """Mends the theme's style sheet as Debian has it: it asks a server for a file, and leaves a
    page light, but for its code, where the system is dark."""
    text = re.sub(r"@import [^;]*;", "", read_from(path))
    dark = re.search(r'body\[data-theme="dark"\] (\{[^}]*\})', text)
    if dark and "prefers-color-scheme" not in text:
        wanted = "@media screen and (prefers-color-scheme: dark)"
        text += f'\n{wanted} {{ body:not([data-theme="light"]) {dark[1]} }}\n'
    with open(path, "w", encoding="utf-8") as it:
        it.write(text)


def make(to: str, moment: int) -> None:
    """Makes the handbook in a folder, as of a moment in seconds since 1970. Errors: OSError with
    what Sphinx said."""
    with tempfile.TemporaryDirectory(prefix="handbook-") as room:
        lay_out(f"{room}/source")
        words = ["/usr/bin/python3", "-m", "sphinx", "-q", "-W", "--keep-going", "-b", "html"]
        words += ["-c", HERE, "-d", f"{room}/doctrees", f"{room}/source", f"{room}/made"]
        env = {**os.environ, "PYTHONPATH": f"{TOP}/python/src", "PYTHONDONTWRITEBYTECODE": "1"}
        env |= {"SOURCE_DATE_EPOCH": str(moment), "LC_ALL": "C.UTF-8"}
        done = subprocess.run(words, env=env, capture_output=True, text=True)
        if done.returncode:
            raise OSError(f"Sphinx: {done.stderr.strip()}")
        for name in (".buildinfo", "objects.inv"):
            os.remove(f"{room}/made/{name}")
        mend(f"{room}/made/_static/styles/furo.css")
        shutil.rmtree(to, ignore_errors=True)
        shutil.copytree(f"{room}/made", to)


def told_lacking(what: str) -> bool:
    """Whether something is lacking, which is told: then there is no handbook."""
    if packages := lacking():
        print(f"{what}: no handbook, for want of {' '.join(packages)}", file=sys.stderr)
    return bool(packages)
