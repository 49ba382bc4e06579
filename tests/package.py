"""The Debian package that tools/package makes: its bytes, what it brings, and that it runs.

It is installed in a root of its own, which holds the files of the packages that its Depends names,
of those that they depend on and so on, of the shell and of dpkg, taken from this machine. There
README's first session is run. All cases share one package and one root.
"""
import atexit
import contextlib
import glob
import gzip
import os
import re
import shutil
import subprocess
import tempfile
from functools import cache
from typing import Callable, Iterator, Optional

import documents
from case import SECONDS, Check, as_bytes

TOP = os.path.dirname(os.path.dirname(os.path.realpath(__file__)))
# What the names of its cases begin with.
PREFIX = "package: "
# The programs that it brings.
PROGRAMS = ["propbench", "propwide"]
# What each Debian machine has, and so no package has to name.
ESSENTIAL = ["dash", "dpkg"]
MERGED = ["bin", "lib", "lib64", "sbin"]


def ran(words: list[str], **how: object) -> "subprocess.CompletedProcess[bytes]":
    """A command that has run to its end."""
    return subprocess.run(words, capture_output=True, timeout=SECONDS, **how)  # type: ignore


def output_of(*words: str) -> str:
    """What a command prints that has to end well. Errors: OSError with what it said."""
    done = ran([*words])
    if done.returncode:
        raise OSError(f"{' '.join(words)}: {done.stderr.decode()}{done.stdout.decode()}")
    return done.stdout.decode()


def room() -> str:
    """A folder that is removed at the end of this process, which has to be the one that began."""
    folder = tempfile.mkdtemp(prefix="package-test-")
    atexit.register(shutil.rmtree, folder, ignore_errors=True)
    return folder


def wide(program: str) -> str:
    """What is packaged as propwide: the one that is built here, and else the same program."""
    built = f"{TOP}/crates/propwide/out/propwide"
    return built if os.access(built, os.X_OK) else program


def made(program: str, to: str, **env: str) -> str:
    """The path of a package that is made now."""
    words = [f"{TOP}/tools/package", "--program", program, "--wide", wide(program), "--to", to]
    done = ran([*words, "--no-handbook"], env={**os.environ, **env})
    if done.returncode:
        raise OSError(done.stderr.decode() + done.stdout.decode())
    return done.stdout.decode().strip()


@cache
def package(program: str) -> str:
    return made(program, room())


@cache
def unpacked(program: str) -> str:
    """A folder with the package's files."""
    folder = room()
    output_of("dpkg-deb", "--extract", package(program), folder)
    return folder


@cache
def installed_here() -> dict[str, list[str]]:
    """The groups of alternatives that each package of this machine, and each provided, needs."""
    form = "${Package}\t${Provides}\t${Pre-Depends}, ${Depends}\n"
    found: dict[str, list[str]] = {}
    for line in output_of("dpkg-query", "-W", "-f", form).split("\n")[:-1]:
        name, provided, needed = line.split("\t")
        groups = [it for it in needed.split(", ") if it.strip()]
        for each in [name, *(it.split(" ")[0] for it in provided.split(", ") if it)]:
            found.setdefault(each, groups)
    return found


def closure(needed: list[str]) -> list[str]:
    """The packages of this machine that groups of alternatives name, and all below them."""
    found: dict[str, None] = {}
    waiting = list(needed)
    while waiting:
        group = waiting.pop()
        names = [re.split(r"[ :(]", it.strip())[0] for it in group.split("|")]
        here = [it for it in names if it in installed_here()]
        if not here:
            raise OSError(f"none of {names} is installed on this machine")
        if here[0] not in found:
            found[here[0]] = None
            waiting += installed_here()[here[0]]
    return list(found)


def copied(name: str, root: str) -> None:
    """Puts the files of a package of this machine into a root."""
    listed = ran(["dpkg-query", "--listfiles", name]).stdout.decode().split("\n")
    for path in listed:
        # (a path may lead through /bin or /lib, which are links into /usr)
        there = f"{root}{path}"
        if os.path.islink(path) and not os.path.lexists(there):
            os.makedirs(os.path.dirname(there), exist_ok=True)
            os.symlink(os.readlink(path), there)
        elif os.path.isfile(path) and not os.path.lexists(there):
            os.makedirs(os.path.dirname(there), exist_ok=True)
            shutil.copy2(path, there)


def told_as_installed(names: list[str], root: str) -> None:
    """Has dpkg know that these packages are installed in a root."""
    os.makedirs(f"{root}/var/lib/dpkg/info")
    os.makedirs(f"{root}/var/lib/dpkg/updates")
    with open(f"{root}/var/lib/dpkg/status", "wb") as it:
        for name in names:
            status = ran(["dpkg-query", "--status", name]).stdout
            it.write(status if status.endswith(b"\n\n") else status + b"\n")
    for name in names:
        for path in glob.glob(f"/var/lib/dpkg/info/{glob.escape(name)}[.:]*list"):
            shutil.copy(path, f"{root}/var/lib/dpkg/info")


@cache
def root_for(program: str) -> str:
    """A root with what the package says that it needs, and what each machine has besides."""
    root = room()
    for name in MERGED:
        if os.path.islink(f"/{name}"):
            os.makedirs(f"{root}/usr/{name}", exist_ok=True)
            os.symlink(f"usr/{name}", f"{root}/{name}")
    for folder in ("dev", "tmp", "etc", "var/log"):
        os.makedirs(f"{root}/{folder}")
    depends = output_of("dpkg-deb", "--field", package(program), "Depends").strip()
    names = closure([*ESSENTIAL, *depends.split(", ")])
    for name in names:
        copied(name, root)
    told_as_installed(names, root)
    return root


def as_root() -> list[str]:
    """The words before a command that has to be run by root, or as if it were."""
    return [] if os.geteuid() == 0 else ["unshare", "--map-root-user"]


def dpkg(root: str, *words: str) -> None:
    """Runs dpkg in a root. Errors: OSError with what it said."""
    with open(f"{root}/dev/null", "wb"):
        output_of(*as_root(), "dpkg", f"--root={root}", "--log=/dev/null", *words)


@cache
def installed(program: str) -> str:
    """The root with the package installed."""
    dpkg(root_for(program), "--install", package(program))
    return root_for(program)


def inside(root: str, *words: str, sent: bytes = b"") -> "subprocess.CompletedProcess[bytes]":
    """A command that is run in a root."""
    env = {"PATH": "/usr/bin:/bin", "HOME": "/tmp", "LC_ALL": "C.UTF-8"}
    return ran([*as_root(), "/usr/sbin/chroot", root, *words], input=sent, env=env)


def same_bytes(program: str) -> Optional[str]:
    """Two runs give the same bytes, whatever the clock, the zone, the mask and the language say."""
    with tempfile.TemporaryDirectory(prefix="package-") as other:
        mask = os.umask(0o077)
        try:
            again = made(program, other, TZ="Asia/Tokyo", LC_ALL="C", HOME="/nowhere", COLUMNS="40")
        finally:
            os.umask(mask)
        with open(package(program), "rb") as one, open(again, "rb") as two:
            return None if one.read() == two.read() else "they differ"


def owners_and_modes(program: str) -> Optional[str]:
    """All belongs to root, only root may write it, and all bears the time of the commit."""
    moment = os.environ.get("SOURCE_DATE_EPOCH")
    moment = moment or output_of("git", "-C", TOP, "log", "-1", "--format=%ct").strip()
    form = ["date", "--utc", f"--date=@{moment}", "+%Y-%m-%d %H:%M:%S"]
    wanted = output_of(*form).strip()
    words = ["dpkg-deb", "--fsys-tarfile", package(program)]
    listed = ran(["tar", "--utc", "--full-time", "-tvf", "-"], input=ran(words).stdout)
    for line in listed.stdout.decode().splitlines():
        mode, owner, _, day, hour, path = line.split(None, 5)
        is_run = mode.startswith("d") or path.startswith("./usr/bin/")
        if mode[1:] != ("rwxr-xr-x" if is_run else "rw-r--r--") or owner != "root/root":
            return line
        if f"{day} {hour}" != wanted or "__pycache__" in path:
            return f"{line}, wanted {wanted}"
    return None if listed.stdout else "it is empty"


def first_session(program: str) -> Optional[str]:
    """README's first session, in the root."""
    with open(f"{TOP}/README.md", encoding="utf-8") as it:
        block = next(documents.blocks(it.read()))
    sent, wanted = documents.session("".join(f"    {line}\n" for line in block))
    done = inside(installed(program), "propbench", sent=as_bytes(*sent))
    if (done.returncode, done.stderr) != (0, b"") or not wanted:
        return f"status {done.returncode}: {done.stderr!r}"
    got = done.stdout.decode().splitlines()
    return None if got == wanted else f"{got}, wanted {wanted}"


def wide_runs(program: str) -> Optional[str]:
    """propwide in the root: a sum as propbench has it, and where it is built, a rule of its own."""
    sent, wanted = as_bytes("cell x span", "fix x 3..5", "ask x"), "ok\nok\nx = 3..5\n"
    done = inside(installed(program), "propwide", sent=sent)
    if (done.returncode, done.stdout.decode()) != (0, wanted):
        return f"status {done.returncode}: {done.stdout.decode()}{done.stderr.decode()}"
    with open(f"{unpacked(program)}/usr/bin/propwide", "rb") as one, open(
        wide(program), "rb"
    ) as it:
        if one.read() != it.read():
            return "it is another program"
    if wide(program) == program:
        return None
    sent = as_bytes("cell x span", "cell y span", "attach abs x y", "fix x -9..1", "ask y")
    got = inside(installed(program), "propwide", sent=sent).stdout.decode()
    return None if got.endswith("\ny = 0..9\n") else got


def examples_run(program: str) -> Optional[str]:
    """Each example that is installed, in the root, with the replies that lie beside it."""
    root = installed(program)
    folder = f"{root}/usr/share/doc/propbench/examples"
    paths = sorted(glob.glob(f"{folder}/**/*.prop", recursive=True))
    for path in paths:
        with open(path, "rb") as sent, open(path.removesuffix("prop") + "out", "rb") as wanted:
            if inside(root, "propbench", sent=sent.read()).stdout != wanted.read():
                return f"{path} is answered otherwise"
    return None if paths else "there is none"


def desk_runs(program: str) -> Optional[str]:
    """propdesk in the root: it runs an example to its end, and says that the program isn't proved;
    its shell has the help of the document."""
    root = installed(program)
    done = inside(root, "propdesk", "run", "/usr/share/doc/propbench/examples/first.prop")
    if done.returncode or b"not known to be proved" not in done.stdout:
        return f"status {done.returncode}: {done.stdout.decode()}{done.stderr.decode()}"
    done = inside(root, "propdesk", "shell", sent=b":help choose\n")
    if done.returncode or b"A list takes one side of each choice" not in done.stdout:
        return f"status {done.returncode}: {done.stdout.decode()}{done.stderr.decode()}"
    return None


def links_hold(program: str) -> Optional[str]:
    """Documents link to documents that are there."""
    folder = f"{unpacked(program)}/usr/share/doc/propbench"
    for path in [f"{folder}/README.md", *glob.glob(f"{folder}/docs/*.md")]:
        with open(path, encoding="utf-8") as it:
            for link in re.findall(r"\]\(([\w./]+\.md)", it.read()):
                if not os.path.isfile(os.path.join(os.path.dirname(path), link)):
                    return f"{path} links to {link}"
    return None


def page(program: str, name: str) -> str:
    with gzip.open(f"{unpacked(program)}/usr/share/man/man1/{name}.1.gz") as it:
        return it.read().decode()


def pages_are_clean(program: str) -> Optional[str]:
    """The man pages have no fault that groff tells, each option of --help, and each command."""
    for path in glob.glob(f"{unpacked(program)}/usr/share/man/man1/*.1.gz"):
        with gzip.open(path) as it:
            words = ["groff", "-man", "-ww", "-b", "-z", "-Kutf8", "-Tutf8"]
            done = ran(words, input=it.read())
        if done.stderr or done.returncode:
            return f"{path}: {done.stderr.decode()}"
    told = ran([program, "--help"]).stdout.decode()
    text = page(program, "propbench").replace("\\-", "-").replace("\\fR", "").replace("\\fB", "")
    for wanted in [*re.findall(r"--\w+", told), *documents.COMMANDS, "because morning evening"]:
        if not re.search(rf"^\W*{wanted}\b|{wanted}$", text, flags=re.M):
            return f"propbench.1 lacks {wanted}"
    for wanted in [".SH EXAMPLE", r"\fBmax\fR (x S, y S, z S)", r"\fBremainderer\fR (y S, r S)"]:
        if wanted not in page(program, "propwide") or wanted[0] != "." and wanted in text:
            return f"{wanted} is not where it belongs"
    lacks = [it for it in documents.TOLD if rf"\fB{it}" not in page(program, "propwide")]
    if lacks:
        return f"propwide.1 lacks {lacks}"
    wanted = [".SH SYNOPSIS", ".SH PROPDESK RUN", ".SH PROPDESK SHELL", r"\-\-program"]
    lacks = [it for it in wanted if it not in page(program, "propdesk")]
    return f"propdesk.1 lacks {lacks}" if lacks else None


# Has bash complete a line as it does at the key for it, and write what that gives.
COMPLETES = """\
. "$0"
COMP_LINE=$1 COMP_POINT=${#1} COMP_TYPE=9 COMPREPLY=()
command=${1%% *}
$(complete -p "$command" | sed 's/.*-F \\([^ ]*\\) .*/\\1/') "$command"
printf '%s\\n' "${COMPREPLY[@]}"
"""


def offered(program: str, line: str) -> list[str]:
    """What bash offers at the end of a line."""
    files = f"{unpacked(program)}/usr"
    env = {
        **os.environ,
        "PATH": f"{files}/bin:/usr/bin:/bin",
        "PYTHONPATH": f"{files}/lib/python3/dist-packages",
        "PYTHONDONTWRITEBYTECODE": "1",
    }
    script = f"{files}/share/bash-completion/completions/{line.split(' ', maxsplit=1)[0]}"
    return ran(["bash", "-c", COMPLETES, script, line], env=env).stdout.decode().split()


def completion_offers(program: str) -> Optional[str]:
    """Options and orders of the program; and of propdesk what it can do."""
    orders = ["fifo", "lifo", "mixed"]
    wanted = {
        "propbench --o": ["--order"],
        "propbench --order ": orders,
        "propwide --order=m": ["mixed"],
        "propwide --limit ": [],
        "propdesk s": ["shell"],
        "propdesk run some.prop --order ": orders,
        "propdesk run --l": ["--limit"],
    }
    for line, offers in wanted.items():
        if (found := offered(program, line)) != offers:
            return f"{line}: {found}, wanted {offers}"
    return None


def lintian_is_silent(program: str) -> Optional[str]:
    """Debian's lintian finds nothing in it that is wrong or doubtful."""
    if not shutil.which("lintian"):
        return "lintian isn't there: apt-get install lintian"
    done = ran(["lintian", "--allow-root", package(program)])
    return done.stdout.decode() or done.stderr.decode() or None


# Lines of a session, and what stands under some column of them: the group, or nothing.
COLOURED = [
    ("cell x span", {1: "Command", 6: "", 8: "Word"}),
    ("  # cell x span", {3: "Note", 10: "Note"}),
    ("tell p x -3..15", {6: "", 10: "Number", 15: "Number"}),
    ("fix day {mon tue}", {1: "Command", 9: "Mark", 10: "", 17: "Mark"}),
    ("fix t yes", {7: "Value"}),
    ("cell ask span", {1: "Command", 6: "", 10: "Word"}),
    ("choose c x 3 or 5", {1: "Command", 12: "Number", 14: "Word"}),
    ("asking x", {1: ""}),
    ("attach product x y z by 1000", {22: "Word", 25: "Number"}),
    ("define d x z = local y like x ; sum x x y", {14: "Mark", 16: "Word", 24: "Word", 31: "Mark"}),
]


def vim_colours(program: str) -> Optional[str]:
    """What vim makes of lines of a session. Without vim, that the file names each command."""
    files = f"{unpacked(program)}/usr/share/vim/vimfiles"
    with open(f"{files}/syntax/propbench.vim", encoding="utf-8") as it:
        listed = re.search(r"Command /\^\\s\*\\%\(([\w\\|]+)\\\)", it.read())
    if not listed or sorted(listed[1].split("\\|")) != sorted(
        [*documents.COMMANDS, *documents.TOLD]
    ):
        return "the file does not name the commands"
    if "+syntax" not in ran(["sh", "-c", "vim --version"]).stdout.decode():
        return None
    with tempfile.TemporaryDirectory(prefix="vim-") as folder:
        with open(f"{folder}/some.prop", "w", encoding="utf-8") as it:
            it.writelines(f"{line}\n" for line, _ in COLOURED)
        asked = [(n, column) for n, (_, at) in enumerate(COLOURED, 1) for column in at]
        said = "".join(f"echo synIDattr(synID({n}, {column}, 1), 'name')\n" for n, column in asked)
        with open(f"{folder}/script.vim", "w", encoding="utf-8") as it:
            it.write(f"set rtp^={files}\nfiletype plugin on\nsyntax on\nedit {folder}/some.prop\n")
            it.write(f"redir > {folder}/said\n{said}echo &commentstring\nredir END\nqall!\n")
        words = ["vim", "-e", "-s", "-N", "-u", "NONE", "-i", "NONE", "-S", f"{folder}/script.vim"]
        ran(words)
        with open(f"{folder}/said", encoding="utf-8") as it:
            got = [it.removeprefix("propbench") for it in it.read().split("\n")[1:]]
    wanted = [name for _, at in COLOURED for name in at.values()] + ["# %s"]
    return None if got == wanted else f"{[*zip(asked, got, wanted)]}"


def pygments_knows(program: str) -> Optional[str]:
    """pygments finds the lexer of the Python package by the name of a file."""
    env = {**os.environ, "PYTHONPATH": f"{unpacked(program)}/usr/lib/python3/dist-packages"}
    asks = "from pygments.lexers import get_lexer_for_filename as f; print(f('some.prop').name)"
    done = ran(["/usr/bin/python3", "-B", "-c", asks], env=env)
    return None if done.stdout == b"propbench\n" else f"{done.stdout!r}: {done.stderr.decode()}"


def removed(program: str) -> Optional[str]:
    """Once it is removed nothing of it is left."""
    with tempfile.TemporaryDirectory(prefix="package-") as root:
        output_of("cp", "-al", f"{installed(program)}/.", root)
        dpkg(root, "--purge", "propbench")
        found = glob.glob(f"{root}/usr/**", recursive=True)
        left = [it for it in found if re.search("prop(bench|wide|desk)", it.removeprefix(root))]
        return f"it leaves {left}" if left else None


def knows_proof(root: str, name: str = "propbench") -> bool:
    """Whether the Python package of a folder's files takes a program there for proved."""
    env = {
        "PATH": f"{root}/usr/bin:/usr/bin",
        "PYTHONPATH": f"{root}/usr/lib/python3/dist-packages",
    }
    find = "find_program" if name == "propbench" else "find_wide"
    asks = f"from propbench.finding import {find} as find; print(find().path, find().proved)"
    done = ran(["/usr/bin/python3", "-B", "-c", asks], env=env)
    path, _, is_proved = done.stdout.decode().strip().rpartition(" ")
    if path != f"{root}/usr/bin/{name}":
        raise OSError(f"found {path}: {done.stderr.decode()}")
    return is_proved == "True"


def lacks_proof(program: str) -> Optional[str]:
    """A program that is named is not said to be proved: not by the version, nor by the text, nor to
    the Python package."""
    fields = output_of("dpkg-deb", "--field", package(program))
    if "~unproved" not in fields or "NOT the proved one" not in fields:
        return fields
    known = [name for name in PROGRAMS if knows_proof(unpacked(program), name)]
    return f"Python takes {known} for proved" if known else None


def copy_without_program(to: str) -> None:
    """What tools/package reads, where nothing is built."""
    for folder in ("tools", "docs", "examples", "python"):
        shutil.copytree(f"{TOP}/{folder}", f"{to}/{folder}")
    for name in ("README.md", "CHANGELOG.md", "VERSION", "crates.txt"):
        shutil.copy(f"{TOP}/{name}", to)
    for name in PROGRAMS:
        os.makedirs(f"{to}/crates/{name}/src")


def tells_proof(program: str) -> Optional[str]:
    """The programs that are built are said to be proved; others in their places are not."""
    with tempfile.TemporaryDirectory(prefix="package-") as copy:
        copy_without_program(copy)
        for name in PROGRAMS:
            os.makedirs(f"{copy}/crates/{name}/out")
            shutil.copy(program, f"{copy}/crates/{name}/out/{name}")
        built = output_of(f"{copy}/tools/package", "--no-handbook").strip()
        fields = output_of("dpkg-deb", "--field", built)
        if "~unproved" in fields or "Every answer is proved" not in fields:
            return fields
        root = f"{copy}/root"
        output_of("dpkg-deb", "--extract", built, root)
        for name in PROGRAMS:
            if not knows_proof(root, name):
                return f"Python does not know that {name} is proved"
            with open(f"{root}/usr/bin/{name}", "ab") as it:
                it.write(b" ")
            if knows_proof(root, name):
                return f"Python takes another {name} for proved"
        return None


def refuses_without_program(program: str) -> Optional[str]:
    """Without the proved programs there is no package, and it says what to do."""
    with tempfile.TemporaryDirectory(prefix="package-") as copy:
        copy_without_program(copy)
        for lacks in (b"no proved propbench and propwide of", b"no proved propwide of"):
            done = ran([f"{copy}/tools/package"])
            said = [lacks, b"run tools/build first"]
            if done.returncode != 1 or any(it not in done.stdout for it in said):
                return f"{done}"
            os.makedirs(f"{copy}/crates/propbench/out", exist_ok=True)
            shutil.copy(program, f"{copy}/crates/propbench/out/propbench")
        return "it writes a package" if os.path.exists(f"{copy}/out") else None


HOLDS: dict[str, Callable[[str], Optional[str]]] = {
    "two runs give the same bytes": same_bytes,
    "owners, modes and times": owners_and_modes,
    "README's first session, in a root of its own": first_session,
    "propwide, in a root of its own": wide_runs,
    "the examples, in a root of its own": examples_run,
    "propdesk, in a root of its own": desk_runs,
    "links of the documents": links_hold,
    "man pages": pages_are_clean,
    "bash completion": completion_offers,
    "lintian finds nothing": lintian_is_silent,
    "vim's colours": vim_colours,
    "pygments' lexers": pygments_knows,
    "nothing is left once it is removed": removed,
    "a program that is named is not said to be proved": lacks_proof,
    "the programs that are built are said to be proved": tells_proof,
    "no package without the proved programs": refuses_without_program,
}


def prepare(program: str) -> None:
    """Makes the package and the root that all cases share. Where that fails, the cases tell why."""
    with contextlib.suppress(OSError, subprocess.TimeoutExpired):
        unpacked(os.path.abspath(program))
        installed(os.path.abspath(program))


def cases() -> Iterator[Check]:
    yield from (Check(f"{PREFIX}{title}", holds) for title, holds in HOLDS.items())
