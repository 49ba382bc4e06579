"""The folder debian/ of the package, and what Debian's debhelper makes of it."""

import email.utils
import glob
import os
import shutil
import subprocess
import textwrap

import tree
from manual import TOP

# What stands in it whatever is packaged: the fields, the copyright, and how it is made.
FOLDER = f"{TOP}/tools/deb/debian"
PROVED = """\
 Every answer is proved: the programs in this package were built only once each
 of their functions was proved to meet its contract.
"""
UNPROVED = """\
 A program in this package is NOT the proved one: it was given to the packager
 as a file, so nothing is known of how it was built.
"""
CHANGES = """\
propbench ({version}) unstable; urgency=medium

{changes}

 -- {maintainer}  {date}
"""


def laid_out(build: tree.Build, room: str) -> None:
    """Puts all that debhelper reads into a folder: debian/, and what the package holds in tree/."""
    tree.laid_out(tree.files(build), f"{room}/tree", build.moment)
    shutil.copytree(FOLDER, f"{room}/debian")
    os.chmod(f"{room}/debian/rules", 0o755)
    with open(f"{room}/debian/control", "a+", encoding="utf-8") as it:
        it.write(PROVED if build.is_proved else UNPROVED)
        it.seek(0)
        maintainer = it.read().partition("\nMaintainer: ")[2].partition("\n")[0]
    told = {
        "version": build.version,
        "changes": textwrap.fill(f"  * {build.changes}", 78, subsequent_indent="    "),
        "maintainer": maintainer,
        "date": email.utils.formatdate(build.moment),
    }
    with open(f"{room}/debian/changelog", "w", encoding="utf-8") as it:
        it.write(CHANGES.format(**told))
    # (what is copied from here would bear the time of this working tree)
    for path in glob.glob(f"{room}/debian/*"):
        os.utime(path, (build.moment, build.moment))


def packed(build: tree.Build, room: str) -> str:
    """The path of the package that is made of a build within an empty folder.

    Errors: OSError with what debhelper said, or where a page of the manual or the handbook can't be
    made."""
    source = f"{room}/propbench"
    os.makedirs(source)
    laid_out(build, source)
    environment = {**os.environ, "SOURCE_DATE_EPOCH": str(build.moment), "LC_ALL": "C.UTF-8"}
    done = subprocess.run(
        ["debian/rules", "binary"], cwd=source, env=environment, capture_output=True, text=True
    )
    made = glob.glob(f"{room}/*.deb")
    if done.returncode or len(made) != 1:
        raise OSError(done.stderr.strip() or done.stdout.strip())
    return made[0]
