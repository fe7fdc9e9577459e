"""What is known of the crates and of a built program, and where that is put: imported by the scripts of `dev/`."""

import hashlib
import os
import re
import shutil
import subprocess
from pathlib import Path

TOP = Path(__file__).resolve().parent.parent
CARRIED = TOP / "program" / "lpis"  # for those who have no kit
BUILT = TOP / "out" / "program" / "lpis"  # by ./lpis build
LINKED = TOP / "crates" / "lpis" / "out" / "lpis"  # by rt itself
RUN = TOP / "tools" / "run.sh"
RELEASE_BYTES = 9_000_000  # the most that release/ may have


def output(*words, folder=TOP):
    return subprocess.run(
        [str(word) for word in words], cwd=folder, check=True, stdout=subprocess.PIPE, text=True
    ).stdout.strip()


def installed(folder, prefix):
    """Installs to a prefix below a folder; gives the prefix's folder."""
    subprocess.run(
        [TOP / "install", prefix],
        env={**os.environ, "DESTDIR": f"{folder}/"},
        check=True,
        stderr=subprocess.DEVNULL,
        stdout=subprocess.DEVNULL,
    )
    return folder / prefix.strip("/")


def crates():
    """The crates of crates.txt, the lowest first, each with those that its line names."""
    lines = (
        line.partition("#")[0].partition(":") for line in (TOP / "crates.txt").read_text(encoding="utf-8").splitlines()
    )
    return {name.split()[0]: below.split() for name, _, below in lines if name}


def digest(path):
    return hashlib.sha256(path.read_bytes()).hexdigest()


def facts_in(path):
    """The lines `NAME VALUE` of a file as a dictionary; an empty one where it is not there."""
    lines = path.read_text(encoding="utf-8").splitlines() if path.exists() else []
    return dict(line.split(" ", 1) for line in lines if " " in line)


def facts_of(program):
    """What stands beside a program."""
    return facts_in(program.with_name("facts"))


def sources():
    """The sha256 of the program's sources, as they are here."""
    return output(TOP / "dev" / "sources")


def version_of(program):
    return output(program, "--version").split()[-1]


def kit():
    """The identity of the kit that is installed, or nothing."""
    try:
        return output(shutil.which("rt") or "/opt/rattle/bin/rt", "version")
    except (OSError, subprocess.CalledProcessError):
        return ""


def libc_of(program):
    """The newest version of the C library that a program wants."""
    found = re.findall(rb"GLIBC_(\d+)\.(\d+)", program.read_bytes())
    return ".".join(map(str, max((tuple(map(int, version)) for version in found), default=(2, 17))))


def libc_promised():
    """The version of the C library with which the program starts, by what tools/run.sh says where it does not."""
    return re.search(r"glibc (\d+\.\d+) or later", RUN.read_text(encoding="utf-8"))[1]


def is_newer(libc, other):
    return tuple(map(int, libc.split("."))) > tuple(map(int, other.split(".")))


def is_linked():
    """Whether rt has linked a program here, and no source of it is newer."""
    crates = output(TOP / "dev" / "sources", "--crates").splitlines()
    folders = [
        folder
        for crate in crates
        for part in ("src", "specs", "proofs")
        if (folder := TOP / "crates" / crate / part).is_dir()
    ]
    paths = [TOP / "crates.txt", *folders, *(path for folder in folders for path in folder.rglob("*"))]
    return LINKED.exists() and all(path.stat().st_mtime <= LINKED.stat().st_mtime for path in paths)
