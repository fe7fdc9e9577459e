"""The command that is `lpis`."""

import os
import re
import shlex
import shutil
import subprocess
import sys

from . import processes
from .installation import HERE

ABSENT = 70  # the status where there is no lpis that starts, as that of the script ./lpis


class Absent(Exception):
    """There is no lpis, or it does not start here."""


def is_program(path):
    return os.path.isfile(path) and os.access(path, os.X_OK)


def of_repository():
    """The program that ./lpis runs, where the tools are in a repository, and what the script says of it."""
    script = os.path.join(os.path.dirname(HERE), "lpis")
    if not is_program(script):
        return None, ""
    told = processes.run([script, "program"], capture_output=True, text=True)
    return told.stdout.rstrip("\n") or None, told.stderr


def beside():
    """The program that is installed beside the tools, or that the repository's ./lpis runs; None where there is
    none."""
    installed = os.path.join(HERE, "program", "lpis")
    return installed if is_program(installed) else of_repository()[0]


def command(words=""):
    """Named, installed beside the tools, that of the repository that the tools are in, or on the path. It starts
    here; nothing is built."""
    installed = os.path.join(HERE, "program", "lpis")
    if words:
        return started(split(words))
    if is_program(installed):
        return started([installed])
    found, said = of_repository()
    if found is not None:
        sys.stderr.write(said)
        return [found]
    found = shutil.which("lpis")
    if found is None:
        raise Absent(
            said.strip().removeprefix("lpis: ")
            or "lpis is neither in the folder of the tools nor on PATH: name it by --lpis or LPIS"
        )
    return started([found])


def started(words):
    """The same words, where that program starts here: a loader that misses its C library ends with 1, as a refusal
    does."""
    try:
        ended = processes.run(
            [*words, "--version"], capture_output=True, text=True, errors="replace", stdin=subprocess.DEVNULL
        )
    except OSError as error:
        raise Absent(f"{words[0]} does not start here ({error.strerror}): it needs {needs()}") from None
    if ended.returncode in (126, 127) or (ended.returncode == 1 and "GLIBC" in ended.stderr):
        raise Absent(f"{words[0]} does not start here, it needs {needs()}: {' '.join(ended.stderr.split())}")
    return words


def call(command, name, *paths, options=()):
    """The words of a call over paths. One that begins with a dash is a path, and no option."""
    return [
        *command,
        name,
        *options,
        *(os.path.join(os.curdir, path) if path.startswith("-") else path for path in paths),
    ]


def needs():
    """The systems on which the program starts, by the script that runs it."""
    with open(os.path.join(HERE, "run.sh"), encoding="utf-8") as file:
        return re.search(r"(?m)^NEEDS='(.*)'$", file.read())[1]


def split(words):
    """The words of a command, as a shell takes them apart."""
    try:
        found = shlex.split(words)
    except ValueError as error:
        raise OSError(f"{words!r} is no command: {error}") from None
    if not found:
        raise OSError(f"{words!r} is no command")
    return found


def commit_of(words):
    """The commit of a command's sources: as it was known when the program was built, else that of the clone that the
    tools are in."""
    found = facts(words).get("commit", "")
    top = os.path.dirname(HERE)
    if found or not os.path.exists(os.path.join(top, ".git")):
        return found
    try:
        told = subprocess.run(
            ["git", "-C", top, "rev-parse", "HEAD"], capture_output=True, text=True, check=True
        ).stdout.strip()
        is_other = subprocess.run(
            ["git", "-C", top, "diff", "--quiet", "HEAD", "--"], capture_output=True, check=False
        ).returncode
    except (OSError, subprocess.CalledProcessError):
        return ""
    return f"{told}{' with changes' if is_other else ''}"


def facts(words):
    """What was known when the program was built, as a dictionary: commit and kit, where they stand beside it."""
    path = os.path.join(os.path.dirname(os.path.realpath(shutil.which(words[0]) or words[0])), "facts")
    try:
        with open(path, encoding="utf-8", errors="replace") as file:
            return dict(line.rstrip("\n").split(" ", 1) for line in file if " " in line)
    except OSError:
        return {}
