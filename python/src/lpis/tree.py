"""What stands beside the package: the program, its library and the tools, which a wheel carries and a clone has."""

from __future__ import annotations

import functools
import os
import subprocess
from importlib import metadata
from pathlib import Path

from .refusals import Failed
from .system import program as tools

# As the installed lpis does: causes are said behind `failed ..`, and a program that cannot start here is no answer.
SCRIPT = """set -Eeuo pipefail; trap 'exit 70' ERR; . "$0"; run_program "$@" """
CARRIED = Path(__file__).resolve().parent / "carried" / "lib" / "lpis"
LIBRARY = "liblpis.so"


def home() -> Path:
    """The folder of the tools."""
    return Path(tools.HERE)


def library() -> Path | None:
    """The library of the wheel, or the one that LPIS_LIBRARY names; None where neither is there."""
    named = os.environ.get("LPIS_LIBRARY")
    path = Path(named) if named else CARRIED / "program" / LIBRARY
    return path if path.is_file() else None


@functools.lru_cache(maxsize=None)
def program() -> list[str]:
    """The words that call the program: of LPIS in the environment, else the one of the tree. It starts here."""
    named = os.environ.get("LPIS", "")
    try:
        words = list(tools.command(named))
    except (tools.Absent, OSError) as error:
        raise Failed(str(error)) from None
    return words if named else ["bash", "-c", SCRIPT, str(home() / "run.sh"), os.path.dirname(words[0])]


def ended(words: list[str]) -> subprocess.CompletedProcess[str]:
    """A process that has ended: where this one is interrupted, it ends before."""
    with subprocess.Popen(
        words,
        stdin=subprocess.DEVNULL,
        stdout=subprocess.PIPE,
        stderr=subprocess.PIPE,
        text=True,
        errors="backslashreplace",
    ) as process:
        try:
            out, err = process.communicate()
        except BaseException:
            process.terminate()
            process.wait()
            raise
    return subprocess.CompletedProcess(words, process.returncode, out, err)


@functools.lru_cache(maxsize=None)
def version() -> str:
    """That of the wheel; in a clone that of its program."""
    if CARRIED.is_dir():
        return metadata.version("lpis")
    words = ended([*program(), "--version"]).stdout.split()
    if len(words) < 2:
        raise Failed("the program does not say its version")
    return words[1]
