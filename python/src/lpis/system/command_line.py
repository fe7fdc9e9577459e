"""The words of a tool's command line: --help, --version, and status 64 for words that it does not know. By argparse:
others are no part of Python."""

import argparse
import contextlib
import errno
import os
import re
import sqlite3
import subprocess
import sys
import tempfile

from ..formats import byte_tables
from . import databases, files, installation, placing, printing, processes, program, unforeseen
from .printing import readable
from .trouble import Trouble

TROUBLE = 64
FULL = (errno.ENOSPC, errno.EDQUOT, errno.EFBIG, errno.EIO)  # of what is written
FAILED = f"status {unforeseen.STATUS}: this tool failed; it says where, and names a file with the traceback."
# has the version where no program is built
SOURCE = os.path.join("crates", "lpis_command_line", "src", "command_line.rt")


class Line(argparse.ArgumentParser):
    """Ends with the status of trouble where words are not known, since 1 and 2 are answers of lpis. Its help names
    commands as they are called here."""

    def format_help(self):
        return installation.here(super().format_help())

    def error(self, message):
        self.print_usage(sys.stderr)
        self.exit(TROUBLE, f"{self.prog}: {message}\n")


class Parser(Line):
    """Of the tool `lpis-NAME`; its description is the text at the head of the script."""

    def __init__(self, name, description):
        super().__init__(
            prog=name,
            description=description,
            formatter_class=argparse.RawDescriptionHelpFormatter,
            epilog=FAILED,
        )
        self.add_argument("--version", action=Version, help="print the version of lpis that this tool belongs to")

    def add_lpis(self):
        self.add_argument(
            "--lpis",
            metavar="COMMAND",
            default=os.environ.get("LPIS", ""),
            help="the command that runs lpis (or LPIS in the environment)",
        )


class Version(argparse.Action):
    def __init__(self, option_strings, dest, **more):
        super().__init__(option_strings, dest, nargs=0, **more)

    def __call__(self, parser, *_):
        print(version(parser.prog), end="")
        parser.exit()


def version(name):
    """The version of the program beside the tools, with the commit and the kit that it was built of; of the sources
    where it is not built."""
    built = program.beside()
    lines = (
        subprocess.run([built, "--version"], capture_output=True, text=True, check=False).stdout.splitlines()
        if built
        else []
    )
    facts = program.facts([built]) if lines else {}
    number = lines[0].split(" ")[-1] if lines else version_of_sources()
    return "".join(
        f"{line}\n"
        for line in [f"lpis-{name} {number}", *(f"{key} {facts[key]}" for key in ("commit", "kit") if key in facts)]
    )


def version_of_sources():
    try:
        with open(os.path.join(os.path.dirname(program.HERE), SOURCE), encoding="utf-8") as file:
            found = re.search(r'VERSION: &str = "([^"]+)"', file.read())
    except OSError:
        found = None
    return found[1] if found else "of no known version"


def run(name, main, *troubles):
    """Ends with the status of a tool, or of what kept it from its end."""
    sys.exit(ended(name, main, *troubles))


def ended(name, main, *troubles):
    """The status of a tool: its own; 64 and the reason in a line; 70 where it failed or there is no lpis; 128 and the
    number of the signal that stopped it."""
    printing.begin()
    processes.listen()
    try:
        placing.end_all(sys.argv[1:])
        status = outcome(main)
        printing.finish()
        return status
    except Exception as error:
        status = told(name, error, (OSError, subprocess.CalledProcessError, Trouble, *troubles))
    except KeyboardInterrupt as stopped:
        say(name, stopped)
        status = getattr(stopped, "status", 130)
    with contextlib.suppress(OSError, ValueError):
        printing.finish()
    return status


def outcome(main):
    """The status of a tool that ends in its own way, in the middle too."""
    try:
        return main()
    except SystemExit as leaving:
        if isinstance(leaving.code, str):
            print(leaving.code, file=sys.stderr)
        return leaving.code if isinstance(leaving.code, int) else int(leaving.code is not None)


def told(name, error, troubles):
    """Tells what an exception means, and answers the status."""
    if processes.stopped():  # the exception of the signal may have been lost on its way
        say(name, processes.stopped())
        return processes.stopped().status
    if isinstance(error, BrokenPipeError):  # who reads standard output has gone away
        return TROUBLE
    if isinstance(error, program.Absent):
        say(name, error)
        return program.ABSENT
    if isinstance(error, MemoryError):
        error.__traceback__ = None
        say(name, f"there is not enough memory{unforeseen.PLACE.words()}")
        return TROUBLE
    if isinstance(error, sqlite3.Error):
        say(name, words_of_database(error))
        return TROUBLE
    if isinstance(error, troubles):
        for reason in [words_of(error)] if isinstance(error, OSError) else getattr(error, "reasons", [error]):
            say(name, installation.here(str(reason)))
        return getattr(error, "status", TROUBLE)
    say(name, unforeseen.sentence(name, error))
    return unforeseen.STATUS


def words_of(error):
    """An error of the system in words, with the file that it is about: where that is not known, the one that was
    written last."""
    if isinstance(error, NotADirectoryError):
        return in_place_of_a_folder(error)
    name = error.filename2 or error.filename or (files.last_written() if error.errno in FULL else "")
    if isinstance(name, int) or not error.strerror:
        return error
    return f"{readable(os.fsdecode(name))}: {error.strerror}" if name else error.strerror


def words_of_database(error):
    if "disk is full" in str(error):
        return (
            f"the disk is full where this run keeps its rows: beside the tables, or in {tempfile.gettempdir()} (TMPDIR"
            " names another folder)"
        )
    return f"{readable(str(unforeseen.PLACE.file or 'a database'))} cannot be read: {databases.why(error)}"


def in_place_of_a_folder(error):
    """What stands in the place of a folder: a file that was handed over as a folder of tables, or a device."""
    path = file_in_the_way(os.path.abspath(os.fspath(error.filename or ".")))
    if path is None:
        return error
    if not os.path.isfile(path):
        return f"{readable(path)} is no file and no folder: nothing can be written below it"
    try:
        with open(path, "rb") as file:
            kind = byte_tables.kind_of_file(file.read(byte_tables.START))
    except OSError:
        return error
    if "tools/check" in (kind or ""):
        return f"{readable(path)} is {kind}, and makes the folder of tables that is wanted here"
    return f"{readable(path)} is {kind or 'a file'}, and no folder of tables, which is wanted here"


def file_in_the_way(path):
    """What is no folder on the way to a path; None where all of it are folders, as far as it is there."""
    ways = [path]
    while (parent := os.path.dirname(ways[-1])) != ways[-1]:
        ways.append(parent)
    return next((way for way in reversed(ways) if os.path.lexists(way) and not os.path.isdir(way)), None)


def say(name, words):
    with contextlib.suppress(OSError, ValueError):
        print(f"{name}: {words}", file=sys.stderr, flush=True)
