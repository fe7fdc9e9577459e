"""The second checker, audit/: whether it answers as the program does."""

import contextlib
import csv
import os
import shlex
import sys
import tempfile

from ..formats import register_rows
from ..source import source_settings
from ..system import processes, program
from ..system.trouble import Trouble

TOOLS = program.HERE
# installed beside the tools, or of the repository
PLACES = (os.path.join(TOOLS, "audit"), os.path.join(os.path.dirname(TOOLS), "audit"))
YES = "two programs agree: yes, and their reports are equal"


class Disagree(Trouble):
    """Two programs do not agree: words."""


class Broken(Trouble):
    """Tables do not say what their source says, or that cannot be told: words, and the status."""

    def __init__(self, said: str, status: int) -> None:
        super().__init__(said)
        self.status = status


def add_option(parser):
    parser.add_argument(
        "--audit", action="store_true", help="ask the second checker too, and stop if the two programs do not agree"
    )
    add_source(parser)


def add_source(parser):
    parser.add_argument(
        "--source",
        metavar="LAND",
        help=(
            "the source of the tables: have it test that they say the same as LAND at each point; options of"
            " audit/source.py follow LAND in the same quoted text"
        ),
    )


def asked(script, *words):
    """Status and text of a script of the second checker."""
    folder = next((place for place in PLACES if os.path.isdir(place)), None)
    if folder is None:
        raise Disagree(f"there is no second checker: {' and '.join(PLACES)} are not there")
    ended = processes.run([sys.executable, "-B", os.path.join(folder, script), *words], capture_output=True)
    return ended.returncode, ended.stdout.decode("utf-8", "replace") + ended.stderr.decode("utf-8", "replace")


def agreement(command, folder, cert=None):
    """What both programs say of a release and its certificate, which is made for them where none is named. A yes has to
    have the same report of both."""
    if cert is None:
        return agreement_by_cut(command, folder)
    first = processes.run(program.call(command, "check", folder, cert), capture_output=True)
    text, (status, other) = first.stdout.decode("utf-8", "replace"), asked("release.py", folder, cert)
    last = (text + first.stderr.decode("utf-8", "replace")).rstrip("\n").rpartition("\n")[2]
    if first.returncode == 0 and status == 0 and text == other:
        return YES
    if first.returncode in (1, 2) and status == 1:
        return f"two programs agree: {last}; the second says: {other.rstrip()}"
    raise Disagree(
        f"two programs do not agree: lpis says {last}, the second checker {other.rstrip().rpartition(chr(10))[2]}"
    )


def agreement_by_cut(command, folder):
    """The same of a certificate that is made and let go; of a release that gets none only one program has been
    asked."""
    with tempfile.TemporaryDirectory(prefix="lpis-") as spare:
        cert = os.path.join(spare, "cert.txt")
        cut = processes.run(program.call(command, "cut", folder, cert), capture_output=True, text=True)
        if cut.returncode == 0:
            return agreement(command, folder, cert)
    last = (cut.stdout + cut.stderr).rstrip("\n").rpartition("\n")[2]
    return f"the second checker was not asked, since the release gets no certificate: {last}"


def of_source(said: str, folder: str) -> str:
    """What the second checker says of tables and their source: its path, or one text of it and of further words."""
    land, *more = [said] if os.path.exists(said) else shlex.split(said) or [said]
    status, text = asked("source.py", land, folder, *source_settings.words_of(land, more), *more)
    answer = f"the second checker says about {land} and {folder}: {text.rstrip()}"
    if status != 0:
        raise Broken(answer, status)
    return answer


def of_lineage(register, folder, cert):
    """What the second checker says of marked splits and merges that follow on the shapes that a register keeps."""
    with tempfile.TemporaryDirectory(prefix="lpis-") as old:
        with contextlib.closing(register_rows.opened(register)) as base, open(
            os.path.join(old, "parcels.csv"), "w", encoding="utf-8", newline=""
        ) as file:
            file.write("parcel,wkt\n")
            csv.writer(file).writerows(base.execute("SELECT id, wkt FROM lpis_text"))
        status, text = asked("lineage.py", old, folder, cert)
    if status != 0:
        raise Disagree(
            f"two programs do not agree: lpis finds the marks of {folder} exact, and the second checker says:"
            f" {text.rstrip()}"
        )
    return f"two programs agree on the marks of {folder}: {text.rstrip()}"


def of_register(register, folder):
    """What the second checker says of a register that keeps the shapes of a release."""
    status, text = asked("register.py", register, "--shapes", folder)
    if status != 0:
        raise Disagree(f"the second checker says about {register}: {text.rstrip()}")
    return f"the second checker says about {register}: {text.rstrip()}"
