"""Tests that a published year is taken back by one command, by the guide's own lines, and that a run of it that was
killed is ended by the next. Wants the program, built or named by LPIS."""

import json
import os
import shutil
import signal
import sys
from pathlib import Path

import pytest
from lpis_helpers.calls import ended_with, run, tool
from lpis_helpers.country_example import PLAN
from lpis_helpers.places import BUILT, PACKAGE, TOOLS, TOP
from lpis_helpers.registers import made
from lpis_helpers.spare import Spare, read, write
from lpis.register import ledger

EXAMPLES = os.path.join(TOP, "examples")
# Runs tools/year as it is, killed behind or before the call of a number of what an undo does.
KILLED = """
import os, runpy, signal, sys
sys.path.insert(0, sys.argv[1])
from lpis.register import ledger; from lpis.register import retraction as undoing
left = [int(sys.argv[2])]
def dying(function):
    def called(*words):
        for is_done in (False, True):
            left[0] -= 1
            if left[0] < 0:
                os.kill(os.getpid(), signal.SIGKILL)
            if not is_done:
                answer = function(*words)
        return answer
    return called
undoing.put, undoing.moved, ledger.add = map(dying, (undoing.put, undoing.moved, ledger.add))
sys.argv = sys.argv[3:]
runpy.run_path(sys.argv[0], run_name="__main__")
"""


def lines_of_guide():
    """The lines that take a year back: the block that begins with --undo."""
    text = Path(TOP, "docs", "GUIDE.md").read_text(encoding="utf-8")
    return [
        line.split("#")[0].strip()
        for line in text[text.index("    tools/year register.db --undo") :].split("\n\n")[0].splitlines()
    ]


def year(*words):
    return tool("year", *words, env={**os.environ, "LPIS": BUILT})


@pytest.mark.skipif(not BUILT, reason="the program is not built")
class TestReleases(Spare):
    def set_up(self):
        self.base = self.path("register.db")
        for name, source in (("release-2026", "2024"), ("release-2027", "2025")):
            shutil.copytree(os.path.join(EXAMPLES, "exact", source), self.path(name))
        ended_with(0, year(self.base, 2026, self.path("release-2026"), "--new"))
        self.before = ledger.content_of(self.base)
        ended_with(0, year(self.base, 2027, self.path("release-2027")))
        self.after = ledger.content_of(self.base)

    def test_the_guide(self):
        """Taken back, looked at, and published again; the copy stays, and so does what was taken back."""
        os.symlink(TOOLS, self.path("tools"))
        undo, verify, publish = lines_of_guide()
        copy = read_bytes(f"{self.base}.before-2027")

        def ended(line):
            return ended_with(0, run("bash", "-c", line, cwd=self.folder, env={**os.environ, "LPIS": BUILT})).stdout

        assert "2027 is taken back; log register.db.log line sha256" in ended(undo)
        assert ledger.content_of(self.base) == self.before
        assert ledger.content_of(f"{self.base}.undone-2027") == self.after
        assert read_bytes(f"{self.base}.before-2027") == copy
        assert "register.db: 3 lines, the log and the register agree" in ended(verify)
        assert not os.path.exists(self.path("release-2027", "published-2027.txt"))
        assert "\npublished 2027\n" in read(self.folder, "release-2027", "undone-2027.txt")
        assert "published 2027, in" in ended(publish)
        assert (ledger.content_of(self.base), len(ledger.lines_of(self.base))) == (self.after, 4)
        ended(verify)
        ended(undo)
        assert os.path.exists(f"{self.base}.undone-2027-1")
        assert ledger.content_of(self.base) == self.before

    def test_what_it_stops_at(self):
        """Nothing is taken back that is not the last year, or changed since, or has no copy."""
        lines = ledger.lines_of(self.base)
        for what, number, words in (
            (None, 2026, "the last year is 2027: nothing but that can be taken back"),
            (None, 2028, "is not the last year"),
            ("register", 2027, "changed since 2027 was published"),
            ("copy", 2027, "is not there"),
            ("other", 2027, "does not have what the register held before"),
            ("log", 2027, "line 1 was changed since"),
        ):
            folder = self.path(f"copy-{what}-{number}")
            os.mkdir(folder)
            for name in os.listdir(self.folder):
                if name.startswith("register.db"):
                    shutil.copy(self.path(name), folder)
            base = os.path.join(folder, "register.db")
            if what == "register":
                made(base, "UPDATE lpis_span SET since = 2020")
            elif what == "copy":
                os.remove(f"{base}.before-2027")
            elif what == "other":
                shutil.copy(base, f"{base}.before-2027")
            elif what == "log":
                write(
                    read(f"{base}.log").replace(lines[0].decode(), lines[0].decode().replace("2026", "2025", 1)),
                    f"{base}.log",
                )
            then = ledger.content_of(base)
            ended = ended_with(1, year(base, "--undo", number))
            assert words in ended.stderr, ended.stderr
            assert (ledger.content_of(base), len(ledger.lines_of(base)), os.path.exists(f"{base}.undone-2027")) == (
                then,
                2,
                False,
            )
        for words in (
            ["--undo", 2027],
            [self.base, 2027, "--undo", 2027],
            [self.base, "--undo", "x"],
            [self.base, "--undo", 2027, "--verify"],
        ):
            ended_with(64, year(*words))
        ended_with(1, year(self.path("none.db"), "--undo", 2027))
        assert not os.path.exists(self.path("none.db.log"))

    def test_the_first_year(self):
        """It has no copy: the register gets another name, and --new begins it again."""
        ended_with(0, year(self.base, "--undo", 2027))
        ended_with(0, year(self.base, "--undo", 2026))
        assert (os.path.exists(self.base), ledger.content_of(f"{self.base}.undone-2026")) == (False, self.before)
        left = [f"{self.base}{end}" for end in ("-wal", "-shm", "-journal")]
        assert not any(map(os.path.exists, left))  # SQLite would read them into the next register
        ended_with(0, year("--verify", self.base))
        ended_with(0, year(self.base, 2026, self.path("release-2026"), "--new"))
        assert ledger.content_of(self.base) == self.before
        assert json.loads(ledger.lines_of(self.base)[-2])["undo"] == 2026

    def test_killed(self):
        """Killed before and behind each thing that it does: the same command ends it, and nothing is lost."""
        for number in range(20):
            folder = shutil.copytree(
                self.folder, os.path.join(os.path.dirname(self.folder), f"{os.path.basename(self.folder)}-{number}")
            )
            try:
                base = os.path.join(folder, "register.db")
                log = read(f"{base}.log").replace(self.folder, folder)
                write(log, f"{base}.log")
                entries = [json.loads(line) for line in log.splitlines()]
                os.remove(f"{base}.log")
                for entry in entries:  # the folders are other ones
                    with ledger.held(base) as file:
                        ledger.add(
                            file, base, {key: value for key, value in entry.items() if key not in ("own", "before")}
                        )
                ended = run(
                    sys.executable, "-c", KILLED, PACKAGE, number, os.path.join(TOOLS, "year"), base, "--undo", 2027
                )
                again = ended_with(0, year(base, "--undo", 2027))
                assert (ledger.content_of(base), ledger.faults_of(base), len(ledger.lines_of(base))) == (
                    self.before,
                    [],
                    3,
                ), (number, again.stdout)
                assert any(
                    ledger.content_of(os.path.join(folder, name)) == self.after
                    for name in os.listdir(folder)
                    if name.startswith("register.db.undone-2027")
                )
                assert os.path.exists(os.path.join(folder, "release-2027", "undone-2027.txt"))
                if ended.returncode == 0:
                    break
                assert ended.returncode == -signal.SIGKILL, ended.stderr
            finally:
                shutil.rmtree(folder)
        assert 6 < number < 19


@pytest.mark.skipif(not BUILT, reason="the program is not built")
class TestCountries(Spare):
    def test_a_country(self):
        """The folder of the year is kept under a name of its own, so that the year can be published again."""
        base, out = self.path("lpis.db"), self.path("country")
        os.mkdir(out)
        write(PLAN, out, "country.txt")

        def country(*words):
            return tool("country", *words, env={**os.environ, "LPIS": BUILT})

        for number, more in (("2024", ["--new"]), ("2025", [])):
            ended_with(0, country("split", os.path.join(EXAMPLES, "country-years", number), out))
            ended_with(0, country("publish", base, number, out, "--jump", "100", *more))
        assert "published: 2025 in" in country("status", out).stdout
        told = ended_with(0, year(base, "--undo", 2025)).stdout
        assert f"{out}/years/2025 is {out}/years/undone-2025 now\n" in told
        assert sorted(os.listdir(os.path.join(out, "years"))) == ["2024", "undone-2025"]
        assert (
            os.path.exists(os.path.join(out, "published-2025.txt")),
            os.path.exists(os.path.join(out, "undone-2025.txt")),
        ) == (False, True)
        assert "published: 2025" not in country("status", out).stdout
        assert f"{ledger.in_force([json.loads(line) for line in ledger.lines_of(base)])[-1]['folder']}" == os.path.join(
            out, "years", "2024"
        )
        assert "2025 was taken back on" in ended_with(0, year(base, "--undo", 2025)).stdout
        ended_with(0, country("publish", base, 2025, out, "--jump", "100"))
        assert sorted(os.listdir(os.path.join(out, "years"))) == ["2024", "2025", "undone-2025"]


def read_bytes(path):
    return Path(path).read_bytes()
