"""Tests which program ./lpis runs and what it says of it, that one which cannot start is no answer, of script,
installed lpis and tools alike, and dev/sources, dev/carry and dev/carried, in small repositories with stand-ins for
program and kit."""

import os
import pathlib
import re
import shutil
import subprocess
import sys
import time

import pytest
from lpis_helpers.places import TOP
from lpis_helpers.spare import Spare, few_at_once

pytestmark = pytest.mark.finds_program

CRATES = "# crates\nlpis_points:\nlpis_aside: lpis_points\nlpis_commands: lpis_points thiserror\nlpis: lpis_commands\n"
KIT = "rattle-kit-0 logic 1"
OTHER = "is of other sources than those here: './lpis build' proves and builds it anew"
NEEDS = "Linux on x86-64 with glibc 2.34 or later (Debian 12, Ubuntu 22.04, RHEL 9)"
# How a program cannot start, and the last words of the line that is said.
ENDS = {
    "a C library that is older": (
        "#!/bin/sh\necho \"$0: version 'GLIBC_2.99' not found (required by $0)\" >&2\nexit 1\n",
        "not found (required by PROGRAM)",
    ),
    "no C library": ("#!/bin/sh\nexit 127\n", "it ended with status 127"),
    "another machine": ("\x7fELF\x02\x01\x01" + "\0" * 11 + "\xb7" + "\0" * 60, "Exec format error"),
    "no loader": ("#!/nowhere/ld.so\n", ""),
    "half of a program": ("\x7fELF", ""),
    "a processor that is older": ("#!/bin/sh\nkill -ILL $$\n", "it ended with status 132"),
}


def program(name, version="1.0.0", status=0):
    """A program that prints its name, the words that it gets, and its version."""
    return f'#!/bin/sh\n[ "$1" = --version ] && echo lpis {version} && exit {status}\necho {name} "$@"\n# GLIBC_2.34\n'


class Case(Spare):
    def set_up(self):
        self.top = pathlib.Path(self.folder, "a house")
        for folder in ("dev", "bin"):
            (self.top / folder).mkdir(parents=True)
        for name in ("lpis", "dev/sources", "dev/carry", "dev/carried", "dev/facts.py"):
            shutil.copy(os.path.join(TOP, name), self.top / name)
        for folder in ("tools", "python"):
            shutil.copytree(
                os.path.join(TOP, folder),
                self.top / folder,
                ignore=shutil.ignore_patterns("tests", "qgis", "__pycache__"),
            )
        self.write("crates.txt", CRATES)
        for crate in ("lpis_points", "lpis_aside", "lpis_commands", "lpis"):
            self.write(f"crates/{crate}/src/lib.rt", f"// {crate}\n")
        self.write("crates/lpis_points/specs/Points.antt", "-- points\n")
        self.write("bin/rt", f'#!/bin/sh\n[ "$1" = version ] && echo {KIT}\n', 0o755)

    def write(self, name, text, mode=0o644):
        path = self.top / name
        path.parent.mkdir(parents=True, exist_ok=True)
        path.write_text(text, encoding="latin-1")
        path.chmod(mode)
        return path

    def put(self, place, text, sources=None):
        """A program in out/program or program/, of the sources here if no others are named."""
        self.write(f"{place}/lpis", text, 0o755)
        self.write(
            f"{place}/facts", f"version 1.0.0\nkit {KIT}\nsources {sources or self.sources()}\nsha256 0\nglibc 2.34\n"
        )

    def call(self, *words, **more):
        path = f"{self.top}/bin:{os.environ['PATH']}"
        environment = {
            **{name: value for name, value in os.environ.items() if name != "LPIS"},
            "PATH": path,
            "LC_ALL": "C",
        }
        return subprocess.run(
            [str(word) for word in words],
            **{"capture_output": True, "text": True, "check": False, "cwd": self.top, "env": environment, **more},
        )

    def answer(self, *words):
        """Status, output and lines on standard error of the script."""
        ended = self.call(self.top / "lpis", *words)
        return ended.returncode, ended.stdout, ended.stderr.splitlines()

    def sources(self):
        return self.call(self.top / "dev" / "sources").stdout.strip()


class TestChoice(Case):
    @pytest.mark.parametrize(
        "built, carried, wanted, remark",
        (
            ("these", "these", "out/program", "built here"),
            ("these", "others", "out/program", "built here"),
            ("these", None, "out/program", "built here"),
            ("others", "these", "program", "carried"),
            (None, "these", "program", "carried"),
            ("others", "others", "out/program", "built here, of other sources"),
            ("others", None, "out/program", "built here, of other sources"),
            (None, "others", "program", "carried, of other sources"),
        ),
    )
    def test_which_program_runs(self, built, carried, wanted, remark):
        """Of the two that one whose sources are those here; else that which was built here, else that which is
        carried, and a line."""
        for place, state in (("out/program", built), ("program", carried)):
            shutil.rmtree(self.top / place, ignore_errors=True)
            if state:
                self.put(place, program(place), "0" * 64 if state == "others" else None)
        line = [f"lpis: the program ({wanted}/lpis) {OTHER}"] * ("other" in remark)
        assert self.answer("area", "x") == (0, f"{wanted} area x\n", line)
        assert self.answer("program") == (0, f"{self.top}/{wanted}/lpis\n", line)
        known = "0" * 64 if "other" in remark else self.sources()
        assert self.answer("--version") == (0, f"lpis 1.0.0\nkit {KIT}\nsources {known}\n{remark}\n", line)

    @pytest.mark.parametrize("text", ("kit 1\n", "sources\n", "", None))
    def test_facts_that_do_not_say(self, text):
        """A program whose facts have no sources, or that has none, is of others."""
        self.put("program", program("carried"))
        self.write("program/facts", text or "") if text is not None else (self.top / "program/facts").unlink()
        status, out, told = self.answer("area")
        assert (status, out, len(told)) == (0, "carried area\n", 1)

    def test_none(self):
        """No program: a line and 70 of each command and each tool, and nothing is built or made."""
        for words in (["area", "x"], ["--help"], ["program"], ["publish", "r.db", "2024", "r", "c"]):
            status, out, told = self.answer(*words)
            assert (status, out, len(told), "git checkout program" in told[0]) == (70, "", 1, True), told
        self.check_tools("there is no program here")
        assert not (self.top / "out").exists()

    def check_tools(self, wanted):
        before = sorted(self.top.rglob("*"))
        for tool, words in (
            ("faults", ["r", "o.json"]),
            ("report", ["r", "c"]),
            ("year", ["r.db", "2024", "r", "--new"]),
            ("country", ["check", "land"]),
            ("country", ["cut", "land"]),
        ):
            ended = self.call(sys.executable, "-B", self.top / "tools" / tool, *words)
            assert (ended.returncode, ended.stdout, len(ended.stderr.splitlines()), wanted in ended.stderr) == (
                70,
                "",
                1,
                True,
            ), (tool, ended.stderr)
        assert [path for path in sorted(self.top.rglob("*")) if "__pycache__" not in path.parts] == [
            path for path in before if "__pycache__" not in path.parts
        ]

    @pytest.mark.parametrize("name", few_at_once([*ENDS], 2))
    def test_a_program_that_cannot_start(self, name):
        """The script, the installed one and the tools say what it needs, in a line, before anything else, and never
        end with 1."""
        installed, (text, last) = self.top / "place" / "lpis", ENDS[name]
        self.put("program", text)
        place = str(self.top / "program" / "lpis")
        status, out, told = self.answer("publish", "new.db", "2024", "r", "c")
        assert (status, out, len(told), NEEDS in told[0]) == (70, "", 1, True), told
        assert last.replace("PROGRAM", place) in told[0]
        self.check_tools(NEEDS)
        shutil.copytree(self.top / "program", installed / "program", dirs_exist_ok=True)
        for part in ("run.sh", "words.txt"):
            shutil.copy(self.top / "tools" / part, installed)
        shutil.copy(self.top / "tools" / "installed", installed / "lpis")
        ended = self.call(installed / "lpis", "area", "x")
        assert (ended.returncode, ended.stdout, ended.stderr.count("\n"), NEEDS in ended.stderr) == (
            70,
            "",
            1,
            True,
        ), ended.stderr

    def test_a_program_that_may_not_be_run(self):
        self.put("program", program("carried"))
        (self.top / "program" / "lpis").chmod(0o644)
        assert self.answer("area", "x") == (
            70,
            "",
            [
                f"lpis: {self.top}/program/lpis may not be run: chmod +x it, on a file system from which programs"
                " may run"
            ],
        )

    def test_what_it_needs_is_told_alike(self):
        """By the scripts, README.md and the manual."""
        assert f"NEEDS='{NEEDS}'" in (self.top / "tools" / "run.sh").read_text()
        for page in ("README.md", "docs/lpis.1"):
            assert NEEDS.partition(" (")[0] in " ".join(
                pathlib.Path(TOP, page).read_text(encoding="utf-8").split()
            ), page
        assert NEEDS in " ".join(pathlib.Path(TOP, "README.md").read_text(encoding="utf-8").split())

    def test_no_memory_is_an_answer(self):
        """A program that starts, and has no memory to say its version, runs."""
        self.put("program", program("carried", status=3))
        assert self.answer("area", "x") == (0, "carried area x\n", [])


class TestSources(Case):
    def test_what_counts(self):
        """Names and bytes of the program's crates count; times, crates aside, their order and what is built do not."""
        first = self.sources()
        assert re.search("^[0-9a-f]{64}$", first)
        same = {
            "times": lambda: [os.utime(path, (0, 0)) for path in self.top.rglob("*.rt")],
            "a crate aside": lambda: self.write("crates/lpis_aside/src/lib.rt", "// another\n"),
            "its line": lambda: self.write("crates.txt", CRATES.replace("lpis_aside: lpis_points", "lpis_aside:")),
            "the order of lines": lambda: self.write("crates.txt", "\n".join(reversed(CRATES.splitlines())) + "\n"),
            "what is built": lambda: self.write("crates/lpis/out/lpis", "built"),
            "wrong bodies": lambda: self.write("crates/lpis/must-fail/one.edit", "file: src/lib.rt\n"),
        }
        other = {
            "a byte of a source": lambda: self.write("crates/lpis_points/src/lib.rt", "// lpis_pointz\n"),
            "a name": lambda: (self.top / "crates/lpis_points/specs/Points.antt").rename(
                self.top / "crates/lpis_points/specs/Point.antt"
            ),
            "a proof": lambda: self.write("crates/lpis_commands/proofs/Lemmas.antt", ""),
            "a crate of the kit": lambda: self.write("crates.txt", CRATES.replace("thiserror", "clap")),
            "a crate more below": lambda: self.write(
                "crates.txt", CRATES.replace("lpis: lpis_commands", "lpis: lpis_commands lpis_aside")
            ),
        }
        for name, change in same.items():
            change()
            assert self.sources() == first, name
        known = {first}
        for name, change in other.items():
            change()
            assert self.sources() not in known, name
            known.add(self.sources())

    def test_the_digest_that_is_kept(self):
        """It is taken while no file or folder was written since; a time that was set back hides no change."""
        self.put("program", program("carried"))
        other, path, kept = "0" * 64, self.top / "crates/lpis_points/src/lib.rt", self.top / "out/sources"
        time.sleep(2.1)
        assert self.answer("area") == (0, "carried area\n", []) and kept.read_text() == self.sources() + "\n"
        times = kept.stat()
        kept.write_text(other + "\n")
        os.utime(kept, ns=(times.st_atime_ns, times.st_mtime_ns))
        assert self.answer("area")[2] == [
            f"lpis: the program (program/lpis) {OTHER}"
        ], "the digest that is kept was not taken"
        times, text = path.stat(), path.read_text()
        path.write_text(text.upper())
        os.utime(path, ns=(times.st_atime_ns, times.st_mtime_ns))
        assert self.answer("area")[2] == [f"lpis: the program (program/lpis) {OTHER}"]
        path.write_text(text)
        assert self.answer("area") == (0, "carried area\n", [])
        kept.unlink()
        (self.top / "out").rmdir()
        (self.top / "out").write_text("no folder")
        assert self.answer("area") == (0, "carried area\n", [])

    def test_another_folder(self):
        other = self.top.parent / "other"
        shutil.copytree(self.top, other)
        assert self.call(other / "dev" / "sources", cwd="/").stdout == self.sources() + "\n"


class TestCarrying(Case):
    def carry(self):
        return self.call(sys.executable, self.top / "dev" / "carry")

    def carried(self):
        ended = self.call(sys.executable, self.top / "dev" / "carried")
        return ended.returncode, ended.stdout.splitlines()

    def link(self, text):
        self.write("crates/lpis/out/lpis", text, 0o755)

    def test_what_is_carried(self):
        """What was built of these sources, else what rt linked of them; nothing else."""
        ended = self.carry()
        assert (ended.returncode, "./lpis build" in ended.stderr) == (1, True), ended.stderr
        self.link(program("linked"))
        self.put("out/program", program("built"), "0" * 64)
        assert self.carry().returncode == 0
        assert (self.top / "program" / "lpis").read_text() == program("linked")
        self.put("out/program", program("built"))
        assert self.carry().returncode == 0
        assert (self.top / "program" / "lpis").read_text() == program("built")
        digest = self.call("sha256sum", self.top / "program" / "lpis").stdout.split()[0]
        assert (
            self.top / "program" / "facts"
        ).read_text() == f"version 1.0.0\nkit {KIT}\nsources {self.sources()}\nsha256 {digest}\nglibc 2.34\n"
        assert oct((self.top / "program" / "lpis").stat().st_mode & 0o777) == "0o755"
        shutil.rmtree(self.top / "out")
        self.write("crates/lpis/src/lib.rt", "// newer than what rt linked\n")
        os.utime(self.top / "crates/lpis/out/lpis", (0, 0))
        assert self.carry().returncode == 1

    def test_a_newer_library_is_not_carried(self):
        self.link(program("linked") + "# GLIBC_2.35\n")
        ended = self.carry()
        assert (ended.returncode, "glibc 2.35" in ended.stderr, (self.top / "program").exists()) == (
            1,
            True,
            False,
        ), ended.stderr

    def test_it_is_what_these_sources_make(self):
        """Any difference fails with the two commands; another kit, and nothing that is carried, is told and left
        out."""
        assert self.carried() == (
            0,
            ["left out: no program is carried (program/lpis)", "1 left out", "0 passed, 0 failed"],
        )
        self.link(program("linked"))
        self.carry()
        facts = (self.top / "program" / "facts").read_text()
        assert self.carried() == (0, ["8 passed, 0 failed"])
        for name, change in {
            "bytes": lambda: self.write("program/lpis", program("other"), 0o755),
            "bytes, with their digest": lambda: self.write(
                "program/facts", self.facts_of(self.write("program/lpis", program("other"), 0o755), facts)
            ),
            "mode": lambda: (self.top / "program/lpis").chmod(0o644),
            "sources": lambda: self.write("crates/lpis/src/lib.rt", "// another\n"),
            "facts": lambda: self.write("program/facts", facts.replace("glibc 2.34\n", "")),
            "one more": lambda: self.write("program/facts", facts + "commit 1\n"),
            "version": lambda: self.write("program/facts", facts.replace("1.0.0", "1.0.1")),
            "nothing linked": (self.top / "crates/lpis/out/lpis").unlink,
        }.items():
            change()
            status, lines = self.carried()
            assert (status, lines[-1].endswith(" 0 failed"), "./lpis build && dev/carry" in lines[-2]) == (
                1,
                False,
                True,
            ), lines
            self.write("crates/lpis/src/lib.rt", "// lpis\n")
            self.link(program("linked"))
            self.carry()
        self.write("bin/rt", "#!/bin/sh\necho rattle-kit-1 logic 1\n", 0o755)
        self.link(program("of another kit"))
        status, lines = self.carried()
        assert (status, lines[0].startswith("left out: the installed kit is rattle-kit-1"), lines[1:]) == (
            0,
            True,
            ["1 left out", "7 passed, 0 failed"],
        ), lines

    def facts_of(self, path, text):
        """Facts with the digest of another program."""
        digest = self.call("sha256sum", path).stdout.split()[0]
        return "".join(f"sha256 {digest}\n" if line.startswith("sha256") else line for line in text.splitlines(True))
