"""Tests what tools have in common: --version, --help, words that are none, and what the texts that are installed
name."""

import os
import re
import shutil
import sys
from pathlib import Path

import pytest
from lpis_helpers.calls import run, tool
from lpis_helpers.places import PACKAGE, TOOLS, TOP
from lpis_helpers.spare import Spare, read, write, write_script
from lpis.system import installation

NAMES = ("explain", "faults", "report")
OF_SHAPELY = ("prepare", "lineage .", "country prepare")
STANDIN = "#!/bin/sh\necho lpis 9.8.7\n"


class TestWords(Spare):
    def house(self):
        """The tools as they are installed, beside a stand-in for the program."""
        lib = os.path.join(self.folder, "lib", "lpis")
        shutil.copytree(
            os.path.join(PACKAGE, "lpis"),
            os.path.join(lib, "python", "lpis"),
            ignore=shutil.ignore_patterns("__pycache__"),
        )
        shutil.copy(os.path.join(TOOLS, "run.sh"), lib)
        os.makedirs(os.path.join(lib, "program"))
        for name in installation.COMMANDS:
            write_script(read(TOOLS, name).replace("../python/src", "python"), lib, name)
        write_script(STANDIN, lib, "program", "lpis")
        write("commit 0123456789ab\nkit rattle-kit-0 logic 1\n", lib, "program", "facts")
        return lib

    def test_version(self):
        lib = self.house()
        for name in NAMES:
            done = run(os.path.join(lib, name), "--version")
            assert (done.returncode, done.stdout) == (
                0,
                f"lpis-{name} 9.8.7\ncommit 0123456789ab\nkit rattle-kit-0 logic 1\n",
            ), done.stderr
            assert re.search(rf"^lpis-{name} \d+\.\d+\.\d+\n", tool(name, "--version").stdout)

    @pytest.mark.parametrize("name", NAMES)
    def test_help_and_wrong_words(self, name):
        done = tool(name, "--help")
        assert (done.returncode, "--version" in done.stdout) == (0, True), done.stderr
        for words in (["--none"], []):
            done = tool(name, *words)
            assert (done.returncode, done.stderr.splitlines()[-1].startswith(f"{name}: ")) == (64, True), done.stderr

    @pytest.mark.parametrize("name", OF_SHAPELY)
    def test_without_shapely(self, name):
        """What wants it says so in one sentence, before it reads anything."""
        tool, *words = name.split()
        script = (
            "import runpy, sys; from lpis.system import shapely_there; shapely_there.SYSTEM = '/none'; sys.argv[0] ="
            f" {tool!r}; runpy.run_path({os.path.join(TOOLS, tool)!r}, run_name='__main__')"
        )
        done = run(
            "env",
            f"PYTHONPATH={PACKAGE}",
            sys.executable,
            "-S",
            "-c",
            script,
            *words,
            self.folder,
            os.path.join(self.folder, "out"),
        )
        assert (done.returncode, len(done.stderr.splitlines())) == (64, 1), done.stderr
        for word in (f"{os.path.basename(tool)}: ", "python3-shapely", "dev/packages"):
            assert word in done.stderr

    def test_installed_tools_name_what_is_installed(self):
        lib = self.house()
        for name in NAMES:
            text = run(os.path.join(lib, name), "--help").stdout
            assert (f"lpis-{name}" in text, re.findall(r"tools/\w+|\./lpis", text)) == (True, [])
        for words in (["prepare", "--help"], ["publish", "--help"]):  # of commands of a tool
            text = run(os.path.join(lib, "country"), *words).stdout
            assert ("--quiet" in text, re.findall(r"tools/\w+|\./lpis", text)) == (True, [])
        text = run(os.path.join(lib, "explain"), "3a", "45", "14").stdout
        assert re.findall(r"(?<!\S)\(?(?:tools|docs)/\w+|lpis-(?:country|explain)\b", text) == [
            "lpis-country",
            "lpis-explain",
        ]
        assert f"{self.folder}/share/doc/lpis/GUIDE.md" in text

    @pytest.mark.parametrize(
        "text, wanted",
        (
            ("run `tools/explain 43`", "run `lpis-explain 43`"),
            ("./lpis cut a b && ./lpis check a b", "lpis cut a b && lpis check a b"),
            ("`./lpis`", "`lpis`"),
            ("<tools/audit_shapes.sql", "</opt/lib/lpis/audit_shapes.sql"),
            ("see docs/FORMATS.md", "see /opt/share/doc/lpis/FORMATS.md"),
            ('LPIS="$PWD/lpis"', "LPIS=lpis"),
            ("docs/DECISIONS.md", "docs/DECISIONS.md"),
            ("docs/IDEA.md", "/opt/share/doc/lpis/IDEA.md"),
            ("`audit/`: python3 audit/release.py", "`/opt/lib/lpis/audit/`: python3 /opt/lib/lpis/audit/release.py"),
            ("tests/audit/run", "tests/audit/run"),
        ),
    )
    def test_names(self, text, wanted):
        assert installation.named(text, "/opt") == wanted

    @pytest.mark.parametrize(
        "name",
        (
            "BELIEVE",
            "GUIDE",
            "GUIDE-COUNTRY",
            "FORMATS",
            "IDEA",
            "PROOF",
            "WINDOWS",
            "believe/README",
            "believe/cutting",
            "believe/tables",
            "believe/publication",
        ),
    )
    def test_pages(self, name):
        """Of the pages that are installed each command and file is there, or the page says that it is of the
        sources."""
        text = installation.page(Path(TOP, "docs", name + ".md").read_text(encoding="utf-8"), "/opt")
        assert (
            re.findall(r"(?<![\w/])tools/(?!dirty|test|tests)[\w/.]+|(?<!\S)\./lpis\b|(?<![\w/])audit/", text) == []
        ), name
        assert installation.NOTE in text or not re.search(r"(?<![\w/])(?:bench|crates|dev|tests)/\w", text), name

    def test_names_of_the_source(self):
        write(
            "kind,old,new\nparcel,M\u00fchle,Muehle_a48e56\npiece,M\u00fchle,x\nparcel,\u00d6d 1 ,Oed_1_123456\n",
            self.folder,
            "identifiers.csv",
        )
        for name, wanted in (
            ("M\u00fchle", "Muehle_a48e56"),
            ("\u00d6d 1", "Oed_1_123456"),
            ("north", "north"),
            ("B\u00e4r", "Baer_"),
        ):
            done = tool("explain", self.folder, "--name", name)
            assert (done.returncode, done.stdout.startswith(wanted)) == (0, True), done.stdout + done.stderr
        assert tool("explain", os.path.join(self.folder, "none"), "--name", "A").returncode == 64
        for name, lines in (
            ("parcels", 'parcel,wkt\nMuehle_a48e56,"POLYGON((0 0,1 0,1 1,0 0))"\n'),
            ("covers", 'piece,parcel,class,wkt\nC,A,G,"POLYGON((0 0,1 0,1 1,0 0))"\n'),
        ):
            write(lines, self.folder, name + ".csv")
        for line in ("refused 44 parcel Muehle_a48e56", "refused 37 parcels row 1"):
            done = tool("explain", self.folder, input=line + "\n")
            assert "parcel Muehle_a48e56 is 'M\u00fchle' in the source" in done.stdout
