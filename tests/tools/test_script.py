"""The scripts ./lpis and ./install beside a stand-in for the kit: their own words go to standard error alone, a build
goes on after one that failed or was stopped, the program that is there stays until a new one is built, and what is
installed needs no clone. The tests of a class stand in the order of a way, and share its folder."""

import os
import re
import shutil
from pathlib import Path

import pytest
from lpis_helpers.calls import ended_with, run
from lpis_helpers.house import House, crates_of, like
from lpis_helpers.spare import Kept, read, write

pytestmark = pytest.mark.finds_program
TRACE = """if [[ $0 == house/lpis ]]; then exec 9>traced && BASH_XTRACEFD=9 PS4='+$BASH_SUBSHELL ' && set -x; fi
"""
COMMANDS = ("lpis", *(f"lpis-{it}" for it in "check country explain faults lineage prepare report year".split()))
PAGES = """BELIEVE.md CHANGELOG.md FORMATS.md GUIDE-COUNTRY.md GUIDE.md IDEA.md PROOF.md WINDOWS.md believe examples
idea-border.svg idea-cancel.svg idea-examples.svg idea-lineage.svg idea-pieces.svg idea-walk.svg parcel.svg
qgis-fault.png qgis-faults.png qgis-lineage.png qgis-parcels.png"""
COMPLETING = """. place/share/bash-completion/completions/lpis
read -ra COMP_WORDS <<<"$1" && [[ $1 != *' ' ]] || COMP_WORDS+=('')
COMP_CWORD=$((${#COMP_WORDS[@]} - 1))
name=${COMP_WORDS[0]} && "_${name//-/_}"
printf '%s\\n' "${COMPREPLY[@]}" | LC_ALL=C sort | xargs"""


class TestBuild(Kept):
    @classmethod
    def set_up(cls):
        cls.house = House(cls.folder)
        cls.top, cls.kept, cls.needed, cls.beside = cls.house.top, cls.house.top / "out/program/lpis", [], []

    def quiet(self):
        """What is said, where the program that is there runs."""
        ended = ended_with(0, self.house.lpis("quiet"))
        assert ended.stdout == "out quiet\n"
        return ended.stderr

    def test_no_program(self):
        """One line; nothing is proved for it."""
        ended = ended_with(70, self.house.lpis("quiet"))
        assert ended.stdout == "" and not self.house.calls() and ended.stderr.count("\n") == 1
        like("lpis: there is no program here *", ended.stderr)

    def test_a_proof_fails(self):
        ended = ended_with(70, self.house.lpis("build", FAILS="lpis_wkt", LPIS_LANES=2))
        assert ended.stdout == ""
        like("*read lpis_wkt*lpis: lpis_wkt is not proved*", ended.stderr)

    def test_the_build_goes_on(self):
        """Each crate is told, and has its log."""
        like("*proving lpis_points (1 of *proving lpis (*", ended_with(0, self.house.lpis("build")).stderr)
        assert read(self.top, "crates/lpis_points/out/build.log").splitlines()[-1] == "read lpis_points"
        self.needed.extend(sorted({*crates_of(self.house.calls())}))
        self.quiet()

    @pytest.mark.parametrize("lanes", (1, 2))
    def test_from_nothing(self, lanes):
        """Each crate once and in its place, with so many at a time; what the program does not stand on is left."""
        self.house.from_nothing()
        ended_with(0, self.house.lpis("build", LPIS_LANES=lanes))
        calls = self.house.calls()
        assert crates_of(calls) == self.needed and "lpis_aside" not in self.needed
        assert len([*self.top.glob("crates/*/out/proved")]) == len(self.needed)
        assert not [*self.top.rglob("beside")] and (self.top / "crates/lpis/out").is_dir()
        beside = [line for line in calls if "/out/beside/" in line]
        assert bool(beside) == (lanes == 2)
        if lanes == 2:
            self.beside.extend(crates_of(beside[:1]))
            # two at a time share the processors, and one by itself has what rt chooses
            assert any("lib --jobs " in line for line in calls)
            assert [line.partition("/lpis ")[2] for line in calls if "/lpis " in line] == ["run -- --help"]

    def test_two_builds_at_once(self):
        """One builds, and the other says that it waits."""
        self.house.from_nothing()
        with self.house.begun("build") as other:
            one = ended_with(0, self.house.lpis("build"))
            said = other.communicate()[1] + one.stderr
        assert other.returncode == 0 and crates_of(self.house.calls()) == self.needed
        assert "another call builds the program" in said

    def test_a_stopped_build(self):
        """What was kept in the second tree is back, and the next build goes on there. While signals are trapped there
        is a shell for proofs alone: bash 5.2 ends with status 2 where a trap is due while it reads a `$(..)`."""
        self.house.from_nothing()
        write(TRACE, self.folder, "trace")
        slow = self.beside[0]
        half = self.top / "crates" / slow / "out/half"
        at = f"crates/lpis/out/beside/crates/{slow}/out/half"
        assert self.house.stopped(at, BASH_ENV="trace", SLOW=slow, LPIS_LANES=2) == 143
        assert [*self.top.rglob("half")] == [half]
        ended_with(0, self.house.lpis("build"))
        assert [*self.top.rglob("half")] == [half]
        trapped = read(self.folder, "traced").partition("\n+0 trap 'end_all; exit 143'")[2].partition("\n")[2]
        assert {*re.findall(r"(?m)^\++[1-9]\d* (\S+)", trapped)} == {"cd", "exec"}

    def test_another_time_of_a_source(self):
        """It is no other source."""
        self.house.calls()
        for name in ("crates/lpis/src/lib.rt", "crates.txt"):
            (self.top / name).touch()
        assert ended_with(0, self.house.lpis("build")).stderr == "" and not self.house.calls()

    def test_another_source(self):
        """It is told in one line, and the program that is there runs."""
        self.house.append("// another", "crates/lpis/src/lib.rt")
        said = self.quiet()
        like("lpis: the program (out/program/lpis) is of other sources than those here: *", said)
        assert said.count("\n") == 1 and not self.house.calls()
        like(
            "out --version\nkit rattle-kit-0 logic 1\nsources *\nbuilt here, of other sources",
            self.house.lpis("--version").stdout,
        )

    def test_a_failed_build(self):
        """The program that was there is kept, and runs; another kit is told."""
        before = self.kept.stat().st_ino
        ended = ended_with(70, self.house.lpis("build", FAILS="lpis", KIT=2))
        like("*installed kit is rattle-kit-0 logic 2*made with rattle-kit-0 logic 1*", ended.stderr)
        like("*the program that was there before is kept*", ended.stderr)
        assert self.kept.stat().st_ino == before
        self.quiet()

    def test_while_another_is_built(self):
        """The program that is there runs. Then a kit of a further line of KIT is not told, and the program is
        exchanged."""
        before = self.kept.stat().st_ino
        with self.house.begun("build", SLOW="lpis") as build:
            while not (self.top / "crates/lpis/out/half").exists():
                assert build.poll() is None
            self.quiet()
            build.terminate()
            build.communicate()
        self.house.append("rattle-kit-0 logic 3", "KIT")
        assert "installed kit" not in ended_with(0, self.house.lpis("build", KIT=3)).stderr
        assert self.kept.stat().st_ino != before and self.quiet() == ""

    def test_nothing_to_do(self):
        """Where the program is built, or rt itself has built it."""
        self.house.calls()
        ended_with(0, self.house.lpis("build"))
        self.house.append("// a third", "crates/lpis/src/lib.rt")
        (self.top / "crates/lpis/out/lpis").touch()
        ended_with(0, self.house.lpis("build"))
        assert not self.house.calls()

    def test_version(self):
        """It has the kit of the build, and the commit where there is one."""
        like(
            "out --version\nkit rattle-kit-0 logic 1\nsources *\nbuilt here",
            self.house.lpis("--version", KIT=7).stdout,
        )
        run("git", "init", "-q", self.top, check=True)
        run("git", "-C", self.top, "add", "lpis", check=True)
        run("git", "-C", self.top, "-c", "user.name=a", "-c", "user.email=a@b", "commit", "-qm", "one", check=True)
        self.house.append("// a fourth", "crates/lpis/src/lib.rt")
        ended_with(0, self.house.lpis("build", KIT=5))
        like(
            "out --version*commit ????????????*kit rattle-kit-0 logic 5*",
            self.house.lpis("--version", KIT=7).stdout,
        )

    def test_closed_output(self):
        """A closed standard output is the program's to tell."""
        said = self.house.run("bash", "-c", "exec house/lpis area none.csv >&-").stderr
        assert said.splitlines()[-1] == "failed read area"

    def test_install(self):
        """The clone is away while the next tests run."""
        ended = ended_with(0, self.house.run("house/install", f"{self.folder}/place"))
        like(f"*lpis: installed in {self.folder}/place*", ended.stderr)
        self.top.rename(self.path("away"))

    @pytest.mark.parametrize("name", COMMANDS)
    def test_installed(self, name):
        """Each command is there, with a page that can be read."""
        page = self.path("place/share/man/man1", f"{name}.1")
        assert os.access(self.path("place/bin", name), os.X_OK) and os.path.exists(page)
        if shutil.which("groff"):
            assert run("groff", "-mdoc", "-ww", "-Tascii", page).stderr == ""

    def test_installed_program(self):
        """It runs, tells causes, and knows commit and kit; words in another order name no register."""
        place = ("place/bin/lpis", "--version")
        ended = ended_with(0, self.house.run("place/bin/lpis", "quiet"))
        assert (ended.stdout, ended.stderr) == ("out quiet\n", "")
        like("*lpis: area is none.csv: it is missing", self.house.run("place/bin/lpis", "area", "none.csv").stderr)
        said = self.house.run("place/bin/lpis", "publish", 2026, "one.db", "first", "first").stderr
        assert "a new, empty register" not in said
        said = self.house.run("place/bin/lpis", "trace", "missing.db", "X").stderr
        like("*missing.db was not there: a new, empty register*", said)
        like("*commit ????????????*kit rattle-kit-0 logic 5*", self.house.run(*place, KIT=7).stdout)
        like("*code 43*", self.house.run("place/bin/lpis-explain", 43).stdout)

    def test_installed_pages(self):
        pages = self.path("place/share/man/man1")
        assert sorted(os.listdir(pages)) == sorted(f"{name}.1" for name in COMMANDS)
        assert sorted(os.listdir(self.path("place/share/doc/lpis"))) == PAGES.split()

    @pytest.mark.parametrize(
        "line, wanted",
        (
            ("lpis c", "check country cut"),
            ("lpis-prepare --a", "--accept --accept-from"),
            ("lpis-country split --a", "--anew"),
            ("lpis publish-c", "publish-country"),
            ("lpis publish-country --", "--exact --parcels"),
            ("lpis publish-country --exact som", "some some.txt"),
            ("lpis publish-country --exact some.txt r.db 2", ""),
            ("lpis publish-country r.db 2024 --exact some.txt som", "some"),
            ("lpis exact-country r.db som", "some"),
            ("lpis country --", "--parcels"),
            ("lpis trace som", "some some.txt"),
            ("lpis trace r.db som", ""),
            ("lpis trace r.db A B som", ""),
            ("lpis-country publish --n", "--new"),
        ),
    )
    def test_completion(self, line, wanted):
        os.makedirs(self.path("some"), exist_ok=True)
        write("", self.folder, "some.txt")
        assert self.house.run("bash", "-c", COMPLETING, "bash", line).stdout.split() == wanted.split()

    def test_taken_away(self):
        """Nothing of ours is left, and what is another's is."""
        write("", self.folder, "place/bin/other")
        ended_with(0, self.house.run("away/install", "--uninstall", f"{self.folder}/place"))
        left = [*Path(self.path("place")).rglob("*")]
        assert [path.name for path in left if not path.is_dir()] == ["other"]
        assert not [path for path in left if "lpis" in path.name]

    def test_the_script_fails(self):
        """With 70, never 1."""
        Path(self.path("away/crates.txt")).unlink()
        ended_with(70, self.house.run("away/lpis", "quiet"))
