"""Tests that tables of an earlier run are never taken for those of a later one:
python/src/lpis/register/table_standing.py, and each tool that is given a folder whose last run was refused, stopped
or killed, or whose source is another by now. Publishing wants the program, built or named by LPIS."""

import json
import os
import shutil
import signal
import subprocess
from pathlib import Path

import pytest
from lpis_helpers.calls import ended_with, lpis, run, tool
from lpis_helpers.places import BUILT, PACKAGE, TOOLS, TOP
from lpis_helpers import stopping
from lpis_helpers.spare import Spare, few_at_once, read, write
from lpis_helpers.terminal import Terminal
from lpis.formats import tile_plan
from lpis.register import ledger, table_standing
from lpis.source import file_digests
from lpis.system import shapely_there
from lpis.system.trouble import Trouble

lacks_shapely = pytest.mark.skipif(not shapely_there.python(), reason=shapely_there.LACKING)
lacks_program = pytest.mark.skipif(not BUILT, reason="the program is not built")
SQUARE = "POLYGON((55{0:04} 5400000,55{1:04} 5400000,55{1:04} 5400010,55{0:04} 5400010,55{0:04} 5400000))"
SAID = "the tables there, if any, are from an earlier run"


def write_land(folder, width=10, classes="class,percent\nG,100\n"):
    """A source of three parcels of one piece each; of a narrower one the last parcel has no shape, which stops a run
    that accepts nothing."""
    os.makedirs(folder, exist_ok=True)
    shapes = [SQUARE.format(width * place, width * (place + 1)) for place in range(3)]
    if width < 10:
        shapes[2] = "POLYGON EMPTY"
    write(
        "parcel,wkt\n" + "".join(f'p{place},"{shape}"\n' for place, shape in enumerate(shapes)), folder, "parcels.csv"
    )
    write(
        "piece,parcel,class,wkt\n" + "".join(f'c{place},p{place},G,"{shape}"\n' for place, shape in enumerate(shapes)),
        folder,
        "covers.csv",
    )
    write(classes, folder, "classes.csv")
    return folder


def state_of(folder):
    found = table_standing.of(folder)
    return found.state if found else None


class Case(Spare):
    def set_up(self):
        self.out, self.base = self.path("out"), self.path("lpis.db")
        self.then, self.now = write_land(self.path("then")), write_land(self.path("now"), 8)

    def tool(self, name, *words, **surroundings):
        return tool(name, *words, env={**os.environ, "LPIS": BUILT or "false", **surroundings})

    def refused(self, ended, *words, status=1):
        """A tool refuses the folder, with the cause and what to do."""
        ended_with(status, ended)
        for word in (SAID, "run it again", *words):
            assert word in ended.stdout + ended.stderr, ended.stderr


class TestFiles(Case):
    def made(self, *names, of=None):
        """A run of the tables of a folder to its end."""
        os.makedirs(self.out, exist_ok=True)
        making = table_standing.begin(self.out, of or self.then, {})
        making.read()
        for name in names:
            write("x", self.out, name)
        making.finish(self.out, names)
        making.close()
        return making

    def test_a_run(self):
        """Unfinished from the first act to the last, which says the source and the tables."""
        os.makedirs(self.out)
        assert (table_standing.of(self.out), table_standing.why_not(self.out)) == (None, "")
        making = table_standing.begin(self.out, self.then, {})
        assert (state_of(self.out), table_standing.begin(self.out, self.then, {}) is making) == ("unfinished", True)
        making.read()
        assert state_of(self.out) == "unfinished"
        with pytest.raises(table_standing.Unfinished, match=SAID):
            table_standing.look(None, self.then, self.out)
        write("x", self.out, "parcels.csv")
        assert making.finish(self.out, ["parcels.csv"]) == table_standing.FILE
        found = table_standing.of(self.out)
        sums = run("sha256sum", "parcels.csv", "covers.csv", "classes.csv", cwd=self.then).stdout
        assert (found.state, found.tables) == (
            "whole",
            {"parcels.csv": run("sha256sum", self.path("out", "parcels.csv")).stdout.split()[0]},
        )
        assert found.source().digest == run("sha256sum", input=sums).stdout.split()[0]
        assert found.source().line() == f"source sha256 {found.source().digest} then"
        table_standing.look(self.out)
        making.close()

    def test_refused(self):
        making = table_standing.begin(self.out, self.then, {})
        making.refuse("to look at: 3")
        assert state_of(self.out) == "refused"
        assert "ended without tables (to look at: 3), so the tables there" in table_standing.why_not(self.out)
        making.close()

    @pytest.mark.parametrize(
        "text",
        (
            "",
            "{",
            "7",
            "[]",
            "{}",
            '{"state": "whole"}',
            json.dumps({**json.loads(table_standing.Standing("whole").text()), "state": "well"}),
            json.dumps({**json.loads(table_standing.Standing("whole").text()), "sources": [{}]}),
        ),
    )
    def test_damaged(self, text):
        """Of a file that is none no run has ended."""
        os.makedirs(self.out)
        write(text, self.out, table_standing.FILE)
        assert (state_of(self.out), "cannot be read" in table_standing.why_not(self.out)) == ("unfinished", True)

    def test_no_room(self, monkeypatch):
        """Where its file cannot be written the run ends, and the folder is unfinished all the same."""
        self.made("parcels.csv")

        def full(*_):
            raise OSError(28, "No space left on device")

        monkeypatch.setattr(table_standing.placing, "flush", full)
        with pytest.raises(Trouble, match=rf"{table_standing.FILE}: No space left on device"):
            table_standing.begin(self.out, self.now, {})
        assert (state_of(self.out), os.path.getsize(table_standing.path_of(self.out))) == ("unfinished", 0)

    def test_a_source_that_is_written_meanwhile(self):
        making = table_standing.begin(self.out, self.then, {})
        making.read()
        write("class,percent\nG,50\n", self.then, "classes.csv")
        with pytest.raises(Trouble, match="classes.csv changed while it was read"):
            making.finish(self.out, [])
        making.close()

    def test_sources(self):
        """Those that changed stop; one that is gone, or a database, is told."""
        self.made("parcels.csv")
        assert table_standing.look_at_sources(self.out, False)[0].startswith(
            f"the source is as it was when the tables were made of it: {self.then} sha256 "
        )
        os.rename(self.path("then", "covers.csv"), self.path("covers.csv"))
        assert "is gone from" in table_standing.look_at_sources(self.out, False)[0]
        write("other", self.then, "covers.csv")
        with pytest.raises(
            table_standing.Unfinished, match="changed since the tables were made of it.*--source-anyway"
        ):
            table_standing.look_at_sources(self.out, False)
        assert "changed since" in table_standing.look_at_sources(self.out, True)[0]
        self.made("parcels.csv", of="PG:dbname=land password='my secret' user=clerk")
        (told,) = table_standing.look_at_sources(self.out, False)
        assert "PG:dbname=land password=*** user=clerk is not a file" in told
        assert "secret" not in read(self.out, table_standing.FILE)

    def test_a_log_of_writes(self):
        """What was written into a database since is beside it."""
        path = self.path("land.gpkg")
        write("x", path)
        source = table_standing.source_of(path, {})
        source.read(file_digests.Contents())
        write("y", f"{path}-wal")
        assert source.change() == f"{path} changed since the tables were made of it"

    def test_regions(self):
        """A region stands as its country does; what is left over from an earlier split is no region."""
        self.made(tile_plan.FILE)
        write("lpis-country 1\nx 5\nregion west\nregion r0002\n", self.out, tile_plan.FILE)
        for name in ("west", "r0002", "r0003", "years"):
            os.makedirs(self.path("out", name))
        places = [self.path("out", name) for name in ("west", "r0002", "r0003", "years")]
        assert [bool(table_standing.why_not(place)) for place in places] == [False, False, True, False]
        assert "of an earlier split" in table_standing.why_not(places[2])
        table_standing.begin(self.out, self.now, {}).close()
        assert [bool(table_standing.why_not(place)) for place in places] == [True, True, True, False]

    def test_another_kind(self):
        """A release in the folder of a country, and a country in that of a release: what the last run did not make
        is of an earlier one."""
        for first, second in (("parcels.csv", "country.txt"), ("country.txt", "parcels.csv")):
            self.made(first)
            assert table_standing.why_not(self.out) == ""
            self.made(second)
            assert f"{self.path('out', first)} is of an earlier run than" in table_standing.why_not(self.out)
            os.remove(self.path("out", first))
            assert table_standing.why_not(self.out) == ""
            os.remove(self.path("out", second))

    def test_a_second_folder(self):
        """Both are unfinished until the end, and each gets its file with its tables."""
        making = table_standing.begin(self.out, self.then, {}, None, None, self.path("tables"))
        making.read()
        making.refuse("no")
        assert [state_of(folder) for folder in (self.out, self.path("tables"))] == ["refused", "refused"]
        write("x", self.path("tables"), "parcels.csv")
        making.also.finish(self.path("tables"), ["parcels.csv"])
        assert table_standing.of(self.path("tables")).source().digest == making.standing.source().digest
        assert [bool(table_standing.why_not(folder)) for folder in (self.out, self.path("tables"))] == [True, False]
        write("y", self.path("tables"), "parcels.csv")
        assert "1 table changed since the run that made them, such as parcels.csv" in table_standing.look_at_sources(
            self.path("tables"), False
        )
        making.close()

    def test_another_run(self):
        """A run that works there is waited for; it is not said to have been stopped."""
        self.made("parcels.csv")
        words = (
            "import sys; sys.path.insert(0, sys.argv[1]); from lpis.register import table_standing as standing;"
            " standing.begin(sys.argv[2], sys.argv[3], {}); print(1, flush=True); sys.stdin.read()"
        )
        shutil.copytree(self.out, self.path("other"))
        with subprocess.Popen(
            ["python3", "-c", words, PACKAGE, self.path("other"), self.then],
            stdin=subprocess.PIPE,
            stdout=subprocess.PIPE,
            text=True,
        ) as other:
            other.stdout.readline()
            assert "another run works there, wait for its end" in table_standing.why_not(self.path("other"))
            with pytest.raises(Trouble, match="another run works in"):
                table_standing.begin(self.path("other"), self.then, {})
            other.kill()
        assert "did not finish, so" in table_standing.why_not(self.path("other"))


@lacks_shapely
class TestReleases(Case):
    def prepared(self, source, *words, status=0):
        return ended_with(status, self.tool("prepare", source, self.out, "--quiet", *words))

    def takers(self):
        """Each tool that takes tables, with the words that hand the folder over."""
        other = self.path("other")
        return {
            "year": (self.base, 2026, self.out, "--new"),
            "report": (self.out,),
            "faults": (self.out, self.path("f.geojson")),
            "lineage": (self.out, other, self.path("rows.csv")),
            "country": ("split", self.out, self.path("country")),
            "prepare": (self.then, other, "--previous", self.out),
        }

    def test_a_refused_run(self):
        """Each tool refuses the tables of the run before: none of them writes anything."""
        self.prepared(self.then)
        self.tool("prepare", self.then, self.path("other"))
        tables = {name: read(self.out, name) for name in ("parcels.csv", "covers.csv")}
        refused = self.prepared(self.now, status=1)
        assert f"no table is written in {self.out} (the tables there are from an earlier run)" in refused.stdout
        assert ({name: read(self.out, name) for name in tables}, state_of(self.out)) == (tables, "refused")
        for name, words in self.takers().items():
            self.refused(
                self.tool(name, *words),
                f"{self.out} is unfinished: `tools/prepare {self.now} {self.out}",
                "to look at: 3 (" if name != "prepare" else "previous",
            )
        self.refused(self.tool("lineage", self.path("other"), self.out, self.path("rows.csv")))
        self.refused(self.tool("report", self.path("other"), "--diff", self.out))
        assert not any(
            map(os.path.exists, (self.base, self.path("f.geojson"), self.path("rows.csv"), self.path("country")))
        )
        self.prepared(self.now, "--accept")
        assert state_of(self.out) == "whole"
        table_standing.look(self.out)
        self.prepared(self.now, status=1)  # accepted in one run, and not in the next
        self.refused(self.tool("report", self.out))

    def test_words_that_stop_it(self):
        """A run that ends before it has read its source is the last one all the same."""
        for words in (
            ["--classes", self.path("none.csv")],
            ["--accept-from", self.path("none.csv")],
            ["--identifiers", self.path("none.csv")],
            ["--name", "parcels=none"],
        ):
            self.prepared(self.then)
            self.prepared(self.now, *words, status=64)
            assert state_of(self.out) == "unfinished", words
            self.refused(self.tool("report", self.out, "x"), "did not finish")
        before = sorted(os.listdir(self.then))
        self.tool("prepare", self.then, self.then)
        self.tool("prepare", self.now, self.path("new"), "--previous", self.path("new"))
        assert sorted(os.listdir(self.then)) == before

    @pytest.mark.parametrize("number", (signal.SIGTERM, signal.SIGKILL))
    def test_a_stopped_run(self, number):
        """By a signal, or killed, at the first thing that it says."""
        self.prepared(self.then)
        command = [os.path.join(TOOLS, "prepare"), self.now, self.out, "--accept"]
        with Terminal() as terminal, subprocess.Popen(
            command, stdout=subprocess.DEVNULL, stderr=terminal.end, preexec_fn=stopping.hears_signals
        ) as started:
            next(iter(terminal.handed_on().parts()))
            started.send_signal(number)
            terminal.whole()
        assert state_of(self.out) == "unfinished"
        self.refused(self.tool("faults", self.out, self.path("f.geojson")), "did not finish")
        told = ended_with(1, self.tool("year", "--status", self.out)).stdout
        assert f"made: unfinished, by tools/prepare {self.now} {self.out} --accept" in told
        assert "\nstops: " in told

    def test_checks(self):
        """Of tools/check too: refused, a source that cannot be read, and a yes."""
        words = ("check", self.then, "--out", self.out, "--quiet")
        if BUILT:
            ended_with(0, self.tool(*words))
            assert state_of(self.out) == "whole"
        ended_with(1, self.tool("check", self.now, "--out", self.out, "--quiet"))
        assert state_of(self.out) == "refused"
        ended_with(2, self.tool("check", self.path("none.gpkg"), "--out", self.out, "--quiet"))
        assert state_of(self.out) == "refused"
        ended_with(2, self.tool("check", self.path("none.gpkg"), "--out", self.path("new"), "--quiet"))
        assert not os.path.exists(self.path("new"))

    @lacks_program
    def test_the_program(self):
        """The script that runs the program refuses the folder before the program reads it."""
        self.prepared(self.then)
        script = os.path.join(TOP, "lpis")
        assert run(script, "check", self.out).stdout.endswith("yes\n")
        self.prepared(self.now, status=1)
        for words in (
            ("check", self.out),
            ("cut", self.out, self.path("cert.txt")),
            ("publish", self.base, 2026, self.out, self.path("cert.txt")),
        ):
            ended = run(script, *words)
            assert (ended.returncode, ended.stdout, SAID in ended.stderr) == (64, "", True), ended.stderr
        assert not os.path.exists(self.base)
        os.makedirs(self.path("out", "r0001"))
        ended = run(script, "check", self.path("out", "r0001"))
        assert (ended.returncode, SAID in ended.stderr) == (64, True), ended.stderr

    @lacks_program
    def test_years(self):
        """A year has the digest of its source in the log and in what was printed; with another one it stops, as with
        the tables of the last year."""
        self.prepared(self.then)
        source = table_standing.of(self.out).source()
        ended_with(0, self.tool("year", self.base, 2021, self.out, "--new"))
        entry = json.loads(ledger.lines_of(self.base)[0])
        assert entry["sources"] == [{"what": "the source", "name": self.then, "sha256": source.digest}]
        assert read(self.out, "published-2021.txt").splitlines()[0] == source.line()
        assert f"published: 2021 in {self.base} on " in self.tool("year", "--status", self.out).stdout
        again = ended_with(1, self.tool("year", self.base, 2022, self.out))
        assert "byte for byte, those that were published in 2021" in again.stderr
        write_land(self.then, 11)
        changed = ended_with(1, self.tool("year", self.base, 2022, self.out, "--year-anyway"))
        assert "then changed since the tables were made of it" in changed.stderr
        assert len(ledger.lines_of(self.base)) == 1
        ended_with(0, self.tool("year", self.base, 2022, self.out, "--year-anyway", "--source-anyway"))
        assert json.loads(ledger.lines_of(self.base)[1])["source_anyway"] is True
        self.prepared(self.now, status=1)
        self.refused(
            self.tool("year", self.base, 2023, self.path("out"), "--year-anyway", "--source-anyway"),
            "nothing was published",
        )
        self.prepared(self.then)
        shutil.rmtree(self.then)
        told = ended_with(1, self.tool("year", self.base, 2023, self.out, "--jump", "1"))
        assert f"then is gone from {self.then}: it had sha256" in told.stdout


@lacks_shapely
class TestCountries(Case):
    def prepared(self, source, *words, status=0):
        return ended_with(status, self.tool("country", "prepare", source, self.out, "--quiet", "--workers", 1, *words))

    @lacks_program
    def test_a_refused_run(self):
        """Last year's tables are never published as the new year, whatever was left of the run."""
        self.prepared(self.then)
        digest = table_standing.of(self.out).source().digest
        assert read(self.out, "split.txt").splitlines()[1] == f"source sha256 {digest} then"
        assert (
            f"\nnext: tools/country publish DB YEAR {self.out}\n"
            in ended_with(0, self.tool("country", "status", self.out)).stdout
        )
        ended_with(0, self.tool("country", "publish", self.base, 2026, self.out, "--new"))
        assert read(self.out, "published-2026.txt").splitlines()[0] == f"source sha256 {digest} then"
        assert state_of(self.path("out", "years", "2026")) == "whole"
        told = ended_with(0, self.tool("country", "status", self.out)).stdout
        for line in (
            f"{self.out} is a country\n",
            f"the source: {self.then} sha256 {digest}: as it was\n",
            ", as they were made\n",
            "cut: 1 of 1 regions\n",
            f"published: 2026 in {self.base} on ",
            "\nnext: nothing: these tables are published; next year's release gets a folder of its own\n",
        ):
            assert line in told
        self.prepared(self.now, status=1)
        for words in (
            ("publish", self.base, 2027, self.out),
            ("cut", self.out),
            ("check", self.out),
            ("publish", self.base, 2027, self.path("out", "r0001")),
        ):
            self.refused(self.tool("country", *words))
        for words in (
            ("report", self.out),
            ("lineage", "--register", self.base, self.out, self.path("rows.csv")),
            ("report", self.path("out", "r0001"), "x"),
        ):
            self.refused(self.tool(*words))
        status, _, said = lpis("country", self.out), None, run(os.path.join(TOP, "lpis"), "country", self.out)
        assert (status[0], said.returncode, SAID in said.stderr) == (0, 64, True)
        assert len(ledger.lines_of(self.base)) == 1
        ended_with(0, self.tool("report", self.path("out", "years", "2026")))  # a country of its own
        told = ended_with(1, self.tool("country", "status", self.out)).stdout
        assert "made: refused, by tools/country prepare" in told
        assert f"\nstops: {self.out} is unfinished" in told
        self.prepared(self.then)
        assert (
            "byte for byte, those that were published in 2026"
            in ended_with(1, self.tool("country", "publish", self.base, 2027, self.out)).stderr
        )
        self.prepared(self.now, "--accept", "--previous", self.path("out", "years", "2026"))
        write_land(self.now, 7)
        assert (
            "now changed since the tables were made of it"
            in ended_with(1, self.tool("country", "publish", self.base, 2027, self.out)).stderr
        )
        write("x", self.out, "r0001", "covers.csv")
        assert "1 changed since: r0001/covers.csv" in self.tool("country", "status", self.out).stdout

    @pytest.mark.parametrize(
        "line",
        few_at_once(
            ("reading", "names", "comparing", "tables", "looking for every row", "writing the parcels", "land between"),
            3,
        ),
    )
    def test_a_killed_run(self, line):
        """Killed with all that it began, at a line that it says."""
        self.prepared(self.then)
        words = [os.path.join(TOOLS, "country"), "prepare", self.now, self.out, "--accept", "--workers", "1"]
        with Terminal() as terminal, subprocess.Popen(
            words, stdout=subprocess.DEVNULL, stderr=terminal.end, start_new_session=True
        ) as started:
            for said in terminal.handed_on().parts():
                if line in said:
                    os.killpg(started.pid, signal.SIGKILL)
                    break
            terminal.whole()
        assert state_of(self.out) == "unfinished"
        for command in ("cut", "check"):
            self.refused(self.tool("country", command, self.out), "did not finish")
        self.refused(self.tool("country", "publish", self.base, 2026, self.out, "--new"))
        assert not os.path.exists(self.base)
        self.prepared(self.now, "--accept")
        assert state_of(self.out) == "whole"

    def test_splits(self):
        """Of tables that stand: refused, and from a source that is unfinished itself."""
        ended_with(0, self.tool("country", "split", self.then, self.out))
        write("parcel,wkt\np0,x\n", self.now, "parcels.csv")
        ended_with(1, self.tool("country", "split", self.now, self.out))
        self.refused(self.tool("country", "check", self.out), "ended without tables (parcels.csv row 1: ")
        os.mkdir(self.path("tables"))
        table_standing.write(self.path("tables"), table_standing.Standing("unfinished"))
        self.refused(self.tool("country", "split", self.path("tables"), self.path("other")))
        assert not Path(self.path("other")).exists()
