"""Tests that a country which is prepared again after a correction is what a run from nothing gives, to the byte, over
lands with many sorts of correction; that a run over an unchanged source says so; and that nothing is taken for
something it is not. Wants Shapely.

    pytest --long tests/tools/test_country_corrections.py     more lands, each with corrections in another order
"""

import contextlib
import gc
import io
import os
import random
import re
import shutil
import sqlite3
import struct
import subprocess
import sys
from pathlib import Path
from unittest import mock

import pytest
from lpis_helpers import dirty
from lpis_helpers.calls import run
from lpis_helpers.places import TOP
from lpis.commands import country
from lpis.country import jobs
from lpis.register import table_standing
from lpis.system import progress, shapely_there

if shapely_there.is_there():
    from lpis.country import row_store
FILES = ("prepared.csv", "report.csv", "report.geojson", "between.geojson", "balance.csv", "classes.csv", "split.txt")
TABLES = ("parcels", "covers", "classes", "lineage")
LIMITS = ("--parcels", "40")
UNCHANGED, TAKEN = "nothing changed since the run before", "changed since the run before"
REGIONS = "tables of regions that changed: "

pytestmark = pytest.mark.skipif(not shapely_there.is_there(), reason="Shapely is not there")


@contextlib.contextmanager
def by_small_cells():
    """Cells of few points, so that a small land has many, all of them rounded here."""

    def do_all(folder, kind, count, _workers, _shown):
        worker = jobs.Worker(folder)
        return [worker.do(kind, number) for number in range(count)]

    with mock.patch.object(jobs, "do_all", do_all), mock.patch.multiple(row_store, MOST_POINTS=600, LEAST=0):
        yield


class Small(dirty.Large):
    """Few parcels in a row, so that a land of some hundred has several cells and regions."""

    ACROSS = 12

    def parcel(self, number, kind):
        """Of a share of 0 none is dirty; else there are some of each kind."""
        super().parcel(number, kind if self.share else "")


class Source:
    """A source that is corrected row by row."""

    def __init__(self, path, count, seed, share):
        self.path, self.random = dirty.make_large(path, count, seed, share, Small), random.Random(seed)

    @contextlib.contextmanager
    def base(self):
        with contextlib.closing(sqlite3.connect(self.path)) as base:
            yield base
            base.commit()

    def one(self, base, layer="covers", more="geom IS NOT NULL"):
        """The number of some row."""
        return self.random.choice(base.execute(f"SELECT fid FROM {layer} WHERE {more} ORDER BY fid").fetchall())[0]

    def correct(self, kind):
        with self.base() as base:
            getattr(self, f"change_{kind}")(base)

    def change_nothing(self, base):
        """The bytes of the file change, its rows do not."""
        base.execute("CREATE TABLE IF NOT EXISTS other (word TEXT)")
        base.execute("INSERT INTO other VALUES ('a word')")

    def change_class(self, base):
        some = self.one(base, more="class IN ('GRASS', 'TREES')")
        base.execute("UPDATE covers SET class = iif(class = 'GRASS', 'TREES', 'GRASS') WHERE fid = ?", (some,))

    def change_new_class(self, base):
        base.execute("UPDATE covers SET class = 'STONE' WHERE fid = ?", (self.one(base),))
        base.execute("INSERT INTO classes (class, percent) VALUES ('STONE', '0')")

    def change_percent(self, base):
        base.execute("UPDATE classes SET percent = percent + 1 WHERE class = 'TREES'")

    def change_corner(self, base, by=0.4, layer="covers"):
        """Moves the second corner of a shape's first ring."""
        number = self.one(base, layer, "length(geom) > 100")
        (blob,) = base.execute(f"SELECT geom FROM {layer} WHERE fid = ?", (number,)).fetchone()
        at = 8 + 9 + 4 + 16  # behind the heads of the package, of the polygon and of its ring, and a corner
        x, y = struct.unpack_from("<2d", blob, at)
        moved = blob[:at] + struct.pack("<2d", x + by, y + by / 3) + blob[at + 16 :]
        base.execute(f"UPDATE {layer} SET geom = ? WHERE fid = ?", (moved, number))

    def change_parcel_corner(self, base):
        self.change_corner(base, 0.013, "parcels")

    def change_far_corner(self, base):
        self.change_corner(base, 70.0)

    def change_added(self, base):
        """A parcel behind all others."""
        ring = dirty.box(-900.0 - self.random.random(), 40.0)
        shape = b"GP\0\1" + struct.pack("<i", 25832) + dirty.polygon(ring)
        name = f"N{self.random.randrange(10**6)}"
        base.execute("INSERT INTO parcels (geom, parcel) VALUES (?, ?)", (shape, name))
        row = (shape, f"{name}.1", name, "GRASS")
        base.execute("INSERT INTO covers (geom, piece, parcel, class) VALUES (?, ?, ?, ?)", row)

    def change_dropped(self, base):
        (name,) = base.execute("SELECT parcel FROM parcels WHERE fid = ?", (self.one(base, "parcels"),)).fetchone()
        for layer in ("parcels", "covers"):
            base.execute(f"DELETE FROM {layer} WHERE parcel = ?", (name,))

    def change_dropped_piece(self, base):
        base.execute("DELETE FROM covers WHERE fid = ?", (self.one(base),))

    def change_renamed(self, base):
        (name,) = base.execute("SELECT parcel FROM parcels WHERE fid = ?", (self.one(base, "parcels"),)).fetchone()
        for layer in ("parcels", "covers"):
            base.execute(f"UPDATE {layer} SET parcel = parcel || '-b' WHERE parcel = ?", (name,))

    def change_doubled(self, base):
        """A piece gets the name of another one."""
        names = [self.one(base), self.one(base)]
        base.execute("UPDATE covers SET piece = (SELECT piece FROM covers WHERE fid = ?) WHERE fid = ?", names)

    def change_exchanged(self, base):
        """Two rows change their numbers."""
        one, other = self.one(base), self.one(base)
        for before, now in ((one, -1), (other, one), (-1, other)):
            base.execute("UPDATE covers SET fid = ? WHERE fid = ?", (now, before))

    def change_numbers(self, base):
        """All rows get other numbers, in the same order."""
        base.execute("UPDATE covers SET fid = -fid - 7")
        base.execute("UPDATE covers SET fid = 100000 + fid + (SELECT count(*) FROM covers)")

    def change_order(self, base):
        base.execute("UPDATE covers SET fid = -fid")
        base.execute("UPDATE covers SET fid = 200000 + fid WHERE fid < 0")

    def change_moved(self, base):
        """A parcel of its own goes to another place, in another cell and region."""
        number, place = self.one(base, "parcels"), self.random.uniform(-700, 900)
        (name,) = base.execute("SELECT parcel FROM parcels WHERE fid = ?", (number,)).fetchone()
        shape = b"GP\0\1" + struct.pack("<i", 25832) + dirty.polygon(dirty.box(place, -400.0))
        base.execute("UPDATE parcels SET geom = ? WHERE fid = ?", (shape, number))
        pieces = [fid for (fid,) in base.execute("SELECT fid FROM covers WHERE parcel = ? ORDER BY fid", (name,))]
        base.executemany("UPDATE covers SET geom = ? WHERE fid = ?", ((shape, fid) for fid in pieces[:1]))
        base.executemany("DELETE FROM covers WHERE fid = ?", ((fid,) for fid in pieces[1:]))

    def change_null(self, base):
        base.execute("UPDATE covers SET geom = NULL WHERE fid = ?", (self.one(base),))


KINDS = [name.removeprefix("change_") for name in vars(Source) if name.startswith("change_")]
OF_CLASSES = ("new_class", "percent")
GROUPS = 5
PLAIN = ("class", "corner", "parcel_corner")  # those of which cells and regions alone are made


def regions_of(folder):
    return sorted(name for name in os.listdir(folder) if re.fullmatch("r[0-9]{4}", name))


def contents(folder):
    """What a run writes, but for the times and numbers of runs."""
    names = [*FILES, *(os.path.join(one, f"{table}.csv") for one in regions_of(folder) for table in TABLES)]
    return {name: Path(folder, name).read_bytes() for name in names if os.path.exists(os.path.join(folder, name))}


class Country:
    """A country that is prepared again after each correction, and from nothing beside it."""

    def __init__(self, folder, seed, count=100, share=0.0, more=()):
        self.source = Source(os.path.join(folder, "land.gpkg"), count, seed, share)
        self.out, self.anew, self.more = os.path.join(folder, "country"), os.path.join(folder, "anew"), more

    def prepare(self, out, *more):
        words = ("prepare", self.source.path, out, "--accept", "--quiet", *LIMITS, *self.more, *more)
        told = [io.StringIO(), io.StringIO()]
        with contextlib.redirect_stdout(told[0]), contextlib.redirect_stderr(told[1]), by_small_cells():
            with mock.patch.object(sys, "argv", ["country", *words]), mock.patch.object(
                progress.Quiet, "is_quiet", True
            ):
                status = country.main()
        gc.enable()
        return subprocess.CompletedProcess(words, status, *(text.getvalue() for text in told))

    def path(self):
        return os.path.join(self.out, ".cells")

    def correct(self, kind):
        self.source.correct(kind)
        if kind in OF_CLASSES:  # the table that stands goes before that of the source
            Path(self.out, "classes.csv").unlink(missing_ok=True)

    def again(self, *more):
        """A run after a correction, which has to give what one from nothing gives; what it told."""
        ended = self.prepare(self.out, *more)
        shutil.rmtree(self.anew, ignore_errors=True)
        os.makedirs(self.anew)
        if os.path.exists(os.path.join(self.out, "country.txt")):  # a tiling that stands is used again
            shutil.copy(os.path.join(self.out, "country.txt"), self.anew)
        beside = self.prepare(self.anew, *more)
        assert ended.returncode == beside.returncode, (ended.stdout[-500:], ended.stderr[-500:], beside.stderr[-500:])
        if ended.returncode == 0:
            one, other = contents(self.out), contents(self.anew)
            assert list(one) == list(other)
            assert [name for name in one if one[name] != other[name]] == []
        return ended

    def judge(self):
        """The second checker, which shares nothing with the tools."""
        words = ("audit/source.py", self.source.path, self.out)
        ended = run("python3", *words, cwd=TOP)
        assert ended.returncode == 0, ended.stdout + ended.stderr


class TestCorrections:
    """Corrections of a land, one after the other."""

    @pytest.mark.parametrize("some", range(GROUPS))
    def test_each_sort(self, tmp_path, some):
        """Each sort once, behind others; of the plain ones the cells and regions of the row alone are made."""
        land = Country(str(tmp_path), some)
        land.again()
        for kind in KINDS[some::GROUPS]:
            land.correct(kind)
            told = land.again().stderr
            assert kind not in PLAIN or (TAKEN in told and REGIONS in told), (kind, told)
        land.judge()

    @pytest.mark.parametrize("seed", range(2, 12))
    @pytest.mark.long
    def test_lands(self, tmp_path, seed):
        """Clean and dirty lands, with corrections in an order of their own, some of them together."""
        some = random.Random(seed)
        land = Country(str(tmp_path), seed, share=0.0 if seed % 2 else 0.05)
        land.again()
        for _ in range(12):
            for kind in some.sample(KINDS, some.choice((1, 1, 2))):
                land.correct(kind)
            land.again()

    def test_acceptance(self, tmp_path):
        """What is accepted is another thing than what was: by all kinds, by some, and by none."""
        land = Country(str(tmp_path), 3, 60, 0.05)
        words = [(), ("--accept=gap",), ()]
        land.again()
        for more in words:
            land.again(*more)
        land.correct("class")
        land.again("--accept=overlap,gap")
        land.again()

    def test_moved_borders(self, tmp_path):
        """Land between parcels that nobody has is joined anew where a border of it moves."""
        land = Country(str(tmp_path), 5, 60)
        land.again()
        with land.source.base() as base:
            (fid, blob) = base.execute("SELECT fid, geom FROM parcels ORDER BY fid LIMIT 1").fetchone()
            ring = [struct.unpack_from("<2d", blob, 21 + 16 * number) for number in range(5)]
            near = [(ring[0][0] - 0.3, ring[0][1] + 0.1), *ring[1:4]]
            moved = b"GP\0\1" + struct.pack("<i", 25832) + dirty.polygon([*near, near[0]])
            base.execute("UPDATE parcels SET geom = ? WHERE fid = ?", (moved, fid))
        assert TAKEN in land.again().stderr
        land.judge()


class TestUnchanged:
    """Runs over a source that did not change."""

    def test_said(self, tmp_path):
        """The second run says so, tells the same lines, and leaves each file and the standing as they are."""
        land = Country(str(tmp_path), 1, 60, 0.05)
        first = land.again()
        before = {name: Path(land.out, name).stat().st_mtime_ns for name in os.listdir(land.out) if name[0] != "."}
        again = land.again()
        assert UNCHANGED in again.stderr
        assert again.stdout.splitlines()[:-1] == first.stdout.splitlines()[:-1]
        assert " files changed 0 " in again.stdout.splitlines()[-1]
        assert before == {name: Path(land.out, name).stat().st_mtime_ns for name in before}
        assert table_standing.of(land.out).state == table_standing.WHOLE
        assert table_standing.changed_of(land.out, table_standing.of(land.out).tables) == []

    def test_voided(self, tmp_path):
        """Where a file of the folder is another than the run before left, or is gone, nothing is said to be unchanged,
        and all comes out as it was."""
        land = Country(str(tmp_path), 2, 40)
        land.again()
        wanted = contents(land.out)
        names = ("r0001/covers.csv", "r0001/lineage.csv", "report.csv", "balance.csv", "split.txt", ".cells/kept.json")
        changes = [*map(self.spoiled, names), self.removed("r0001/parcels.csv"), self.removed("findings.gpkg")]
        for change in changes:
            change(land.out)
            ended = land.prepare(land.out)
            assert ended.returncode == 0 and UNCHANGED not in ended.stderr, ended.stderr
            assert contents(land.out) == wanted
        assert UNCHANGED in land.prepare(land.out).stderr

    def test_kept_files(self, tmp_path):
        """What a run kept and is another now, or gone, is not taken up by a correction."""
        land = Country(str(tmp_path), 2, 40)
        land.again()
        cells = [path for path in Path(land.path()).glob("*.jsonl") if path.stat().st_size]
        cell = max(cells, key=lambda path: path.stat().st_size).name
        changes = [self.spoiled(f".cells/{name}") for name in (cell, "rows.db", "kept.json")]
        for change in [*changes, self.removed(".cells/rows.db")]:
            change(land.out)
            land.correct("class")
            assert TAKEN not in land.again().stderr

    def test_asked(self, tmp_path):
        """What is asked of the rows voids what was made of them; limits of regions do not."""
        land = Country(str(tmp_path), 2, 40)
        land.again()
        for more in (("--between", "3"), ("--epsg", "25832")):
            told = land.again(*more).stderr
            assert UNCHANGED not in told and TAKEN not in told
        land.again()
        told = land.again("--covers", "90").stderr
        assert UNCHANGED not in told and TAKEN in told and REGIONS not in told

    @staticmethod
    def spoiled(name):
        """Writes over a byte of a file, somewhere behind its beginning."""

        def change(out):
            path = Path(out, name)
            text = bytearray(path.read_bytes())
            text[-2] ^= 1
            path.write_bytes(text)

        return change

    @staticmethod
    def removed(name):
        return lambda out: os.remove(os.path.join(out, name))

    def test_tools(self, tmp_path):
        """Other tools take nothing over."""
        land = Country(str(tmp_path), 4, 40)
        land.again()
        with mock.patch.object(jobs, "digest_of", lambda *words: f"of others {words}"):
            told = land.prepare(land.out).stderr
        assert UNCHANGED not in told and TAKEN not in told
