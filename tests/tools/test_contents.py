"""Tests that a source is known by its bytes: what was kept of an earlier one is taken for no other, whatever its size
and times are. Wants Shapely."""

import contextlib
import os
import shutil
import sqlite3
from pathlib import Path

import pytest
from lpis_helpers import dirty
from lpis_helpers.calls import ended_with, records, tool
from lpis_helpers.registers import made
from lpis_helpers.spare import Spare
from lpis.country import source_parts
from lpis.source import file_digests, land
from lpis.system import shapely_there

TREES = "UPDATE covers SET class = 'TREES' WHERE piece = 'clean1.1'"
VRT = """<OGRVRTDataSource>
<OGRVRTLayer name="parcels"><SrcDataSource>{0}</SrcDataSource></OGRVRTLayer>
<OGRVRTLayer name="covers"><SrcDataSource>{0}</SrcDataSource></OGRVRTLayer>
<OGRVRTLayer name="classes"><SrcDataSource>{0}</SrcDataSource></OGRVRTLayer>
</OGRVRTDataSource>
"""


@contextlib.contextmanager
def in_silence(path):
    """A change of a file that keeps its size and its times."""
    before = os.stat(path)
    yield
    os.utime(path, ns=(before.st_atime_ns, before.st_mtime_ns))
    after = os.stat(path)
    assert (before.st_size, before.st_mtime_ns) == (after.st_size, after.st_mtime_ns)


def class_of(*folder):
    """The class of the piece that changes, by the tables of a folder, or of the regions in it."""
    tables = [folder, *((*folder, name) for name in sorted(os.listdir(os.path.join(*folder))))]
    rows = [row for table in tables for row in records(*table, "covers.csv")]
    return {row["class"] for row in rows if row["piece"] == "clean1.1"}


class TestContents(Spare):
    def set_up(self):
        self.file = self.path("file")
        Path(self.file).write_bytes(b"one")

    def test_digest(self):
        """Bytes alone make a digest: not the time, nor the place, nor an empty log; and it is held against them."""
        known = file_digests.Contents()
        first = known.digest(self.file)
        Path(f"{self.file}-wal").write_bytes(b"")
        os.utime(self.file, (1, 1))
        known.hold()
        assert file_digests.Contents().digest(shutil.copy(self.file, self.path("copy"))) == first
        with in_silence(self.file):
            Path(self.file).write_bytes(b"two")
        assert file_digests.Contents().digest(self.file) != first
        with pytest.raises(land.Trouble, match="changed while it was read"):
            known.hold()

    def test_log(self):
        """The rows of a database stand in its log too."""
        Path(f"{self.file}-wal").write_bytes(b"a")
        one = file_digests.Contents().digest(self.file)
        Path(f"{self.file}-wal").write_bytes(b"b")
        assert file_digests.Contents().digest(self.file) != one

    def test_signs(self):
        """Who reads a file sees that it was written since, though its size and time are as they were."""
        known = file_digests.Contents()
        signs = [known.signs(self.file)]
        source_parts.hold([self.file], signs)
        with in_silence(self.file):
            Path(self.file).write_bytes(b"two")
        while file_digests.signs_of(self.file) == signs[0]:  # within a tick of the clock
            os.utime(self.file, ns=(0, signs[0][1]))
        with pytest.raises(land.Trouble, match="changed while it was read"):
            source_parts.hold([self.file], signs)


@pytest.mark.skipif(not shapely_there.python(), reason=shapely_there.LACKING)
class TestCountry(Spare):
    def set_up(self):
        self.land, self.out = dirty.make(self.path("land.gpkg"), []), self.path("out")

    def prepare(self, *words, land=None):
        return ended_with(0, tool("country", "prepare", land or self.land, self.out, *words))

    def test_equal_size_and_time(self):
        self.prepare()
        assert class_of(self.out) == {"GRASS"}
        with in_silence(self.land):
            made(self.land, TREES)
        self.prepare()
        assert class_of(self.out) == {"TREES"}

    def test_log(self):
        """A row that was written beside the file, and another at the same time and of the same size."""
        with contextlib.closing(sqlite3.connect(self.land)) as base:
            base.executescript("PRAGMA journal_mode = WAL; PRAGMA wal_autocheckpoint = 0;")
            base.executescript("INSERT INTO classes (class, percent) VALUES ('WATER', '0')")
            base.executescript("UPDATE covers SET class = 'WATER' WHERE piece = 'clean1.1'")
            self.prepare()
            assert class_of(self.out) == {"WATER"}
            with in_silence(f"{self.land}-wal"), in_silence(self.land):
                base.executescript(f"PRAGMA wal_checkpoint(RESTART); {TREES}")  # the log begins anew, in its place
            self.prepare()
            assert class_of(self.out) == {"TREES"}

    def test_elsewhere(self):
        """A copy elsewhere has the same bytes: what was read of them is taken up."""
        self.prepare()
        before = {path.name: path.stat().st_mtime_ns for path in Path(self.out, ".cells").glob("*.part")}
        self.prepare(land=shutil.copy(self.land, self.path("copy.gpkg")))
        assert {path.name: path.stat().st_mtime_ns for path in Path(self.out, ".cells").glob("*.part")} == before

    def test_last_year(self):
        """Last year's tables, corrected at equal size and time."""
        last, table = self.path("last"), self.path("last", "covers.csv")
        ended_with(0, tool("prepare", self.land, last))
        self.prepare("--previous", last)
        before = {path.name for path in Path(self.out, ".cells").glob("*.part")}
        with in_silence(table):
            text = Path(table).read_text(encoding="utf-8")
            Path(table).write_text(text.replace("550000.000 5400000.000", "550000.001 5400000.000"), encoding="utf-8")
        self.prepare("--previous", last)
        after = {path.name for path in Path(self.out, ".cells").glob("*.part")}
        assert (len(before - after), len(after - before)) == (1, 1)


@pytest.mark.skipif(not shapely_there.python(), reason=shapely_there.LACKING)
class TestRounded(Spare):
    def set_up(self):
        self.land, self.out = dirty.make(self.path("land.gpkg"), ["wide"]), self.path("out")

    @pytest.mark.skipif(not shutil.which("ogr2ogr"), reason="no ogr2ogr")
    def test_beside(self):
        """What a source names, or has beside it, is of the source."""
        source = Path(self.path("land.vrt"))
        source.write_text(VRT.format(self.land), encoding="utf-8")
        ended_with(1, tool("prepare", source, self.out))
        taken = shutil.copytree(self.out, self.path("taken"))
        assert "taken from the last run" in ended_with(0, tool("prepare", source, taken, "--accept")).stderr
        with in_silence(self.land):
            made(self.land, TREES)
        run = ended_with(0, tool("prepare", source, self.out, "--accept"))
        assert ("taken from the last run" in run.stderr, class_of(self.out)) == (False, {"TREES"})
