"""Tests the guide's path for a nation, from a source to two published years, by the guide's own lines, in nine tiles.
Wants Shapely, ogrinfo and the program, built or named by LPIS.

    PARCELS=2000 pytest -s tests/tools/test_nation.py     as many parcels as that, in place of a few; says what each
        line took
"""

import os
import re
import resource
import shlex
import shutil
import time
from pathlib import Path

import pytest
from lpis_helpers.calls import run, tool
from lpis_helpers.places import BUILT, TOOLS, TOP
from lpis_helpers.spare import Kept
from lpis.system import shapely_there

if shapely_there.is_there():
    from lpis_helpers import neighbours
    from lpis_helpers import two_years
PARCELS = int(os.environ.get("PARCELS", "0"))
FEW, MEGABYTE = 200, 1024
CAN = shapely_there.is_there() and BUILT and shutil.which("ogrinfo")


def lines_of_guide():
    """The lines of the path: the block that begins with ogrinfo."""
    part = Path(TOP, "docs", "GUIDE-COUNTRY.md").read_text(encoding="utf-8")
    return [line.strip() for line in part[part.index("    ogrinfo") :].split("\n\n")[0].splitlines()]


def run_line(line, folder):
    """A line of the guide, in a folder that has the tools. A line of a tool alone wants no shell, nor a start of
    Python."""
    words, more = shlex.split(line, comments=True), {"cwd": folder, "env": {**os.environ, "LPIS": BUILT}}
    if PARCELS or not words[0].startswith("tools/") or {">", "<", "|", "&&", ";"} & {*words}:
        return run("bash", "-c", line, **more)
    return tool(words[0].removeprefix("tools/"), *words[1:], **more)


STOPPED = (
    "tools/country prepare land-2026.gpkg country",
    "tools/country publish register.db 2027 country --lineage lineage-2027.csv",
)


@pytest.mark.skipif(not CAN, reason="Shapely, ogrinfo or the program is not there")
class TestNation(Kept):
    @classmethod
    def set_up(cls):
        cls.edits, cls.told = two_years.make(PARCELS or FEW, cls.folder), {}
        os.symlink(TOOLS, os.path.join(cls.folder, "tools"))
        for line in lines_of_guide():
            before, start = resource.getrusage(resource.RUSAGE_CHILDREN), time.monotonic()
            ended = run_line(line, cls.folder)
            after = resource.getrusage(resource.RUSAGE_CHILDREN)
            cls.told[line.split("#")[0].strip()] = ended
            if PARCELS:
                used = sum(getattr(after, name) - getattr(before, name) for name in ("ru_utime", "ru_stime"))
                print(
                    (
                        f"{line.split('#')[0].strip()}: {time.monotonic() - start:.0f} s by the clock, {used:.0f} s of"
                        f" processors, the largest process so far {after.ru_maxrss // MEGABYTE} MB"
                    ),
                    flush=True,
                )

    def ended(self, beginning):
        """The only run of the guide that begins so."""
        (found,) = (ended for line, ended in self.told.items() if line.startswith(beginning))
        return found

    def test_each_line(self):
        """The first prepare reports what is wrong, and the second year what changed; all else ends well."""
        found = [(line, ended.returncode) for line, ended in self.told.items()]
        assert found == [(line, int(line in STOPPED)) for line, _ in found], "".join(
            ended.stdout[-2000:] + ended.stderr[-2000:] for ended in self.told.values() if ended.returncode
        )
        assert len(found) >= 10

    def test_checked_once(self):
        """What is published is checked on the way; the path has no other check, and the accepting run rounds
        nothing."""
        assert not [line for line in self.told if line.startswith("tools/country check")]
        assert "\nyes\npublished 2026\n" in self.ended("tools/country publish register.db 2026").stdout
        assert (
            "are taken from the last run, which rounded them\n"
            in self.ended("tools/country prepare land-2026.gpkg country --accept").stderr
        )

    def test_two_years(self):
        """Nine regions; all splits and merges are exact and published; both years are kept, and each is a yes."""
        last = self.ended("tools/country publish register.db 2027 country --accept-from").stdout
        assert "\npublished 2027\n" in last
        assert int(re.search(r"(?m)^exact (\d+)$", last)[1]) == self.edits, last
        for year in ("2026", "2027"):
            ran = run(BUILT, "country", self.path("country", "years", year))
            assert (ran.stdout.splitlines()[-1], ran.stdout.count("region ")) == ("yes", 9), ran.stdout + ran.stderr

    def test_what_stays(self):
        """A parcel of both years has the same text in both, to the byte, and the reports count what differs."""
        told = self.ended("tools/country prepare land-2027.gpkg").stdout
        kept, of_them = map(int, re.search(r"to the millimetre: (\d+) of its (\d+)", told).groups())
        report = self.ended("tools/report country/years/2027").stdout
        gone, changed, unchanged = (
            int(re.search(rf"since \S+: .*{word} (\d+)", report)[1]) for word in ("gone", "changed", "kept")
        )
        assert (kept, changed, unchanged) == (of_them - gone, 0, kept), report
        assert re.search(r"(?m)^accepted by read-2027.csv: [1-9][0-9]*, by --accept: [1-9]", report)

    def test_source_that_stays(self):
        """A parcel whose rows are the same in both sources has the same text: all edits are between corners, so that
        no new border ends on one of it."""
        found = neighbours.Neighbours(
            *(self.path(f"land-{year}.gpkg") for year in (2026, 2027)),
            *(self.path("country", "years", year) for year in ("2026", "2027")),
        )
        assert len(found.unchanged()) > self.edits
        assert found.other() == []
