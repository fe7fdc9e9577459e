"""Runs the lines of the guide's first page, *In short*, in one folder and in their order, over a land with faults
and one of other names."""

import os
import re
from pathlib import Path

from lpis_helpers import dirty, preparing_case
from lpis_helpers.calls import records, run
from lpis_helpers.places import TOP
from lpis_helpers.spare import write
from lpis.source import source_settings

STOPS = {
    "tools/check land.gpkg": 1,
    "tools/prepare land.gpkg 2026 --classes classes.csv": 1,
    "tools/country prepare land.gpkg country": 1,
    "tools/check source.gpkg": 0,
}  # the others end with 0
OF_ROOT = ("sudo ", "tests/lpis_helpers/dirty.py ", "python3 tests/")


def blocks():
    part = Path(TOP, "docs", "GUIDE.md").read_text(encoding="utf-8").split("\n## In short\n")[1].split("\n## ")[0]
    return [
        "\n".join(line[4:] for line in block.splitlines()).replace("\\\n", "")
        for block in re.findall(r"(?:^    .*\n(?:^\n(?=    ))?)+", part, re.MULTILINE)
    ]


class TestFirstPage(preparing_case.Case):
    def set_up(self):
        super().set_up()
        for name in ("tools", "lpis", "tests"):
            os.symlink(os.path.join(TOP, name), self.path(name))
        squares = self.put_land(9.9)
        dirty.put_named(
            self.path("source.gpkg"),
            squares[::2],
            [(f"{name}1", name, "Grünland", shape) for name, shape in squares[::2]],
        )
        write("Klasse;Prozent\nGrünland;100\n", self.path("Klassen.csv"))

    def put_land(self, x):
        """Three parcels of which the second begins there: before 10 it lies on the first."""
        squares = [(name, dirty.polygon(dirty.box(west, 0))) for name, west in (("A", 0), ("B", x), ("C", 20))]
        dirty.put(self.path("land.gpkg"), squares, [(f"{name}1", name, "GRASS", shape) for name, shape in squares])
        return squares

    def wanted(self, line):
        found = [status for words, status in STOPS.items() if line.startswith(words)]
        return 0 if "--accept" in line or not found else found[0]

    def test_lines(self):
        toml = [block for block in blocks() if block.startswith("classes = ")]
        lines = [
            line
            for block in blocks()
            if block not in toml
            for line in block.splitlines()
            if not line.startswith(OF_ROOT)
        ]
        assert (len(toml), len(lines) > 12) == (1, True)
        is_mended = False
        for line in lines:
            if "2027" in line and not is_mended:
                self.put_land(10)
                is_mended = True
            done = run("bash", "-c", line, cwd=self.folder)
            assert done.returncode == self.wanted(line), f"{line}\n{done.stdout}{done.stderr}"
        run("bash", "-c", "tools/check source.gpkg --identifiers names.csv", cwd=self.folder)  # as the page says it
        assert records(self.path("source-check"), "classes.csv") == [{"class": "grassland", "percent": "100"}]
        kept = source_settings.read(self.path(source_settings.NAME))
        write(toml[0], self.path(source_settings.NAME))
        assert set(source_settings.read(self.path(source_settings.NAME)).names.items()) <= set(kept.names.items())
