"""Tests tools/lineage: what it proposes of two years, what it leaves open, and all faults of a table, the first of
which is that of `lpis publish`. Wants Shapely; the program where it is built, or named by LPIS."""

import os
import random
import subprocess
import tracemalloc
from pathlib import Path

import pytest
from lpis_helpers.asking import write_release
from lpis_helpers.calls import ended_with, tool
from lpis_helpers.places import BUILT, TOP
from lpis_helpers.registers import RELEASE, SPAN, TEXT, made
from lpis_helpers.spare import Spare, read
from lpis.lineage import lineage_faults, proposals, two_years
from lpis.system import shapely_there

EXAMPLES = os.path.join(TOP, "examples", "exact")
REGISTER = (
    RELEASE
    + SPAN
    + TEXT
    + "INSERT INTO lpis_release VALUES (2023), (2024); INSERT INTO lpis_span VALUES ('early', 2023, 2023);"
)


def box(left, low, right, high):
    """A rectangle in metres."""
    return f"POLYGON(({left} {low},{right} {low},{right} {high},{left} {high},{left} {low}))"


# Names, what stands in the older year, what in the newer one, the rows proposed, and what is left open.
PROPOSED = [
    ("split", {"a": box(0, 0, 20, 10)}, {"b": box(0, 0, 8, 10), "c": box(8, 0, 20, 10)}, "a,b,1 a,c,1", ""),
    (
        "split off by a millimetre",
        {"a": box(0, 0, 20, 10)},
        {"b": box(0, 0, 8, 10), "c": box(8.001, 0, 20, 10)},
        "a,b,0 a,c,0",
        "",
    ),
    ("merge into a new one", {"a": box(0, 0, 9, 9), "b": box(9, 0, 18, 9)}, {"c": box(0, 0, 18, 9)}, "a,c,1 b,c,1", ""),
    ("merge into a kept one", {"a": box(0, 0, 9, 9), "b": box(9, 0, 18, 9)}, {"b": box(0, 0, 18, 9)}, "a,b,1", ""),
    ("replaced", {"a": box(0, 0, 9, 9)}, {"b": box(0, 0, 9, 9)}, "a,b,0", ""),
    ("ended", {"a": box(0, 0, 9, 9), "k": box(20, 0, 29, 9)}, {"k": box(20, 0, 29, 9)}, "a,,0", ""),
    (
        "a neighbour's border that moved is no successor",
        {"a": box(0, 0, 10, 10), "k": box(10, 0, 30, 10)},
        {"b": box(0, 0, 9.95, 10), "k": box(9.95, 0, 30, 10)},
        "a,b,0",
        "",
    ),
    (
        "redrawn",
        {"a": box(0, 0, 10, 10), "b": box(10, 0, 20, 10)},
        {"c": box(0, 0, 20, 5), "d": box(0, 5, 20, 10)},
        "a,c,0 a,d,0 b,c,0 b,d,0",
        "",
    ),
    (
        "a twentieth is not clear",
        {"a": box(0, 0, 20, 10), "k": box(20, 0, 60, 10)},
        {"b": box(0, 0, 19, 10), "k": box(19, 0, 60, 10)},
        "",
        "a",
    ),
    ("half of it is nowhere", {"a": box(0, 0, 20, 10)}, {"b": box(0, 0, 5, 10)}, "", "a"),
    ("nothing is dropped", {"a": box(0, 0, 9, 9)}, {"a": box(0, 0, 9, 9), "n": box(9, 0, 18, 9)}, "", ""),
    (
        "a hole that a new parcel fills",
        {"a": box(0, 0, 30, 30)},
        {"b": box(0, 0, 30, 30)[:-1] + ",(10 10,20 10,20 20,10 20,10 10))", "c": box(10, 10, 20, 20)},
        "a,b,1 a,c,1",
        "",
    ),
]

OLDER = {
    "a": box(0, 0, 20, 10),
    "b": box(20, 0, 29, 9),
    "k": box(30, 0, 39, 9),
    "m": box(40, 0, 49, 9),
    "n": box(50, 0, 59, 9),
}
NEWER = {
    "a1": box(0, 0, 8, 10),
    "a2": box(8, 0, 20, 10),
    "k": box(50, 0, 59, 9),
    "n": box(30, 0, 39, 9),
    "mm": box(40, 0, 49, 9),
    "early": box(60, 0, 69, 9),
}
# Rows of lineage, and the codes and places that they lead to.
FAULTY = [
    ("a,a1,1\na,a2,1\nb,,\nm,mm,\n", ["76 early 2023"]),
    ("a,a1,1\na,a2,0\nb,,\nm,mm,1\n", ["76 early 2023", "78 row 1 a a1", "78 row 4 m mm"]),
    (
        "a,a1,\nz,a2,\nk,a2,\na,a9,\na,a1,\na,,\n",
        ["70 row 2 z", "71 row 3 k", "72 row 4 a a9", "73 row 5 a a1", "74 row 6 a", "75 b", "75 m", "76 early 2023"],
    ),
    ("a,a1,1\na,a2,1\na,mm,1\nb,,\nm,mm,\n", ["76 early 2023", "78 row 1 a a1", "78 row 2 a a2", "78 row 3 a mm"]),
    ("a,a1,1\na,mm,1\nb,a2,1\nm,a2,1\n", ["76 early 2023", "77 m", "45 split a"]),
]


def write(folder, shapes, rows=None):
    os.makedirs(folder, exist_ok=True)
    Path(folder, "parcels.csv").write_text(
        "parcel,wkt\n" + "".join(f'{name},"{wkt}"\n' for name, wkt in shapes.items()), encoding="ascii"
    )
    if rows is not None:
        Path(folder, "lineage.csv").write_text("old,new,exact\n" + rows, encoding="ascii")
    return folder


class Years(Spare):
    prefix = "years "

    def read(self, *names):
        return read(self.path(*names)).split("\n")[1:-1]

    def register(self, shapes):
        texts = [f"INSERT INTO lpis_text VALUES ('{name}', '{wkt}')" for name, wkt in shapes.items() if name != "m"]
        return made(
            self.path("lpis.db"),
            REGISTER,
            *(f"INSERT INTO lpis_span VALUES ('{name}', 2024, 0)" for name in shapes),
            *texts,
        )


@pytest.mark.skipif(not shapely_there.python(), reason=shapely_there.LACKING)
class TestProposals(Years):
    def test_of_folders(self):
        for number, (what, old, new, rows, left) in enumerate(PROPOSED):
            folder = self.path(str(number))
            ran = tool(
                "lineage",
                write(os.path.join(folder, "old"), old),
                write(os.path.join(folder, "new"), new),
                os.path.join(folder, "new"),
            )
            assert (rows.split(), int(bool(left))) == (
                sorted(self.read(folder, "new", "lineage.csv")),
                ran.returncode,
            ), ran.stderr
            assert left.split() == [
                line.split()[1].rstrip(":") for line in ran.stdout.splitlines() if line.startswith("unclear")
            ]

    def test_of_the_examples(self):
        ran = tool("lineage", os.path.join(EXAMPLES, "2024"), os.path.join(EXAMPLES, "2025"), self.path("proposed.csv"))
        wanted = sorted(line.rstrip("0") for line in read(EXAMPLES, "2025", "lineage.csv").splitlines()[1:])
        assert (0, wanted) == (ran.returncode, sorted(line.rstrip("0") for line in self.read("proposed.csv")))

    def test_of_a_register(self):
        base = self.register({**OLDER, "m": OLDER["m"]})
        ran = ended_with(1, tool("lineage", "--register", base, write(self.path("new"), NEWER), self.path("new")))
        assert ["a,a1,1", "a,a2,1", "b,,0"] == sorted(self.read("new", "lineage.csv"))
        assert "unclear m: the register keeps no shape of it" in ran.stdout
        assert "used before early: last in 2023" in ran.stdout

    def test_nothing_is_written_over(self):
        old, new = write(self.path("old"), OLDER), write(self.path("new"), NEWER, "a,a1,\n")
        for out, told in (
            (new, "it stays as it is"),
            (self.path("none/rows.csv"), f"{self.path('none')} is no folder"),
        ):
            ran = tool("lineage", old, new, out)
            assert (64, ["a,a1,"], True) == (
                ran.returncode,
                self.read("new", "lineage.csv"),
                told in ran.stderr,
            ), ran.stderr
        for name, rows, error in (
            ("lineage.csv", (), FileExistsError),
            ("half.csv", (1 / 0 for _ in "a"), ZeroDivisionError),
        ):
            with pytest.raises(error):
                proposals.write(os.path.join(new, name), os.path.join(new, "report.csv"), (), rows, None)
        assert (["lineage.csv", "parcels.csv"], ["a,a1,"]) == (sorted(os.listdir(new)), self.read("new", "lineage.csv"))

    def test_trouble_is_no_traceback(self):
        new = write(self.path("new"), NEWER)
        for words in (
            [],
            [new],
            [new, new, new, new],
            [self.path("none"), new, self.path("x.csv")],
            ["--register", self.path("none.db"), new, self.path("x.csv")],
            ["--check", new, new],
            ["--register", os.path.join(new, "parcels.csv"), new, self.path("x.csv")],
        ):
            ran = tool("lineage", *words)
            assert 64 == ran.returncode, words
            assert "Traceback" not in ran.stderr


@pytest.mark.skipif(not shapely_there.python(), reason=shapely_there.LACKING)
class TestFaults(Years):
    def test_all_at_once(self):
        base = self.register(OLDER)
        for number, (rows, wanted) in enumerate(FAULTY):
            ran = tool("lineage", "--check", "--register", base, write(self.path(f"new{number}"), NEWER, rows))
            lines = [line for line in ran.stdout.splitlines() if line[:1].isdigit()]
            assert (1, wanted) == (ran.returncode, [line.split(":")[0] for line in lines]), ran.stdout + ran.stderr

    def test_exchanged_names_are_reported(self):
        old = write(self.path("old"), OLDER)
        ran = tool("lineage", "--check", old, write(self.path("new"), NEWER, "a,a1,1\na,a2,1\nb,,\nm,mm,\n"))
        moved = [line for line in ran.stdout.splitlines() if line.startswith("moved ")]
        assert (0, 2) == (ran.returncode, len(moved)), ran.stdout
        assert moved[0].startswith("moved k: its old and its new shape share nothing") and moved[1].startswith(
            "moved n:"
        )


class TestCountries(Years):
    """Parcels of regions: one that several regions have is one."""

    def country(self, name, shapes, rows=("", "")):
        """Two regions, west and east of x = 9 m."""
        folder = self.path(name)
        for region, met, of_region in (
            ("west", lambda left, right: left < 9, rows[0]),
            ("east", lambda left, right: right > 9, rows[1]),
        ):
            write(
                os.path.join(folder, region),
                {
                    key: wkt
                    for key, wkt in shapes.items()
                    if met(*(float(wkt.split("((")[1].split(",")[at].split()[0]) for at in (0, 1)))
                },
                of_region,
            )
        Path(folder, "country.txt").write_text("lpis-country 1\nx 9000\nregion west\nregion east\n", encoding="ascii")
        return folder

    @pytest.mark.skipif(not shapely_there.python(), reason=shapely_there.LACKING)
    def test_as_of_one_release(self):
        """Proposed rows of a dropped parcel that lies in two tiles come once, and a fault is named by its region."""
        wanted = tool(
            "lineage", "--register", self.register(OLDER), write(self.path("new"), NEWER), self.path("whole.csv")
        )
        ran = tool(
            "lineage", "--register", self.path("lpis.db"), self.country("country", NEWER), self.path("tiles.csv")
        )
        assert (ran.returncode, self.read("tiles.csv"), self.read("tiles-report.csv")) == (
            wanted.returncode,
            self.read("whole.csv"),
            self.read("whole-report.csv"),
        ), (
            ran.stdout + ran.stderr
        )
        faulty = self.country("faulty", NEWER, ("a,a1,1\na,a2,1\n", "b,,\nz,mm,\n"))
        ran = tool("lineage", "--check", "--register", self.path("lpis.db"), faulty)
        assert [line.split(":")[0] for line in ran.stdout.splitlines()[:3]] == [
            "70 row 2 region east z",
            "75 m",
            "76 early 2023",
        ], (
            ran.stdout + ran.stderr
        )
        rows = os.path.join(write(self.path("other"), {}, "a,a1,1\na,a2,1\nb,,\nm,mm,\n"), "lineage.csv")
        ran = tool("lineage", "--check", "--register", self.path("lpis.db"), faulty, "--rows", rows)
        assert [line.split(":")[0] for line in ran.stdout.splitlines()[:2]] == ["76 early 2023", "moved k"], (
            ran.stdout + ran.stderr
        )

    @pytest.mark.skipif(not shapely_there.python(), reason=shapely_there.LACKING)
    def test_many_processes(self):
        """By three processes the same bytes as by one, of proposals and of faults, with marks that are wrong and
        parcels that moved."""
        old, new = {}, {}
        for number in range(350):
            west, middle, other, east = (round(number / 50 + by, 3) for by in (0, 0.01, 0.01 - number % 3 / 1000, 0.02))
            old[f"P{number}"] = box(west, 0, east, 1)
            if number % 7 == 0:
                new[f"P{number}"] = box(west, number % 2, east, 1 + number % 2)
            else:
                new.update({f"Q{number}": box(west, 0, other, 1), f"R{number}": box(middle, 0, east, 1)})
        places, told = [self.country(name, shapes) for name, shapes in (("old", old), ("new", new))], []
        for workers in ("1", "3"):
            proposed = tool("lineage", *places, self.path("rows.csv"), "--workers", workers)
            marked = [line[:-1] + "1" for line in self.read("rows.csv")]
            Path(self.path("marked.csv")).write_text(
                "old,new,exact\n" + "".join(f"{line}\n" for line in marked), encoding="ascii"
            )
            checked = tool("lineage", "--check", *places, "--rows", self.path("marked.csv"), "--workers", workers)
            told.append(
                (
                    proposed.returncode,
                    proposed.stdout,
                    self.read("rows.csv"),
                    self.read("rows-report.csv"),
                    checked.returncode,
                    checked.stdout,
                )
            )
            os.remove(self.path("rows.csv"))
            os.remove(self.path("rows-report.csv"))
        assert told[0] == told[1]
        assert (told[0][0], len(told[0][2]), told[0][5].splitlines()[-1]) == (0, 600, "faults 200 moved 25")

    def test_what_does_not_fit(self):
        country = self.country("country", NEWER)
        assert list(two_years.of_folder(country).shapes) == ["a1", "a2", "k", "n", "mm", "early"]
        write(os.path.join(country, "east"), {"a2": box(8, 0, 20, 11)})
        with pytest.raises(two_years.Trouble, match="a2: the region west has another shape of it"):
            two_years.of_folder(country)
        for rows, words in (
            ("a,a1,1\nb,\n", "row 2: 2 fields, and the header has 3"),
            ("a,a1,,\n", "row 1: 4 fields"),
            ("a,a1,yes\n", "row 1: an old identifier"),
        ):
            with pytest.raises(two_years.Trouble, match=words):
                two_years.rows_of(os.path.join(write(self.path("rows"), {}, rows), "lineage.csv"))
        write(os.path.join(country, "east"), {})
        with open(os.path.join(country, "east", "parcels.csv"), "a", encoding="ascii") as file:
            file.write(f'k,"{NEWER["k"]}"\n' * 2)
        with pytest.raises(two_years.Trouble, match="row 2: k: `lpis cut` reports"):
            two_years.of_folder(country)

    def test_memory(self):
        """What is kept of a year does not grow with it."""
        folder = write(self.path("many"), {f"P{number}": box(number, 0, number + 1, 1) for number in range(4000)})
        tracemalloc.start()
        year = two_years.of_folder(folder)
        most = tracemalloc.get_traced_memory()[1]
        tracemalloc.stop()
        assert most < 700_000
        assert (year.shapes["P7"], "P4000" in year.shapes, year.shapes.near((7500, 100, 7600, 200))) == (
            [[[(7000, 0), (8000, 0), (8000, 1000), (7000, 1000), (7000, 0)]]],
            False,
            ["P7"],
        )


@pytest.mark.skipif(not BUILT, reason="the program is not built")
class TestBeside(Years):
    """The first fault of a random table is the one that `publish` reports, where it reports one of lineage."""

    def released(self, year, shapes, *rows):
        folder = self.path(year)
        write_release(Path(folder), shapes, "old,new,exact", *rows)
        subprocess.run([BUILT, "cut", folder, os.path.join(folder, "cert.txt")], check=True, capture_output=True)
        return folder

    def published(self, year, folder):
        return subprocess.run(
            [BUILT, "publish", self.path("lpis.db"), str(year), folder, os.path.join(folder, "cert.txt")],
            capture_output=True,
            text=True,
            check=False,
        ).stdout

    def test_random_tables(self):
        chance = random.Random(7)
        first, old, new = (
            self.released("2023", {"early": box(0, 0, 1, 1)}),
            self.released("2024", OLDER, "early,,"),
            self.released("2025", NEWER),
        )
        for year, folder in ((2023, first), (2024, old)):
            assert f"published {year}" in self.published(year, folder)
        for _ in range(24):
            rows = "".join(
                f"{chance.choice('aabbkmnz')},{chance.choice(['a1', 'a2', 'mm', 'n', 'zz', ''])},{chance.choice(['', '1'])}\n"  # noqa: E501
                for _ in range(chance.randrange(1, 6))
            )
            write(new, NEWER, rows)
            found = lineage_faults.faults(
                two_years.rows_of(os.path.join(new, "lineage.csv")),
                two_years.of_register(self.path("lpis.db")),
                two_years.of_folder(new),
            )
            words = self.published(2025, new).split()
            assert ["refused", "81", "lineage", found[0].code] == words[:4], rows
            assert (str(found[0].row) if "row" in words else found[0].name.split()[0]) == words[
                5 if "row" in words else 4
            ], rows
