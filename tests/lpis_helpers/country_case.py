"""What the tests of countries share: lands of jittered cells, a country that is split from one, and the comparison of
the program with a judge of the definition (judged_country.py). Without the program, built or named by LPIS, the
judge alone is asked."""

import os
import random
import shutil

import pytest
from lpis_helpers.calls import ended_with, run, tool
from lpis_helpers.places import BUILT, run_helper
from lpis_helpers.spare import Spare, read
from lpis_helpers import judged_country as judged
from lpis_helpers.country_example import regions_of
from lpis_helpers.tables import polygon_text

HEADS = {"parcels": "parcel,wkt", "covers": "piece,parcel,class,wkt", "classes": "class,percent"}
CLASSES = ["GRASS,100", "TREES,30", "WATER,0"]


def country(*words, **surroundings):
    return tool("country", *words, env={**os.environ, **surroundings})


def own_check(folder):
    """What `lpis check` answers of a region; where there is none, that all is well."""
    if not BUILT:
        return "yes\n", 0
    ended = run(BUILT, "check", folder, os.path.join(folder, "cert.txt"))
    return ended.stdout, ended.returncode


def lines(folder, name):
    return read(os.path.join(folder, f"{name}.csv")).splitlines()


def write(folder, name, rows):
    os.makedirs(folder, exist_ok=True)
    with open(os.path.join(folder, f"{name}.csv"), "w", encoding="utf-8") as file:
        file.writelines(f"{row}\n" for row in rows)


def write_text(path, text):
    with open(path, "w", encoding="utf-8", newline="") as file:
        file.write(text)


def wkt(*rings):
    return f'"{polygon_text([rings], 3)}"'


class Land:
    """Jittered cells of four corners and a middle, each of three pieces. Between some rows of cells a road, one parcel
    of the whole width, whose straight borders have the corners of cells as T-junctions."""

    def __init__(self, seed, columns, rows, roads=()):
        self.numbers, self.columns, self.parcels, self.covers = random.Random(seed), columns, [], []
        self.shift = self.numbers.randrange(-(10**9), 10**9)
        base = self.border(0, True)
        for row in range(rows):
            is_road = row in roads
            top = self.border(row + 1, is_road or row + 1 in roads or row + 1 == rows)
            if is_road:
                ring = [base[0], base[-1], top[-1], top[0]]
                self.add(f"road-{row}", ring, [("1", "WATER", ring)])
            else:
                for column in range(columns):
                    self.cell(f"P{row:03}.{column:03}", base[column], base[column + 1], top[column + 1], top[column])
            base = top

    def border(self, row, is_straight):
        """The corners between two rows of cells."""

        def jitter():
            return self.numbers.randrange(-30_000, 30_001)

        return [
            (
                self.shift + 100_000 * column + (jitter() if 0 < column < self.columns else 0),
                100_000 * row + (0 if is_straight else jitter()),
            )
            for column in range(self.columns + 1)
        ]

    def cell(self, name, a, b, c, d):
        middle = tuple(sum(values) // 4 for values in zip(a, b, c, d))
        kinds = self.numbers.choices(["GRASS", "TREES"], k=3)
        self.add(
            name,
            [a, b, c, d],
            [("1", kinds[0], [a, b, middle]), ("2", kinds[1], [b, c, middle]), ("3", kinds[2], [c, d, a, middle])],
        )

    def add(self, name, ring, pieces):
        self.parcels.append(f"{name},{wkt(ring)}")
        self.covers += [f"{name}/{number},{name},{kind},{wkt(part)}" for number, kind, part in pieces]

    def write(self, folder, is_shuffled=False):
        if is_shuffled:
            self.numbers.shuffle(self.parcels)
            self.numbers.shuffle(self.covers)
        for name, rows in (("parcels", self.parcels), ("covers", self.covers), ("classes", CLASSES)):
            write(folder, name, [HEADS[name], *rows])
        return folder


def generated(folder, count, *kinds):
    """A release of make_parcels.py: digitised borders, T-junctions, ponds, parcels of two parts."""
    os.makedirs(folder)
    run_helper("make_parcels", count, folder, *kinds)
    return folder


class Case(Spare):
    @pytest.fixture(autouse=True, scope="class")
    def kept_folder(self, request, tmp_path_factory):
        request.cls.kept = str(tmp_path_factory.mktemp("kept") / "kept")

    def set_up(self):
        self.source, self.out = self.path("source"), self.path("country")

    def begin(self, make):
        """Source and country as `make` leaves them, which is called once: the other tests of a class have copies."""
        if os.path.exists(self.kept):
            shutil.copytree(self.kept, self.folder, dirs_exist_ok=True)
        else:
            make()
            shutil.copytree(self.folder, self.kept)

    def split(self, *options, source=None):
        ended = ended_with(0, country("split", source or self.source, self.out, *map(str, options)))
        assert "the balance adds up to the square metre\n" in ended.stdout
        return ended.stdout.splitlines()[-1].split()

    def regions(self):
        return regions_of(self.out)

    def region(self, place):
        return os.path.join(self.out, self.regions()[place])

    def certify(self, *folders):
        """Certificates of some regions, or of all; what has none is refused by its own check."""
        for folder in folders or [os.path.join(self.out, name) for name in self.regions()]:
            cert = os.path.join(folder, "cert.txt")
            if BUILT and run(BUILT, "cut", folder, cert).returncode != 0:
                write_text(cert, "lpis-cert 2\npairs 0\nend\n")

    def answer(self):
        """Text and status of the judge, with the parcels."""
        return judged.answer(self.out, own_check, True)

    def assertCountry(self, ending, status, is_certified=True):
        """Judge and program give one text and status, whose last line is this one; the text, without the parcels and
        with them."""
        if is_certified:
            self.certify()
        text, found = self.answer()
        plain = "".join(line for line in text.splitlines(True) if not line.startswith("parcel "))
        assert (text.splitlines()[-1], found) == (ending, status), text[-400:]
        for option, wanted in (([], plain), (["--parcels"], text)) if BUILT else ():
            ended = run(BUILT, "country", *option, self.out)
            assert (ended.stdout, ended.returncode, ended.stderr) == (wanted, status, "")
        return plain, text

    def assertIsRelease(self, source):
        """The country's answer is the report of the source, which is one release."""
        found = self.assertCountry("yes", 0)[1].splitlines()
        whole = judged.Region(source)
        assert found[-2] == f"country regions {len(self.regions())} {judged.counts(whole.sums(whole.parcels))}"
        told = sorted(line for line in found if line.startswith("parcel "))
        assert told == sorted(whole.lines(whole.parcels))
        if BUILT:
            cert = self.path("whole.txt")
            assert run(BUILT, "cut", source, cert).returncode == 0
            report = run(BUILT, "check", source, cert).stdout.splitlines()
            assert sorted(line for line in report if line.startswith("parcel ")) == told
            assert report[-2:] == [f"total {judged.areas(*whole.sums(whole.parcels)[2:])}", "yes"]
