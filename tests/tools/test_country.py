"""Tests `lpis country` against a judge of its definition (judged_country.py), over countries split from generated and
worked releases and over faults planted at their seams."""

import contextlib
import itertools
import os
import shutil
import subprocess
from pathlib import Path

import pytest
from lpis_helpers.calls import run, tool
from lpis_helpers.country_case import BUILT, CLASSES, HEADS, Case, Land, generated, lines, read, write, write_text
from lpis_helpers import judged_country as judged
from lpis_helpers.places import TOP
from lpis.formats import polygons


class TestReleases(Case):
    """Countries that are split from a release."""

    def test_lands(self):
        for seed, (columns, count, roads, is_shuffled) in enumerate(
            [(9, 9, (), False), (12, 12, (5,), True), (30, 4, (1, 3), False), (5, 30, (0, 10, 29), True)]
        ):
            shutil.rmtree(self.out, ignore_errors=True)
            Land(seed, columns, count, roads).write(self.source, is_shuffled)
            assert int(self.split("--parcels", 16)[1]) > 4
            self.assertIsRelease(self.source)

    def test_limits(self):
        Land(7, 10, 10).write(self.source)
        for option, most, table in (
            ("--parcels", 20, "parcels"),
            ("--covers", 45, "covers"),
            ("--points", 200, "covers"),
        ):
            self.split(option, most, "--anew")
            for name in self.regions():
                rows = lines(os.path.join(self.out, name), table)[1:]
                assert (sum(row.count(",") - 2 for row in rows) if option == "--points" else len(rows)) <= most
            self.assertCountry("yes", 0)

    @pytest.mark.parametrize("number, kinds", enumerate([(), ("digitised",), ("mosaic", "turned")]))
    def test_generated(self, number, kinds):
        source = generated(self.path(f"source{number}"), 300, *kinds)
        self.split("--parcels", 60, "--anew", source=source)
        self.assertIsRelease(source)

    @pytest.mark.parametrize(
        "name",
        (
            "holes",
            "junctions",
            "members",
            "pasture",
            "square",
            "sweep",
            "years/2024",
            "years/2025",
            "exact/2024",
            "exact/2025",
            "older",
        ),
    )
    def test_worked(self, name):
        """Four tiles around the middle of the land."""
        source = os.path.join(TOP, "examples", name)
        box = polygons.box([members for _, members in judged.Region(source).parcels])
        x, y = (box[0] + box[2]) // 2, (box[1] + box[3]) // 2
        os.makedirs(self.out)
        write_text(
            self.path("country", "country.txt"),
            f"lpis-country 1\nx {x}\ny {y}\nregion a\nregion b\ny {y - 1}\nregion c\nregion d\n",
        )
        self.split(source=source)
        self.assertIsRelease(source)

    def test_example(self):
        """The country of examples/, whose folders have names of their own."""
        shutil.copytree(os.path.join(TOP, "examples", "country"), self.out)
        assert self.regions() == ["west", "southeast", "northeast"]
        found = self.assertCountry("yes", 0)[0].splitlines()
        assert found[-2] == "country regions 3 parcels 4 pieces 5 area 120.0000000 eligible 114.960000000"

    def test_years(self):
        """One tiling for the years of a map, whose identifiers change."""
        source = generated(self.path("first"), 200)
        self.split("--parcels", 50, source=source)
        names = self.regions()
        for name, column in (("parcels", 0), ("covers", 1)):
            rows = [row.split(",", column + 1) for row in lines(source, name)]
            write(
                self.source,
                name,
                [
                    ",".join(
                        [
                            *row[:column],
                            f"{row[column]}-2" if place and row[column].endswith("7") else row[column],
                            *row[column + 1 :],
                        ]
                    )
                    for place, row in enumerate(rows)
                ],
            )
        shutil.copy(os.path.join(source, "classes.csv"), self.source)
        self.split("--parcels", 50)
        assert self.regions() == names
        self.assertIsRelease(self.source)


# Faults that are planted: each changes the folder and answers the line that has to come.


class TestPlanted(Case):
    """Faults at the seams, in the middle and in one copy of a double."""

    def set_up(self):
        super().set_up()
        self.begin(self.make)
        self.names = self.regions()
        self.places = {}
        for number, name in enumerate(self.names):
            for row in lines(os.path.join(self.out, name), "parcels")[1:]:
                self.places.setdefault(row.split(",")[0], []).append(number)
        self.doubles = [(name, found) for name, found in self.places.items() if len(found) > 1]

    def make(self):
        Land(11, 12, 12, (6,)).write(self.source)
        self.split("--parcels", 40)
        self.certify()

    @contextlib.contextmanager
    def put_back(self, number):
        """A region that is changed for a while."""
        saved = shutil.copytree(self.region(number), self.path("saved"))
        yield
        shutil.rmtree(self.region(number))
        os.rename(saved, self.region(number))

    def edit(self, number, *changes):
        """Changes the rows of tables of a region, and makes its certificate anew."""
        folder = self.region(number)
        for name, change in changes:
            head, *rows = lines(folder, name)
            write(folder, name, [head, *change(rows)])
        self.certify(folder)

    def change(self, number, parcel, covers=lambda rows: rows, parcels=lambda rows: rows):
        """Changes the rows of one parcel in a region."""

        def changed(rows, column, change):
            mine = change([row for row in rows if row.split(",")[column] == parcel])
            first = next(place for place, row in enumerate(rows) if row.split(",")[column] == parcel)
            rest = [row for row in rows if row.split(",")[column] != parcel]
            return [*rest[:first], *mine, *rest[first:]]

        self.edit(
            number,
            ("parcels", lambda rows: changed(rows, 0, parcels)),
            ("covers", lambda rows: changed(rows, 1, covers)),
        )

    def refused(self, code, what, number, *words):
        """The answer, and words of tools/explain about it."""
        plain, _ = self.assertCountry(f"refused {code} {what} region {self.names[number]}", 1, is_certified=False)
        told = tool("explain", self.out, input=plain)
        assert (told.returncode, told.stderr) == (1, ""), told.stdout
        for word in (f"code {code}: ", *words):
            assert word in told.stdout

    def middle(self):
        """A double of most regions, with three pieces."""
        return max((it for it in self.doubles if it[0].startswith("P")), key=lambda it: len(it[1]))

    def test_yes(self):
        assert len(self.names) > 3
        assert len(self.doubles) > 10
        self.assertCountry("yes", 0)

    def test_guest_missing(self):
        name, found = self.middle()
        for number in found:
            with self.put_back(number):
                self.change(number, name, lambda rows: [], lambda rows: [])
                # In the first region the parcel is new in the second, whose tiles before it are looked at; the first of
                # these lacks it.
                others = ", ".join(self.names[other] for other in found if other != number)
                self.refused(
                    "95",
                    f"parcel {name}",
                    number,
                    f"region {self.names[number]} has the tile x ",
                    f"parcel {name} is in {others}\n",
                    f"in {self.names[found[number == found[0]]]}: ",
                )

    def test_first_lacking_comes_first(self):
        number = self.doubles[-1][1][-1]
        mine = [name for name, found in self.doubles if number in found and found[0] < number]
        first = min(mine, key=lambda name: (self.places[name][0], list(self.places).index(name)))
        for name in mine:
            self.change(number, name, lambda rows: [], lambda rows: [])
        self.refused("95", f"parcel {first}", number)

    def test_copy_differs(self):
        name, found = self.middle()

        def turned(rows):
            """Another first point, and the same land."""
            head, text = rows[-1].split('"POLYGON((')
            points = text.removesuffix('))"').split(",")
            return [*rows[:-1], f'{head}"POLYGON(({",".join([*points[1:], points[1]])}))"']

        changes = {
            "has another class": lambda number: self.change(
                number,
                name,
                lambda rows: [
                    rows[0].replace("GRASS", "TREES") if "GRASS" in rows[0] else rows[0].replace("TREES", "GRASS"),
                    *rows[1:],
                ],
            ),
            "its pieces in": lambda number: self.change(
                number, name, lambda rows: [rows[0].replace("/1,", "/one,"), *rows[1:]]
            ),
            "has another polygon": lambda number: self.change(number, name, turned),
            "its polygon differs": lambda number: self.change(number, name, parcels=turned),
            "its pieces in ": lambda number: self.change(number, name, lambda rows: rows[::-1]),
        }
        for number, (word, change) in itertools.product(found, changes.items()):
            with self.put_back(number):
                change(number)
                self.refused("94", f"parcel {name}", max(number, found[1]), word)

    def test_identifier_again(self):
        last = len(self.names) - 1
        old = next(name for name, found in self.places.items() if found == [last])
        new = next(name for name, found in self.places.items() if found == [0])
        self.edit(
            last,
            *(
                (table, lambda rows: [row.replace(f"{old},", f"{new},").replace(f"{old}/", f"{new}/") for row in rows])
                for table in ("parcels", "covers")
            ),
        )
        self.refused("93", f"parcel {new}", last, f"parcel {new} is in {self.names[0]}\n")

    def test_identifier_of_an_open_row(self):
        """A parcel that is still kept, under whose name another one comes: the copies differ."""
        name, found = next(
            (name, found) for name, found in self.doubles if found[-1] < len(self.names) - 1 or len(found) > 2
        )
        number = found[1]
        other = next(it for it, places in self.places.items() if places == [number])
        self.change(number, name, lambda rows: [], lambda rows: [])
        self.edit(
            number,
            *(
                (
                    table,
                    lambda rows: [
                        row.replace(f"{other},", f"{name},").replace(f"{other}/", f"{name}/") for row in rows
                    ],
                )
                for table in ("parcels", "covers")
            ),
        )
        self.refused("94", f"parcel {name}", number)

    def test_stray(self):
        for number, other in ((0, len(self.names) - 1), (len(self.names) - 1, 0), (2, 0)):
            with self.put_back(number):
                name = next(it for it, found in self.places.items() if found == [other])
                for table, column in (("parcels", 0), ("covers", 1)):
                    rows = [row for row in lines(self.region(other), table) if row.split(",")[column] == name]
                    self.edit(number, (table, lambda here, rows=rows: here[:7] + rows + here[7:]))
                self.refused("92", f"parcel {name}", number, "has the tile", f"parcel {name}: row 8 of parcels.csv")

    def test_rows_in_order(self):
        """Of two faults that of the upper row comes first, and a class before both."""
        number = len(self.names) - 1
        (one, _), (two, _) = [it for it in self.doubles if it[1][-1] == number][:2]
        rows = [row.split(",")[0] for row in lines(self.region(number), "parcels")]
        first = min(one, two, key=rows.index)
        for name in (one, two):
            self.change(number, name, lambda rows: [row.replace("/1,", "/one,") for row in rows])
        self.refused("94", f"parcel {first}", number)
        self.edit(number, ("classes", lambda rows: rows + ["MORE,5"]))
        self.refused("96", "classes row 4", number)

    def test_classes(self):
        changes = [
            (1, lambda rows: ["GRASS,99", *rows[1:]]),
            (2, lambda rows: [rows[0], rows[2], rows[1]]),
            (3, lambda rows: [*rows[:2], "WATER,1"]),
            (4, lambda rows: [*rows, "STONE,0"]),
            (1, lambda rows: ["STONE,0", *rows]),
        ]
        for number, (row, change) in itertools.product((0, 1, len(self.names) - 1), changes):
            with self.put_back(number):
                self.edit(number, ("classes", change))
                self.refused(
                    "96",
                    f"classes row {row}",
                    number,
                    f"{os.path.join(self.out, 'classes.csv')}: row {row}: ",
                    f"{os.path.join(self.region(number), 'classes.csv')}: row {row}: ",
                )
        write(self.out, "classes", [HEADS["classes"], *CLASSES, "STONE,0"])
        self.refused("96", "classes row 4", 0)

    def test_folders_exchanged(self):
        one, two = self.region(0), self.region(len(self.names) - 1)
        os.rename(one, self.path("spare"))
        os.rename(two, one)
        os.rename(self.path("spare"), two)
        first = next(row.split(",")[0] for row in lines(one, "parcels")[1:] if 0 not in self.places[row.split(",")[0]])
        self.refused("92", f"parcel {first}", 0)

    def test_cuts(self):
        """Another tiling over the same folders: no yes, but where no box lies between."""
        path = self.path("country", "country.txt")
        text = read(path)
        for place, line in enumerate(text.splitlines()):
            kind, _, word = line.partition(" ")
            if kind not in ("x", "y"):
                continue
            for other in (
                f"{'y' if kind == 'x' else 'x'} {word}",
                f"{kind} {int(word) + 90_000}",
                f"{kind} {int(word) - 90_000}",
            ):
                changed = text.splitlines()
                changed[place] = other
                write_text(path, "".join(f"{it}\n" for it in changed))
                found, status = self.answer()
                assert (status, found.splitlines()[-1].split()[0]) == (1, "refused")
                self.assertCountry(found.splitlines()[-1], 1, is_certified=False)
        write_text(path, text)

    @pytest.mark.skipif(not BUILT, reason="the program is not built")
    def test_own_faults(self):
        """What a region's own check answers, with the region behind it."""
        number = len(self.names) // 2
        cert = os.path.join(self.region(number), "cert.txt")
        good = read(cert)
        triangle = next(line for line in good.splitlines() if line.startswith("t "))
        changes = {
            "refused 50 cert line 1": good.replace("lpis-cert 2", "lpis-cert 3"),
            "refused 54 cert line": good[:-4],
            "refused 55 cert line": good + "\n",
            "refused 60 piece": good.replace("piece ", "piece x", 1),
            "refused 62 piece": good.replace(
                triangle,
                " ".join([*triangle.split()[:1], *triangle.split()[3:], *triangle.split()[1:3]][:7]).replace(
                    "t", "t", 1
                ),
                1,
            ),
        }
        for start, text in changes.items():
            write_text(cert, text)
            found, status = self.answer()
            if start != "refused 62 piece":
                assert found.splitlines()[-1].startswith(start), found[-200:]
            self.assertCountry(found.splitlines()[-1], status, is_certified=False)
        write_text(cert, good)
        for table, row, code in (
            ("parcels", "a b,POLYGON", "33"),
            ("parcels", 'one,"POINT(0 0)"', "38"),
            ("covers", "one,two,three", "30"),
            ("classes", "CLAY,101", "3b"),
        ):
            saved = lines(self.region(number), table)
            write(self.region(number), table, [*saved, row])
            found, status = self.answer()
            assert found.splitlines()[-1].startswith(f"refused {code} {table} row {len(saved)}"), found[-200:]
            self.assertCountry(found.splitlines()[-1], 2, is_certified=False)
            write(self.region(number), table, saved)
        self.assertCountry("yes", 0, is_certified=False)


@pytest.mark.skipif(not BUILT, reason="the program is not built")
class TestFailures(Case):
    """A file that is not there: what passed before is printed, and no more."""

    def test_files(self):
        Land(3, 6, 6).write(self.source)
        self.split("--parcels", 12)
        self.certify()
        told = run(BUILT, "country", self.out).stdout.splitlines()
        tables = ("parcels.csv", "covers.csv", "classes.csv")  # a certificate that is not there is made
        files = [
            (os.path.join(name, table), f" region {name}", told[:number])
            for number, name in enumerate(self.regions())
            for table in tables
        ]
        for name, region, passed in (*files, ("country.txt", "", []), ("classes.csv", "", [])):
            path = os.path.join(self.out, name)
            os.rename(path, path + ".away")
            ended = run(BUILT, "country", self.out)
            assert (ended.returncode, ended.stdout.splitlines(), ended.stderr) == (
                3,
                passed,
                f"failed read {Path(name).stem}{region}\n",
            )
            os.rename(path + ".away", path)

    def test_classes(self):
        Land(3, 4, 4).write(self.source)
        self.split("--parcels", 6)
        self.certify()
        for rows, line in (
            (["class,percent,percent"], "refused 32 classes row 0"),
            (["class"], "refused 31 classes row 0"),
            (["class,percent", "a b,1"], "refused 33 classes row 1"),
            (["class,percent", "A,1", "A,1"], "refused 34 classes row 2"),
            (["class,percent", "A,x"], "refused 3b classes row 1"),
            (["class,percent", "A"], "refused 30 classes row 1"),
            ([], "refused 31 classes row 0"),
        ):
            write(self.out, "classes", rows)
            ended = run(BUILT, "country", self.out)
            assert (ended.stdout, ended.returncode) == (f"{line}\n", 2)

    def test_devices(self):
        Land(3, 4, 4).write(self.source)
        self.split("--parcels", 6)
        self.certify()
        with open("/dev/full", "w", encoding="ascii") as full:
            ended = subprocess.run(
                [BUILT, "country", self.out], stdout=full, stderr=subprocess.PIPE, text=True, check=False
            )
        assert (ended.returncode, ended.stderr) == (3, "failed write out\n")
