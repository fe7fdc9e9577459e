"""Tests names over three years: what a run writes into identifiers.csv, the next run takes, and each name keeps its
identifier, whatever letters it has. By hypothesis where that is there, else by names of a seeded generator."""

import csv
import os
import random

import pytest
from lpis_helpers.spare import Spare, write
from lpis_helpers.calls import records
from lpis_helpers import cells_case
from lpis_helpers import preparing_case
from lpis.system import shapely_there

try:
    import hypothesis
    from hypothesis import strategies
except ImportError:
    hypothesis = None
if shapely_there.is_there():
    from lpis.formats import guarded_csv, identifiers, source_names
    from lpis.preparation import identifier_passes, tested_source

# Beginnings and parts of names that programs treat in ways of their own.
ODD = (
    "a",
    "A",
    "a  ",
    " a",
    "a\u00a0",
    "7",
    "7.0",
    "=1+1",
    "+1",
    "-1",
    "@x",
    "'=x",
    "''x",
    "\tx",
    "\rx",
    "x\ry",
    "x\ny",
    "x,y",
    'x"y',
    "M\u00fchle",
    "Mu\u0308hle",
    "MUEHLE",
    "\u6c34\u7530",
    "-A",
    ";",
    "|",
    "\x00b",
    "a" * 41,
    "\u202ea",
    "sep=;",
    "kind",
    "\ufeffx",
    "field 7",
    "field 7 ",
    "field_7",
    "\u00df",
    "ss",
    "null",
    "-",
    "a\u200b",
)
SETTINGS = {"max_examples": 150, "deadline": None, "derandomize": True}


def layers_of(parcels, classes, rng):
    """Layers with these names of parcels and classes. A piece may name its parcel with blanks before and behind."""
    padded = [f"{' ' * rng.randrange(3)}{name}{' ' * rng.randrange(3)}" for name in parcels]
    rows = [identifier_passes.land.Row(number, {"parcel": name}) for number, name in enumerate(parcels, 1)]
    covers = [
        identifier_passes.land.Row(number, {"piece": name, "parcel": other, "class": classes[number % len(classes)]})
        for number, (name, other) in enumerate(zip(parcels, padded))
    ]
    return {name: identifier_passes.land.Layer(name, found) for name, found in (("parcels", rows), ("covers", covers))}


def named(layers, given):
    """A source in a store whose names were gone through, and these."""
    base, _ = cells_case.stored(layers["parcels"].rows, layers["covers"].rows, given)
    work = tested_source.Preparation(layers, 25832, lambda _: None)
    work.begin(base, dict(layers))
    names = identifier_passes.Names(work, given)
    for _ in names.steps():
        pass
    return work, names


def rows_of(work, layer):
    return list(work.layers[layer].among("1"))


def one_year(folder, parcels, classes, rng, before):
    """The identifiers of a year's names, by the table of the year before; and the path of the table that was
    written."""
    given = identifier_passes.given_identifiers(before)
    work, found = named(layers_of(parcels, classes, rng), given)
    path = os.path.join(folder, f"identifiers-{rng.randrange(10 ** 9)}.csv")
    identifier_passes.write_identifiers(found.renamed, path)
    return work, path


def judged(folder, parcels, classes, seed):
    """What is wrong over three years; of the second a part is absent."""
    rng, wrong = random.Random(seed), []
    parcels = list({name.strip(): name for name in parcels if name.strip()}.values())
    classes = [name for name in classes if name.strip()] or ["G"]
    work, path = one_year(folder, parcels, classes, rng, None)
    if work.hopeless():
        return []  # two names of one identifier, which is refused in the first year
    first = {name.strip(): row["parcel"] for name, row in zip(parcels, rows_of(work, "parcels"))}
    kinds = {
        name.strip(): row["class"]
        for name, row in zip(
            [classes[number % len(classes)] for number in range(len(parcels))], rows_of(work, "covers")
        )
    }
    for share in (0.5, 1.0):
        here = [name for name in parcels if rng.random() < share] or parcels
        work, path = one_year(folder, here, classes, rng, path)
        wrong += [finding.words for finding in work.hopeless()]
        for name, row in zip(here, rows_of(work, "parcels")):
            if row["parcel"] != first[name.strip()]:
                wrong.append(f"{name!r} was {first[name.strip()]}, and is {row['parcel']}")
        wrong += [
            f"piece {row['piece']} names {row['parcel']}"
            for row in rows_of(work, "covers")
            if row["parcel"] not in first.values() or not identifiers.is_one(row["piece"])
        ]
        wrong += [
            f"class {name!r}"
            for name, row in zip(
                [classes[number % len(classes)] for number in range(len(here))], rows_of(work, "covers")
            )
            if kinds.get(name.strip(), row["class"]) != row["class"]
        ]
        os.replace(path, os.path.join(folder, "identifiers.csv"))
        path = os.path.join(folder, "identifiers.csv")
        wrong += [
            f"of {name!r} explain has {found}"
            for name in here
            if (found := source_names.SourceNames(folder).now(name))[:1] != [first[name.strip()]]
            and first[name.strip()] not in found
        ]
    return wrong


@pytest.mark.skipif(not shapely_there.is_there(), reason=shapely_there.LACKING)
class TestYears(Spare):
    def test_odd(self):
        assert judged(self.folder, ODD, ODD[:5], 1) == []

    @pytest.mark.parametrize("seed", range(100))
    def test_generated(self, seed):
        rng = random.Random(seed)
        letters = "aA1.0 \t\r\n,;\"'=+-@|\u00fc\u00e9\u0308\u00df\u202e\u3000\U0001f33e\x00\\/:_"
        made = ["".join(rng.choice(letters) for _ in range(rng.randrange(1, 8))) for _ in range(30)]
        assert judged(self.folder, made + rng.sample(ODD, 5), made[:3], seed) == [], (seed, made)

    @pytest.mark.skipif(not hypothesis, reason="hypothesis is not there (Debian: python3-hypothesis)")
    def test_hypothesis(self):
        text = strategies.one_of(
            strategies.sampled_from(ODD),
            strategies.text(strategies.characters(blacklist_categories=("Cs",)), min_size=1, max_size=12),
        )

        @hypothesis.settings(**SETTINGS)
        @hypothesis.given(
            strategies.lists(text, min_size=1, max_size=8),
            strategies.lists(text, min_size=1, max_size=3),
            strategies.integers(0, 1000),
        )
        def tried(parcels, classes, seed):
            assert judged(self.folder, parcels, classes, seed) == []

        tried()

    @pytest.mark.parametrize("name", (*ODD, "", "'", "'a", "'''=", "\r", "a\r\nb", '"', "\n"))
    def test_cells(self, name):
        path = os.path.join(self.folder, "cells.csv")
        with open(path, "w", newline="", encoding="utf-8") as file:
            guarded_csv.Writer(file).writerow(["x", guarded_csv.text(name), 1.5, None])
        with open(path, newline="", encoding="utf-8") as file:
            (found,) = csv.reader(file)
        assert (guarded_csv.plain(found[1]), found[2:]) == (name, ["1.5", ""])
        assert not found[1].startswith(("=", "+", "-", "@", "\t", "\r"))

    def test_own_tables(self):
        """A table of one's own may tell names apart that differ in blanks, exchange two names, and name an absent
        one; what cannot be read is refused."""

        def found(text, parcels):
            path = os.path.join(self.folder, "own.csv")
            write(text, path)
            layers = layers_of(parcels, ["G"], random.Random(0))
            for other in layers["covers"].rows:
                other.fields["parcel"] = parcels[0]
            work, given = named(layers, identifier_passes.given_identifiers(path))
            return (
                [other["parcel"] for other in rows_of(work, "parcels")],
                dict(given.renamed["parcel"].items()),
                len(work.hopeless()),
            )

        assert found('kind,old,new\nparcel,"a  ",b\n', ["a  ", "a"])[::2] == (["b", "a"], 0)
        assert found("kind,old,new\nparcel,a,b\nparcel,b,a\n", ["a", "b"]) == (["b", "a"], {"a": "b", "b": "a"}, 0)
        assert found("kind,old,new\nparcel,x y,foo\n", ["a"])[1] == {"x y": "foo"}
        assert found("kind,old,new\nparcel,a,b\n", ["a", "b"])[2] == 1
        for text, words in (
            ('kind,old,new\nparcel,"a,b\n', "a quotation mark that is not closed"),
            ("old,new\na,b\n", "no column kind: there are old, new"),
            ("\n", "there are none"),
            ("kind,old,new\nparcels,a,b\n", "row 1: 'parcels', 'a', 'b'"),
            ("kind,old,new\nparcel,a,\n", "row 1"),
            ("kind,old,new\nparcel,,b\n", "row 1"),
            ("kind,old,new\nparcel,a,b\nparcel,a,b\nparcel,a,c\n", "row 3: 'parcel', 'a', 'c'"),
        ):
            with pytest.raises(identifier_passes.land.Trouble, match=words):
                found(text, ["a"])


class TestWhole(preparing_case.Case):
    def test_three_years(self):
        """Of the tool itself: pieces with blanks behind their parcel's name, and names of every kind."""
        odd = [name for name in ODD if name.strip() and "\x00" not in name and name.strip() not in ("A", "7.0", "-1")]
        odd = list({name.strip(): name for name in odd}.values())
        shapes = [f"POLYGON(({preparing_case.ring(10 * number, 0)}))" for number in range(len(odd))]
        self.tables(
            list(zip(odd, shapes)),
            [(f"{number}", f"{name}  ", "GRASS", shape) for number, (name, shape) in enumerate(zip(odd, shapes))],
        )
        found, words = [], []
        for year in range(3):
            run = self.run_on(self.sheets, *words)
            assert (year, run.returncode) == (year, 0), run.stdout + run.stderr
            found.append([record["parcel"] for record in records(self.out, "parcels.csv")])
            os.replace(os.path.join(self.out, "identifiers.csv"), self.path("names.csv"))
            words = ["--identifiers", self.path("names.csv")]
        assert (found[1], found[2], len(set(found[0]))) == (found[0], found[0], len(odd))
        with open(self.path("names.csv"), newline="", encoding="utf-8") as file:
            assert not [
                field for record in csv.reader(file) for field in record if field.startswith(("=", "+", "-", "@"))
            ]
