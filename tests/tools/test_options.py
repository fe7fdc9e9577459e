"""Tests lpis.toml: what it may say, who takes it, which run writes it; and the layer that is meant where no name
fits."""

import os
import random
import re

import pytest
from lpis_helpers import dirty, preparing_case
from lpis_helpers.calls import records, tool
from lpis_helpers.spare import write
from lpis.source import layer_guesses, source_settings
from lpis.system.trouble import Trouble

try:
    import tomllib
except ImportError:
    tomllib = None

NAMES = {
    "parcels": "Feldblöcke",
    "covers": "Bodenbedeckung",
    "parcels.parcel": "FLIK",
    "covers.piece": "LE",
    "covers.parcel": "FLIK",
    "covers.class": "Nutzung",
}
WORDS = [word for name, called in NAMES.items() for word in ("--name", f"{name}={called}")]
LETTERS = "aä\"\\'#=[]. \t\x01\u2028\U0001f33e"


def read(folder, text):
    path = os.path.join(folder, source_settings.NAME)
    write(text, path)
    return source_settings.read(path)


class TestForms:
    @pytest.mark.parametrize("seed", range(20))
    def test_written_is_read(self, tmp_path, seed):
        """Any names, by our reader and by that of Python, where it has one."""
        rng = random.Random(seed)
        names = {
            name: "".join(rng.choice(LETTERS) for _ in range(rng.randrange(1, 9)))
            for name in source_settings.known_names()
            if rng.random() < 0.7
        }
        wanted = source_settings.Options(
            names, str(tmp_path / 'Klassen "x".csv'), rng.choice((None, 25832)), rng.choice((None, 0.25))
        )
        text = "".join(source_settings.lines_of(wanted, str(tmp_path)))
        assert read(tmp_path, text) == wanted, text
        if tomllib:
            found = tomllib.loads(text)
            flat = {
                **found.get("layers", {}),
                **{
                    f"{layer}.{name}": called
                    for layer, some in found.get("columns", {}).items()
                    for name, called in some.items()
                },
            }
            assert (flat, found["classes"], found.get("epsg"), found.get("between")) == (
                names,
                'Klassen "x".csv',
                wanted.epsg,
                wanted.between,
            )

    def test_other_forms(self, tmp_path):
        """As somebody may write it."""
        text = (
            "\ufeff# mine\r\nepsg=25832 # metres\r\nbetween = 2\r\n\r\n[ layers ]\r\nparcels ="
            " 'a\\b'\r\n[columns.covers]\r\nclass = \"\\u00e4#\" # x\r\n"
        )
        assert read(tmp_path, text) == source_settings.Options(
            {"parcels": "a\\b", "covers.class": "ä#"}, None, 25832, 2.0
        )
        assert read(tmp_path, "") == source_settings.Options()

    @pytest.mark.parametrize(
        "text, line, words",
        (
            (
                "epsg = 25832\nlayer = 'x'\n",
                2,
                "the key layer is not known: there are classes, epsg, between, keep, layers.parcels",
            ),
            ("[layers]\nepsg = 25832\n", 2, "the key layers.epsg is not known"),
            ("[layers]\nparcels.parcel = 'x'\n", 2, "the key layers.parcels.parcel is not known"),
            ("[columns]\nparcels = 'x'\n", 2, "the key columns.parcels is not known"),
            ("[columns]\nparcels.piece = 'x'\n", 2, "the key columns.parcels.piece is not known"),
            ("\n[names]\n", 2, "the section [names] is not known: there are layers, columns"),
            ("epsg = '25832'\n", 1, "epsg is 25832, and not the number of a system"),
            ("epsg = 1.5\n", 1, "epsg is 1.5"),
            ("epsg = -1\n", 1, "-1 is neither a text in quotation marks nor a number above 0"),
            ("between = 0.0\n", 1, "between is 0.0, and not metres, above 0 and up to 100"),
            ("between = 101\n", 1, "between is 101"),
            ("classes = 7\n", 1, "7 is no text"),
            ("classes = ''\n", 1, "'' is no text"),
            ("[layers]\nparcels = ''\n", 2, "'' is no text"),
            ("epsg = 1\nepsg = 2\n", 2, "epsg is there twice"),
            ("[layers]\n[layers]\n", 2, "layers is there twice"),
            (
                "[columns]\nparcels.parcel = 'a'\n[columns.parcels]\nparcel = 'b'\n",
                4,
                "columns.parcels.parcel is there twice",
            ),
            ("epsg\n", 1, "epsg is neither [SECTION] nor KEY = VALUE"),
            ("epsg = \n", 1, "is neither"),
            ('classes = "a\n', 1, "is neither"),
            ('classes = """a"""\n', 1, "is neither"),
            ("classes = ['a']\n", 1, "is neither"),
            ("classes = \"a\" 'b'\n", 1, "is neither"),
            ('classes = "\\q"\n', 1, "a text has no \\q"),
            ('classes = "\\ud800"\n', 1, "is no letter"),
            ("epsg = true\n", 1, "true is neither"),
        ),
    )
    def test_wrong(self, tmp_path, text, line, words):
        """Each is refused with its line, and nothing is passed over."""
        with pytest.raises(Trouble, match=re.escape(words)) as raised:
            read(tmp_path, text)
        assert f"{source_settings.NAME} line {line}: " in str(raised.value)

    def test_no_text(self, tmp_path):
        path = tmp_path / source_settings.NAME
        path.write_bytes(b"classes = '\xff'\n")
        with pytest.raises(Trouble, match="it is not UTF-8"):
            source_settings.read(str(path))

    def test_places(self, tmp_path, monkeypatch):
        """Of a file its folder, of a folder of tables that itself, of shapefiles the one above, of a database the
        one where the tool runs."""
        for name in ("land.gpkg", "tables/parcels.csv", "shapes/a.shp"):
            (tmp_path / name).parent.mkdir(exist_ok=True)
            (tmp_path / name).touch()
        monkeypatch.chdir(tmp_path)
        places = {
            name: os.path.realpath(source_settings.place_of(name))
            for name in ("land.gpkg", "tables", "tables/", "shapes", "shapes/", "PG:dbname=x")
        }
        top = os.path.realpath(tmp_path)
        assert places == {**dict.fromkeys(places, top), "tables": f"{top}/tables", "tables/": f"{top}/tables"}


class TestGuesses:
    TABLES = [
        layer_guesses.Table("Blocks", ["FLIK", "wkt"], True),
        layer_guesses.Table("Land", ["LE", "flik", "Nutzung"], True),
        layer_guesses.Table("K", ["class", "percent"], False),
    ]
    OWN = {name: called for name, called in NAMES.items() if "." in name}

    def test_alone(self):
        assert layer_guesses.guesses(self.TABLES, self.OWN) == {"covers": "Land", "parcels": "Blocks", "classes": "K"}

    @pytest.mark.parametrize(
        "more, names, wanted",
        (
            ([layer_guesses.Table("Other", ["flik"], True)], {}, {"covers": "Land", "classes": "K"}),  # two fit
            # it has no polygons
            (
                [layer_guesses.Table("Other", ["flik"], False)],
                {},
                {"covers": "Land", "parcels": "Blocks", "classes": "K"},
            ),
            # it is there by its name
            ([layer_guesses.Table("PARCELS", ["flik"], True)], {}, {"covers": "Land", "classes": "K"}),
            ([], {"parcels": "none"}, {"covers": "Land", "classes": "K"}),  # a name that is wrong is no guess
            ([], {"covers.class": "Code"}, {"parcels": "Blocks", "classes": "K"}),
        ),
    )
    def test_others(self, more, names, wanted):
        assert layer_guesses.guesses([*self.TABLES, *more], {**self.OWN, **names}) == wanted


class TestRuns(preparing_case.Case):
    def set_up(self):
        super().set_up()
        parcels = [(name, dirty.polygon(dirty.box(x, 0))) for name, x in (("A", 0), ("B", 10))]
        covers = [(f"{name}1", name, "Gras", shape) for name, shape in parcels]
        self.land = dirty.put_named(self.path("land.gpkg"), parcels, covers)
        self.toml, self.classes = self.path(source_settings.NAME), self.path("Klassen.csv")
        write("Klasse;Anteil\nGras;100\n", self.classes)
        self.words = [
            "--classes",
            self.classes,
            *WORDS,
            "--name",
            "classes.class=Klasse",
            "--name",
            "classes.percent=Anteil",
        ]

    def test_written_once_and_taken(self):
        """By the run with names; then prepare, check and country need none, and tell in a line what they took."""
        first = self.run_on(self.land, *self.words, "--between", "0.5")
        assert (first.returncode, f"{self.toml} keeps these names" in first.stderr) == (0, True), first.stderr
        with open(self.toml, encoding="utf-8") as file:
            text = file.read()
        assert (
            'classes = "Klassen.csv"\nbetween = 0.5\n\n[layers]\nparcels = "Feldblöcke"\n' in text,
            'classes.percent = "Anteil"\n' in text,
        ) == (True, True), text
        wanted = records(self.out, "covers.csv")
        for words in (
            ["prepare", self.land, self.path("again")],
            ["check", self.land, "--out", self.path("checked")],
            ["country", "prepare", self.land, self.path("country"), "--tables", self.path("whole")],
        ):
            ran = tool(*words)
            assert (
                ran.returncode,
                ran.stderr.count(f"{self.toml} says parcels=Feldblöcke, "),
                "between 0.5" in ran.stderr,
                "keeps" in ran.stderr,
            ) == (0, 1, True, False), ran.stderr
        for folder in ("again", "checked", "whole"):
            assert records(self.path(folder), "covers.csv") == wanted
        with open(self.toml, encoding="utf-8") as file:
            assert file.read() == text

    def test_a_year_and_the_second_checker(self):
        """A year of a source and --source take it."""
        assert self.run_on(self.land, *self.words).returncode == 0
        ran = tool(
            "year",
            self.path("register.db"),
            "2026",
            f"{self.land} --out {self.path('y')}",
            "--new",
            "--source",
            self.land,
        )
        said = f"the second checker says about {self.land} and {self.path('y')}: yes"
        assert (ran.returncode, said in ran.stdout) == (0, True), (
            ran.stdout + ran.stderr
        )
        os.remove(self.toml)
        ran = tool("report", self.path("y"), "--source", " ".join([self.land, *self.words]))
        assert (ran.returncode, ": yes" in ran.stdout) == (0, True), ran.stdout + ran.stderr

    def test_the_command_line_goes_before(self):
        write(
            'classes = "none.csv"\nepsg = 4326\n[layers]\nparcels = "none"\n[columns]\nparcels.parcel = "FLIK"\n',
            self.toml,
        )
        ran = self.run_on(self.land, *self.words, "--epsg", "25832")
        assert (ran.returncode, ran.stderr.count(f"{self.toml} says"), "keeps" in ran.stderr) == (
            0,
            0,
            False,
        ), ran.stderr
        ran = self.run_on(
            self.land,
            *[word for pair in zip(self.words[::2], self.words[1::2]) for word in pair if "Feld" not in pair[1]],
        )
        assert (
            ran.returncode,
            "no layer none: there are Feldblöcke (FLIK), Bodenbedeckung (LE, FLIK, Nutzung)" in ran.stderr,
        ) == (64, True), ran.stderr

    def test_another_table_has_columns_of_its_own(self):
        assert self.run_on(self.land, *self.words).returncode == 0
        write("class,percent\nGras,50\n", self.path("other.csv"))
        ran = self.run_on(self.land, "--classes", self.path("other.csv"))
        assert (ran.returncode, records(self.out, "classes.csv")) == (0, [{"class": "Gras", "percent": "50"}]), (
            ran.stdout + ran.stderr
        )
        os.remove(self.toml)
        ran = self.run_on(self.land, "--classes", self.classes, *WORDS)
        for column in ("class", "percent"):
            assert (
                ran.returncode,
                f"no column {column}: there are Klasse, Anteil (--name classes.{column}=COLUMN says which it is)"
                in ran.stderr,
            ) == (64, True), ran.stderr

    def test_what_is_not_kept_is_told(self):
        """A file that is there stays as it is: the words that it lacks are told as lines of it. A table of classes
        may have the columns that it names."""
        assert (
            self.run_on(
                self.land,
                *WORDS,
                "--name",
                "classes.class=Klasse",
                "--name",
                "classes.percent=Anteil",
                "--classes",
                self.classes,
            ).returncode
            == 0
        )
        with open(self.toml, encoding="utf-8") as file:
            text = file.read()
        write("Klasse,Anteil\nGras,50\n", self.path("other.csv"))
        ran = self.run_on(
            self.land,
            "--epsg",
            "25832",
            "--classes",
            self.path("other.csv"),
            "--between",
            "2",
            "--name",
            "covers.wkt=geom",
        )
        told = (
            "stays as it is; to keep these options too, add to it: epsg = 25832; between = 2.0; [columns]; covers.wkt ="
            ' "geom"\n'
        )
        assert (ran.returncode, told in ran.stderr, records(self.out, "classes.csv")[0]["percent"]) == (
            0,
            True,
            "50",
        ), ran.stderr
        with open(self.toml, encoding="utf-8") as file:
            assert file.read() == text

    def test_a_wrong_file_is_refused(self):
        write("epsg = 25832\nlayers = 'x'\n", self.toml)
        for name in ("prepare", "check"):
            ran = tool(name, self.land, *([self.out] if name == "prepare" else ["--out", self.out]))
            assert (
                ran.returncode,
                f"{self.toml} line 2: the key layers is not known" in ran.stderr,
                os.path.exists(self.out),
            ) == (64, True, False), ran.stderr

    def test_not_written(self):
        """By a run whose names do not fit, nor by one without names; where it cannot be, that is told."""
        assert self.run_on(self.land, *self.words[:-4], "--name", "covers.piece=none").returncode == 64
        assert not os.path.exists(self.toml)
        folder = self.path("closed")
        os.mkdir(folder)
        os.rename(self.land, os.path.join(folder, "land.gpkg"))
        said, found = [], type(
            "",
            (),
            {"land": os.path.join(folder, "land.gpkg"), "name": ["x"], "classes": None, "epsg": None, "between": 1.0},
        )
        source_settings.keep(found, {"parcels": "\udcff"}, said.append)
        assert ("these names are not kept" in said[0], os.listdir(folder)) == (True, ["land.gpkg"])

    def test_a_year_without_changed_names(self):
        """It has no identifiers.csv, which the next year may name all the same; another path that is not there is
        trouble."""
        assert self.run_on(self.land, *self.words).returncode == 0
        for name, wanted in (("identifiers.csv", 0), ("identifier.csv", 64)):
            ran = self.run_on(self.land, "--identifiers", os.path.join(self.out, name))
            assert (ran.returncode, f"{name} is not there: that year changed no name" in ran.stderr) == (
                wanted,
                not wanted,
            ), ran.stderr
        assert self.run_on(self.land, "--identifiers", self.path("identifiers.csv")).returncode == 64

    def test_the_system_of_a_folder(self):
        """tools/faults and tools/explain write that which stands beside the tables: of lpis.toml, else as prepare
        wrote it."""
        assert self.run_on(self.land, *self.words).returncode == 0
        wanted = {"": 25832, "epsg = 4647\n": 4647}
        for text, number in wanted.items():
            if text:
                write(text, os.path.join(self.out, source_settings.NAME))
            assert tool("faults", self.out, self.path("faults.geojson")).returncode == 0
            tool("explain", self.out, "--geojson", self.path("fault.geojson"), input="refused 37 parcels row 1\n")
            for name in ("faults", "fault"):
                with open(self.path(f"{name}.geojson"), encoding="utf-8") as file:
                    assert f"EPSG::{number}" in file.read(), (name, number)

    def test_a_layer_is_guessed(self):
        """Where columns are named alone, and it is told; what is kept has its name."""
        columns = [word for pair in zip(self.words[::2], self.words[1::2]) for word in pair if "." in pair[1]]
        ran = self.run_on(self.land, *columns)
        told = (
            "table: parcels: nothing is called parcels: Feldblöcke is taken for it, which alone has polygons and the"
            " column FLIK (--name parcels=LAYER says another)"
        )
        assert (ran.returncode, told in ran.stdout) == (0, True), ran.stdout + ran.stderr
        assert source_settings.read(self.toml).names["covers"] == "Bodenbedeckung"
        os.remove(self.toml)
        ran = tool("check", self.land, "--out", self.path("checked"), *columns)
        assert (ran.returncode, "Feldblöcke is taken for it" in ran.stderr) == (0, True), ran.stdout + ran.stderr

    def test_a_table_of_a_folder_is_guessed(self):
        self.tables(
            [("A", f"POLYGON(({preparing_case.ring(0, 0)}))")],
            [("a", "A", "GRASS", f"POLYGON(({preparing_case.ring(0, 0)}))")],
        )
        for name, new in (("parcels", "Schläge"), ("covers", "cover2026"), ("classes", "kinds")):
            os.rename(os.path.join(self.sheets, f"{name}.csv"), os.path.join(self.sheets, f"{new}.csv"))
        ran = self.run_on(self.sheets)
        assert (
            ran.returncode,
            ran.stdout.count("is taken for it"),
            os.path.exists(os.path.join(self.sheets, source_settings.NAME)),
        ) == (0, 3, False), (
            ran.stdout + ran.stderr
        )
        assert records(self.out, "classes.csv")[0] == {"class": "GRASS", "percent": "100"}
        self.write("other.csv", "parcel,wkt\n")
        ran = self.run_on(self.sheets)
        told = (
            f"no table parcels.csv in {self.sheets}: there are Schläge (parcel, wkt), cover2026 (piece, parcel, class,"
            " wkt), kinds (class, percent), other (parcel, wkt) (--name"
        )
        assert (ran.returncode, told in ran.stderr) == (64, True), ran.stderr
