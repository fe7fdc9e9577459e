"""What ./lpis says beside the program's own words, with a stand-in for the program: which file was meant where one
could not be read or written, and what is wrong with it; what is wrong with a register; that one is about to be made."""

import os
import re
import signal
import sqlite3
import subprocess
import sys

import pytest
from lpis_helpers.calls import ended_with
from lpis_helpers.house import House, like
from lpis_helpers.spare import write
from lpis_helpers.stopping import until
from lpis.commands import remarks
from lpis.system import path_trouble

pytestmark = pytest.mark.finds_program
NO_ROWS = "; where no identifier was dropped, as in a first year, it is the line old,new alone"
NOWHERE = "country is nowhere/country.txt: it is missing, and so is the folder nowhere"
NEW = "a new, empty register"
MISSING = f"missing.db was not there: {NEW}"
FULL = "the register is own.db: the disk has 2 MB free, and a publish may write 4 MB: it was full"
IDLE = "it is there, and using it failed: perhaps another process held it just now"
PERHAPS = "it is there, and using it failed: perhaps {}, or another process held it just now"
# A register's tables, as far as guests meet them.
REGISTER = """CREATE TABLE lpis_release (year INTEGER PRIMARY KEY); CREATE TABLE lpis_row (year, pos, old, new);
CREATE TABLE lpis_text (id PRIMARY KEY, wkt);"""
EXCLUSIVE = """import sqlite3, time
base = sqlite3.connect("own.db"); base.execute("BEGIN EXCLUSIVE"); open("held", "w"); time.sleep(3600)"""
# A lock of an open file, as one of two publishes at once has it: the system's table has no process for it.
OPEN_FILE = """import fcntl, struct, time
file = open("own.db", "r+"); fcntl.fcntl(file, 37, struct.pack("hhqqi", fcntl.F_WRLCK, 0, 0x40000000, 1, 0))
open("held", "w"); time.sleep(3600)"""


@pytest.fixture(scope="module")
def house(tmp_path_factory):
    house = House(tmp_path_factory.mktemp("causes"))
    ended_with(0, house.lpis("build"))
    folder = house.folder
    for name in ("folder", "release", "land/west", "full", "closed", "large", "wide/west", "wide/east"):
        (folder / name).mkdir(parents=True)
    for name in ("release/parcels.csv", "land/west/parcels.csv", "old.txt", "empty.db"):
        write("", folder, name)
    for name, size in (("long.csv", 2**30 + 1), ("large/parcels.csv", 3_000_000)):
        write("", folder, name)
        os.truncate(folder / name, size)
    for region in ("west", "east"):
        write("0" * 1_500_000, folder, "wide", region, "parcels.csv")
    write("SQLite format 3\0", folder, "db")
    write("no database\n", folder, "text.db")
    (folder / "link").symlink_to("nowhere")
    for name, tables in (("other #1", ["farms"]), ("own", ["lpis_format"]), ("both", ["lpis_format", "farms"])):
        made(folder, name, "".join(f"CREATE TABLE {table} (one, version);" for table in tables))
    whole = (folder / "own.db").read_bytes()[:4200]
    (folder / "cut.db").write_bytes(whole[:100] + b"xxxxxxxx" + whole[108:])
    return house


def made(folder, name, statements):
    base = sqlite3.connect(folder / f"{name}.db")
    base.executescript(statements)
    base.close()


@pytest.fixture
def said(house, monkeypatch):
    """What is said of words, by the module that the script starts: standard output is a file."""
    told = []
    monkeypatch.chdir(house.folder)
    monkeypatch.setattr(remarks, "say", told.append)

    def one(*words):
        with open("old.txt", encoding="ascii") as out:
            monkeypatch.setattr(remarks, "OUT", out.fileno())
            remarks.main(words)
        assert len(told) < 2
        return "".join(told)

    return one


@pytest.mark.parametrize(
    "surroundings, own, wanted, words",
    (
        ({}, "failed read area", "area is none.csv: it is missing", "area none.csv"),
        ({"LINE": "failed store"}, "failed store", f"the register is own.db: {IDLE}", "trace own.db X"),
    ),
)
def test_script(house, surroundings, own, wanted, words):
    """The script says it behind the program's own line; the program's text is handed on as it is."""
    ended = ended_with(3, house.lpis(*words.split(), **surroundings))
    assert (ended.stdout, ended.stderr) == (f"out {words}\n", f"{own}\nlpis: {wanted}\n")


@pytest.mark.parametrize(
    "name, wanted, words",
    (
        ("area", "none.csv: it is missing", "area none.csv"),
        ("area", "folder: it is a folder", "area folder"),
        ("area", "link: it is a link to nowhere, which is missing", "area link"),
        ("area", "long.csv: it is over 1 GiB (1,073,741,824 bytes)", "area long.csv"),
        ("parcels", "no/parcels.csv: it is missing, and so is the folder no", "check no cert"),
        ("parcels", "release/parcels.csv: it is there, and reading it failed", "check release cert"),
        ("covers", "release/covers.csv: it is missing", "cut release cert"),
        ("cert", "none: it is missing", "check release none"),
        ("cert", "none: it is missing", "publish db 2024 release none"),
        ("lineage", f"release/lineage.csv: it is missing{NO_ROWS}", "publish db 2024 release none"),
        ("cert", "none: it is missing", "exact db release none out.txt"),
        ("lineage", f"release/lineage.csv: it is missing{NO_ROWS}", "exact db release none out.txt"),
    ),
)
def test_causes(said, name, wanted, words):
    assert said("cause", f"failed read {name}", *words.split()) == f"{name} is {wanted}"


@pytest.mark.parametrize(
    "line, wanted, words",
    (
        ("failed read country", NOWHERE, "country nowhere"),
        ("failed read classes", "classes is land/classes.csv: it is missing", "country --parcels land"),
        (
            "failed read covers region west",
            "covers of region west is land/west/covers.csv: it is missing",
            "country land",
        ),
        (
            "failed read cert region east",
            "cert of region east is land/east/cert.txt: it is missing, and so is the folder land/east",
            "country land --parcels",
        ),
        ("failed read country", NOWHERE, "publish-country db 2024 nowhere"),
        (
            "failed read classes",
            "classes is land/classes.csv: it is missing",
            "publish-country --exact old.txt db 2024 land",
        ),
        (
            "failed read lineage region west",
            f"lineage of region west is land/west/lineage.csv: it is missing{NO_ROWS}",
            "publish-country db --parcels 2024 land",
        ),
        (
            "failed read lineage region west",
            f"lineage of region west is land/west/lineage.csv: it is missing{NO_ROWS}",
            "exact-country db land old.txt",
        ),
        ("failed read cert", "cert is none: it is missing", "publish-country db 2024 land --exact none"),
        ("failed read cert", "cert is none: it is missing", "publish-country --parcels --exact none db 2024 land"),
        ("failed read cert", "cert is none: it is missing", "publish-country db 2024 --exact=none land --parcels"),
        (
            "failed read cert region west",
            "cert of region west is land/west/cert.txt: it is missing",
            "publish-country db 2024 --exact none land",
        ),
        ("failed write cert", "cert is no/c.txt: it is missing, and so is the folder no", "cut release no/c.txt"),
        ("failed write cert", "cert is full: it is a folder", "cut release full"),
        ("failed write cert", "cert is old.txt: it is there, and writing it failed", "cut release old.txt"),
        (
            "failed write cert",
            "cert is no/c.txt: it is missing, and so is the folder no",
            "exact db release old.txt no/c.txt",
        ),
        (
            "failed write cert",
            "cert is no/c.txt: it is missing, and so is the folder no",
            "exact-country db land no/c.txt",
        ),
        ("failed write out", "standard output could not be written: writing it failed", "check release old.txt"),
        ("failed store", "the register is no/r.db: it is missing, and so is the folder no", "trace no/r.db A"),
        ("failed store", "the register is full: it is a folder", "publish full 2024 release old.txt"),
        ("failed store", "the register is full: it is a folder", "exact full release old.txt out.txt"),
        ("failed store", f"the register is own.db: {IDLE}", "trace own.db X"),
        ("failed store", "the register is gone/r.db: it is missing, and so is the folder gone", "trace gone/r.db X"),
        ("failed store", "the register is cut.db: SQLite says of it: *", "trace cut.db X"),
    ),
)
def test_told(said, line, wanted, words):
    like(wanted, said("cause", line, *words.split()))


@pytest.mark.skipif(os.geteuid() == 0, reason="root may write everywhere")
@pytest.mark.parametrize(
    "path, wanted",
    (
        ("closed/c.txt", "there is no permission to write into the folder closed"),
        ("old.txt", "there is no permission to write it"),
    ),
)
def test_no_permission(house, said, path, wanted):
    closed = house.folder / ("closed" if path.startswith("closed") else path)
    before = closed.stat().st_mode
    closed.chmod(before & ~0o222)
    try:
        assert said("cause", "failed write cert", "cut", "release", path) == f"cert is {path}: {wanted}"
    finally:
        closed.chmod(before)


@pytest.mark.parametrize(
    "line, wanted, words",
    (
        ("failed write out", "standard output could not be written: the disk is full", "check release old.txt"),
        ("failed store", FULL, "publish own.db 2024 large old.txt"),
        ("failed store", FULL, "publish-country own.db 2024 wide"),
    ),
)
def test_full_disks(said, monkeypatch, line, wanted, words):
    """Where a disk has that few bytes free."""
    free = 1000 if line.endswith("out") else 2_000_000
    monkeypatch.setattr(path_trouble, "free_at", lambda _: free)
    assert said("cause", line, *words.split()) == wanted


@pytest.mark.parametrize(
    "after, wanted",
    (("| :", "the program that reads it ended early"), (">/dev/full", "its device takes no more")),
)
def test_outputs(house, after, wanted):
    ended = house.run("bash", "-c", f"house/lpis check release old.txt 2>err {after}; cat err", LINE="failed write out")
    assert ended.stdout.splitlines()[-1] == f"lpis: standard output could not be written: {wanted}"


def test_input(house):
    """Standard input is the caller's."""
    assert house.run("bash", "-c", "echo 'a line' | house/lpis read").stdout == "a line\n"


@pytest.mark.parametrize(
    "wanted, words",
    (
        (MISSING, ("trace", "missing.db", "X")),
        (MISSING, ("publish", "missing.db", 2024, "release", "old.txt")),
        (MISSING, ("exact", "missing.db", "release", "old.txt", "out.txt")),
        (MISSING, ("publish-country", "--exact", "old.txt", "missing.db", 2024, "land", "--parcels")),
        (MISSING, ("exact-country", "missing.db", "land", "old.txt")),
        (MISSING, ("trace", "missing.db", "X", "Y", "X")),
        ("", ("trace", "missing.db")),  # these words are none of a command line
        ("", ("publish-country", "missing.db", 2024, "--exact", "land")),
    ),
)
def test_before(house, wanted, words):
    """What the script says of a register before the program runs."""
    ended = ended_with(0, house.lpis(*words, YES=1))
    assert ended.stdout == f"out {' '.join(map(str, words))}\n"
    assert ended.stderr == (f"lpis: {wanted}\n" if wanted else "")


@pytest.mark.parametrize(
    "wanted, register",
    (
        (f"empty.db was empty: {NEW}", "empty.db"),
        ("text.db is no SQLite database", "text.db"),
        ("other #1.db has tables of another program and none of a register: *", "other #1.db"),
        ("", "own.db"),
        ("", "both.db"),  # a register beside others' tables
    ),
)
def test_registers(said, wanted, register):
    like(wanted, said("before", "trace", register, "X"))


@pytest.mark.parametrize("holding, may_be_unknown", ((EXCLUSIVE, True), (OPEN_FILE, False)))
def test_held(house, holding, may_be_unknown):
    with subprocess.Popen([sys.executable, "-c", holding], cwd=house.folder) as holder:
        until((house.folder / "held").exists, "held")
        told = house.lpis("trace", "own.db", "X", LINE="failed store").stderr.splitlines()[-1]
        found = told.removeprefix("lpis: the register is own.db: ")
        holder.kill()
    (house.folder / "held").unlink()
    named = re.fullmatch(rf"the process {holder.pid} \(python3?[\d.]*\) holds it", found)
    assert named or (may_be_unknown and found == "another process holds it"), found


@pytest.mark.parametrize("number", (signal.SIGTERM, signal.SIGINT, signal.SIGHUP))
def test_stopped_in_its_writing(house, number):
    """The program has ended when the script ends, and the register is as before."""
    base, writing = house.folder / "register.db", house.folder / "writing"
    base.unlink(missing_ok=True)
    made(house.folder, "register", "CREATE TABLE lpis_release (year); INSERT INTO lpis_release VALUES (2024);")
    with subprocess.Popen(["house/lpis", "hold"], stderr=subprocess.DEVNULL, **house.words({})) as script:
        until(writing.exists, "writing")
        program = int(writing.read_text(encoding="ascii"))
        writing.unlink()
        script.send_signal(number)
    assert script.returncode == -number and not os.path.exists(f"/proc/{program}/exe")
    with sqlite3.connect(base) as found:
        assert found.execute("SELECT year FROM lpis_release").fetchall() == [(2024,)]
        assert found.execute("PRAGMA integrity_check").fetchone() == ("ok",)


@pytest.mark.parametrize(
    "statements, wanted",
    (
        ("", IDLE),
        (
            "CREATE TABLE f (a REFERENCES lpis_release); CREATE INDEX i ON f (a); CREATE UNIQUE INDEX j ON f (a);"
            " CREATE INDEX k ON lpis_row (old DESC)",
            IDLE,
        ),
        (
            "CREATE VIEW v AS SELECT count(*) FILTER (WHERE old > 'A') FROM lpis_row",
            PERHAPS.format("the view v has words of SQL that the program does not read"),
        ),
        (
            "CREATE TABLE f (a); CREATE INDEX i ON f (a) WHERE a > 1;"
            " CREATE TRIGGER t DELETE ON f BEGIN SELECT 1; END",
            IDLE,
        ),
        (
            "CREATE TRIGGER watch AFTER INSERT ON LPIS_text BEGIN SELECT 1; END",
            "the trigger watch on lpis_text: drop it",
        ),
        (
            "CREATE INDEX some ON lpis_text (id) WHERE id > 'A'",
            "the index some on lpis_text, of a part of its rows: drop it",
        ),
        ("CREATE INDEX small ON lpis_row (lower(old))", "the index small on lpis_row, of an expression: drop it"),
        ("CREATE VIEW lpis_mark AS SELECT 1", "the view lpis_mark has the name of a table of a register: drop it"),
        (
            "CREATE VIEW v AS SELECT 1 AS a; CREATE TRIGGER t INSTEAD OF INSERT ON v BEGIN SELECT 1; END",
            "the trigger t on v: drop it",
        ),
        (
            "CREATE TABLE f (a REFERENCES lpis_release); CREATE TRIGGER t DELETE ON f BEGIN SELECT 1; END",
            "the trigger t on f, which has a foreign key: drop it",
        ),
        (
            "CREATE TABLE f (a REFERENCES lpis_release); CREATE INDEX i ON f (a) WHERE a > 1",
            "the index i on f, of a part of its rows: drop it",
        ),
        (
            "CREATE TABLE lpis_mark (year, pos); INSERT INTO lpis_mark VALUES (2025, 'x')",
            "the table lpis_mark has a value of pos that is no integer: take the register from its last copy",
        ),
        (
            "DROP TABLE lpis_text; CREATE TABLE lpis_text (id)",
            "the table lpis_text has no column wkt: take the register from its last copy",
        ),
        (
            "CREATE TABLE f (a REFERENCES lpis_text (id))",
            PERHAPS.format("the foreign key of f to lpis_text refused a row"),
        ),
        (
            "CREATE UNIQUE INDEX one ON lpis_row (old)",
            PERHAPS.format("the unique index one on lpis_row refused a row"),
        ),
        (
            "CREATE TABLE f (a REFERENCES lpis_release); INSERT INTO f VALUES (2024)",
            "a row of f names a row of lpis_release that is not there",
        ),
        (
            "CREATE VIRTUAL TABLE words USING fts5 (a)",
            "the virtual table words: drop it, or keep it in another file",
        ),
    ),
)
def test_guests(house, said, statements, wanted, request):
    """What others have put into a register's file."""
    name = f"guests{request.node.callspec.indices['statements']}"
    try:
        made(house.folder, name, REGISTER + statements)
    except sqlite3.OperationalError:
        pytest.skip("this SQLite has no fts5")
    assert said("cause", "failed store", "trace", f"{name}.db", "X") == f"the register is {name}.db: {wanted}"
