"""Runs commands with the Nth request for memory refused, N from 1 to the last that they make, by refuse_nth.c.

Each run that met a refusal has to end with status 3, `failed memory` (or `failed store`, where the database met it) and
nothing on standard output, but for the lines of a country's regions that had passed. A certificate that was there, and
the history and the shapes in the register, have to be as before, by SQLite; the same command afterwards has to answer
as usual. A command over a register may also answer as usual and leave what it leaves as usual: the database does
without room that only makes it faster. Each N is tried twice: alone, and with every later request refused too. A
command over a register makes thousands of requests. REFUSED in the environment says how many are refused: `few` of
any command (FEW), which it is where nothing is said; `some`: all, or where they are MANY a SAMPLE from a fixed seed;
`all`."""

import os
import pathlib
import random
import re
import shutil
import tempfile

from lpis_helpers import calls
from lpis_helpers import country_example
import pytest
from lpis_helpers.places import TOP
from lpis_helpers.registers import VERSION_1, VERSION_2, VERSION_3, WITHOUT_MARKS, made, said

EXAMPLES = pathlib.Path(TOP, "examples")
SECONDS, MANY, SAMPLE, FEW, SEED = 60, 1_000, 100, 12, 20_261_123
# A file system in memory, where there is one: the register is put on its disk by each publish.
FAST = "/dev/shm" if os.access("/dev/shm", os.W_OK) else None
FAILURES = {(3, b"failed memory\n"): "memory", (3, b"failed store\n"): "store"}

# B with each corner of its shape many times: a text of 37 KB, on pages of its own.
LONG = (
    "UPDATE lpis_text SET wkt ="
    f" 'POLYGON(({','.join(f'{corner},' * 749 + corner for corner in ['0.000 0.000', '5.000 0.000', '5.000 10.000', '0.000 0.000'])}))'"  # noqa: E501
    " WHERE id = 'B'"
)

# The parcels of examples/overlap with two triangles each and no pair line: refused with 67.
OVERLAP = """lpis-cert 2
piece west-1 2 0
t 0 0 50000 0 50100 60000
t 0 0 50100 60000 0 60000
piece east-1 2 0
t 50000 0 100000 0 100000 60000
t 50000 0 100000 60000 50000 60000
parcel west 0
parcel east 0
pairs 0
end
"""


def lpis(words, folder, **more):
    return calls.lpis(*words, cwd=folder, text=False, timeout=SECONDS, **more)


class Command:
    """The words of a command, the files that it finds in its folder, and which of them have to be as before where it
    fails."""

    def __init__(self, name, words, makers=(), *kept):
        self.name, self.words, self.makers, self.kept = name, words, makers, kept
        self.has_progress = "country" in words[0] and words[0] != "locate-country"

    def fill(self, folder):
        for make in self.makers:
            make(folder)

    def state(self, folder):
        """What the kept files say: the history and the shapes of a register, the bytes of a certificate."""
        return [said(folder / name) if name == "years.db" else (folder / name).read_bytes() for name in self.kept]


def older(folder):
    (folder / "cert.txt").write_text("older\n")


def overlapping(folder):
    (folder / "cert.txt").write_text(OVERLAP)


def certificate(release):
    return lambda folder: expect(0, lpis(["cut", EXAMPLES / release, "cert.txt"], folder))


def published(year):
    def make(folder):
        certificate(f"years/{year}")(folder)
        expect(0, lpis(["publish", "years.db", year, EXAMPLES / "years" / year, "cert.txt"], folder))

    return make


def register(*scripts):
    return lambda folder: made(folder / "years.db", *scripts)


def marked(folder):
    """The second year, with a split and a merge that are marked."""
    release = folder / "marked"
    shutil.copytree(EXAMPLES / "years" / "2025", release)
    lines = (release / "lineage.csv").read_text().splitlines()
    (release / "lineage.csv").write_text(
        "".join(f"{line},{mark}\n" for line, mark in zip(lines, ["exact", 1, 1, 1, 1, ""]))
    )
    expect(0, lpis(["cut", release, "cert.txt"], folder))
    expect(0, lpis(["exact", "years.db", "marked", "cert.txt", "exact.txt"], folder))


def narrowed(folder):
    """A successor of the split is a metre narrower than its half."""
    path = folder / "marked" / "parcels.csv"
    path.write_text(path.read_text().replace("60 30,60 60,30 60", "59 30,59 60,30 60"))


def expect(status, answer):
    if answer[0] != status:
        raise RuntimeError(f"a command ended with {answer}")


def cut(release):
    return Command(f"cut of {release}", ["cut", EXAMPLES / release, "cert.txt"], [older], "cert.txt")


def check(release, own=False):
    cert = EXAMPLES / release / "cert.txt" if own else "cert.txt"
    return Command(f"check of {release}", ["check", EXAMPLES / release, cert], [] if own else [certificate(release)])


def check_alone(release):
    return Command(f"check of {release}, without a certificate", ["check", EXAMPLES / release])


def pointed(folder):
    """Three points, of which two are in the square, and one in a table that is refused."""
    (folder / "points.csv").write_text("point,x,y\na,2.5,5\nb,7.5,5\nc,10,5\n")
    (folder / "bad.csv").write_text("point,x,y\na,one,5\n")


def locate(points):
    return Command(
        f"locate of {points}", ["locate", EXAMPLES / "square", EXAMPLES / "square" / "cert.txt", points], [pointed]
    )


def locate_alone(points):
    words = ["locate", EXAMPLES / "square", points]
    return Command(f"locate of {points}, without a certificate", words, [pointed])


def land(folder):
    """The country of the examples, with its certificates."""
    shutil.copytree(EXAMPLES / "country", folder / "land")
    for region in ("west", "southeast", "northeast"):
        expect(0, lpis(["cut", f"land/{region}", f"land/{region}/cert.txt"], folder))


def without_certificates(folder):
    """The regions lose theirs."""
    for path in folder.glob("*/*/cert.txt"):
        path.unlink()


def locate_country(points):
    return Command(f"locate-country of {points}", ["locate-country", "land", points], [land, pointed])


def country(year):
    """A year of examples/country-years in regions; the second after the first, with the blocks of its marks."""

    def make(folder):
        country_example.begin(folder, lambda *words: expect(0, lpis(words, folder)))
        if year == "2024":
            (folder / "years.db").unlink()

    return make


def unmarked_row(folder):
    """One row of the country's split loses its mark."""
    path = folder / "2025" / "southeast" / "lineage.csv"
    path.write_text(path.read_text().replace("ford-2,1", "ford-2,"))


def publish_country(name, year, makers, *options):
    return Command(
        f"publish-country of {name}", ["publish-country", "years.db", year, year, *options], makers, "years.db"
    )


def publish(name, year, *makers):
    words = ["publish", "years.db", year, EXAMPLES / "years" / year, "cert.txt"]
    return Command(f"publish of {name}", words, [*makers, certificate(f"years/{year}")], "years.db")


def publish_alone(name, *makers):
    """Of the second year, after the first, without a certificate."""
    words = ["publish", "years.db", "2025", "release"]
    return Command(f"publish of {name}, without a certificate", words, [published("2024"), *makers], "years.db")


def unnamed(folder):
    shutil.copytree(EXAMPLES / "years" / "2025", folder / "release")


def gap(folder):
    """The parcel of the release is larger than its pieces."""
    shutil.copytree(EXAMPLES / "gap", folder / "release")
    (folder / "release" / "lineage.csv").write_text("old,new\n")


def exact(name, *makers):
    """Of the marked year, over a certificate that stands at OUT."""
    return Command(
        f"exact of {name}",
        ["exact", "years.db", "marked", "cert.txt", "out.txt"],
        [published("2024"), marked, *makers, older_out],
        "years.db",
        "out.txt",
    )


def older_out(folder):
    (folder / "out.txt").write_text("older\n")


def trace(name, identifiers, *makers):
    return Command(f"trace of {name}", ["trace", "years.db", *identifiers.split()], makers, "years.db")


COMMANDS = [
    Command("--version", ["--version"]),
    Command("--help", ["--help"]),
    Command("a command line without a path", ["area"]),
    Command("a year that is none", ["publish", "years.db", "0", "release", "cert.txt"]),
    Command("a file that is missing", ["area", "missing.csv"]),
    Command("area of the square", ["area", EXAMPLES / "square.csv"]),
    *map(
        cut, ["square", "pasture", "holes", "junctions", "members", "sweep", "years/2024", "bowtie", "gap", "overlap"]
    ),
    *map(check, ["square", "pasture", "holes", "junctions", "members"]),
    check("older", own=True),
    *map(check_alone, ["square", "pasture", "gap", "bowtie"]),
    Command("check of overlap, without pair lines", ["check", EXAMPLES / "overlap", "cert.txt"], [overlapping]),
    *map(locate, ["points.csv", "bad.csv"]),
    *map(locate_alone, ["points.csv", "bad.csv"]),
    *map(locate_country, ["points.csv", "bad.csv"]),
    Command(
        "locate-country without certificates",
        ["locate-country", "land", "points.csv"],
        [land, without_certificates, pointed],
    ),
    Command("country of the example, with parcels", ["country", "land", "--parcels"], [land]),
    Command("country without certificates", ["country", "land"], [land, without_certificates]),
    publish("2024, in a new file", "2024"),
    publish("2025, after 2024", "2025", published("2024")),
    Command(
        "publish of 2025 with marks, after 2024",
        ["publish", "years.db", "2025", "marked", "exact.txt"],
        [published("2024"), marked],
        "years.db",
    ),
    Command(
        "publish of 2025 with marks and without blocks",
        ["publish", "years.db", "2025", "marked", "cert.txt"],
        [published("2024"), marked],
        "years.db",
    ),
    publish_alone("2025, after 2024", unnamed),
    publish_alone("a gap, after 2024", gap),
    exact("2025, after 2024"),
    exact("2025 with a split that is not exact", narrowed),
    publish("2025, a second time", "2025", published("2024"), published("2025")),
    publish_country("2024, in a new file", "2024", [country("2024")]),
    publish_country("2025, after 2024, with marks", "2025", [country("2025")], "--exact", "exact.txt", "--parcels"),
    publish_country("2025, without blocks", "2025", [country("2025")]),
    publish_country(
        "2025, without certificates", "2025", [country("2025"), without_certificates], "--exact", "exact.txt"
    ),
    publish_country(
        "2025, with a row that is not marked", "2025", [country("2025"), unmarked_row], "--exact", "exact.txt"
    ),
    publish_country("2024, a second time", "2024", [country("2025")]),
    Command(
        "exact-country of 2025",
        ["exact-country", "years.db", "2025", "out.txt"],
        [country("2025"), older_out],
        "years.db",
        "out.txt",
    ),
    Command(
        "exact-country of 2025 with a row that is not marked",
        ["exact-country", "years.db", "2025", "out.txt"],
        [country("2025"), unmarked_row, older_out],
        "years.db",
        "out.txt",
    ),
    trace("north", "north", published("2024"), published("2025")),
    trace("an identifier in no release", "brook", published("2024"), published("2025")),
    trace("several identifiers", "north south brook", published("2024"), published("2025")),
    trace("a new file", "north"),
    trace("a register of version 1", "A", register(VERSION_1)),
    trace("a register of version 2", "A", register(VERSION_2)),
    trace("a register of version 3", "A", register(VERSION_3)),
    trace("a register of version 3 without lpis_mark", "A", register(WITHOUT_MARKS)),
    trace("a register with a text of 3,000 points", "A", register(VERSION_3, LONG)),
]


class Refusals:
    """A command with its files, its usual answer, what it leaves, and how many requests it makes."""

    def __init__(self, command, folder, library):
        self.command, self.folder, self.library = command, folder, library
        folder.mkdir()
        command.fill(folder)
        with calls.copy_of(folder) as copy:
            self.before = command.state(copy)
        with calls.copy_of(folder) as copy:
            self.usual, self.after = lpis(command.words, copy), command.state(copy)
        with calls.copy_of(folder) as copy:
            *_, told = self.start(0, False, copy)
            self.requests = int(re.fullmatch(r"requests (\d+)\n", told).group(1))

    def numbers(self):
        """The requests to refuse: all, or a sample where there are many."""
        most, sample = {"all": (self.requests, 0), "some": (MANY, SAMPLE)}.get(os.environ.get("REFUSED"), (FEW, FEW))
        every = range(1, self.requests + 1)
        return every if self.requests <= most else sorted(random.Random(SEED).sample(every, sample))

    def start(self, number, goes_on, folder):
        """The answer where the request of this number is refused, and what refuse_nth.c told."""
        end, told = os.pipe()
        environment = dict(
            os.environ, LD_PRELOAD=self.library, REFUSE=str(number), REFUSE_ON=str(int(goes_on)), TOLD=str(told)
        )
        answer = lpis(self.command.words, folder, env=environment, pass_fds=(told,))
        os.close(told)
        with os.fdopen(end) as text:
            return (*answer, text.read())

    def ending(self, number, goes_on):
        """How a run ended whose request of this number was refused: `memory`, `store`, `usual`, or what is not
        right."""
        with calls.copy_of(self.folder) as copy:
            *answer, told = self.start(number, goes_on, copy)
            answer, refused = tuple(answer), re.match(r"refused .*", told)
            if not refused:
                return f"met no refusal: {answer}"
            if self.failure_of(answer) is None:
                # The database has caches that need not grow, and need not copy its log at the end.
                as_usual = (
                    answer == self.usual and "years.db" in self.command.kept and self.command.state(copy) == self.after
                )
                return "usual" if as_usual else f"{refused.group(0)}: {answer}"
            with calls.copy_of(copy) as seen:
                if self.command.state(seen) != self.before:
                    return f"{refused.group(0)}: {' or '.join(self.command.kept)} is not as before"
            again = lpis(self.command.words, copy)
            if again != self.usual or self.command.state(copy) != self.after:
                return f"{refused.group(0)}: the same command afterwards answered {again}"
            return self.failure_of(answer)

    def failure_of(self, answer):
        """Which failure a run ended with; None where it is none, or where it printed more than the lines of regions
        that had passed."""
        status, text, told = answer
        is_progress = (
            self.command.has_progress
            and self.usual[1].startswith(text)
            and all(line.startswith((b"region ", b"parcel ")) for line in text.splitlines())
        )
        return FAILURES.get((status, told)) if not text or is_progress else None


@pytest.fixture(scope="module")
def library(preloaded):
    return str(preloaded(pathlib.Path(__file__).with_name("refuse_nth.c")))


@pytest.mark.parametrize("command", COMMANDS, ids=[command.name for command in COMMANDS])
def test_refused_requests(command, library):
    """Each run that met a refusal ends as it may; how many did stands in the message."""
    with tempfile.TemporaryDirectory(dir=FAST) as top:
        refusals = Refusals(command, pathlib.Path(top, "files"), library)
        endings = {
            (number, goes_on): refusals.ending(number, goes_on)
            for number in refusals.numbers()
            for goes_on in (False, True)
        }
    wrong = {request: ending for request, ending in endings.items() if ending not in ("memory", "store", "usual")}
    assert endings and not wrong, f"{len(wrong)} of {len(endings)} runs, of {refusals.requests} requests"
