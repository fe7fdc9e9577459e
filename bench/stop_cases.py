"""The cases of `bench/stops`: commands over a register, what each finds, what it answers, and what it leaves."""

import pathlib
import shutil
import signal
import subprocess
import tempfile

from common import CERT, HERE, compiled, done, lpis
from lpis_helpers import country_example
from lpis_helpers.calls import copy_of
from country_changes import add_lineage, change
from lpis_helpers.registers import NOTHING, VERSION_1, VERSION_2, WITHOUT_MARKS, made, register
from years import Years

PARCELS, SECONDS = 3_000, 60
SMALL = 10  # cases over small registers
NAME = "years.db"
FILES = NAME, f"{NAME}-wal"
EXAMPLES = pathlib.Path(HERE).parent / "examples"
STORE = (3, b"", b"failed store\n")
NO_DATABASE = "DatabaseError('file is not a database')"


class Case:
    """A command over a register: what it finds, what it answers, and what it leaves."""

    def __init__(self, name, folder, words):
        self.name, self.folder, self.words = name, folder, [lpis(), *map(str, words)]
        with copy_of(folder) as copy:
            self.before = register(copy / NAME)
        with copy_of(folder) as copy:
            self.answer, self.after = self.run(copy), register(copy / NAME)

    def start(self, folder, **more):
        """A run whose output goes to files, so that it never waits for a reader."""
        files = [tempfile.TemporaryFile() for _ in range(2)]
        process = subprocess.Popen(
            self.words, cwd=folder, stdin=subprocess.DEVNULL, stdout=files[0], stderr=files[1], **more
        )
        process.files = files
        return process

    def run(self, folder, **more):
        """Status, standard output and standard error of a run whose output no limit of files meets."""
        run = subprocess.run(
            self.words, cwd=folder, stdin=subprocess.DEVNULL, capture_output=True, timeout=SECONDS, **more
        )
        return run.returncode, run.stdout, run.stderr

    def left(self, folder, answer):
        """What a stopped run with this answer left in the folder, as `before` or `after`; else what is wrong with
        it."""
        if answer[0] not in (0, -signal.SIGKILL, -signal.SIGXFSZ) and answer != STORE:
            return f"ended with {answer}"
        with copy_of(folder) as copy:
            found = register(copy / NAME)
        if found == NO_DATABASE and self.before == NOTHING:
            # the first byte of a new file is written last: until then it is no database, and is made anew
            found = NOTHING
        is_done = found == self.after
        if not is_done and not self.is_before(found):
            return f"SQLite finds {str(found)[:300]}"
        if answer[1].endswith(self.told) and not is_done:
            return "it said that it was done, and SQLite finds the register before"
        again = self.run(folder)
        if again != (self.again if is_done else self.answer):
            return (
                f"SQLite finds the register {'after' if is_done else 'before'} it, and the same command answers {again}"
            )
        last = register(folder / NAME)
        return f"in the end SQLite finds {str(last)[:300]}" if last != self.after else "after" if is_done else "before"

    def is_before(self, found):
        """A register says what this one said; its tables may be there already, since an opening makes them before a
        release is written."""
        return (
            not isinstance(found, str)
            and found[1:] == self.before[1:]
            and found.version in (self.before.version, self.after.version)
        )

    @property
    def told(self):
        """The end of what a run prints that is done."""
        return self.answer[1].splitlines(True)[-1] if self.answer[1] else b"nothing"

    @property
    def again(self):
        """What a run answers after one that is done."""
        return (
            (1, f"refused 80 last {self.words[3]}\n".encode(), b"")
            if self.words[1].startswith("publish")
            else self.answer
        )


def ended(process):
    """Status, standard output and standard error at the end of a run."""
    process.wait(timeout=SECONDS)
    texts = []
    for file in process.files:
        file.seek(0)
        texts.append(file.read())
        file.close()
    return process.returncode, *texts


def years_case(folder):
    """The second year of 3,000 parcels, over a register of the first."""
    years, made_in = Years(str(folder), PARCELS), folder / "second"
    made_in.mkdir()
    for number in range(2):
        release, cert, _ = years.write(number)
        words = ["publish", NAME, 2021 + number, release, cert]
        if number == 0:
            done([lpis(), *words], made_in)
    return Case(f"publish of {PARCELS} parcels", made_in, words)


def small_cases(folder):
    """The first opening of a file, a second year, and the openings that move or complete a register."""
    years, empty, second = EXAMPLES / "years", folder / "new", folder / "years"
    release, cert = years / "2024", folder / CERT
    second.mkdir()
    for words in (
        ["cut", release, cert],
        ["publish", second / NAME, 2024, release, cert],
        ["cut", years / "2025", second / CERT],
    ):
        done([lpis(), *words])
    empty.mkdir()
    cases = [
        Case("publish in a new file", empty, ["publish", NAME, 2024, release, cert]),
        Case("publish of a second year", second, ["publish", NAME, 2025, years / "2025", second / CERT]),
        marked_case(folder),
        moved_case(second, folder),
        country_case(folder),
        Case("trace in a new file", empty, ["trace", NAME, "A"]),
    ]
    for name, script in {
        "version 1": VERSION_1,
        "version 2": VERSION_2,
        "version 3 without lpis_mark": WITHOUT_MARKS,
        "version 3 without lpis_text and lpis_mark": VERSION_2 + "UPDATE lpis_format SET version = 3",
    }.items():
        older = folder / name.replace(" ", "_")
        older.mkdir()
        made(older / NAME, script)
        cases.append(Case(f"trace of {name}", older, ["trace", NAME, "A"]))
    return cases


def marked_case(folder):
    """The second year of examples/exact, whose marked rows are written too."""
    years, made_in = EXAMPLES / "exact", folder / "marked"
    made_in.mkdir()
    for words in (
        ["cut", years / "2024", "2024.txt"],
        ["publish", NAME, 2024, years / "2024", "2024.txt"],
        ["cut", years / "2025", "2025.txt"],
        ["exact", NAME, years / "2025", "2025.txt", CERT],
    ):
        done([lpis(), *words], made_in)
    return Case("publish of a second year with marks", made_in, ["publish", NAME, 2025, years / "2025", CERT])


def country_case(folder):
    """The second year of examples/country-years in three regions, with the blocks of its marks."""
    made_in = folder / "country"
    made_in.mkdir()
    country_example.begin(made_in, lambda *words: done([lpis(), *words]))
    return Case(
        "publish-country of a second year with marks",
        made_in,
        ["publish-country", NAME, 2025, "2025", "--exact", "exact.txt"],
    )


def large_country(folder, count):
    """The second year of a country of so many parcels, of which one of twenty is changed; some are split, which is
    marked."""
    country, made_in, out = folder / "land", folder / "of_land", folder / "land.txt"
    done([compiled(str(folder), "make_country"), count, count * 2 // 5, country])
    add_lineage(str(country))
    made_in.mkdir()
    done([lpis(), "publish-country", NAME, 2024, country], made_in)
    change(str(country))
    done([lpis(), "exact-country", NAME, country, out], made_in)
    return Case(
        f"publish-country of {count:,} parcels", made_in, ["publish-country", NAME, 2025, country, "--exact", out]
    )


def moved_case(second, folder):
    """The second year over a register of version 2, which keeps no shapes of the first: that of the case `second`
    without its two tables."""
    made_in = folder / "moved"
    shutil.copytree(second, made_in)
    made(made_in / NAME, "DROP TABLE lpis_mark; DROP TABLE lpis_text; UPDATE lpis_format SET version = 2")
    return Case(
        "publish of a second year over version 2", made_in, ["publish", NAME, 2025, EXAMPLES / "years" / "2025", CERT]
    )
