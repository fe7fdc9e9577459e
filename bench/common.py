"""What the benches share. A bench is a script of this folder that measures one thing. Its docstring says what is
measured beside what, what is wanted and with which words it is run; constants and a `main` follow. It prints a page of
Markdown: a heading, a line on what it is, a table, and under it what was wanted and what was got. `bench/all` runs
them, and keeps the page of NAME as bench/results/NAME.md.

`LPIS=PROGRAM` in the environment names another `lpis` than the one that ./lpis runs. `BEFORE=PROGRAM` names an earlier
`lpis`, which bench/beside_check runs too."""

import collections
import functools
import json
import multiprocessing
import os
import random
import resource
import shutil
import subprocess
import sys
import tempfile
import textwrap

HERE = os.path.dirname(os.path.realpath(__file__))
TOP = os.path.dirname(HERE)
# before all that is installed: tests and benches share lpis_helpers
sys.path[:0] = [os.path.join(TOP, "tests"), os.path.join(TOP, "python", "src")]
from lpis_helpers.places import run_helper  # noqa: E402

MEGABYTE = 1_000_000
RUNS, WIDTH, MOST_FAULTS = 3, 120, 20
# a folder for files that are written and synced often
IN_MEMORY = "/dev/shm" if os.access("/dev/shm", os.W_OK) else None
TABLES = ["parcels.csv", "covers.csv", "classes.csv"]
CERT = "cert.txt"

# The command line and the temporary files.


def options(*flags, words=""):
    """Which of these flags are on the command line, and the other words. Where words that begin with a dash are none of
    them, or no other words are taken, the docstring is printed."""
    given = [word for word in sys.argv[1:] if word in flags]
    others = [word for word in sys.argv[1:] if word not in flags]
    if any(word.startswith("-") for word in others) or (others and not words):
        print(sys.modules["__main__"].__doc__)
        sys.exit(0 if others[0] in ("-h", "--help") else 2)
    return *(flag in given for flag in flags), others


def sized(sizes, of_few):
    """Whether --few is on the command line, and the sizes that are; where none is, these."""
    few, words = options("--few", words="SIZE")
    return few, sorted(int(word.replace(",", "")) for word in words) or (of_few if few else sizes)


def temporary(where=None):
    """A folder that is gone at the end of a `with`."""
    return tempfile.TemporaryDirectory(prefix="lpis-bench-", dir=where)


def compiled(folder, name):
    """A program in C++ of bench/, built."""
    compiler = shutil.which("g++") or sys.exit("no g++ (Debian: g++)")
    program = os.path.join(folder, name)
    subprocess.run([compiler, "-std=c++17", "-O2", "-o", program, os.path.join(HERE, f"{name}.cpp")], check=True)
    return program


def certified(size, folder):
    """A release of so many parcels with T-junctions and holes, and its certificate."""
    run_helper("make_parcels", size, folder, "straight")
    done([lpis(), "cut", folder, os.path.join(folder, CERT)])


def bytes_of(folder, names):
    return sum(os.path.getsize(os.path.join(folder, name)) for name in names)


# The programs.


@functools.cache
def lpis():
    """The path of the program that is run: named by LPIS, or the one that ./lpis runs."""
    if "LPIS" in os.environ:
        return os.path.realpath(os.environ["LPIS"])
    found = subprocess.run([os.path.join(TOP, "lpis"), "program"], stdout=subprocess.PIPE, text=True, check=False)
    return found.stdout.rstrip("\n") if found.returncode == 0 else sys.exit(found.returncode)


def before():
    """The words that begin a command of the earlier program, or none where no such program is named."""
    return [os.path.realpath(os.environ["BEFORE"])] if "BEFORE" in os.environ else []


# Runs.

# A run's peak counts that of the process that starts it, so a small one does: a floor of about 10 MB.
STARTER = """
import json, os, resource, sys, time
end, limits, wall = json.loads(sys.argv[1])
os.set_inheritable(end, False)
for kind, most in limits:
    resource.setrlimit(kind, (most, most))
start = time.perf_counter()
child = os.posix_spawn(sys.argv[2], sys.argv[2:], os.environ)
pid, status, usage = os.wait4(child, os.WNOHANG if wall else 0)
while not pid:
    time.sleep(0.003)
    if time.perf_counter() - start > wall:
        os.kill(child, 9)
    pid, status, usage = os.wait4(child, os.WNOHANG)
took = time.perf_counter() - start
os.write(end, json.dumps([os.waitstatus_to_exitcode(status), usage.ru_utime + usage.ru_stime, took, usage.ru_maxrss * 1024]).encode())
"""  # noqa: E501

Run = collections.namedtuple("Run", "status text told seconds wall peak")


def limited(room, seconds_):
    """Limits of an address space of so many bytes, so many seconds of a processor, and no dump."""
    return [(resource.RLIMIT_AS, room), (resource.RLIMIT_CPU, seconds_), (resource.RLIMIT_CORE, 0)]


def run(words, folder=None, limits=(), wall=None):
    """Status, standard output, standard error, processor seconds, wall seconds and peak bytes of a run in a folder,
    with what the script `lpis` sets. Limits are pairs as of `setrlimit`; after so many seconds of wall the run is
    killed."""
    surroundings = {"MALLOC_MMAP_THRESHOLD_": "131072", **os.environ}
    words = [str(word) for word in words]
    words[0] = shutil.which(words[0]) or sys.exit(f"there is no {words[0]}")
    end, other = os.pipe()
    with tempfile.TemporaryFile() as out, tempfile.TemporaryFile() as err, os.fdopen(end, "rb") as figures:
        starter = [sys.executable, "-I", "-S", "-c", STARTER, json.dumps([other, list(limits), wall])]
        process = subprocess.Popen(
            [*starter, *words],
            cwd=folder,
            stdin=subprocess.DEVNULL,
            stdout=out,
            stderr=err,
            env=surroundings,
            pass_fds=[other],
        )
        os.close(other)
        said = figures.read()
        process.wait()
        texts = []
        for file in (out, err):
            file.seek(0)
            texts.append(file.read().decode("utf-8", "replace"))
    if not said:
        sys.exit(f"{words[0]} was not started: {texts[1][-300:]}")
    status, *rest = json.loads(said)
    return Run(status, *texts, *rest)


def answer(words):
    """Status, standard output and standard error of a run of which no figure is wanted: it starts sooner."""
    found = subprocess.run(
        [str(word) for word in words], stdin=subprocess.DEVNULL, capture_output=True, text=True, check=False
    )
    return found.returncode, found.stdout, found.stderr


def done(words, folder=None):
    """A run that has to end well."""
    found = run(words, folder)
    if found.status != 0:
        sys.exit(f"{' '.join(map(str, words))}: status {found.status}: {(found.text + found.told)[-300:]}")
    return found


def counts_in(text):
    """What a program counted: names and numbers, in turn."""
    words = text.split()
    return dict(zip(words[::2], map(int, words[1::2])))


def psql(database, *statements):
    """The words by which psql has statements done in a database."""
    return [
        "psql",
        "-X",
        "-q",
        "-A",
        "-t",
        "-v",
        "ON_ERROR_STOP=1",
        "-d",
        database,
        *(word for statement in statements for word in ("-c", statement)),
    ]


def dropped(database):
    """The end of a database; whether there is a server."""
    return bool(shutil.which("psql")) and answer(psql("postgres", f"drop database if exists {database}"))[0] == 0


def has_postgis(database):
    """Makes a database with PostGIS anew, where a server is reached; whether it is there."""
    return (
        dropped(database)
        and answer(psql("postgres", f"create database {database}"))[0] == 0
        and answer(psql(database, "create extension postgis"))[0] == 0
    )


def in_turns(works, runs=RUNS):
    """The best run of each of some works, which take turns, since a machine is not as quick in each minute."""
    turns = [[work() for work in works] for _ in range(runs)]
    return [least(made) for made in zip(*turns)]


def bests(commands):
    """The best run of each of some commands, which have to end well."""
    return in_turns([functools.partial(done, words) for words in commands])


def least(runs):
    """The least seconds and the greatest peak of runs of one command, which have to print the same."""
    if len({it.text for it in runs}) != 1:
        sys.exit(f"the runs print different texts: {[it.text[-200:] for it in runs]}")
    return runs[0]._replace(
        seconds=min(it.seconds for it in runs), wall=min(it.wall for it in runs), peak=max(it.peak for it in runs)
    )


# Sections.


def wrapped(text, indent=""):
    return textwrap.fill(text, WIDTH, subsequent_indent=indent, break_long_words=False, break_on_hyphens=False)


def section(what):
    """The heading, and a line on what is measured."""
    name = os.path.relpath(os.path.realpath(sys.modules["__main__"].__file__), TOP)
    print(f"# `{name}`\n\n{wrapped(what)}\n", flush=True)


class Table:
    """A table of Markdown, printed row by row."""

    def __init__(self, *columns):
        self.row(*columns)
        self.row(*["---"] * len(columns))

    def row(self, *cells):
        print(f"| {' | '.join(map(str, cells))} |", flush=True)


class Wanted:
    """The lines under a table: what was got, what was wanted, and whether it was met."""

    def __init__(self):
        self.lines = []

    def line(self, text):
        self.lines.append(wrapped(f"- {text}", "  "))

    def most(self, most, got, text, places=1):
        """The text says what was got, which stands in place of its braces."""
        self.judged(round(got, places) <= most, f"{most} or less", got, text, places)

    def least(self, least, got, text):
        self.judged(round(got, 1) >= least, f"{least} or more", got, text, 1)

    def judged(self, is_met, wanted, got, text, places):
        self.line(f"{text.format(f'{got:.{places}f}')} (wanted: {wanted}{'' if is_met else '; not met'})")

    def tell(self):
        print("\n" + "\n".join(self.lines), flush=True)


def seconds(value):
    return f"{value:.3f} s"


def megabytes(value):
    return f"{value / MEGABYTE:.1f} MB"


def both(run):
    """Seconds of wall, and of the processor in brackets."""
    return f"{run.wall:.2f} s ({run.seconds:.2f})"


def counted(passed, failed):
    """The last line of a bench that judges answers; answers its status."""
    print(f"{passed} passed, {failed} failed")
    return 1 if failed else 0


def side_by_side(judged, numbers, answers):
    """What is made of each number, in processes; once there are many that are not right, of no more. `judged`
    answers it with its faults behind it."""
    lpis()  # built before the processes begin
    with multiprocessing.Pool() as pool:
        for *found, faults in pool.imap(judged, numbers):
            answers.expect(not faults, *faults)
            yield *found, faults
            if answers.failed == MOST_FAULTS:
                return


class Judge:
    """Answers of the program about the years of a number, held against what is true. Each call of `wrong` is a
    fault."""

    def __init__(self, name, number, folder):
        self.name, self.folder, self.faults, self.numbers = name, folder, [], random.Random(-1 - number)
        self.register, self.copies = self.path("years.db"), 0

    def path(self, *names):
        return os.path.join(self.folder, *names)

    def wrong(self, what, found, wanted):
        self.faults.append(f"{self.name}: {what}: {found!r} in place of {wanted!r}")

    def cut(self, folder):
        """Writes the certificate of a release into its folder; whether there is one."""
        status, text, told = answer([lpis(), "cut", folder, os.path.join(folder, CERT)])
        if status != 0:
            self.wrong(f"cut of {folder}", text + told, "a certificate")
        return status == 0


class Answers:
    """How many answers are right. What is not, and what else is to be told, comes under the table."""

    def __init__(self):
        self.passed, self.failed, self.lines = 0, 0, []

    def expect(self, is_right, *what):
        self.passed += is_right
        self.failed += not is_right
        self.lines += [] if is_right else [f"not right: {line}" for line in what]

    def tell(self, *more):
        """Prints these lines, more of them, and last the counts; answers the bench's status."""
        print("", *(wrapped(f"- {line}", "  ") for line in [*self.lines, *more]), "", sep="\n", flush=True)
        return counted(self.passed, self.failed)
