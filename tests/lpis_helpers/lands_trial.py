"""A trial of one land, or of one damaged source: every run of the tools over it, and what is not as it has to be."""

import contextlib
import hashlib
import json
import os
import re
import shutil
from pathlib import Path

from lpis_helpers import lands_damage
from lpis_helpers import lands_conflicts
from lpis_helpers import lands_source
from lpis_helpers.calls import lpis, records
from lpis_helpers.country_example import regions_of
from lpis_helpers.lands_judge import Judge, Written, rings_of

STATUSES = {0, 1, 64}
UNFORESEEN = 70  # the status of an error that nobody foresaw
PROGRESS = re.compile(r"(prepare|country): (reading|testing|borders|faces|tables|conflicts|comparing)")
NO_CUT = "no cut separates them"
KEPT = ".cells"  # what a refused run keeps for one that accepts
STANDING = ".lpis-standing"  # what a folder's tables are: of which run, and whether it came to its end
MOST_TRIANGLES = 2_000_000  # of a certificate
TABLES = ("parcels.csv", "covers.csv", "classes.csv")


def digests(folder):
    """The files of a folder with their digests, but for that which has the time of its run."""
    found = {}
    for where, _, names in os.walk(folder):
        for name in set(names) - {STANDING}:
            path = os.path.join(where, name)
            found[os.path.relpath(path, folder)] = hashlib.sha256(Path(path).read_bytes()).hexdigest()
    return found


def triangles_of(folder):
    """How many triangles the pieces of a folder's tables want: two less than its corners for each member, and two
    more for each hole."""
    rings = [ring for record in records(folder, "covers.csv") for ring in rings_of(record["wkt"])]
    return sum(len(points) - 1 + (2 if is_hole else -2) for points, is_hole in rings)


class Enough(Exception):
    """The first fault was found, and no other is wanted."""


class Trial:
    """The runs over one source. A fault is a kind and its words; where the first one alone is wanted, it ends the
    trial."""

    def __init__(self, runner, folder, points, is_first_enough=False):
        self.runner, self.folder, self.points, self.faults, self.runs, self.is_first_enough = (
            runner,
            folder,
            points,
            [],
            [],
            is_first_enough,
        )

    def path(self, name):
        return os.path.join(self.folder, name)

    def say(self, kind, words):
        self.faults.append((kind, words))
        if self.is_first_enough:
            raise Enough

    def run(self, tool, *words, statuses=STATUSES):
        """A run that has to end as the documents say."""
        run = self.runner.run(tool, *words, points=self.points)
        self.runs.append(run)
        where = f"{tool} {'--accept ' * ('--accept' in words)}"
        if run.status in (None, -9):
            self.say("time", f"{where}took more than {run.seconds:.0f} s, of {self.points} points")
        elif "Traceback" in run.told + run.text or run.status == UNFORESEEN:
            self.say("crash", f"{where}{place_of(run.told + run.text)}: {last_line(run.told)}")
        elif run.status not in statuses:
            self.say("status", f"{where}ended with {run.status}: {last_line(run.told, run.text)}")
        elif run.status and not run.told.strip() and not run.text.strip():
            self.say("mute", f"{where}ended with {run.status} and without a word")
        return run

    def prepared(self, source, out, *words):
        """A run of prepare, and whether what it left is whole."""
        before, is_fresh = digests_of(source), not os.path.isdir(out)
        run = self.run("prepare", source, out, *words)
        if digests_of(source) != before:
            self.say("source", "prepare changed its source")
        names = set(os.listdir(out)) if os.path.isdir(out) else set()
        own = {STANDING, *([KEPT] if run.status == 1 else [])}
        if leftovers := sorted(name for name in names - own if name.startswith(".") or name.endswith(".new")):
            self.say("leftovers", f"prepare left {' '.join(leftovers)}")
        if STANDING in names and (state_of(out) == "whole") != (run.status == 0):
            self.say("standing", f"status {run.status}, and the folder is {state_of(out)}")
        there = [name for name in TABLES[:2] if name in names]
        if run.status == 0 and len(there) < 2:
            self.say("tables", f"status 0 without {' '.join(sorted(set(TABLES[:2]) - set(there)))}")
        elif run.status == 0 and not all(records(out, name) for name in TABLES[:2]):
            self.say("nothing", "status 0 and a table without a row")
        elif run.status and there and is_fresh:
            self.say("tables", f"status {run.status} with {' '.join(there)}")
        if run.status == 1 and "no table is written" not in run.text:
            self.say("mute", "status 1, and no word that no table is written")
        return run

    # What follows the tables.

    def proved(self, out):
        """The program's yes of tables that were written, with the judge's area."""
        if not os.path.exists(os.path.join(out, "classes.csv")):
            return
        cert = self.path("cert.txt")
        for words in (["cut", out, cert], ["check", out, cert]):
            status, text, told = lpis(*words)
            if text.startswith("refused 40 ") and triangles_of(out) > MOST_TRIANGLES:
                return  # too large for one certificate, as docs/GUIDE.md says: it goes into regions
            if status != 0:
                self.say("refused", f"lpis {words[0]}: {(text + told).strip()[-200:]}")
                return
        lines = text.splitlines()
        doubled = sum(Written(record, "parcels").area2 for record in records(out, "parcels.csv"))
        wanted = f"{doubled // 2_000_000}.{doubled % 2_000_000 * 5:07d}"
        if lines[-1] != "yes" or f" area {wanted} " not in f"{lines[-2]} ":
            self.say("area", f"lpis check: {' '.join(lines[-2:])}, and the judge has {wanted}")

    def audited(self, source, out, *words):
        """`audit/source.py` says yes of the tables."""
        told = lands_conflicts.audited(source, out, *words)
        if told != "yes":
            self.say("audit", told[:300])

    def same_balance(self, folder, out):
        """The balance of a split has the areas of the tables, as its source too."""
        here = {(record["layer"], record["class"]): record for record in records(out, "balance.csv")}
        for record in records(folder, "balance.csv"):
            group = record["layer"], record["class"]
            mine = here.get(group, {}).get("tables_m2", "0")
            for name, room in (("tables", 0.002), ("source", 0.01)):
                if abs(float(record[f"{name}_m2"]) - float(mine)) > room:
                    self.say("split", f"{name} of {group}: split has {record[f'{name}_m2']}, and prepare {mine} m2")

    def split(self, out):
        if not os.path.exists(os.path.join(out, "classes.csv")):
            return
        country = self.path("country")
        shutil.rmtree(country, ignore_errors=True)
        count = len(records(out, "parcels.csv"))
        run = self.run("country", "split", out, country, "--parcels", str(max(4, count // 3)))
        if run.status == 1 and NO_CUT in run.text + run.told:  # islands in islands
            run = self.run("country", "split", out, country)
        if run.status != 0:
            self.say("split", f"split ended with {run.status}: {last_line(run.told, run.text)}")
            return
        self.judge_regions(out, country)

    def judge_regions(self, out, country):
        """The regions of a country have each row of the tables, and nothing else; each gets its yes."""
        regions = regions_of(country)
        for name in TABLES[:2]:
            wanted = {tuple(record.items()) for record in records(out, name)}
            found = {
                tuple(record.items()) for region in regions for record in records(os.path.join(country, region), name)
            }
            if wanted != found:
                self.say(
                    "split",
                    f"{name}: {len(wanted - found)} rows are in no region, {len(found - wanted)} are of no table",
                )
        if any(
            records(os.path.join(country, region), "classes.csv") != records(out, "classes.csv")
            for region in ("", *regions)
        ):
            self.say("split", "the classes of a region, or of the country, are others")
        self.same_balance(country, out)
        for region in regions:
            lpis("cut", os.path.join(country, region), os.path.join(country, region, "cert.txt"))
        status, text, told = lpis("country", country)
        if status != 0:
            self.say("split", f"lpis country: {(text + told).strip()[-200:]}")


def state_of(folder):
    """What a folder of tables is, as the file in it says."""
    return json.loads(Path(folder, STANDING).read_text(encoding="utf-8"))["state"]


def digests_of(path):
    if os.path.isdir(path):
        return digests(path)
    beside = {name for name in os.listdir(os.path.dirname(path)) if name.startswith(os.path.basename(path))}
    return beside, hashlib.sha256(Path(path).read_bytes()).hexdigest()


def last_line(*texts):
    """What was said last, but for lines of progress."""
    lines = [line for text in texts for line in text.strip().splitlines() if line.strip() and not PROGRESS.match(line)]
    return lines[-1][:300] if lines else "nothing"


def place_of(text):
    """Where a traceback, here or in the file that is named, says that it happened: the innermost function of the
    tools."""
    named = re.search(r"the traceback is in (\S+)", text)
    if named and os.path.exists(named[1]):
        text = Path(named[1]).read_text(encoding="utf-8")
    places = re.findall(r'File "[^"]*/(?:tools|python/src/lpis)/([^"]*)", line \d+, in (\S+)', text)
    return " ".join(places[-1]) if places else "somewhere"


def of_land(land, runner, folder, is_first_enough=False):
    """What does not hold of a land, of all that has to hold: its faults."""
    shutil.rmtree(folder, ignore_errors=True)
    os.makedirs(folder)
    trial = Trial(runner, folder, land.points(), is_first_enough)
    with contextlib.suppress(Enough):
        try_land(trial, land, folder)
    return trial.faults


def try_land(trial, land, folder):
    source, words = lands_source.write(land, folder)
    if isinstance(land, lands_conflicts.Conflicts):
        lands_conflicts.try_conflicts(trial, land, source)
        return
    plain, accepted, out = trial.path("plain"), trial.path("accepted"), trial.path("accepted")
    first = trial.prepared(source, plain, *words)
    run = trial.prepared(source, accepted, *words, "--accept")
    if 64 in (first.status, run.status):
        trial.say("status", f"prepare ended with 64: {last_line(run.told)}")
    if land.is_clean and land.classes_given != "none" and first.status != 0:
        trial.say("clean", f"a clean land has something to look at: {last_line(first.text)}")
    if run.status not in (0, 1) or any(kind == "crash" for kind, _ in trial.faults):
        return
    again(trial, land, source, words, run)
    if run.status == 0:
        if first.status == 0:
            same(
                trial,
                "plain and accepted",
                {name: value for name, value in digests(plain).items() if name in TABLES},
                {name: value for name, value in digests(out).items() if name in TABLES},
            )
        for fault in Judge(land, out).judge():
            trial.say(*fault)
        trial.proved(out)
        trial.audited(source, out, *words)
        trial.split(out)
        next_year(trial, source, out, words)


def again(trial, land, source, words, before):
    """A second run, into a fresh folder or over what the first one left, gives the same bytes and says the same."""
    out, kept = trial.path("accepted"), digests(trial.path("accepted"))
    if land.seed % 2:
        shutil.move(out, trial.path("first"))
    run = trial.prepared(source, out, *words, "--accept")
    same(trial, "the first and the second run", kept, digests(out))
    if (run.status, run.text) != (before.status, before.text):
        trial.say("again", f"the second run says {last_line(run.text)}, and the first {last_line(before.text)}")


def next_year(trial, source, out, words):
    """What a run wrote the next year's run takes: the same source has the same names then, and its tables get their
    yes."""
    names, later = os.path.join(out, "identifiers.csv"), trial.path("later")
    run = trial.prepared(
        source,
        later,
        *words,
        "--accept",
        "--previous",
        out,
        *(["--identifiers", names] if os.path.exists(names) else []),
    )
    if run.status != 0:
        trial.say("next year", f"the next year's run ended with {run.status}: {last_line(run.told, run.text)}")
        return
    for name, keys in (("parcels.csv", ["parcel"]), ("covers.csv", ["piece", "parcel", "class"])):
        before, after = (
            {tuple(record[key] for key in keys) for record in records(folder, name)} for folder in (out, later)
        )
        if before != after:
            trial.say(
                "next year",
                (
                    f"{name}: {len(before - after)} rows are gone and {len(after - before)} came, such as"
                    f" {sorted(before ^ after)[:2]}"
                ),
            )
    trial.proved(later)


def same(trial, what, one, other):
    if one != other:
        trial.say(
            "again",
            f"{what} differ in {' '.join(sorted(name for name in {*one, *other} if one.get(name) != other.get(name)))}",
        )


def of_damaged(number, runner, folder):
    """What does not hold of the damaged source of a number, and what was done to it: it ends as the documents say,
    and what is written gets its yes."""
    shutil.rmtree(folder, ignore_errors=True)
    os.makedirs(folder)
    path, words, done, points = lands_damage.damaged(number, folder)
    trial = Trial(runner, folder, points)
    for name, more in (("plain", []), ("accepted", ["--accept"]))[number % 3 == 0 :]:
        out = trial.path(name)
        run = trial.prepared(path, out, *words, *more)
        if run.status == 0:
            trial.proved(out)
            if "the balance adds up" not in run.text:
                trial.say("uneven", f"prepare: {last_line(run.text)}")
    return trial.faults, done
