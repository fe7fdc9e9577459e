"""Certificates of all regions by an engine that is there, make or Snakemake, and the check of the country."""

import json
import os
import shlex
import shutil
import subprocess
import sys

from . import jobs, snakefile
from ..faults import fault_search
from ..formats import drawing, tile_plan
from ..system import files, processes, program, progress
from ..system.printing import escaped
from .region_split import COUNTS, write
from ..formats.table_streams import Trouble

MOST_TOLD = 20
FEW = 2  # jobs that are done here: a process of its own takes longer to begin than they do
UNLIKE = "rows of it are in no region, or in the regions alone, or were changed"
MAKEFILE = """# The certificates of the regions of country.txt, many at once: make -f Makefile -r -k -j 4. LPIS is the program.
# Written by `country cut`. No rule that make knows by itself is used, so that nothing else in this folder is run.
MAKEFLAGS += -r
LPIS ?= lpis
REGIONS := {regions}
.PHONY: all
.SUFFIXES:

all: $(REGIONS:%=%/cert.txt)

%/cert.txt: %/parcels.csv %/covers.csv %/classes.csv
	@rm -f -- $@.new $*/cut.txt
	@$(LPIS) cut ./$* ./$@.new >$*/cut.txt && mv -- $@.new $@
	@echo "$*: $$(cat -- $*/cut.txt)"
"""  # noqa: E501


def prepared(words, folder, kind, plan, what="", base=None):
    """Has the jobs of a kind done; answers the names of the files that they give. `what` is done, where that is not
    as usual; `base` is the store where it is in memory: then they are done here."""
    if kind == "part":
        if all(os.path.exists(os.path.join(folder, part["file"])) for part in plan):
            return [part["file"] for part in plan]
        for name, text in ((jobs.PLAN, json.dumps(plan)), (jobs.PARTS, "".join(f"{part['file']}\n" for part in plan))):
            with files.anew(os.path.join(folder, name)) as file:
                file.write(text)
    else:
        jobs.forget(folder, kind)
        with files.anew(os.path.join(folder, jobs.COUNT)) as file:
            file.write(f"{len(plan)}\n")
    at_once = words.workers or len(os.sched_getaffinity(0))
    if words.snakemake or words.profile:
        by_snakemake(
            words.out,
            f"{kind}s",
            at_once,
            words.profile,
            progress.Quiet.is_quiet,
            {"LPIS_COUNTRY": shlex.join([sys.executable, jobs.TOOL])},
        )
        return jobs.done(folder, kind, plan)
    usual, things = {
        "part": ("reading", "parts"),
        "cell": ("rounding", "cells"),
        "gap": ("land between parcels", "cells"),
    }[kind]
    if base or (not words.workers and len(plan) <= FEW):
        worker = jobs.Worker(folder, base)
        return [
            worker.do(kind, number)
            for number in progress.each(range(len(plan)), progress.Quiet.tool, what or usual, len(plan), things, 1)
        ]
    shown = progress.Progress(progress.Quiet.tool, what or usual, len(plan), things)
    return jobs.do_all(folder, kind, len(plan), at_once, shown)


def by_snakemake(folder, target, at_once, profile, is_quiet, surroundings):
    """Runs a target of the Snakefile, which goes on where a job is refused."""
    if shutil.which("snakemake") is None:
        raise Trouble("there is no snakemake")
    put_snakefile(folder)
    own = os.path.join(folder, snakefile.OWN)
    if profile and os.path.realpath(profile) == os.path.realpath(own):
        # of later versions, which take these first
        if others := sorted(name for name in os.listdir(own) if name.startswith("config.v")):
            raise Trouble(
                f"{os.path.join(own, others[0])} was not made by this tool, and Snakemake may run it: remove it, or"
                " name a profile in another folder"
            )
    processes.run(
        snakefile.command(target, at_once, profile, is_quiet),
        cwd=folder,
        env=snakefile.surroundings(surroundings),
        stdout=2,
        check=False,
        pass_fds=files.locks(),
    )


def put_snakefile(folder):
    """Writes the Snakefile, and a profile for a cluster."""
    write(os.path.join(folder, "Snakefile"), snakefile.SNAKEFILE)
    os.makedirs(os.path.join(folder, snakefile.OWN), exist_ok=True)
    write(os.path.join(folder, snakefile.OWN, "config.yaml"), snakefile.PROFILE)


def lines_of_regions(folder):
    """How many lines of country.txt name a region, whatever else is wrong with it."""
    try:
        with open(os.path.join(folder, "country.txt"), "rb") as file:
            return sum(line.startswith(b"region ") for line in file)
    except OSError:
        return 0


def absolute(command):
    """The command as it is run from another folder."""
    found = shutil.which(command[0])
    return [os.path.abspath(found), *command[1:]] if found else command


def is_cut(folder, region):
    """Whether a region has a certificate that is no older than its tables."""
    times = []
    for name in ("cert.txt", "parcels.csv", "covers.csv", "classes.csv"):
        path = os.path.join(folder, region, name)
        if not os.path.exists(path):
            return False
        times.append(os.stat(path).st_mtime_ns)
    return times[0] >= max(times[1:])


def run(command, words, regions):
    """Runs the engine, which goes on where a region is refused."""
    folder, at_once = words.folder, words.jobs or len(os.sched_getaffinity(0))
    write(os.path.join(folder, "Makefile"), MAKEFILE.format(regions=" ".join(regions)))
    put_snakefile(folder)
    program = shlex.join(absolute(command))
    if words.profile or words.snakemake:
        by_snakemake(folder, "certificates", at_once, words.profile, True, {"LPIS": program})
        return
    if shutil.which("make") is None:
        raise Trouble("there is no make")
    engine = ["make", "-f", "Makefile", "-r", "-k", "--no-print-directory", "-j", str(at_once)]
    surroundings = {**os.environ, "LPIS": program.replace("$", "$$")}  # make works out what it has of the environment
    with processes.start(
        engine, cwd=folder, env=surroundings, stdout=subprocess.PIPE, text=True, pass_fds=files.locks()
    ) as make:
        # a line of each region that is cut
        for _ in progress.each(make.stdout, "country", "cutting", len(regions), "regions", 1):
            pass


def faults_of(command, folder, refused, say):
    """The faults of the regions that were refused, each once: two regions tell those of a guest."""
    features, lines = [], set()
    for region in refused:
        say(f"looking for all faults of region {region}")
        _, found = fault_search.find(command, os.path.join(folder, region))
        for feature in found:
            told = feature["properties"]
            names = (
                told["line"] if told["where"] == "" or " row " not in told["line"] else (told["code"], told["names"])
            )
            if (names, told["kind"]) not in lines:
                lines.add((names, told["kind"]))
                told["region"] = region
                features.append(feature)
    return features


def tell(features):
    """What is wrong, by identifier."""
    for feature in features[:MOST_TOLD]:
        told = feature["properties"]
        print(f"  region {told['region']}: {told['code']} {told['names']}: {told['meaning']}")
    if len(features) > MOST_TOLD:
        print(f"  and {len(features) - MOST_TOLD} more, in faults.geojson")


def cut(command, words, say):
    regions = tile_plan.of_folder(words.folder).folders
    run(command, words, regions)
    refused = [region for region in regions if not is_cut(words.folder, region)]
    for region in refused:
        try:
            with open(os.path.join(words.folder, region, "cut.txt"), encoding="utf-8", errors="replace") as file:
                print(f"region {region}: {escaped(file.read().strip()) or 'its cut failed'}")
        except OSError:
            print(f"region {region}: it was not cut")
    if refused:
        features = faults_of(command, words.folder, refused, say)
        with files.anew(os.path.join(words.folder, "faults.geojson")) as file:
            file.write(drawing.collection(features, None))
        tell(features)
    print(f"regions {len(regions)} refused {len(refused)}")
    return 1 if refused else 0


def counts_of(folder):
    """The counts and the area of the source, as the split wrote them into the first line, or None."""
    try:
        with open(os.path.join(folder, COUNTS), encoding="utf-8", errors="replace") as file:
            return file.readline().split()
    except FileNotFoundError:
        return None


def uncompared(folder):
    """What is told of a country without them."""
    return (
        f"nothing was compared with a source: {os.path.join(folder, COUNTS)}, which `country split` writes, is not"
        " there or is empty"
    )


def check(command, words, say):
    """`lpis country`, line by line as it comes; after a yes the counts of the country beside those of the source. A
    country without these is not compared, and that is no success: who has no source calls `lpis country`."""
    options = ["--parcels"] if words.parcels else []
    told, shown = [], progress.Progress("country", "checking", lines_of_regions(words.folder), "regions")
    with processes.start(
        program.call(command, "country", words.folder, options=options), stdout=subprocess.PIPE, text=True
    ) as lpis:
        for line in lpis.stdout:
            print(line, end="", flush=True)
            if line.startswith("country regions "):
                told = line.split()
            elif line.startswith("region "):
                shown.add()
    wanted = counts_of(words.folder)
    if lpis.returncode == 0 and not wanted:
        say(progress.Note(f"{uncompared(words.folder)} (`lpis country` alone compares nothing)"))
        return 1
    if lpis.returncode == 0 and told[3 : 3 + len(wanted)] != wanted:
        say(progress.Note(f"the source had {' '.join(wanted)}: {UNLIKE}"))
        return 1
    return lpis.returncode
