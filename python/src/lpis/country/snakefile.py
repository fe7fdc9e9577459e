"""The Snakefile of a country, from its source to the check, and how Snakemake is called so that nothing else of the
folder is run."""

from __future__ import annotations

import os
import subprocess

SNAKEFILE = """# A country by Snakemake, which runs what is missing or whose inputs changed: the parts of its source and the cells (by `country prepare`), the
# certificates of the regions of country.txt, and the check. snakemake -k -j 4 TARGET, or on a cluster snakemake -k --profile slurm TARGET.
# TARGET is certificates or check; parts, cells and gaps are asked for by `country prepare`. LPIS is the program. Written by `country`.
import os
import sys

sys.path[:] = [path for path in sys.path if os.path.realpath(path or ".") != os.path.realpath(".")]  # no module of this folder is taken
LPIS, COUNTRY = os.environ.get("LPIS", "lpis"), os.environ.get("LPIS_COUNTRY", "country")


def lines_of(path):
    if not os.path.exists(path):
        return []
    with open(path, encoding="utf-8") as file:
        return file.read().splitlines()


PARTS = lines_of(".cells/parts")
CELLS = range(int(*lines_of(".cells/count") or [0]))
REGIONS = [line.split()[1] for line in lines_of("country.txt") if line.startswith("region ")]


wildcard_constraints:
    part="[0-9a-f]{64}",
    cell="[0-9]+",
    kind="cell|gap",
    region="[A-Za-z0-9_-]+",


rule certificates:
    input:
        expand("{region}/cert.txt", region=REGIONS),


rule parts:
    input:
        expand(".cells/{part}", part=PARTS),


rule cells:
    input:
        expand(".cells/{cell}.cell", cell=CELLS),


rule gaps:
    input:
        expand(".cells/{cell}.gap", cell=CELLS),


rule part:
    output:
        ".cells/{part}.part",
    params:
        number=lambda wildcards: PARTS.index(f"{wildcards.part}.part"),
    resources:
        mem_mb=1000,
        runtime=60,
    shell:
        "{COUNTRY} job .cells part {params.number} >/dev/null"


rule of_cell:
    input:
        ".cells/rows.db",
    output:
        ".cells/{cell}.{kind}",
    resources:
        mem_mb=1000,
        runtime=60,
    shell:
        "{COUNTRY} job .cells {wildcards.kind} {wildcards.cell} >/dev/null"


rule cut:
    input:
        "{region}/parcels.csv",
        "{region}/covers.csv",
        "{region}/classes.csv",
    output:
        "{region}/cert.txt",
    resources:
        mem_mb=1500,
        runtime=60,
    shell:
        "rm -f -- {output}.new {wildcards.region}/cut.txt; {LPIS} cut ./{wildcards.region} ./{output}.new >{wildcards.region}/cut.txt && mv -- {output}.new {output}"


rule check:
    input:
        rules.certificates.input,
    resources:
        mem_mb=1500,
        runtime=120,
    shell:
        "{LPIS} country ."
"""  # noqa: E501
PROFILE = """# For Snakemake 7: snakemake -k --profile slurm. The folder lies where all machines see it. Snakemake 8 takes `executor: slurm`
# (its plugin of that name) in place of `cluster`. Other engines take another word there, such as `qsub -V -cwd`.
cluster: "sbatch --parsable --job-name=lpis.{jobid} --cpus-per-task=1 --mem={resources.mem_mb} --time={resources.runtime} --output=slurm/job.{jobid}.out"
jobs: 100
latency-wait: 60
keep-going: true
"""  # noqa: E501
# What a run that was killed has left is no lock, and what it had begun is done again; a job is run where a file is
# newer, and for nothing else.
ALWAYS = ["-s", "Snakefile", "-k", "--nolock", "--rerun-incomplete", "--rerun-triggers", "mtime"]
OWN = "slurm"  # the folder of the profile that is written beside the regions
SAFE = {"PYTHONSAFEPATH": "1", "PYTHONDONTWRITEBYTECODE": "1"}  # jobs take no module of the folder either


def command(target, jobs, profile, is_quiet):
    """The words that run a target. Where it is not quiet, Snakemake tells how much is done. A profile of the folder
    that is not named is not taken."""
    words = ["snakemake", *ALWAYS, *(["--workflow-profile", "none"] if knows("--workflow-profile") else [])]
    return [
        *words,
        *(["--profile", os.path.abspath(profile)] if profile else ["-j", str(jobs)]),
        target,
        *(["-q", "all"] if is_quiet else []),
    ]


def surroundings(more):
    """The environment of a run. Snakemake looks for a profile that the environment names in the folder first: only
    the one that --profile names is taken."""
    return {**{name: value for name, value in os.environ.items() if name != "SNAKEMAKE_PROFILE"}, **SAFE, **more}


def knows(option):
    run = subprocess.run(["snakemake", "--help"], capture_output=True, text=True, check=False, cwd="/")
    return option in run.stdout
