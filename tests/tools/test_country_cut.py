"""Tests `tools/country cut` and `check`: certificates by make and by Snakemake, where it is there."""

import os
import shutil
import time

import pytest
from lpis_helpers.calls import ended_with, run
from lpis_helpers.country_case import BUILT, Case, Land, country, lines, read, write, write_text
from lpis_helpers.spare import write_script
from lpis_helpers import judged_country as judged

# A stand-in for `lpis cut` and `lpis country`: it refuses a region whose parcels have a row `bad`.
STAND_IN = """#!/usr/bin/env python3
import os, sys, time
if sys.argv[1] == "cut":
    with open(os.path.join(sys.argv[2], "parcels.csv")) as file:
        text = file.read()
    if "bad," in text:
        print("refused 40 piece bad/1")
        sys.exit(1)
    with open(sys.argv[3], "w") as cert:
        cert.write("lpis-cert 2\\n")
    print(f"triangles {text.count('POLYGON')} pairs 0")
else:
    print("region r0001 parcels 1 pieces 1 area 1.0000000 eligible 0.000000000")
    print(f"country regions 1 parcels {os.environ.get('PARCELS', '36')} pieces 108 area {os.environ.get('AREA', '1.0000000')} eligible 0.000000000")
    print("yes")
"""  # noqa: E501


class TestEngines(Case):
    """Certificates by make and by Snakemake, and the check."""

    def set_up(self):
        super().set_up()
        self.land = Land(9, 6, 6)
        self.begin(self.make)
        self.program = self.path("lpis stand-in")
        write_script(STAND_IN, self.program)

    def make(self):
        self.land.write(self.source)
        self.split("--parcels", 12)

    def cut(self, *options):
        return country("cut", self.out, *options, "--lpis", f"'{self.program}'")

    def certs(self):
        return {
            name: os.stat(os.path.join(self.out, name, "cert.txt")).st_mtime_ns
            for name in self.regions()
            if os.path.exists(os.path.join(self.out, name, "cert.txt"))
        }

    def changed(self):
        """The regions of which a changed district makes new certificates."""
        self.land.covers[0] = self.land.covers[0].replace("GRASS", "WATER").replace("TREES", "WATER")
        self.land.write(self.source)
        self.split("--parcels", 12)
        parcel = self.land.covers[0].split(",")[1]
        return [
            name
            for name in self.regions()
            if any(row.startswith(f"{parcel},") for row in lines(os.path.join(self.out, name), "parcels"))
        ]

    def whole(self, *options):
        ended = self.cut("--jobs", "3", *options)
        assert (ended.returncode, ended.stdout.splitlines()[-1]) == (0, f"regions {len(self.regions())} refused 0"), (
            ended.stdout + ended.stderr
        )
        before = self.certs()
        assert len(before) == len(self.regions())
        time.sleep(0.02)
        self.cut(*options)
        assert self.certs() == before
        regions = self.changed()
        assert sorted(set(before) - set(self.certs())) == regions  # they were of other tables
        ended = self.cut(*options)
        assert (ended.returncode, [name for name, when in self.certs().items() if when != before[name]]) == (
            0,
            regions,
        ), ended.stderr
        # make alone, and Snakemake alone, have nothing left to do.
        assert (
            run(
                "make",
                "-f",
                "Makefile",
                "-r",
                "-q",
                "all",
                cwd=self.out,
                env={**os.environ, "LPIS": f"'{self.program}'"},
            ).returncode
            == 0
        )

    def test_make(self):
        self.whole()

    def test_strange_files(self):
        """What lies in the folder already, or in the program's path, runs nothing, and a link is not written
        through."""
        hit = self.path("hit")
        for name in ("makefile", "GNUmakefile", "Makefile.sh"):
            write_text(
                os.path.join(self.out, name),
                f"$(shell touch {hit})\nall:\n\ttouch {hit}\n" if name != "Makefile.sh" else f"touch {hit}\n",
            )
        os.utime(os.path.join(self.out, "Makefile.sh"), (4e9, 4e9))
        write_text(os.path.join(self.out, "all"), "")
        kept = self.path("kept")
        write_text(kept, "kept\n")
        for name in (
            "Makefile.new",
            "Snakefile.new",
            "Makefile",
            os.path.join(self.regions()[0], "cut.txt"),
            os.path.join(self.regions()[0], "cert.txt.new"),
        ):
            os.symlink(kept, os.path.join(self.out, name))
        os.mkdir(self.path("$(touch hit)"))
        os.rename(self.program, self.path("$(touch hit)", "lpis"))
        self.program = self.path("$(touch hit)", "lpis")
        ended = self.cut()
        assert (ended.returncode, ended.stdout.splitlines()[-1]) == (0, f"regions {len(self.regions())} refused 0"), (
            ended.stdout + ended.stderr
        )
        assert (os.path.exists(hit), os.path.exists(os.path.join(self.out, "hit")), read(kept)) == (
            False,
            False,
            "kept\n",
        )

    @pytest.mark.long
    @pytest.mark.skipif(not shutil.which("snakemake"), reason="there is no snakemake")
    def test_snakemake(self):
        self.whole("--snakemake")

    @pytest.mark.long
    @pytest.mark.skipif(not shutil.which("snakemake"), reason="there is no snakemake")
    def test_strange_files_of_snakemake(self):
        """Neither modules nor profiles that lie in the folder are run: not one that the environment names, and not
        one beside the tool's own."""
        hit = self.path("hit")
        for name in ("pulp", "stopit", "throttler", "snakemake", "yaml"):
            write_text(os.path.join(self.out, f"{name}.py"), f"open({hit!r}, 'w').close()\nraise ImportError\n")
        for name in ("mine/config.yaml", "profiles/default/config.yaml", "slurm/config.yaml"):
            os.makedirs(os.path.dirname(os.path.join(self.out, name)), exist_ok=True)
            write_text(os.path.join(self.out, name), f'cluster: "touch {hit}; bash"\njobs: 1\n')
        write_script('#!/bin/bash\nfor job; do :; done\nbash "$job" >/dev/null 2>&1 &\necho $!\n', self.path("sbatch"))
        for options in (["--snakemake"], ["--profile", os.path.join(self.out, "slurm")]):
            for name in self.certs():
                os.remove(os.path.join(self.out, name, "cert.txt"))
            ended = country(
                "cut",
                self.out,
                "--lpis",
                f"'{self.program}'",
                *options,
                SNAKEMAKE_PROFILE="mine",
                PATH=f"{self.folder}:{os.environ['PATH']}",
            )
            assert (ended.returncode, ended.stdout.splitlines()[-1]) == (
                0,
                f"regions {len(self.regions())} refused 0",
            ), (
                ended.stdout + ended.stderr
            )
            assert not os.path.exists(hit), options
        write_text(os.path.join(self.out, "slurm", "config.v8+.yaml"), f'cluster: "touch {hit}; bash"\n')
        ended = country("cut", self.out, "--lpis", f"'{self.program}'", "--profile", os.path.join(self.out, "slurm"))
        assert (ended.returncode, "config.v8+.yaml was not made by this tool" in ended.stdout) == (1, True), (
            ended.stdout + ended.stderr
        )

    @pytest.mark.parametrize("told, wanted", (("--workflow-profile X", True), ("", False)))
    def test_words_of_snakemake(self, told, wanted):
        """Of a version that reads a profile which nobody names: it is told not to; another one does not know these
        words."""
        write_script(
            (
                f'#!/bin/sh\n[ "$1" = --help ] && echo "{told}" || echo "$PWD $* profile:$SNAKEMAKE_PROFILE'
                f' safe:$PYTHONSAFEPATH" >{self.path("said")}\n'
            ),
            self.path("snakemake"),
        )
        country(
            "cut",
            self.out,
            "--lpis",
            "false",
            "--snakemake",
            SNAKEMAKE_PROFILE="mine",
            PATH=f"{self.folder}:{os.environ['PATH']}",
        )
        said = read(self.path("said"))
        assert ("--workflow-profile none" in said, "profile: safe:1" in said) == (wanted, True), said

    @pytest.mark.skipif(not shutil.which("snakemake"), reason="there is no snakemake")
    def test_cluster(self):
        """The profile over a stand-in for the cluster, which starts each job by itself and prints a number."""
        write_script(
            (
                f'#!/bin/bash\necho "$*" >>{self.path("jobs")}\nfor job; do :; done\nbash "$job" >/dev/null 2>&1'
                " &\necho $!\n"
            ),
            self.path("sbatch"),
        )
        country("cut", self.out, "--lpis", "false")  # writes the profile
        ended_with(
            0,
            country(
                "cut",
                self.out,
                "--lpis",
                f"'{self.program}'",
                "--profile",
                self.path("country", "slurm"),
                PATH=f"{self.folder}:{os.environ['PATH']}",
            ),
        )
        jobs = read(self.path("jobs")).splitlines()
        assert (len(jobs), len(self.certs())) == (len(self.regions()), len(self.regions()))
        assert all("--mem=1500" in job and "--time=60" in job for job in jobs), jobs

    def test_refused(self):
        """A region that is refused: the others are cut, and faults are named."""
        if not BUILT:
            pytest.skip("the program is not built")
        bad = self.region(1)
        first = lines(bad, "covers")[1]
        name = first.split(",")[0]
        ring = first.split("((")[1].split("))")[0].split(",")
        crossed = f"{first.split('((')[0]}(({','.join([ring[0], ring[1], ring[1], ring[0]])}))\""
        for region in self.regions():
            folder = os.path.join(self.out, region)
            rows = lines(folder, "covers")
            write(folder, "covers", [crossed if row == first else row for row in rows])
        ended = ended_with(1, country("cut", self.out, "--lpis", BUILT))
        assert name in ended.stdout
        assert f"region {self.regions()[1]}: refused 4" in ended.stdout
        assert os.path.exists(os.path.join(self.out, "faults.geojson"))
        assert len(self.certs()) > 0

    def test_check(self):
        whole = judged.Region(self.source)
        area = judged.areas(*whole.sums(whole.parcels)[2:]).split()[1]
        for parcels, area, status in (("36", area, 0), ("35", area, 1), ("36", f"{area[:-1]}{9 - int(area[-1])}", 1)):
            ended = country("check", self.out, "--lpis", f"'{self.program}'", PARCELS=parcels, AREA=area)
            assert (ended.returncode, ended.stdout.splitlines()[-1], "in no region" in ended.stderr) == (
                status,
                "yes",
                status == 1,
            ), ended.stderr
