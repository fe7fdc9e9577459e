"""Tests that nothing unchecked is published: `publish` of a release that no check said yes to, and of parcels that no
seam joined, do not compile. Each is tried in a copy of the crates, of which nothing is proved."""

import os
import pathlib
import shutil
import subprocess

import pytest
from lpis_helpers.places import TOP

RT = shutil.which("rt") or "/opt/rattle/bin/rt"
PARTS = ("src", "specs", "proofs")
SECONDS = 900


pytestmark = [pytest.mark.long, pytest.mark.skipif(not os.access(RT, os.X_OK), reason="the kit is not there")]


def tried(room, crate, name, old, new):
    """What the compiler says of the program where one text of a file is another."""
    for source in pathlib.Path(TOP, "crates").iterdir():
        for part in PARTS:
            if (source / part).is_dir():
                shutil.copytree(source / part, room / "crates" / source.name / part)
    shutil.copy(pathlib.Path(TOP, "crates.txt"), room)
    path = room / "crates" / crate / "src" / name
    text = path.read_text(encoding="utf-8")
    assert text.count(old) == 1, f"{name} has no such text: {old}"
    path.write_text(text.replace(old, new), encoding="utf-8")
    words = [RT, "try", "--", "--version"]
    run = subprocess.run(
        words,
        cwd=room / "crates" / "lpis",
        stdin=subprocess.DEVNULL,
        capture_output=True,
        text=True,
        timeout=SECONDS,
        check=False,
    )
    assert run.returncode != 0
    return run.stdout + run.stderr


def test_a_release_without_a_yes(tmp_path):
    said = tried(tmp_path, "lpis_run_publish", "publish.rt", "&yes, cert, rows)", "release, cert, rows)")
    assert "error[mismatched-types]: expected `&Yes`, found `&Release`" in said


def test_a_country_that_was_not_joined(tmp_path):
    said = tried(
        tmp_path,
        "lpis_run_publish_country",
        "publish_country.rt",
        ".accept(year, &parcels,",
        ".accept(year, &parcels.parcels(),",
    )
    assert "error[unsatisfied-bound]: the trait bound `&[Parcel]: SoundParcels` is not satisfied" in said
