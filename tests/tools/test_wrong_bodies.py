"""dev/wrong, over a stand-in for `rt`: what is tried, in which copy, and what is recorded."""

import os
import shutil
import subprocess
from pathlib import Path

import pytest
from lpis_helpers.calls import CAPTURED
from lpis_helpers.places import TOP
from lpis_helpers.spare import read, write, write_script
from lpis_helpers.stopping import hears_signals, until

REFUSED = "refused, as it must be: src/lib.rt:1:1: error: a clause"
FOR_A_NAME = "refused, as it must be (only because a proof file names what the edit took away): proofs/F.antt:1:1:"
# Writes down what it is asked for, and says of each edit what the edit has as its last line; `hold` is never said.
RT = """#!/usr/bin/env bash
echo "$*:" $(find crates -path '*/must-fail/*' -o -path '*/out/*' | sort) >>"$WORK/calls"
shift
for crate; do
  for edit in crates/$crate/must-fail/*; do
    [[ $(tail -n 1 "$edit") != hold ]] || { touch "$WORK/held"; exec sleep 600; }
    echo "rt: must-fail $crate/${edit##*/}: $(tail -n 1 "$edit")"
  done
done
exit 1
"""


class Tree:
    """Crates with wrong bodies, each of which has as its last line what is said of it."""

    def __init__(self, folder):
        self.folder, self.top = folder, folder / "tree"
        for name in ("dev/wrong", "dev/wrong_bodies.py"):
            (self.top / name).parent.mkdir(parents=True, exist_ok=True)
            shutil.copy(Path(TOP, name), self.top / name)
        (folder / "bin").mkdir()
        write_script(RT, folder, "bin/rt")
        write("", self.top, "crates.txt")

    def crate(self, name, **said):
        for part in ("src", "must-fail", "wrong", "out"):
            (self.top / "crates" / name / part).mkdir(parents=True)
            write("", self.top, "crates", name, part, {"src": "lib.rt", "must-fail": "first.edit"}.get(part, "old"))
        for edit, verdict in said.items():
            self.edit(name, edit, verdict)

    def edit(self, crate, name, verdict):
        write(f"file: src/lib.rt\n{verdict}\n", self.top, "crates", crate, "wrong", f"{name}.edit")

    def words(self):
        path = f"{self.folder / 'bin'}{os.pathsep}{os.environ['PATH']}"
        named = {**os.environ, "PATH": path, "WORK": str(self.folder), "TMPDIR": str(self.folder)}
        return {"cwd": self.folder, "env": named, "preexec_fn": hears_signals}

    def run(self, *words):
        ended = subprocess.run([self.top / "dev" / "wrong", *words], **CAPTURED, **self.words())
        return ended.returncode, ended.stdout.splitlines()

    def calls(self):
        calls = self.folder / "calls"
        text = read(calls) if calls.exists() else ""
        calls.unlink(missing_ok=True)
        return text.splitlines()

    def recorded(self, crate):
        lines = read(self.top, "crates", crate, "wrong", "tried").splitlines()
        return [line.split()[0] for line in lines]


@pytest.fixture(name="tree")
def made(tmp_path):
    return Tree(tmp_path)


def test_only_what_is_due(tree):
    tree.crate("below", seen=REFUSED, other=REFUSED)
    tree.crate("clean")
    assert tree.run("--list") == (0, ["below/other", "below/seen", "2 due"])
    assert tree.run()[0] == 0
    assert tree.calls() == ["ci below: crates/below/must-fail/other.edit crates/below/must-fail/seen.edit"]
    assert tree.run() == (0, ["0 due"])
    tree.edit("below", "seen", f"{REFUSED} again")
    assert tree.run()[1][-1] == "1 passed, 0 failed"
    assert tree.calls() == ["ci below: crates/below/must-fail/seen.edit"]
    write("changed", tree.top, "crates", "below", "src", "lib.rt")
    assert tree.run("--list")[1][-1] == "2 due"


def test_only_a_refusal_is_recorded(tree):
    said = {"taken": "NOT REFUSED: ..", "bad": "BAD EDIT: ..", "killed": "NOT TRIED: ..", "named": FOR_A_NAME}
    tree.crate("low", good=REFUSED, **said)
    status, lines = tree.run()
    assert (status, lines[-1], tree.recorded("low")) == (1, "1 passed, 4 failed", ["good"])
    assert lines[-5:-1] == [f"low/{name}: {said[name]}" for name in sorted(said)]
    assert tree.run("--list")[1][-1] == "4 due"


def test_what_is_no_longer_refused_is_due(tree):
    tree.crate("low", good=REFUSED)
    tree.run()
    for verdict, left in (("NOT TRIED: ..", ["good"]), ("NOT REFUSED: ..", [])):
        write_script(RT.replace('$(tail -n 1 "$edit")"', f'{verdict}"'), tree.folder, "bin/rt")
        assert tree.run("low/good")[0] == 1
        assert tree.recorded("low") == left


def test_a_stop_loses_no_batch(tree):
    tree.crate("a", **{f"edit_{number}": REFUSED for number in range(50)})
    tree.crate("b", good=REFUSED)
    tree.crate("c", last="hold")
    with subprocess.Popen([tree.top / "dev" / "wrong"], stdout=subprocess.PIPE, text=True, **tree.words()) as run:
        until((tree.folder / "held").exists, "the second batch runs")
        run.terminate()
        told = run.stdout.read().splitlines()
    assert (run.returncode, told[-1]) == (130, "stopped: what the batches before came to is recorded")
    assert len(tree.recorded("a")) == 50
    assert tree.run("--list")[1] == ["b/good", "c/last", "2 due"]
    assert not [*tree.folder.glob("lpis-wrong-*")]


def test_a_name_that_there_is_not(tree):
    tree.crate("low", good=REFUSED)
    assert tree.run("low/other")[0] == 1
    assert tree.calls() == []
