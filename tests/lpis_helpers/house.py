"""A clone with a stand-in for the kit: ./lpis, ./install and what they stand on, beside crates of one line each."""

import os
import shutil
import subprocess
from fnmatch import fnmatchcase
from pathlib import Path

from lpis_helpers.calls import CAPTURED
from lpis_helpers.places import TOP
from lpis_helpers.spare import write, write_script
from lpis_helpers.stopping import hears_signals, until

# The program that is built. LINE is its line on standard error, else that it could not read NAME; YES: it ends well.
# `hold`: it is in the middle of writing register.db until it is ended. `read`: it prints its input.
PROGRAM = r"""#!/usr/bin/env bash
[[ $1 != read ]] || exec cat
[[ $1 != hold ]] || exec python3 -c 'import os, sqlite3, time
base = sqlite3.connect("register.db", isolation_level=None)
base.execute("BEGIN IMMEDIATE"); base.execute("INSERT INTO lpis_release VALUES (2025)")
open("writing.new", "w").write(str(os.getpid())); os.rename("writing.new", "writing"); time.sleep(3600)
base.execute("COMMIT")'
[[ ${LINE-} == 'failed write out' ]] || echo "out $*"
[[ $1 != quiet && $1 != --version && -z ${YES-} ]] || exit 0
echo "${LINE-failed read ${NAME-area}}" >&2
exit 3
"""
# Proves a crate where those that it stands on are proved beside it. SLOW takes that long, FAILS is not proved.
RT = r"""#!/usr/bin/env bash
crate=${PWD##*/}
case "$1" in
  version) echo "rattle-kit-0 logic ${KIT-1}"; exit ;;
  lib | run) ;;
  *) exit 2 ;;
esac
mkdir -p out
echo "read $crate"
echo "$PWD $*" >>"$WORK/calls"
for below in $(sed -n "s/^$crate\( [^:]*\)\?://p" ../../crates.txt); do
  [[ ! -d ../$below || -e ../$below/out/proved ]] || { echo "$below is not there"; exit 1; }
done
[[ $crate != "${SLOW-}" ]] || { touch out/half; exec sleep 60; }
[[ $crate != "${FAILS-}" ]] || exit 1
touch out/proved
[[ $1 != run ]] || { cp -- "$WORK/program" out/lpis; chmod +x out/lpis; }
"""


def like(pattern, text):
    """Has a text to be of a pattern, but for its last line ends."""
    assert fnmatchcase(text.rstrip("\n"), pattern), (pattern, text)


class House:
    """The clone `house` in a folder, from which all is run."""

    def __init__(self, folder):
        self.folder, self.top = Path(folder), Path(folder, "house")
        for name in ("audit", "docs", "examples", "python", "tools"):
            shutil.copytree(Path(TOP, name), self.top / name, ignore=shutil.ignore_patterns("__pycache__"))
        (self.top / "dev").mkdir()
        (self.folder / "bin").mkdir()
        for name in ("lpis", "install", "crates.txt", "CHANGELOG.md", "dev/sources"):
            shutil.copy(Path(TOP, name), self.top / name)
        write("rattle-kit-0 logic 1\n", self.top, "KIT")
        self.append("lpis_aside: lpis_points", "crates.txt")  # a crate that the program does not stand on
        for line in (self.top / "crates.txt").read_text(encoding="utf-8").splitlines():
            (crate := self.top / "crates" / line.partition(":")[0] / "src").mkdir(parents=True)
            write("// a source\n", crate, "lib.rt")
        for text, name in ((PROGRAM, "program"), (RT, "bin/rt")):
            write_script(text, self.folder, name)

    def append(self, line, *names):
        """Adds a line to a file of the clone."""
        with open(self.top.joinpath(*names), "a", encoding="utf-8") as file:
            file.write(f"{line}\n")

    def words(self, more):
        """Those of `subprocess`, with these names in the surroundings."""
        path = f"{self.folder / 'bin'}{os.pathsep}{os.environ['PATH']}"
        named = {**os.environ, "PATH": path, "WORK": str(self.folder), **{name: str(it) for name, it in more.items()}}
        return {"cwd": self.folder, "env": named, "preexec_fn": hears_signals}

    def run(self, *words, **more):
        return subprocess.run([*map(str, words)], **CAPTURED, stdin=subprocess.DEVNULL, **self.words(more))

    def lpis(self, *words, **more):
        return self.run("house/lpis", *words, **more)

    def begun(self, *words, **more):
        """A run of ./lpis that goes on meanwhile."""
        piped = {"stdout": subprocess.DEVNULL, "stderr": subprocess.PIPE, "text": True}
        return subprocess.Popen(["house/lpis", *words], **piped, **self.words(more))

    def stopped(self, where, **more):
        """The status of a build that is ended once this file is there."""
        with self.begun("build", **more) as build:
            until(self.top.joinpath(where).exists, where)
            build.terminate()
            build.communicate()
        return build.returncode

    def from_nothing(self):
        for out in (self.top / "out", *self.top.glob("crates/*/out"), self.folder / "calls"):
            shutil.rmtree(out) if out.is_dir() else out.unlink(missing_ok=True)

    def calls(self):
        """The lines of what was proved since the last call of this."""
        calls = self.folder / "calls"
        lines = calls.read_text(encoding="utf-8").splitlines() if calls.exists() else []
        calls.unlink(missing_ok=True)
        return lines


def crates_of(calls):
    return sorted(line.split()[0].rpartition("/")[2] for line in calls)
