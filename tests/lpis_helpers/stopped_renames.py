"""Runs a tool again and again on copies of a folder, and stops it at one rename after the other: by a signal behind the
rename, or by a full disk in its place.

    python3 stopped_renames.py TOOL START HOW,.. WORDS..     a word that has START names the copy

It prints what came of each run, as JSON: what stopped it, its status, what it said on standard error, and the digests
of the tables of the copy; then the same of a run on it that is not stopped. The last run of each way to stop is the
first one with fewer renames.
"""

import errno
import hashlib
import importlib
import json
import os
import shutil
import signal
import sys
import tempfile
from pathlib import Path

HERE = Path(__file__).resolve().parent
sys.path[0] = str(HERE.parent)
sys.dont_write_bytecode = True
from lpis_helpers import starter

MOST = 200


def state(folder):
    """Each table of a folder with its digest; files that a run makes on its way begin with a dot, or report on it."""
    found = {}
    for path in sorted(Path(folder).rglob("*")):
        name = str(path.relative_to(folder))
        if (
            path.is_file()
            and not any(part.startswith(".") for part in name.split("/"))
            and name.endswith((".csv", "country.txt", "split.txt"))
        ):
            found[name] = hashlib.sha256(path.read_bytes()).hexdigest()
    return found


def standings(folder):
    """What each folder says of its last run, and whether a journal waits there."""
    found = {}
    for path in sorted(Path(folder).rglob(".lpis-standing")):
        text = path.read_text(encoding="utf-8")
        found[str(path.parent.relative_to(folder))] = json.loads(text)["state"] if text else ""
    return found, [str(path.parent.relative_to(folder)) for path in Path(folder).rglob(".lpis-placing")]


PLACED = (
    "parcels.csv",
    "covers.csv",
    "classes.csv",
    "country.txt",
    "lineage.csv",
    "lineage-report.csv",
    ".lpis-placing",
)


def stopping_at(how, number):
    """Makes the renames of tables in this process stop it at one of them; so does the first rename of another file."""
    count, replace = [0], os.replace

    def counting(*words, **more):
        if os.path.basename(words[1]) not in PLACED and count[0]:
            replace(*words, **more)
            return
        count[0] += 1
        if how.startswith("full") and (count[0] == number or (how == "fuller" and count[0] > number)):
            raise OSError(errno.ENOSPC, os.strerror(errno.ENOSPC), str(words[1]))
        replace(*words, **more)
        if not how.startswith("full") and count[0] == number:
            os.kill(os.getpid(), getattr(signal, f"SIG{how}"))

    os.replace = counting
    return count


def forked(module, words, folder, how="", number=0):
    """The status, what was said, and how many renames there were, of a run in a process of its own."""
    said, told = os.path.join(folder, "..", "said"), os.path.join(folder, "..", "count")
    child = os.fork()
    if not child:
        from lpis.system import command_line as of_tools

        for name in ("SIGINT", "SIGTERM", "SIGHUP"):
            signal.signal(getattr(signal, name), signal.SIG_DFL)
        os.dup2(os.open(said, os.O_WRONLY | os.O_CREAT | os.O_TRUNC), 2)
        os.dup2(os.open(os.devnull, os.O_WRONLY), 1)
        sys.argv, count = words, stopping_at(how, number) if how else [0]
        status = of_tools.ended(os.path.basename(words[0]), module.main)
        Path(told).write_text(str(count[0]), encoding="ascii")
        os._exit(status)
    Path(told).unlink(missing_ok=True)
    status = os.waitstatus_to_exitcode(os.waitpid(child, 0)[1])
    return (
        status,
        Path(said).read_text(encoding="utf-8"),
        int(Path(told).read_text(encoding="ascii")) if os.path.exists(told) else None,
    )


def trials(tool, start, words, kinds):
    sys.path.insert(0, starter.PACKAGE)
    from lpis.system import shapely_there

    module, found = importlib.import_module(f"lpis.commands.{tool}"), []
    shapely_there.go_on_if_there()
    starter.preload()
    for how in kinds:
        for number in range(1, MOST):
            with tempfile.TemporaryDirectory() as spare:
                folder = shutil.copytree(start, os.path.join(spare, "copy"))
                argv = [tool, *(word.replace(start, folder) for word in words)]
                status, said, count = forked(module, argv, folder, how, number)
                after, (stood, journals) = state(folder), standings(folder)
                again = forked(module, argv, folder)[:2]
                found.append(
                    {
                        "how": how,
                        "number": number,
                        "status": status,
                        "said": said,
                        "after": after,
                        "standing": stood,
                        "journals": journals,
                        "again": again[0],
                        "said_again": again[1],
                        "then": state(folder),
                        "standing_then": standings(folder)[0],
                    }
                )
                if count is not None and count < number:
                    break
    return found


if __name__ == "__main__":
    print(json.dumps(trials(sys.argv[1], sys.argv[2], sys.argv[4:], sys.argv[3].split(","))))
