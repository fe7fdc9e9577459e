"""The jobs of a country's preparation, many at once: each is a part of the source that is read, a cell that is rounded,
or the gaps beside its parcels, and gives one file that takes its
place when it is whole. So what was done stays done, whoever ends the run. PLAN is the file `plan.json` of the folder
of the results."""

from __future__ import annotations

import contextlib
import hashlib
import json
import os
import queue
import re
import sqlite3
import subprocess
import sys
import threading

from ..source import land
from ..system import files, installation, processes, program, progress

JOB, PARENT = "job", "of"  # the word of tools/country that starts a worker; behind it, the process with which that ends
OF_CELLS = ("cell", "gap")  # kinds of jobs of which there is one for each cell
FOLDER, PLAN, PARTS, COUNT, STORE, KEPT = ".cells", "plan.json", "parts", "count", "rows.db", "kept.json"
# names of results, and of what a killed worker left
OWN = re.compile(
    r"[0-9a-f]{64}\.(jsonl|part)|\d+\.(cell|gap)|(cell|gap)s\.json|(plan|kept)\.json|parts|count|rows\.db(-journal)?|\.lpis-[0-9a-f]+\.new"  # noqa: E501
)
TOOL = os.path.join(program.HERE, "country")


class Worker:
    """Does jobs of a folder, one after the other. `base` is the store, where that is in memory."""

    def __init__(self, folder, base=None):
        self.folder, self.base, self.parts = folder, base, None

    def store(self):
        path = os.path.join(self.folder, STORE)
        return (
            contextlib.nullcontext(self.base)
            if self.base
            else contextlib.closing(sqlite3.connect(f"file:{path}?mode=ro", uri=True))
        )

    def do(self, kind, number):
        """The name of the file that a job gives."""
        if kind in OF_CELLS:
            from . import cell_rounding, gap_arms

            with self.store() as base:
                name = (cell_rounding if kind == "cell" else gap_arms).made(base, number, self.folder)
            with files.anew(os.path.join(self.folder, f"{number}.{kind}")) as file:
                file.write(name)
            return name
        if kind != "part":
            from ..lineage import parcel_questions

            return parcel_questions.do(self.folder, kind, number)
        from . import source_parts

        if self.parts is None:
            with open(os.path.join(self.folder, PLAN), encoding="utf-8") as file:
                self.parts = json.load(file)
        return source_parts.made(self.parts[number], self.folder)


def work(folder, words):
    """Does the job that is named, or else those of standard input, a line each, and answers each by the name of its
    file."""
    if words and words[0] == PARENT:
        processes.end_with_parent(int(words[1]))
        words = words[2:]
    worker, progress.Quiet.is_quiet = Worker(folder), True
    for line in [" ".join(words)] if words else sys.stdin:
        kind, number = line.split()
        print(worker.do(kind, int(number)), flush=True)
    return 0


def do_all(folder, kind, count, workers, shown):
    """Has the jobs of a kind done by worker processes; answers the names of their files, in order."""
    waiting, names, lock, workers = queue.SimpleQueue(), [None] * count, threading.Lock(), max(1, min(workers, count))
    for number in [*range(count), *[None] * workers]:  # each worker ends at a None
        waiting.put(number)

    def go():
        with processes.start(
            [sys.executable, TOOL, JOB, folder, PARENT, str(os.getpid())],
            stdin=subprocess.PIPE,
            stdout=subprocess.PIPE,
            text=True,
        ) as worker:
            for number in iter(waiting.get, None):
                try:
                    print(kind, number, file=worker.stdin, flush=True)
                    names[number] = worker.stdout.readline().strip() or None
                except BrokenPipeError:
                    break
                if names[number] is None:
                    break
                with lock:
                    shown.add()
            with contextlib.suppress(BrokenPipeError):
                worker.stdin.close()

    threads = [threading.Thread(target=go, daemon=True) for _ in range(workers)]
    for thread in threads:
        thread.start()
    for thread in threads:
        thread.join()
    judge(names, kind)
    return names


def done(folder, kind, plan):
    """The names of the files that jobs of another engine gave."""
    names = []
    for number, part in enumerate(plan):
        name = part["file"] if part else None
        with contextlib.suppress(FileNotFoundError):
            if kind in OF_CELLS:
                with open(os.path.join(folder, f"{number}.{kind}"), encoding="utf-8") as file:
                    name = file.read()
        names.append(name if name and OWN.fullmatch(name) and os.path.exists(os.path.join(folder, name)) else None)
    judge(names, kind)
    return names


def judge(names, kind):
    lacking = sum(name is None for name in names)
    if lacking:
        raise land.Trouble(f"{lacking} of {len(names)} {kind}s were not done: run it again, and what is done is kept")


def begin(folder):
    """The folder of the results, which is nobody else's."""
    if os.path.islink(folder):
        raise land.Trouble(f"{folder} is a link: remove it, so that nothing is written or removed elsewhere")
    os.makedirs(folder, exist_ok=True)
    return folder


def forget(folder, kind):
    """Removes what a run before says of its cells, which are others now; what they gave is named by all that it
    hangs on, and stays."""
    for name in os.listdir(folder):
        if re.fullmatch(rf"\d+\.{kind}", name):
            files.remove(os.path.join(folder, name))


def digest_of(*words):
    """A digest of words and of these tools."""
    digest = hashlib.sha256(repr(words).encode(errors="backslashreplace"))
    for folder, _, names in sorted(os.walk(installation.PACKAGE)):
        for name in sorted(names) if "carried" not in folder and not folder.endswith("__pycache__") else ():
            digest.update(f"{name} {files.digest(os.path.join(folder, name))} ".encode())
    return digest.hexdigest()


def keep(folder, kind, digest, names):
    """Keeps the names of the files that all jobs of a kind gave, with a digest of all that they hang on, and theirs."""
    with files.anew(os.path.join(folder, f"{kind}s.json")) as file:
        json.dump([digest, names, contents(folder, names)], file)


def contents(folder, names):
    return [files.digest(os.path.join(folder, name)) for name in names]


def clear_changed(folder, kind):
    """Removes what a run before gave, but for the files of a kind that are as it kept them."""
    sound = []
    with contextlib.suppress(OSError, ValueError, TypeError):
        with open(os.path.join(folder, f"{kind}s.json"), encoding="utf-8") as file:
            _, names, wanted = json.load(file)
        sound = [
            name
            for name, then in zip(names, wanted)
            if OWN.fullmatch(name) and files.digest(os.path.join(folder, name)) == then
        ]
    clear(folder, sound)


def drop_changed(folder, kind):
    """Removes the files of a kind that are not as a run before kept them, so that no job is taken for done by them."""
    with contextlib.suppress(OSError, ValueError, TypeError):
        with open(os.path.join(folder, f"{kind}s.json"), encoding="utf-8") as file:
            _, names, wanted = json.load(file)
        for name, then in zip(names, wanted):
            path = os.path.join(folder, name)
            if OWN.fullmatch(name) and os.path.isfile(path) and files.digest(path) != then:
                files.remove(path)


def kept(folder, kind, digest):
    """The names that a run before has kept, where all that they hang on is as it was, and each file; else None."""
    try:
        with open(os.path.join(folder, f"{kind}s.json"), encoding="utf-8") as file:
            then, names, wanted = json.load(file)
        if then == digest and all(map(OWN.fullmatch, names)) and contents(folder, names) == wanted:
            return names
    except (OSError, ValueError, TypeError):
        pass  # it is a spare: without it the jobs are done, or found done
    return None


def tell_kept(folder, kind, names):
    """Says of each job of a kind that it is done, for those that ask for its file."""
    for number, name in enumerate(names):
        with files.anew(os.path.join(folder, f"{number}.{kind}")) as file:
            file.write(name)


def clear(folder, kept):
    """Removes what no run needs any more."""
    for name in set(filter(OWN.fullmatch, os.listdir(folder))) - set(kept):
        files.remove(os.path.join(folder, name))
