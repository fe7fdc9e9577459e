"""The log beside a register: a line a published year, each with the digest of the line before, and what the register
held then."""

import contextlib
import fcntl
import hashlib
import json
import os

from ..formats import register_rows
from ..system import files, progress

FIRST = "0" * 64
AT_ONCE = 1000  # rows between two looks at the clock
ORDERED = {
    "lpis_format": "one, version",
    "lpis_release": "year",
    "lpis_span": "id, since, until",
    "lpis_row": "year, pos, old, new",
    "lpis_text": "id, wkt",
    "lpis_mark": "year, pos",
}


def path_of(register):
    return f"{register}.log"


def digests_of(paths, what):
    """The sha256 of files by their names, with the progress of their bytes."""
    shown, found = progress.Bytes(progress.Quiet.tool, what, sum(map(os.path.getsize, paths.values()))), {}
    for name, path in paths.items():
        found[name] = files.digest(path)
        shown.took(os.path.getsize(path))
    shown.end()
    return found


def content_of(register):
    """The sha256 of each table's rows, in the order of their keys: the same for the same content, however the file
    is laid out."""
    with contextlib.closing(register_rows.opened(register)) as base:
        there = {name for (name,) in base.execute("SELECT name FROM sqlite_schema WHERE type = 'table'")}
        digests, tables = {}, [table for table in ORDERED if table in there]
        shown = progress.Progress(
            progress.Quiet.tool,
            "reading the register",
            sum(base.execute(f"SELECT count(*) FROM {table}").fetchone()[0] for table in tables),
            "rows",
        )
        for table in tables:
            digest, number = hashlib.sha256(), 0
            for number, row in enumerate(
                base.execute(f"SELECT {ORDERED[table]} FROM {table} ORDER BY {ORDERED[table]}"), 1
            ):
                digest.update((json.dumps(row, ensure_ascii=True, default=bytes.hex) + "\n").encode())
                if number % AT_ONCE == 0:
                    shown.add(AT_ONCE)
            shown.add(number % AT_ONCE)
            digests[table] = digest.hexdigest()
        shown.end()
        return digests


def lines_of(register):
    """The lines of the log, as bytes without their ends."""
    try:
        with open(path_of(register), "rb") as file:
            return file.read().splitlines()
    except FileNotFoundError:
        return []


def own_digest(entry):
    return hashlib.sha256(json.dumps({key: entry[key] for key in sorted(entry) if key != "own"}).encode()).hexdigest()


@contextlib.contextmanager
def held(register):
    """The log, open at its end, held by one process at a time."""
    mode = os.stat(register).st_mode & 0o666 if os.path.exists(register) else 0o666
    with open(path_of(register), "ab", opener=lambda path, flags: os.open(path, flags, mode)) as file:
        fcntl.flock(file, fcntl.LOCK_EX)
        yield file


def add(file, register, entry):
    """Adds a line, and answers its digest."""
    lines = lines_of(register)
    entry = {**entry, "before": hashlib.sha256(lines[-1]).hexdigest() if lines else FIRST}
    line = json.dumps({**entry, "own": own_digest(entry)}).encode()
    file.write(line + b"\n")
    file.flush()
    os.fsync(file.fileno())
    return hashlib.sha256(line).hexdigest()


def entries_of(lines):
    """The lines as dictionaries, and what is wrong with the chain."""
    entries, faults, before = [], [], FIRST
    for number, line in enumerate(lines, 1):
        entry, own = entry_of(line)
        if entry.get("own") != own:
            faults.append(f"line {number} was changed since it was written")
        elif entry["before"] != before:
            faults.append(f"line {number} does not follow the line before it: one was changed, taken out or put in")
        entries.append(entry)
        before = hashlib.sha256(line).hexdigest()
    return entries, faults


def in_force(entries):
    """The lines of the years that stand: each line that takes a year back ends with the line of that year."""
    found = []
    for entry in entries:
        if "undo" not in entry:
            found.append(entry)
        elif found and found[-1].get("year") == entry["undo"]:
            found.pop()
    return found


def last_of(register):
    """The line of the last year that stands; nothing where there is none."""
    stands = in_force(entry_of(line)[0] for line in lines_of(register))
    return stands[-1] if stands else {}


def entry_of(line):
    """What a line says, and its own digest; nothing, and a digest that no line has, where it lacks what a line has."""
    try:
        entry = json.loads(line)
        wanted = (("before", str), ("own", str), ("year", int), ("content", dict))
        if (
            isinstance(entry, dict)
            and all(isinstance(entry.get(name), kind) for name, kind in wanted)
            and all(isinstance(value, str) for value in entry["content"].values())
        ):
            return entry, own_digest(entry)
    except (ValueError, RecursionError):
        pass  # told by who reads it, as a line that was changed
    return {}, ""


def do_rise(entries):
    """Whether each line has a later year than those that stand before it, or takes the last of them back."""
    years = []
    for entry in filter(None, entries):
        if "undo" in entry:
            if not years or years.pop() != entry["undo"]:
                return False
        elif years and entry["year"] <= years[-1]:
            return False
        else:
            years.append(entry["year"])
    return True


def faults_of(register):
    """What does not agree between a register and its log."""
    lines = lines_of(register)
    if not lines:
        return [f"{path_of(register)}: no line: the register has no log"]
    entries, faults = entries_of(lines)
    known = entries[-1].get("content", {})
    now = content_of(register) if os.path.exists(register) or known else {}
    changed = sorted(table for table in {*known, *now} if known.get(table) != now.get(table))
    if changed and entries[-1]:
        faults.append(
            f"the register is not as the last line has it, by {entries[-1]['year']}: {', '.join(changed)} changed since"
        )
    if not do_rise(entries):
        faults.append("the years of the lines do not rise")
    return faults
