"""What is wrong with a register that the program could not use, and that one is about to be made, perhaps by
mistake."""

import contextlib
import glob
import os
import pathlib
import re
import sqlite3

from ..system import path_trouble
from . import guests

NEW = "a new, empty register"
IDLE = "it is there, and using it failed: perhaps another process held it just now"
BESIDE = ("", "-wal", "-shm", "-journal")  # what a lock may be on
MEGABYTE = 1_000_000


def opened(path, mode):
    return sqlite3.connect(f"{pathlib.Path(path).resolve().as_uri()}?{mode}", uri=True, timeout=1)


def tables_of(path):
    """The names of a database's tables, read without touching it; none where it is not read."""
    try:
        with contextlib.closing(opened(path, "immutable=1")) as base:
            return [name for (name,) in base.execute("SELECT name FROM sqlite_master WHERE type = 'table'")]
    except sqlite3.Error:
        return []


def warning(path):
    """That a register is about to be made, or that the file is none; nothing where it is one."""
    if os.path.isdir(path):
        return ""
    if not os.path.exists(path):
        return f"{path} was not there: {NEW}" if os.path.isdir(path_trouble.folder_of(path)) else ""
    if not os.path.getsize(path):
        return f"{path} was empty: {NEW}"
    if not os.access(path, os.R_OK):
        return ""
    if not path_trouble.has_head(path):
        return f"{path} is no SQLite database"
    tables = tables_of(path)
    is_one = not tables or any(name.startswith("lpis_") for name in tables)
    return "" if is_one else f"{path} has tables of another program and none of a register: {NEW} beside them"


def name_of(process):
    """What a process is called; nothing where it is not seen."""
    try:
        return pathlib.Path("/proc", process, "comm").read_text(encoding="utf-8", errors="replace").rstrip("\n")
    except OSError:
        return ""


def text_of(path):
    try:
        return pathlib.Path(path).read_text(encoding="utf-8", errors="replace")
    except OSError:
        return ""


def holders(path):
    """Which processes hold a lock on a file. What a process has open is seen of one's own processes, or by root. The
    system's table of locks has all of them, but -1 or 0 for a process that it does not name."""
    inode = os.stat(path).st_ino
    for entry in glob.iglob("/proc/[0-9]*/fdinfo/*"):
        process = entry.split("/")[2]
        if re.search(rf"(?m)^lock:.*:{inode} ", text_of(entry)) and name_of(process):
            with contextlib.suppress(OSError):
                if os.path.samefile(entry.replace("/fdinfo/", "/fd/"), path):
                    yield f"the process {process} ({name_of(process)}) holds it"
    for fields in map(str.split, text_of("/proc/locks").splitlines()):
        for process, place in zip(fields, fields[1:]):
            if re.fullmatch(rf"[^:]*:[^:]*:{inode}", place):
                name = name_of(process)
                yield f"the process {process} ({name}) holds it" if name else "a process of another user holds it"


def holder_of(path):
    """The first that holds the register's file or one beside it."""
    files = [path + end for end in BESIDE if os.path.exists(path + end)]
    return next((found for file in files for found in holders(file)), "")


def damage_of(path):
    """What SQLite finds wrong with a database's rows."""
    try:
        with contextlib.closing(opened(path, "mode=ro")) as base:
            told = base.execute("PRAGMA quick_check(1)").fetchone()[0]
            keys = base.execute("PRAGMA foreign_key_check").fetchone()
    except sqlite3.Error as error:
        return "another process holds it" if "locked" in str(error) else f"SQLite says of it: {error}"
    if told == "ok" and keys:
        return f"a row of {keys[0]} names a row of {keys[2]} that is not there"
    return "" if told == "ok" else f"SQLite says of it: {told.splitlines()[-1]}"


def shortage_at(path, more):
    """That the disk may have been full, where it has less free than a publish may write: as much as the register and
    the polygons have, which are `more` bytes. What it wrote before it failed is given back by then."""
    free = path_trouble.free_at(path_trouble.folder_of(path))
    wanted = more + (os.path.getsize(path) if os.path.exists(path) else 0)
    if free >= wanted:
        return ""
    return f"the disk has {free // MEGABYTE} MB free, and a publish may write {wanted // MEGABYTE + 1} MB: it was full"


def trouble_of(path, more):
    """What is wrong with a register that failed; a publish would have written these bytes more."""
    if found := path_trouble.of_writing(path):
        return found
    is_there = os.path.exists(path)
    if is_there and os.path.getsize(path) and os.access(path, os.R_OK) and not path_trouble.has_head(path):
        return "it is no SQLite database"
    if not is_there:
        return shortage_at(path, more) or IDLE
    return (
        holder_of(path)
        or guests.first_of(guests.hindrances, path)
        or damage_of(path)
        or shortage_at(path, more)
        or guests.first_of(guests.refusals, path)
        or IDLE
    )
