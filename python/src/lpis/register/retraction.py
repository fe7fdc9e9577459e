"""How a published year is taken back: the register gets what it held before, from the copy that was made then; the log
gets a line that says so, since no line of it ever goes; and what was published is kept under a name of its own. Only
the last year can be taken back, and only while nothing changed since. A run that was killed is ended by the same
command."""

from __future__ import annotations

import contextlib
import datetime
import getpass
import itertools
import os
import sqlite3

from ..formats import register_rows
from . import ledger, table_standing
from ..system import files, processes
from .publication_steps import Stop

BESIDE = ("-wal", "-shm", "-journal")


def name_of(path: str) -> str:
    """A path, or it with the first number that is free."""
    return next(
        place for number in itertools.count() if not os.path.lexists(place := f"{path}-{number}" if number else path)
    )


def undo(register: str, year: int) -> list[str]:
    """Takes a year back; what was done, in lines."""
    if not os.path.isfile(register) and not ledger.lines_of(register):
        raise Stop(f"{register} is not there")
    with ledger.held(register) as log, processes.held():
        lines = ledger.lines_of(register)
        entries, faults = ledger.entries_of(lines)
        if faults:
            raise Stop("\n".join(faults))
        if entries and entries[-1].get("undo") == year:
            return [*put_aside(entries[-1]), f"{year} was taken back on {entries[-1]['time']}"]
        stands = ledger.in_force(entries)
        if not stands or stands[-1]["year"] != year:
            last = (
                f"the last year is {stands[-1]['year']}: nothing but that can be taken back"
                if stands
                else "it has no year"
            )
            raise Stop(f"{year} is not the last year of the log of {register}; {last}")
        told = restored(register, year, stands[-1])
        entry = entry_of(register, year, stands[-1])
        digest = ledger.add(log, register, entry)
    return [*told, *put_aside(entry), f"{year} is taken back; log {ledger.path_of(register)} line sha256 {digest}"]


def restored(register: str, year: int, entry: dict) -> list[str]:
    """Gives the register what it held before; nothing is done where it holds that already."""
    before, now = entry.get("content_before") or {}, ledger.content_of(register) if os.path.isfile(register) else {}
    if now == before:
        clear_beside(register)
        return []
    if now != entry["content"]:
        raise Stop(
            f"{register} changed since {year} was published: `tools/year --verify` says what; nothing was taken back"
        )
    aside = name_of(f"{register}.undone-{year}")
    if not before:
        with files.beside(aside, os.stat(register).st_mode & 0o777) as name:
            put(register, name)
        os.remove(register)
        clear_beside(register)
        return [f"{register} was new: it is {aside} now"]
    copy = f"{register}.before-{year}"
    if not os.path.isfile(copy) or ledger.content_of(copy) != before:
        what = "does not have what the register held before" if os.path.isfile(copy) else "is not there"
        raise Stop(f"{copy}, the earlier copy, {what}: nothing was taken back")
    with files.beside(aside, os.stat(register).st_mode & 0o777) as name:
        put(register, name)
    put(copy, register)
    if ledger.content_of(register) != before:
        raise Stop(f"{register} does not have the rows of {copy} now; what it held is in {aside}")
    return [f"{register} has what {copy} has, which stays; what it held is in {aside}"]


def clear_beside(register: str) -> None:
    """Removes what SQLite left beside a register that is gone: it would read it into the next one of that name."""
    for end in BESIDE if not os.path.lexists(register) else ():
        files.remove(register + end)


def put(source: str, target: str) -> None:
    """Puts the content of a database into another, in one transaction, so that who reads it sees the one or the
    other."""
    with contextlib.closing(sqlite3.connect(source, timeout=register_rows.SECONDS)) as one:
        with contextlib.closing(sqlite3.connect(target, timeout=register_rows.SECONDS)) as other:
            one.backup(other)


def entry_of(register: str, year: int, undone: dict) -> dict:
    """The line of the log: `year` is the one that is taken back."""
    return {
        "time": datetime.datetime.now(datetime.timezone.utc).isoformat(timespec="seconds"),
        "user": getpass.getuser(),
        "undo": year,
        "year": year,
        "folder": undone.get("folder", ""),
        "content_before": undone["content"],
        "content": ledger.content_of(register) if os.path.isfile(register) else {},
    }


def put_aside(entry: dict) -> list[str]:
    """Gives the folder of the year, or what was printed in it, another name, so that the year can be published
    again."""
    folder, year, told = str(entry.get("folder") or ""), entry["undo"], []
    above, name = os.path.split(folder)
    if name == str(year) and os.path.basename(above) == "years":
        folder = os.path.dirname(above)
        if os.path.isdir(entry["folder"]):
            told.append(moved(entry["folder"], os.path.join(above, f"undone-{year}")))
    printed = os.path.join(folder, f"published-{year}.txt")
    if folder and os.path.isfile(printed):
        told.append(moved(printed, os.path.join(folder, f"undone-{year}.txt")))
    table_standing.taken_back(folder, year)
    return told


def moved(path: str, to: str) -> str:
    place = name_of(to)
    os.rename(path, place)
    return f"{path} is {place} now"
