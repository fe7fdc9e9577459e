"""Files that take their place together: afterwards all of them are the new ones, or all are those that stood there.

    placing.put(made, out, names)     files of `made`, a folder in `out` whose name begins with a dot, take their place;
                                      those of `gone` leave theirs at once
    placing.end(out)                  ends what a run that was killed had begun there

The new files are on the disk before the journal is. With the journal it is decided: the old files go aside, then the
new ones come, and the journal goes. A signal waits for that. Where a rename fails, the old files come back. Where the
process is killed, the next run of any tool that is given the folder goes on.
"""

from __future__ import annotations

import contextlib
import errno
import fcntl
import json
import os
import shutil
import stat
import sys
from collections.abc import Iterable
from typing import TextIO

from . import files, processes
from .trouble import Trouble

JOURNAL = ".lpis-placing"
OLD = ".old"  # in the folder of the new files: those that stood in their places
HALF = "a run was stopped while its files took their place"
PARTLY = "some files are in their place in {}, and others not; the next run on it finishes that"


class Move:
    """Files on their way from a folder to that in which it lies; where each one is tells how far they have come."""

    def __init__(self, out: str, made: str, names: list[str], gone: Iterable[str] = ()):
        self.out, self.made, self.names, self.gone = out, os.path.join(out, made), names, list(gone)

    def paths(self, name: str) -> tuple[str, ...]:
        """Where a file is new, where it is put, and where that goes that stood there."""
        return tuple(os.path.join(folder, name) for folder in (self.made, self.out, os.path.join(self.made, OLD)))

    def make_ready(self) -> None:
        """Gives the new files the modes of those that stand, and has the disk write them. No folder is replaced."""
        for name in self.gone:
            os.makedirs(os.path.dirname(self.paths(name)[2]), exist_ok=True)
        for name in self.names:
            new, place, old = self.paths(name)
            if os.path.isdir(place) and not os.path.islink(place):
                raise IsADirectoryError(errno.EISDIR, os.strerror(errno.EISDIR), place)
            mode = files.mode_of(place)
            if mode is not None:
                os.chmod(new, mode)
            flush(new)
            os.makedirs(os.path.dirname(old), exist_ok=True)
        for folder in self.folders(self.made):
            flush(folder)

    def folders(self, top: str) -> list[str]:
        return sorted({os.path.dirname(os.path.join(top, name)) for name in self.names})

    def go(self) -> None:
        """Takes the old files away, then puts the new ones there: who reads meanwhile finds no table, and no mix."""
        for new, place, old in map(self.paths, self.names):
            if os.path.lexists(new) and os.path.lexists(place):
                os.replace(place, old)
        for _, place, old in map(self.paths, self.gone):
            if os.path.lexists(place):
                os.replace(place, old)
        for new, place, _ in map(self.paths, self.names):
            if os.path.lexists(new):
                os.replace(new, place)
        for folder in self.folders(self.out):
            flush(folder)

    def undo(self) -> None:
        """Brings back what stood there."""
        for new, place, old in map(self.paths, self.names):
            if not os.path.lexists(new):
                os.replace(place, new)
            if os.path.lexists(old):
                os.replace(old, place)
        for _, place, old in map(self.paths, self.gone):
            if os.path.lexists(old):
                os.replace(old, place)

    def tried(self) -> OSError | None:
        """Goes; where that fails, goes back, and answers why. Where it can do neither the journal stays."""
        try:
            self.go()
            return None
        except OSError as error:
            try:
                self.undo()
            except OSError:
                raise Trouble(f"{told(error, self.out)}: {PARTLY.format(self.out)}") from None
            return error

    def lost(self) -> list[str]:
        """Files that are neither new nor in their place."""
        return [name for name in self.names if not any(map(os.path.lexists, self.paths(name)[:2]))]


def put(made: str, out: str, names: Iterable[str], then: str = "", gone: Iterable[str] = ()) -> None:
    """Puts files in their place, all or none; files of the names in `gone` go, where they are there. `then` is what a
    signal tells that comes from then on."""
    names, gone = list(names), [name for name in gone if os.path.lexists(os.path.join(out, name))]
    with processes.held():
        if len(names) == 1 and not gone:
            files.settle(os.path.join(made, names[0]), os.path.join(out, names[0]))
        elif names or gone:
            together(Move(out, os.path.relpath(made, out), names, gone))
        if then:
            processes.tell(then)


def together(move: Move) -> None:
    end(move.out)
    move.make_ready()
    path, handle = begun(move)
    try:
        failed = move.tried()
        os.remove(path)
    finally:
        os.close(handle)
    if failed:
        raise Trouble(f"{told(failed, move.out)}: what stood in {move.out} is still there")


def begun(move: Move) -> tuple[str, int]:
    """The journal in its place, locked as long as it is open."""
    path = os.path.join(move.out, JOURNAL)
    with files.beside(path) as name:
        handle = os.open(name, os.O_RDWR | os.O_CLOEXEC)
        with contextlib.suppress(OSError):  # a file system without locks
            fcntl.flock(handle, fcntl.LOCK_EX | fcntl.LOCK_NB)
        os.write(handle, json.dumps([os.path.relpath(move.made, move.out), move.names, move.gone]).encode())
        os.fsync(handle)
    flush(move.out)
    return path, handle


def end(out: str) -> None:
    """Puts the files in their place that a run which was killed had made, and had begun to put there."""
    path = os.path.join(out, JOURNAL)
    try:
        handle = os.open(path, os.O_RDONLY | os.O_NOFOLLOW | os.O_CLOEXEC)
    except (FileNotFoundError, NotADirectoryError):
        return
    with open(handle, encoding="utf-8") as file, processes.held():
        with contextlib.suppress(OSError):
            fcntl.flock(file, fcntl.LOCK_EX)  # a run that lives ends it itself
        if not is_at(path, file) or is_strangers(out, file):
            return
        move = read(file, out)
        try:
            move.go()
            os.remove(path)
        except OSError as error:
            reason = f"{HALF}, and cannot go on ({error.strerror}): run this as somebody who may write there"
            raise Trouble(f"{out}: {reason}") from None
    shutil.rmtree(move.made, ignore_errors=True)
    with contextlib.suppress(OSError, ValueError):  # a full or closed standard error
        print(f"{out}: {HALF}; they are in their place now", file=sys.stderr, flush=True)


def end_all(words: Iterable[str]) -> None:
    """The same of all folders that a command line names, and of a country that a region is named of."""
    for word in words:
        folder = word.partition("=")[2] if word.startswith("-") else word
        for place in (folder, os.path.dirname(os.path.abspath(folder))):
            if folder and os.path.isdir(place):
                end(place)


def clear(made: str) -> None:
    """Removes the folder of new files, but for those that a journal names."""
    if not os.path.lexists(os.path.join(os.path.dirname(made), JOURNAL)):
        shutil.rmtree(made, ignore_errors=True)


def is_at(path: str, file: TextIO) -> bool:
    try:
        return os.path.samestat(os.stat(path), os.fstat(file.fileno()))
    except FileNotFoundError:
        return False


def is_strangers(out: str, file: TextIO) -> bool:
    """Whether somebody else put a file into a folder in which nobody may touch the files of others, such as /tmp."""
    return bool(os.stat(out).st_mode & stat.S_ISVTX) and os.fstat(file.fileno()).st_uid != os.geteuid()


def told(error: OSError, out: str) -> str:
    return f"{error.filename or out}: {error.strerror}"


def read(file: TextIO, out: str) -> Move:
    """What a journal says. It moves files in its own folder alone, whoever wrote it."""
    try:
        made, names, *more = json.load(file)
        move = Move(out, made, names, *more)
        is_one = all(map(is_inner, [made, *names, *move.gone])) and made.startswith(".")
        is_one = is_one and os.path.isdir(move.made) and not os.path.islink(move.made)
    except (ValueError, TypeError, UnicodeError):
        is_one = False
    if not is_one or move.lost():
        reason = f"{HALF}, and what it names is no longer there: remove this file, and make the tables again"
        raise Trouble(f"{os.path.join(out, JOURNAL)}: {reason}")
    return move


def is_inner(name: object) -> bool:
    """Whether a name leads to something in the folder."""
    is_plain = isinstance(name, str) and name not in ("", ".") and os.path.normpath(name) == name
    return is_plain and not name.startswith(("..", "/"))


def flush(path: str) -> None:
    """Has the disk write a file or a folder."""
    handle = os.open(path, os.O_RDONLY | os.O_CLOEXEC)
    try:
        os.fsync(handle)
    except OSError as error:
        if error.errno not in (errno.EINVAL, errno.EBADF):  # a file system that cannot do so of a folder
            raise
    finally:
        os.close(handle)
