"""What a source's files are known by: their bytes. Size and times do not do: a copy may keep both, and so may a change
within the grain of the file system's clock."""

from __future__ import annotations

import hashlib
import os

from ..system import files, progress
from ..system.trouble import Trouble

LOG = "-wal"  # of a database: what was written since, beside it


def parts_of(path: str) -> list[str]:
    """A file, and the log of writes beside it where that has any."""
    path = os.path.realpath(path)
    log = path + LOG
    return [path, log] if os.path.isfile(log) and os.path.getsize(log) else [path]


def signs_of(path: str) -> list[int]:
    """What changes with each change of a file but for one within a tick of the clock: enough to see that one was
    written while a run reads it, and no more. Nobody can set the time of the last change (ctime) back; that of a log is
    also changed by who opens it as root."""
    file, *log = (os.stat(part) for part in parts_of(path))
    found = [file.st_size, file.st_mtime_ns, file.st_ctime_ns]
    return found + [fact for one in log for fact in (one.st_size, one.st_mtime_ns)]


def digest_of(path: str) -> str:
    """The sha256 of a file, and of its log behind it."""
    found, paths = [], parts_of(path)
    shown = progress.Bytes(progress.Quiet.tool, f"digest of {path}", sum(map(os.path.getsize, paths)))
    for part in paths:
        digest = hashlib.sha256()
        with open(part, "rb") as file:
            while data := file.read(files.PART):
                digest.update(data)
                shown.took(len(data))
        found.append(digest.hexdigest())
    shown.end()
    return " ".join(found)


class Contents:
    """The digests of files, each worked out once in a run."""

    def __init__(self) -> None:
        self.digests: dict[str, str] = {}
        self.signs_by: dict[str, list[int]] = {}

    def digest(self, path: str) -> str:
        path = os.path.realpath(path)
        if path not in self.digests:
            self.signs_by[path] = signs_of(path)
            self.digests[path] = digest_of(path)
        return self.digests[path]

    def signs(self, path: str) -> list[int]:
        """Those from before the digest was worked out."""
        self.digest(path)
        return self.signs_by[os.path.realpath(path)]

    def hold(self) -> None:
        """Trouble where a file has other bytes now."""
        for path, then in self.digests.items():
            if digest_of(path) != then:
                raise changed(path)


def changed(path: str) -> Trouble:
    return Trouble(f"{path} changed while it was read: run it again when no program writes to it")
