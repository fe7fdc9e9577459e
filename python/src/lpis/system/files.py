"""Files that take their place only when they are whole, and that are never written through a link which lies in their
place.

    with files.anew(path) as file      beside the place under a name that nobody can foresee, and then renamed; the mode
        of what stood there is kept
    with files.together()              files that are made in it take their place at its end
    with files.fresh(path) as file     in its place from the start; what lies there is removed first, and a link is not
        followed
    with files.more(path) as file      goes on with a file of one's own; a link is not followed
    files.own(html=path)               refuses a path where something else stands than what the tool writes there
    files.folder(out, ".prepare-")     a new folder in another; those that killed runs left there go
    files.alone(out)                   keeps other runs away from a folder
    files.run(words)                   a tool that works in the same folder, as a part of this run
    files.forget()                     removes what is not whole, where a tool ends at once
    files.digest(path)                 the sha256 of a file
"""

import contextlib
import fcntl
import hashlib
import itertools
import os
import secrets
import shutil
import stat
import string
import tempfile

from . import processes
from .trouble import Trouble

NEW = ".new"  # how the names of files end that are not whole
LOCKS = "LPIS_LOCKS"  # in the environment: the locks that a tool was given by the one that started it
MADE = os.O_WRONLY | os.O_CREAT | os.O_EXCL | os.O_NOFOLLOW | os.O_CLOEXEC
FOLDER = os.O_RDONLY | os.O_DIRECTORY | os.O_NOFOLLOW | os.O_CLOEXEC
RANDOM = set(string.ascii_lowercase + string.digits + "_")  # of a temporary name
TEXT = {"encoding": "utf-8", "errors": "backslashreplace"}  # bytes of a folder's name that are no letters are no crash

HEADS = {
    "html": b'<!DOCTYPE html>\n<html lang="en">',
    "json": b'{\n "date": ',
    "geojson": b'{\n "type": "FeatureCollection"',
    "svg": b"<svg xmlns=",
    "csv": b"kind,of,identifier,before,after,difference,percent,words\n",
}  # of what tools write

PART = 1 << 20  # bytes at once

_unfinished, _waiting, _alone, _written = set(), [], {}, [""]


def is_device(path):
    """Whether a path is no file but a terminal, a pipe or another thing that takes bytes and can't be renamed over.
    /dev/shm has files."""
    whole = os.path.abspath(path)
    return (
        os.path.dirname(whole) in ("/dev", "/dev/fd")
        or whole.startswith("/proc/")
        or (os.path.exists(path) and not os.path.isfile(path))
    )


def own(**outputs):
    """Refuses a file in the place of an output that does not begin as that does, since it may be an input; and two
    outputs of one place."""
    outputs = {kind: path for kind, path in outputs.items() if path and not is_device(path)}
    if len(set(map(os.path.realpath, outputs.values()))) < len(outputs):
        raise Trouble(f"{' and '.join(outputs.values())} are one file: name two")
    for kind, path in outputs.items():
        if not os.path.isdir(os.path.dirname(path) or "."):
            raise Trouble(f"{path} cannot be written: {os.path.dirname(path)} is no folder")
        if os.path.isfile(path):
            with open(path, "rb") as file:
                begun = file.read(len(HEADS[kind]))
            if begun and begun != HEADS[kind]:
                raise Trouble(
                    f"{path} is there, and no {kind} of this tool: it stays as it is; name another file, or move it"
                    " away"
                )


def last_written():
    """The file that was last opened for writing here: where the disk is full, the system does not name it."""
    return _written[0]


def mode_of(path):
    """The mode of a file that lies there itself, or None."""
    with contextlib.suppress(OSError):
        found = os.lstat(path)
        if stat.S_ISREG(found.st_mode):
            return stat.S_IMODE(found.st_mode)
    return None


def opened(handle, mode, form, path=""):
    _written[0] = path
    return os.fdopen(handle, mode, **(form if "b" in mode else {**TEXT, **form}))


@contextlib.contextmanager
def beside(path, mode=None):
    """The name of a new, empty file beside a path. If all goes well, it takes its place, with the mode given or that
    of the file there."""
    name = os.path.join(os.path.dirname(path), f".lpis-{secrets.token_hex(8)}{NEW}")
    handle, mode = os.open(name, MADE, 0o666), mode_of(path) if mode is None else mode
    _unfinished.add(name)
    try:
        if mode is not None:
            os.fchmod(handle, mode)
        os.close(handle)
        yield name
        if _waiting:
            _waiting[-1].append((name, path))
        else:
            os.replace(name, path)
    finally:
        if not (_waiting and (name, path) in _waiting[-1]):
            remove(name)
            _unfinished.discard(name)


@contextlib.contextmanager
def together():
    """Files that are whole wait for each other, and no signal comes between them."""
    _waiting.append([])
    try:
        yield
        with processes.held():
            for name, path in _waiting[-1]:
                os.replace(name, path)
    finally:
        for name, _ in _waiting.pop():
            remove(name)
            _unfinished.discard(name)


@contextlib.contextmanager
def anew(path, mode="w", **form):
    """A file to write that takes its place only when it is whole."""
    if is_device(path):
        with opened(os.open(path, os.O_WRONLY | os.O_CLOEXEC), mode, form, path) as file:
            yield file
        return
    with beside(path) as name, opened(
        os.open(name, os.O_WRONLY | os.O_NOFOLLOW | os.O_CLOEXEC), mode, form, path
    ) as file:
        yield file
        file.flush()


def fresh(path, **form):
    remove(path)
    return opened(os.open(path, MADE, 0o666), "w", form, path)


def more(path, **form):
    return opened(os.open(path, os.O_WRONLY | os.O_APPEND | os.O_NOFOLLOW | os.O_CLOEXEC), "a", form, path)


def settle(name, path, mode=None):
    """Puts a file in the place of another, whose mode is kept, or that given."""
    mode = mode_of(path) if mode is None else mode
    if mode is not None:
        os.chmod(name, mode)
    os.replace(name, path)


def aside(path):
    """A copy of a file under its name with the first number that is free; its path, or nothing where there is no
    file."""
    if mode_of(path) is None:
        return ""
    name, end = os.path.splitext(path)
    copy = next(place for number in itertools.count(1) if not os.path.lexists(place := f"{name}-{number}{end}"))
    shutil.copy2(path, copy, follow_symlinks=False)
    return copy


def folder(out, prefix):
    """A new folder in another, locked as long as this process lives. Those of runs that were killed have no lock,
    and are removed."""
    for entry in os.scandir(out):
        if (
            entry.name.startswith(prefix)
            and set(entry.name[len(prefix) :]) <= RANDOM
            and entry.is_dir(follow_symlinks=False)
        ):
            with contextlib.suppress(OSError), locked(entry.path, fcntl.LOCK_EX | fcntl.LOCK_NB):
                shutil.rmtree(entry.path, ignore_errors=True)
    made = tempfile.mkdtemp(prefix=prefix, dir=out)
    fcntl.flock(os.open(made, FOLDER), fcntl.LOCK_SH)
    return made


def alone(path):
    """Locks a folder for the rest of this process, which writes there; where another one does, that is said. Of a
    file system without such locks nothing is known."""
    found = os.stat(path)
    if (found.st_dev, found.st_ino) in _alone:
        return
    handle = given(found)
    if handle is None:
        handle = os.open(path, os.O_RDONLY | os.O_DIRECTORY | os.O_CLOEXEC)
        found = os.fstat(handle)
    try:
        fcntl.flock(handle, fcntl.LOCK_EX | fcntl.LOCK_NB)
    except BlockingIOError:
        os.close(handle)
        raise Trouble(f"another run works in {path}: wait for its end") from None
    except OSError:
        pass
    _alone[found.st_dev, found.st_ino] = handle


def given(found):
    """The lock of a folder that the tool which started this one has given to it; None where there is none."""
    for handle in map(int, filter(str.isdecimal, os.environ.get(LOCKS, "").split())):
        with contextlib.suppress(OSError, OverflowError):
            if os.path.samestat(os.fstat(handle), found):
                return handle
    return None


def locks():
    """The locks of this process, for programs that go on where it is killed: as long as they run, no other run
    begins."""
    return tuple(_alone.values())


def run(words, **more):
    """Runs a tool that takes over the locks of this process until it ends."""
    surroundings = {**os.environ, LOCKS: " ".join(map(str, locks()))}
    return processes.run(words, env=surroundings, pass_fds=locks(), **more)


def is_own(path):
    """Whether this process is the one that works in a folder."""
    with contextlib.suppress(OSError):
        found = os.stat(path)
        return (found.st_dev, found.st_ino) in _alone
    return False


@contextlib.contextmanager
def locked(path, kind):
    handle = os.open(path, FOLDER)
    try:
        fcntl.flock(handle, kind)
        yield
    finally:
        os.close(handle)


def remove(path):
    with contextlib.suppress(FileNotFoundError):
        os.remove(path)


def digest(path, found=None):
    """The sha256 of a file; of more before it where a digest is begun."""
    found = hashlib.sha256() if found is None else found
    with open(path, "rb") as file:
        while part := file.read(PART):
            found.update(part)
    return found.hexdigest()


def forget():
    for name in list(_unfinished):
        with contextlib.suppress(OSError):
            os.remove(name)
