"""Who answers: the proved code as a library in this process, or the proved program as a process. Both read the same
bytes, and give the same."""

from __future__ import annotations

import ctypes
import mmap
import tempfile
from pathlib import Path
from typing import Any, NamedTuple, Union

from . import tree
from .refusals import Failed

LINE = 160  # bytes of a report's line, more than most have
CORNER = 120  # bytes that a certificate needs for a corner, more than most do
MOST_ROOM = 400_000_000
PROCESSOR = {"cx16", "popcnt", "sse4_1", "sse4_2", "ssse3"}  # the kit compiles for x86-64-v2
NO_ANSWER = "no answer: memory ran out, or an input is over 1 GiB"


class Answer(NamedTuple):
    """What `lpis` prints, and the status with which it ends."""

    text: str
    status: int


class Reply(ctypes.Structure):
    """What a call of library/lpis.h hands over beside the text."""

    _fields_ = [("length", ctypes.c_size_t), ("status", ctypes.c_uint8)]


class Library:
    """liblpis.so. A call lets go of the interpreter's lock, and keeps nothing."""

    name = "library"

    def __init__(self, path: Path) -> None:
        self._calls: dict[str, Any] = {}
        found, reply = ctypes.CDLL(str(path)), ctypes.POINTER(Reply)
        pair, size = [ctypes.c_char_p, ctypes.c_size_t], ctypes.POINTER(ctypes.c_size_t)
        for name, words in (
            ("area", [*pair * 2, reply]),
            ("check", [*pair * 5, reply]),
            ("cut", [*pair * 5, size, reply]),
        ):
            call = getattr(found, f"lpis_{name}")
            call.restype, call.argtypes = ctypes.c_bool, words
            self._calls[name] = call

    def _ask(self, name: str, inputs: tuple[bytes, ...], sizes: list[int]) -> tuple[Answer, list[bytes]]:
        """The answer of a call whose last room is that of its text, and what stands in the others."""
        while True:
            given, reply = ctypes.c_size_t(), Reply()
            rooms = [mmap.mmap(-1, size) for size in sizes]  # of which what is not written takes no memory
            lent: list[Any] = [(ctypes.c_char * size).from_buffer(room) for size, room in zip(sizes, rooms)]
            words = [word for data in [*inputs, *lent] for word in (data, len(data))]
            between = [ctypes.byref(given)] if len(sizes) > 1 else []
            is_answer = self._calls[name](*words, *between, ctypes.byref(reply))
            del lent, words
            needed = [*([given.value] if between else []), reply.length]
            if is_answer:
                *others, text = (room[:length] for room, length in zip(rooms, needed))
                return Answer(text.decode("ascii", "replace"), reply.status), others
            if all(length <= size for length, size in zip(needed, sizes)):
                raise Failed(NO_ANSWER)
            sizes = [max(length, size) for length, size in zip(needed, sizes)]

    def area(self, table: bytes) -> Answer:
        return self._ask("area", (table,), [room_for(table)])[0]

    def check(self, parcels: bytes, covers: bytes, classes: bytes, certificate: bytes | None = None) -> Answer:
        if certificate is None:
            cut, certificate = self.cut(parcels, covers, classes)
            if cut.status:
                return cut
        return self._ask("check", (parcels, covers, classes, certificate), [room_for(parcels)])[0]

    def cut(self, parcels: bytes, covers: bytes, classes: bytes) -> tuple[Answer, bytes]:
        room = min(LINE + CORNER * (parcels.count(b",") + 2 * covers.count(b",")), MOST_ROOM)
        answer, (certificate,) = self._ask("cut", (parcels, covers, classes), [room, room_for(b"")])
        return answer, certificate


def room_for(table: bytes) -> int:
    """Bytes for a line of each row and a few more."""
    return LINE * (8 + table.count(b"\n") + table.count(b"\r"))


class Program:
    """The program as a process, with files in a folder of its own."""

    name = "program"

    def area(self, table: bytes) -> Answer:
        with folder_of(table=table) as folder:
            return run("area", f"{folder}/table.csv")

    def check(self, parcels: bytes, covers: bytes, classes: bytes, certificate: bytes | None = None) -> Answer:
        with folder_of(parcels=parcels, covers=covers, classes=classes) as folder:
            return run("check", folder, *put(folder, certificate))

    def cut(self, parcels: bytes, covers: bytes, classes: bytes) -> tuple[Answer, bytes]:
        with folder_of(parcels=parcels, covers=covers, classes=classes) as folder:
            path = Path(folder, "cert.txt")
            answer = run("cut", folder, str(path))
            return answer, path.read_bytes() if path.exists() else b""


def folder_of(**tables: bytes) -> tempfile.TemporaryDirectory[str]:
    """A folder with tables, by their names, that goes with the `with` around it."""
    folder = tempfile.TemporaryDirectory(prefix="lpis-")
    for name, data in tables.items():
        Path(folder.name, f"{name}.csv").write_bytes(data)
    return folder


def put(folder: str, certificate: bytes | None) -> list[str]:
    """The path of a certificate that is put into a folder; none where there is none."""
    if certificate is None:
        return []
    path = Path(folder, "cert.txt")
    path.write_bytes(certificate)
    return [str(path)]


def run(*words: str) -> Answer:
    """The answer of the program; `Failed` where it ends in another way than by a yes or a refusal."""
    ended = tree.ended([*tree.program(), *words])
    if ended.returncode not in (0, 1, 2):
        raise Failed(ended.stderr.strip() or f"lpis {words[0]} ended with status {ended.returncode}")
    if ended.returncode == 2 and not ended.stdout:
        raise Failed(ended.stderr.strip())
    return Answer(ended.stdout, ended.returncode)


def loaded() -> Library:
    """The library. A processor on which it cannot run would end this process."""
    path = tree.library()
    if path is None:
        raise Failed(f"there is no {tree.LIBRARY} beside this package, and LPIS_LIBRARY names none")
    try:
        known = set(Path("/proc/cpuinfo").read_text("ascii", "replace").split())
        if not PROCESSOR <= known:
            raise Failed(f"{path} does not run on this processor, which lacks {' '.join(sorted(PROCESSOR - known))}")
        return Library(path)
    except (OSError, AttributeError) as error:
        raise Failed(f"{path} is no library that loads here: {error}") from None


Backend = Union[Library, Program]
_chosen: list[Backend] = []


def choose(wanted: str = "") -> Backend:
    """The one that is wanted from now on; of no name the library, where it is there and loads, else the program."""
    if wanted not in ("", Library.name, Program.name):
        raise ValueError(f"{wanted!r} is neither library nor program")
    found: Backend = Program()
    if wanted != Program.name:
        try:
            found = loaded()
        except Failed:
            if wanted:
                raise
    _chosen[:] = [found]
    return found


def chosen() -> Backend:
    return _chosen[0] if _chosen else choose()


def backend(wanted: str | None = None) -> str:
    """Who answers `area`, `cut` and `check`: `library` or `program`.

    Args:
        wanted: chooses one of the two from now on.

    Raises:
        Failed: where the library is wanted and not there.
    """
    return (chosen() if wanted is None else choose(wanted)).name
