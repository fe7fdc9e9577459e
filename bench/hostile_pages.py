"""Makers of hostile registers: bytes, pages, chains and logs of the file. Each fills the folder's register."""

import functools
import pathlib
import random
import shutil
import sqlite3
import struct
import tempfile

from common import MEGABYTE
from lpis_helpers.registers import made, register, rows

NAME, PAGE, SEED = "years.db", 4096, 20_261_123
ROW = "INSERT INTO lpis_row VALUES (2025, 5, 'north', {})"


def copied(folder, data, log=None):
    (folder / NAME).write_bytes(data)
    if log is not None:
        (folder / f"{NAME}-wal").write_bytes(log)


def poked(folder, base, place, new, of="small"):
    """A register with bytes of it set."""
    data = bytearray(getattr(base, of).read_bytes())
    data[place : place + len(new)] = new
    (folder / NAME).write_bytes(data)


def cut(folder, data, end):
    (folder / NAME).write_bytes(data[:end])


def flipped(folder, data, seed, width, places=None):
    """So many bytes changed, at random places of these, or of all."""
    copy, numbers = bytearray(data), random.Random(seed)
    places = range(len(copy)) if places is None else places
    for _ in range(width):
        copy[numbers.choice(places)] ^= numbers.choice([1 << numbers.randrange(8), numbers.randrange(1, 256)])
    (folder / NAME).write_bytes(copy)


def cuts(base, of):
    data = getattr(base, of).read_bytes()
    return [(f"cut at {end}", functools.partial(cut, data=data, end=end)) for end in range(0, len(data), 512)]


def flips(base, of, count, width):
    data = getattr(base, of).read_bytes()
    seeds = [f"{SEED} {of} {width} {number}" for number in range(count)]
    return [
        (f"flips {number}", functools.partial(flipped, data=data, seed=seed, width=width))
        for number, seed in enumerate(seeds)
    ]


def flips_of_texts(base, of, count):
    """One byte of the texts of shapes changed, by one bit, to a digit, or to any other: such a register is read by
    SQLite as before."""
    data = getattr(base, of).read_bytes()
    texts = register(getattr(base, of)).texts
    places = [data.rindex((name + wkt).encode()) + len(name) + at for name, wkt in texts for at in range(len(wkt))]
    found = []
    for number in range(count):
        numbers = random.Random(f"{SEED} texts of {of} {number}")
        place = numbers.choice(places)
        new = numbers.choice(
            [data[place] ^ 1 << numbers.randrange(8), numbers.choice(b"0123456789"), numbers.randrange(256)]
        )
        found.append((f"text {number}", functools.partial(poked, base=base, place=place, new=bytes([new]), of=of)))
    return found


def flips_of_pages(base, of, tables, count, width):
    """So many bytes changed on the pages of these tables and of the indices of their keys."""
    path = getattr(base, of)
    roots = [root for root, in rows(path, f"SELECT rootpage FROM sqlite_schema WHERE tbl_name IN {tables}")]
    data = path.read_bytes()
    # The last half of a small page has its rows, the first its header: what lies between is free.
    places = [(root - 1) * PAGE + at for root in roots for at in range(PAGE) if at < 32 or data[(root - 1) * PAGE + at]]
    seeds = [f"{SEED} pages {of} {width} {number}" for number in range(count)]
    return [
        (f"flips {number}", functools.partial(flipped, data=data, seed=seed, width=width, places=places))
        for number, seed in enumerate(seeds)
    ]


def headers(base):
    """Each field of the header of a database with odd values."""
    fields = {
        16: (2, [0, 1, 2, 3, 100, 256, 512, 1024, 4097, 8192, 32768, 65535]),
        18: (1, [0, 1, 3, 255]),
        19: (1, [0, 1, 3, 255]),
        20: (1, [1, 32, 254, 255]),
        21: (1, [0, 65]),
        22: (1, [0, 33]),
        23: (1, [0, 33]),
        28: (4, [0, 1, 2, 1000, 2**31, 2**32 - 1]),
        32: (4, [1, 2, 3, 1000, 2**32 - 1]),
        36: (4, [1, 5, 2**32 - 1]),
        40: (4, [0, 2**32 - 1]),
        44: (4, [0, 1, 5, 2**32 - 1]),
        52: (4, [1, 2, 2**32 - 1]),
        56: (4, [0, 2, 3, 4]),
        64: (4, [1]),
        92: (4, [0, 2**32 - 1]),
        96: (4, [0, 2**32 - 1]),
    }
    return [
        (
            f"header {place} is {value}",
            functools.partial(poked, base=base, place=place, new=value.to_bytes(size, "big")),
        )
        for place, (size, values) in fields.items()
        for value in values
    ]


def pages(base):
    """Each page's header with odd values, and children that point back or past the end."""
    found = []
    for of in ("small", "large"):
        data = getattr(base, of).read_bytes()
        count = len(data) // PAGE
        step = max(1, count // 16)
        for page in [*range(0, min(count, 16)), *range(16, count, step)]:
            at = page * PAGE + (100 if page == 0 else 0)
            places = [(at, bytes([kind])) for kind in (0, 2, 5, 10, 13, 255) if data[at] != kind]
            places += [
                (at + 1, b"\xff\xff"),
                (at + 3, b"\0\0"),
                (at + 3, b"\xff\xff"),
                (at + 5, b"\0\0"),
                (at + 5, b"\0\1"),
            ]
            places += [(at + 7, b"\xff")]
            if data[at] in (2, 5):
                cell = page * PAGE + int.from_bytes(data[at + 12 : at + 14], "big")
                values = [0, 1, page + 1, count, count + 1, 2**31, 2**32 - 1]
                places += [(place, value.to_bytes(4, "big")) for place in (at + 8, cell) for value in values]
            found += [
                (
                    f"{of}, page {page + 1}, {place - page * PAGE} is {new.hex()}",
                    functools.partial(poked, base=base, place=place, new=new, of=of),
                )
                for place, new in places
            ]
    return found


def with_number(data, place, value):
    """These bytes with a number of four bytes at a place."""
    return data[:place] + value.to_bytes(4, "big") + data[place + 4 :]


def chains(base):
    """An identifier on pages of its own, whose chain goes back to itself, to a page of a table, past the end, or is
    too short."""
    path = base.folder / "chain.db"
    shutil.copy(base.small, path)
    made(path, ROW.format("'" + "x" * 5 * PAGE + "'"))
    data = path.read_bytes()
    first = next(
        page for page in range(len(data) // PAGE) if data[page * PAGE + 4 : (page + 1) * PAGE] == b"x" * (PAGE - 4)
    )
    return [
        (f"the chain goes to {value}", functools.partial(copied, data=with_number(data, first * PAGE, value)))
        for value in (0, 1, 2, first + 1, first + 2, len(data) // PAGE + 1, 2**32 - 1)
    ]


def freed(base):
    """A list of free pages that goes back to itself, past the end, or counts too many."""
    path = base.folder / "free.db"
    shutil.copy(base.small, path)
    made(path, "CREATE TABLE other (x); INSERT INTO other VALUES (zeroblob(100000)); DROP TABLE other")
    data = path.read_bytes()
    trunk = int.from_bytes(data[32:36], "big")
    at = (trunk - 1) * PAGE
    return [
        (f"free pages, {place - at} is {value}", functools.partial(copied, data=with_number(data, place, value)))
        for place in (at, at + 4, at + 8)
        for value in (0, 1, 2, trunk, 5000, 2**31, 2**32 - 1)
    ]


def sizes(base):
    """The same tables on pages of each size, in other texts, with auto-vacuum."""

    def convert(folder, before):
        connection, old = sqlite3.connect(folder / NAME), sqlite3.connect(base.small)
        connection.executescript(before)
        connection.executescript("\n".join(old.iterdump()))
        connection.close()
        old.close()

    pragmas = [f"PRAGMA page_size = {512 << shift}" for shift in range(8)]
    pragmas += [
        f"PRAGMA {rest}"
        for rest in (
            "encoding = 'UTF-16le'",
            "encoding = 'UTF-16be'",
            "auto_vacuum = 1",
            "auto_vacuum = 2",
            "journal_mode = WAL",
        )
    ]
    return [(pragma, functools.partial(convert, before=pragma)) for pragma in pragmas]


def others(base):
    """Files that are no databases."""
    head = base.small.read_bytes()[:100]

    def long(folder, of, size):
        with open(folder / NAME, "wb") as file:
            file.write(of)
            file.truncate(size)

    return [
        ("nothing", functools.partial(copied, data=b"")),
        ("a text", functools.partial(copied, data=b"old,new\n" * 1000)),
        ("100 MB of noughts", functools.partial(long, of=b"", size=100 * MEGABYTE)),
        ("a header and 100 MB of noughts", functools.partial(long, of=head, size=100 * MEGABYTE)),
        ("an S and 100 MB of noughts", functools.partial(long, of=b"S", size=100 * MEGABYTE)),
        ("one byte", functools.partial(copied, data=b"\0")),
        ("noise", functools.partial(copied, data=random.Random(SEED).randbytes(MEGABYTE))),
    ]


def logs(base):
    """Logs that are cut off, damaged, of another register, or noise, beside a sound register that they belong to."""
    with tempfile.TemporaryDirectory(dir=base.folder) as name:
        path = pathlib.Path(name, NAME)
        shutil.copy(base.small, path)
        connection = sqlite3.connect(path)
        connection.executescript(
            "PRAGMA journal_mode = WAL; INSERT INTO lpis_release VALUES (2030);"
            "DELETE FROM lpis_release WHERE year = 2030; INSERT INTO lpis_release VALUES (2027)"
        )
        log, data = path.with_name(f"{NAME}-wal").read_bytes(), path.read_bytes()
        connection.close()
    numbers = random.Random(SEED)
    found = [(f"a log cut at {end}", log[:end]) for end in [*range(0, 100, 7), *range(0, len(log), 512)]]
    for number in range(300):
        copy = bytearray(log)
        copy[numbers.randrange(len(copy))] ^= 1 << numbers.randrange(8)
        found.append((f"a log with flip {number}", bytes(copy)))
    found += [
        ("a log of noise", numbers.randbytes(MEGABYTE)),
        ("a log of noughts", bytes(10 * MEGABYTE)),
        ("a log that stands twice", log + log),
        ("a header and noise", log[:32] + numbers.randbytes(MEGABYTE)),
        ("a log with another page size", log[:8] + struct.pack(">I", 512) + log[12:]),
    ]
    cases = [(name, functools.partial(copied, data=data, log=bytes_)) for name, bytes_ in found]
    return cases + [
        ("a log and nothing", functools.partial(copied, data=b"", log=log)),
        ("a log and a text", functools.partial(copied, data=b"old,new\n" * 1000, log=log)),
    ]
