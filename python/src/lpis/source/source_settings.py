"""lpis.toml beside a source: what it calls its layers and columns, where its table of classes is, its system, the width
of land between parcels, and which columns go with findings. The first run that is given names writes it, and every tool
that is given the source takes it. It is TOML of few forms: sections, keys with dots, and a text or a number behind each
key."""

from __future__ import annotations

import contextlib
import math
import os
import re
import sqlite3
from dataclasses import dataclass, field
from typing import Callable, Iterator

from . import land, spreadsheets
from ..system import databases, files
from ..system.printing import escaped
from ..system.progress import Note
from ..system.trouble import Trouble

NAME = "lpis.toml"
PACKAGE = "findings.gpkg"  # in a folder of tables
SINGLE = ("classes", "epsg", "between", "keep")
MOST_WIDE = 100.0  # metres
HEAD = """\
# What the source beside this file calls its layers and columns, for the tools of lpis. Options on a command line win over it.
"""  # noqa: E501
PART = r"[A-Za-z0-9_-]+"
KEY = rf"{PART}(?:\s*\.\s*{PART})*"
SECTION = re.compile(rf"\[\s*({KEY})\s*\]\s*(?:#.*)?")
ENTRY = re.compile(rf"({KEY})\s*=\s*(\"(?:[^\"\\]|\\.)*\"|'[^']*'|[^\s#\"'\[{{]+)\s*(?:#.*)?")
ESCAPE = re.compile(r"\\(?:u([0-9A-Fa-f]{4})|U([0-9A-Fa-f]{8})|(.))", re.DOTALL)
LETTERS = {"b": "\b", "t": "\t", "n": "\n", "f": "\f", "r": "\r", '"': '"', "\\": "\\"}
WRITTEN = {letter: f"\\{name}" for name, letter in LETTERS.items()}
WHOLE, DECIMAL = re.compile(r"\+?[1-9][0-9]*"), re.compile(r"\+?[0-9]+(?:\.[0-9]+)?")


class Wrong(Exception):
    """What is wrong with a line."""


@dataclass
class Options:
    """What is said of a source; `names` are as those of --name."""

    names: dict[str, str] = field(default_factory=dict)
    classes: str | None = None
    epsg: int | None = None
    between: float | None = None
    keep: str | None = None  # with commas between


def known_names() -> list[str]:
    """The layers and columns that have names."""
    return [*land.COLUMNS, *(f"{name}.{column}" for name in land.COLUMNS for column in columns_of(name))]


def columns_of(name: str) -> list[str]:
    return [*land.COLUMNS[name], *(["wkt"] if name in land.SHAPED else [])]


def of_classes(names: dict[str, str]) -> dict[str, str]:
    """What columns of the table of classes are called."""
    return {name.partition(".")[2]: called for name, called in names.items() if name.startswith("classes.")}


def place_of(source: str) -> str:
    """The folder of a source's file: a folder of tables itself, else the one in which the source is. For a database it
    is that where the tool runs."""
    if os.path.isdir(source) and not land.is_of_another_program(source):
        return source
    return os.path.dirname(os.path.abspath(source)) if os.path.exists(source) else os.curdir


def path_of(source: str) -> str:
    return os.path.join(place_of(source), NAME)


def beside(source: str) -> Options | None:
    """What the file beside a source says; None where there is none."""
    path = path_of(source)
    return read(path) if os.path.lexists(path) else None


def read(path: str) -> Options:
    """What a file says. A line that says something else is refused, with its number."""
    try:
        with open(path, encoding="utf-8-sig") as file:
            lines = file.read().split("\n")
    except UnicodeDecodeError as error:
        raise Trouble(f"{path} cannot be read: it is not UTF-8 ({error.reason})") from None
    found = Options()
    for number, key, text in entries(path, lines):
        try:
            put(found, key, value_of(text), os.path.dirname(os.path.realpath(path)))
        except Wrong as wrong:
            raise Trouble(f"{path} line {number}: {wrong}") from None
    return found


def entries(path: str, lines: list[str]) -> Iterator[tuple[int, str, str]]:
    """The keys with their values, and the line of each."""
    section, seen = "", set()
    for number, line in enumerate(lines, 1):
        bare = line.strip(" \t\r")
        if not bare or bare.startswith("#"):
            continue
        header, entry = SECTION.fullmatch(bare), ENTRY.fullmatch(bare)
        if not header and not entry:
            raise Trouble(f"{path} line {number}: {escaped(bare)} is neither [SECTION] nor KEY = VALUE")
        key = re.sub(r"\s", "", (header or entry)[1])
        key = key if header or not section else f"{section}.{key}"
        if key in seen:
            raise Trouble(f"{path} line {number}: {key} is there twice")
        seen.add(key)
        if header:
            section = section_of(path, number, key)
        else:
            yield number, key, entry[2]


def section_of(path: str, number: int, name: str) -> str:
    known = ["layers", "columns", *(f"columns.{layer}" for layer in land.COLUMNS)]
    if name not in known:
        raise Trouble(f"{path} line {number}: the section [{name}] is not known: there are {', '.join(known)}")
    return name


def value_of(text: str) -> str | int | float:
    """A text or a number."""
    if text[0] == "'":
        return text[1:-1]
    if text[0] == '"':
        return ESCAPE.sub(unescaped, text[1:-1])
    if WHOLE.fullmatch(text) or DECIMAL.fullmatch(text):
        return int(text) if WHOLE.fullmatch(text) else float(text)
    raise Wrong(f"{escaped(text)} is neither a text in quotation marks nor a number above 0")


def unescaped(found: re.Match) -> str:
    code, letter = found[1] or found[2], found[3]
    if code:
        number = int(code, 16)
        if number > 0x10FFFF or 0xD800 <= number < 0xE000:
            raise Wrong(f"{found[0]} is no letter")
        return chr(number)
    if letter not in LETTERS:
        raise Wrong(f"a text has no \\{letter}: write \\\\ for a backslash")
    return LETTERS[letter]


def put(found: Options, key: str, value: str | int | float, folder: str) -> None:
    """Takes what a key says."""
    section, _, name = key.partition(".")
    if section in ("layers", "columns") and name in known_names() and ("." in name) == (section == "columns"):
        found.names[name] = text_of(value, "what it is called in the source")
    elif key == "classes":
        found.classes = os.path.join(folder, text_of(value, "the path of a table"))
    elif key == "keep":
        found.keep = text_of(value, "columns of the source, with commas between")
    elif key == "epsg" and isinstance(value, int):
        found.epsg = value
    elif key == "between" and not isinstance(value, str) and 0 < value <= MOST_WIDE:
        found.between = float(value)
    elif key in SINGLE:
        wanted = {"epsg": "the number of a system", "between": f"metres, above 0 and up to {MOST_WIDE:g}"}[key]
        raise Wrong(f"{key} is {escaped(str(value))}, and not {wanted}")
    else:
        keys = [*SINGLE, *(f"{'columns' if '.' in one else 'layers'}.{one}" for one in known_names())]
        raise Wrong(f"the key {key} is not known: there are {', '.join(keys)}")


def text_of(value: str | int | float, what: str) -> str:
    if not isinstance(value, str) or not value:
        raise Wrong(f"{value!r} is no text in quotation marks: {what}")
    return value


def complete(words, names: dict[str, str], say: Callable) -> None:
    """Puts what the file beside a source says where the command line says nothing, and tells it in one line. `words`
    has the source, and `classes`, `epsg` and `between`, which are None where they are not said."""
    found = beside(words.land)
    taken = taken_of(found, words, names) if found else []
    if taken:
        say(Note(f"{path_of(words.land)} says {', '.join(taken)}"))
    if words.between is None:
        words.between = land.BETWEEN


def taken_of(found: Options, words, names: dict[str, str]) -> list[str]:
    """What is taken of a file, in words."""
    if words.classes is None and "classes" not in names:
        words.classes = found.classes
    has_classes = words.classes is not None and words.classes == found.classes
    own = {name: called for name, called in found.names.items() if name not in names}
    if words.classes and not has_classes:  # another table is named, which may have columns of its own
        there = columns_of_table(words.classes)
        own = {
            name: called for name, called in own.items() if not name.startswith("classes") or called.lower() in there
        }
    names.update(own)
    taken = [
        *(f"{name}={called}" for name, called in own.items()),
        *([f"classes {found.classes}"] if has_classes else []),
    ]
    for option in ("epsg", "between"):
        if getattr(words, option) is None and getattr(found, option) is not None:
            setattr(words, option, getattr(found, option))
            taken.append(f"{option} {getattr(found, option):g}")
    if found.keep and not getattr(words, "keep", True):
        words.keep = [found.keep]
        taken.append(f"keep {found.keep}")
    return taken


def words_of(source: str, said: list[str]) -> list[str]:
    """The words --name, --classes and --epsg that say the same, where words of a command line do not; a layer that is
    guessed is named too."""
    found = beside(source) or Options()
    own = dict(re.findall(r"(?m)^(?:--name=)?([a-z]+(?:\.[a-z]+)?)=(.+)$", "\n".join(said)))
    names = {**found.names, **own}
    names.update(land.guesses_of(source, names) if os.path.exists(source) else {})
    made = [f"--name={name}={called}" for name, called in names.items() if name not in own]
    made += (
        [f"--classes={found.classes}"]
        if found.classes and "classes" not in own and not has_option(said, "classes")
        else []
    )
    return made + ([f"--epsg={found.epsg}"] if found.epsg and not has_option(said, "epsg") else [])


def has_option(said: list[str], name: str) -> bool:
    return any(word == f"--{name}" or word.startswith(f"--{name}=") for word in said)


def columns_of_table(path: str) -> list[str]:
    """The columns of a table in small letters; what is wrong with it the run itself says."""
    with contextlib.suppress(OSError):
        return [name.lower() for name in spreadsheets.read(path).columns]
    return []


def keep(words, names: dict[str, str], say: Callable) -> None:
    """Writes the file where a run was given names, and there is none; a folder that takes none is told."""
    path = path_of(words.land)
    if os.path.lexists(path):
        tell_lacking(path, words, names, say)
        return
    if not words.name:
        return
    try:
        text = "".join(lines_of(options_of(words, names), os.path.dirname(os.path.abspath(path))))
        with contextlib.suppress(FileExistsError), files.anew(path) as file:
            file.write(text)
        say(Note(f"{path} keeps these names: the next run takes them from there"))
    except (OSError, UnicodeError) as error:
        say(Note(f"these names are not kept: {path} cannot be written ({error})"))


def options_of(words, names: dict[str, str]) -> Options:
    """What a run was given."""
    return Options(names, words.classes, words.epsg, words.between, ",".join(getattr(words, "keep", ())))


def tell_lacking(path: str, words, names: dict[str, str], say: Callable) -> None:
    """Says what of a command line a file that is there does not have: it stays as it is."""
    found, folder = read(path), os.path.dirname(os.path.abspath(path))
    lacking = Options({name: called for name, called in names.items() if name not in found.names})
    lacking.epsg = None if found.epsg else words.epsg
    lacking.classes = None if found.classes or "classes" in found.names else words.classes
    lacking.between = None if found.between else words.between
    lacking.keep = None if found.keep else options_of(words, names).keep
    lines = [line.strip() for line in lines_of(lacking, folder) if line.strip()][1:]
    if lines:
        say(Note(f"{path} stays as it is; to keep these options too, add to it: {'; '.join(lines)}"))


def system_of(folder: str) -> int | None:
    """The number of the system of a folder of tables: as the file there says, else as tools/prepare wrote it beside
    them."""
    said, package = beside(folder), os.path.join(folder, PACKAGE)
    if said and said.epsg:
        return said.epsg
    if not os.path.isfile(package):
        return None
    with contextlib.suppress(sqlite3.Error), contextlib.closing(databases.opened(package)) as base:
        found = base.execute(
            "SELECT organization_coordsys_id FROM gpkg_geometry_columns JOIN gpkg_spatial_ref_sys USING (srs_id)"
        ).fetchone()
        return found[0] if found and found[0] > 0 else None
    return None


def lines_of(options: Options, folder: str) -> Iterator[str]:
    """A file's lines."""
    yield HEAD
    if options.classes:
        path = os.path.relpath(options.classes, folder)
        yield f"classes = {written(os.path.abspath(options.classes) if path.startswith(os.pardir) else path)}\n"
    if options.epsg:
        yield f"epsg = {options.epsg}\n"
    if options.between and not math.isclose(options.between, land.BETWEEN):
        yield f"between = {options.between!r}\n"
    if options.keep:
        yield f"keep = {written(options.keep)}\n"
    for section, is_column in (("layers", False), ("columns", True)):
        found = {name: called for name, called in options.names.items() if ("." in name) == is_column}
        yield f"\n[{section}]\n" if found else ""
        yield from (f"{name} = {written(found[name])}\n" for name in known_names() if name in found)


def written(text: str) -> str:
    """A text in quotation marks."""
    text.encode()  # letters that are none cannot be written
    return (
        '"'
        + "".join(
            WRITTEN.get(letter) or (letter if letter.isprintable() else rf"\U{ord(letter):08X}") for letter in text
        )
        + '"'
    )
