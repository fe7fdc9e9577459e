"""What is said on standard error beside a run of the program: tools/run.sh starts it where there may be something.

    before WORD..            that a register is about to be made; with status 64, that tables are of an earlier run
    cause LINE WORD..        behind the program's `failed ..`: which file was meant, and what is wrong with it
    refusal LINE WORD..      what a refusal means
    packages WORD..          which word names a GeoPackage
    origin WORD..            behind a yes: what was left out before the tables, and what was accepted

The words are those of the program's command line. Standard output is that of the program, on 3 is what is said.
"""

import glob
import os
import re
import subprocess
import sys
import unicodedata
from pathlib import Path

from ..register import register_trouble
from ..system import path_trouble
from ..system.installation import HERE

OUT, TOLD = 1, 3
STALE = 64
FAILED = re.compile(r"failed (read|write) ([a-z]+)(?: region ([A-Za-z0-9_-]+))?")
NO_ROWS = "; where no identifier was dropped, as in a first year, it is the line old,new alone"
UNFINISHED = "{} is unfinished: its last run did not finish, so the tables there are from an earlier run: run it again"
UNSUMMED = "prepared.csv and report.csv have what was left out of the source, and could not be summed"


def say(text):
    """Says a line. Names of a stranger's file stand in some: letters that move the cursor do not reach the terminal."""
    shown = "".join("?" if unicodedata.category(letter) == "Cc" else letter for letter in text)
    os.write(TOLD, os.fsencode(f"lpis: {shown}\n"))


def table_of_words():
    """Of each command and folder its words, by tools/words.txt."""
    lines = Path(HERE, "words.txt").read_text(encoding="utf-8").splitlines()
    rows = [line.split() for line in lines if line and not line.startswith("#")]
    return {head: rest for head, *rest in rows}


class CommandLine:
    """The words of a command line, and which of them are files."""

    def __init__(self, words):
        self.table, self.plain, self.valued = table_of_words(), [], {}
        self.take(words)
        kinds = self.kinds_of_command()
        self.options = dict(kind.split("=") for kind in kinds if kind.startswith("--") and "=" in kind)
        kinds = [kind for kind in kinds if not kind.startswith("--")]
        if len(self.plain) <= len(kinds):  # the word that may be left out is
            kinds = [kind for kind in kinds if not kind.startswith("[")]
        self.kinds = [kind.strip("[]") for kind in kinds]
        self.places = [*zip(self.kinds, self.plain[1:])]

    def kinds_of_command(self):
        return self.table.get(self.plain[0], []) if self.plain else []

    def take(self, words):
        """Takes words apart: the command and those that are no options, and the options that have a value."""
        option, is_over = "", False
        for word in words:
            if option:
                self.valued[option], option = word, ""
            elif is_over or not word.startswith("-"):
                self.plain.append(word)
            elif word == "--":
                is_over = True
            elif word.startswith("--") and "=" in word:
                name, _, self.valued[name] = word.partition("=")
            elif any(kind.startswith(f"{word}=") for kind in self.kinds_of_command()):
                option = word

    def path_read(self, name):
        """The path that is read by a name, which is REGION/NAME in a region; nothing where no word tells it."""
        for option, named in self.options.items():
            if named == name and option in self.valued:
                return self.valued[option]
        for kind, word in self.places:
            if kind == name:
                return word
            for file in self.table.get(kind, []) if kind.endswith("/") else []:
                stem, _, end = file.strip("[]").rpartition(".")
                if stem == re.sub("^.*/", "*/", name):
                    return f"{word}/{name}.{end}"
        return ""

    def path_written(self, name):
        return next((word for kind, word in self.places if kind == f">{name}"), "")

    def folders(self):
        return [word for kind, word in self.places if kind.endswith("/") and word]

    def folder(self):
        """That of the release, or of the country."""
        path, every = self.path_read("parcels"), self.path_read("*/parcels")
        return os.path.dirname(path) or every.partition("/*/")[0]

    def register(self):
        """The register that the words name, where the command line is whole."""
        is_whole = len(self.plain) == len(self.kinds) + 1
        if not is_whole and not (self.kinds[-1:] == ["-.."] and len(self.plain) > len(self.kinds)):
            return ""
        if self.kinds[1:2] == ["-"] and not re.fullmatch("[0-9]+", self.plain[2]):
            return ""  # its year is none: a line of usage follows
        return next((word for kind, word in self.places if kind == "register"), "")

    def bytes_of_parcels(self):
        """How many bytes the polygons of parcels have that a publish reads, those of all regions together."""
        path, every = self.path_read("parcels"), self.path_read("*/parcels")
        paths = glob.glob(f"{glob.escape(every.partition('/*/')[0])}/*/parcels.csv") if every else [path]
        return sum(os.path.getsize(path) for path in paths if os.path.exists(path))


# What is said before the program runs.


def is_unfinished(folder):
    """Whether the last run in a folder made no tables, by the file that says so (lpis.register.table_standing)."""
    path = Path(folder, ".lpis-standing")
    return path.exists() and ' "state": "whole",' not in path.read_text(encoding="utf-8", errors="replace").splitlines()


def is_of_unfinished(folder):
    """Whether a folder is a region of a country that is unfinished, or was one."""
    above, name = os.path.split(os.path.realpath(folder))
    if not os.path.isdir(folder) or not is_unfinished(above):
        return False
    country = Path(above, "country.txt")
    regions = country.read_text(encoding="utf-8", errors="replace").splitlines() if country.is_file() else []
    return bool(re.fullmatch(r"r\d{4,}", name)) or f"region {name}" in regions


def before(*words):
    line = CommandLine(words)
    for folder in line.folders():
        if is_unfinished(folder) or is_of_unfinished(folder):
            from ..register import table_standing  # takes longer than all else here, and few runs want it

            say(table_standing.why_not(folder) or UNFINISHED.format(folder))
            return STALE
    register = line.register()
    if found := register and register_trouble.warning(register):
        say(found)
    return 0


# What is said behind its own words.


def what_reads(path):
    """What reads a GeoPackage that is handed over in place of tables; nothing of another file."""
    name = "lpis-check" if os.path.isdir(os.path.join(HERE, "program")) else "tools/check"
    return f": it is a GeoPackage, which {name} reads" if path_trouble.is_package(path) else ""


def cause(told, *words):
    line = CommandLine(words)
    if told == "failed store":
        if path := line.register():
            say(f"the register is {path}: {register_trouble.trouble_of(path, line.bytes_of_parcels())}")
    elif told == "failed write out":
        say(f"standard output could not be written: {path_trouble.of_output(OUT)}")
    elif match := FAILED.fullmatch(told):
        kind, name, region = match.groups()
        path = line.path_read(f"{region}/{name}" if region else name) if kind == "read" else line.path_written(name)
        if path:
            found = path_trouble.of_reading(path) if kind == "read" else path_trouble.of_writing(path)
            found += NO_ROWS * (name == "lineage" and found == "it is missing")
            if found.endswith(" is not a folder"):
                found += what_reads(path_trouble.folder_of(path))
            said = f"{name} of region {region}" if region else name
            say(f"{said} is {path}: {found or 'it is there, and writing it failed'}")


def refusal(refused, *words):
    """By tools/explain, but for the line itself."""
    line = CommandLine(words)
    options = [f"--{name}={path}" for name in ("area", "cert", "points") if (path := line.path_read(name))]
    command = [sys.executable, "-B", os.path.join(HERE, "explain"), *options]
    folder = line.folder()
    if not folder and not options:  # of a command without tables, such as trace: what the line means
        command += refused.split()
    told = subprocess.run(
        [*command, *(["--", folder] if folder else [])], input=os.fsencode(f"{refused}\n"), stdout=-1, check=False
    ).stdout
    os.write(TOLD, told.partition(b"\n")[2])


def packages(*words):
    for word in words:
        if found := what_reads(word):
            say(f"{word}{found}")


def of_origin(*words):
    folder = CommandLine(words).folder()
    if not any(os.path.isfile(os.path.join(folder, name)) for name in ("prepared.csv", "report.csv")):
        return
    from ..preparation import origin  # as above

    try:
        found = origin.brief(folder)
    except Exception:  # whatever stands there, the yes is told
        found = UNSUMMED
    if found:
        say(f"{folder}: {found}")


SAID = {"before": before, "cause": cause, "refusal": refusal, "packages": packages, "origin": of_origin}


def main(words):
    return SAID[words[0]](*words[1:]) or 0
