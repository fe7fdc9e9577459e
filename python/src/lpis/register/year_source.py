"""What `tools/year` is given: the folder of a release, or a source, of which `tools/check` makes one first."""

from __future__ import annotations

import argparse
import os
import re
import shlex
import sys

from . import publication_steps
from ..source import land, output_names
from ..system import installation, processes, program
from .publication_steps import Stop


def split(said: str) -> list[str]:
    """Words as a shell takes them apart; one where it cannot."""
    try:
        return shlex.split(said)
    except ValueError:
        return [said]


def spaced(said: str) -> list[str]:
    """The same of a path with blanks in it that nobody put between quotation marks: the longest beginning that is
    there, where behind it words of `tools/check` begin."""
    ends = [found.start() for found in re.finditer(r"\s+--", said)]
    path = next((said[:end] for end in reversed(ends) if os.path.exists(said[:end])), None)
    return split(said) if path is None else [path, *split(said[len(path) :])]


def words_of(said: str) -> list[str]:
    """The source that is named, and words of `tools/check` behind it; nothing where it is a folder of tables, one of
    its tables, or not there."""
    if os.path.isdir(said):
        return [said] if land.is_of_another_program(said) else []
    words = [said] if os.path.exists(said) else split(said)
    words = spaced(said) if words and not os.path.exists(words[0]) else words
    # or a database, such as PG:dbname=land
    is_there = (
        words
        and not words[0].lower().endswith(".csv")
        and (os.path.exists(words[0]) or re.match(r"[A-Za-z]{2,}:", words[0]))
    )
    return words if is_there else []


def folder_of(words: argparse.Namespace) -> str:
    """The folder of the release; where a source is named, that which `tools/check` made of it, after a yes."""
    said = words_of(words.folder)
    if not said:
        return words.folder
    source, *more = said
    publication_steps.last_year(words)  # what stops the year stops it before the long way
    stem = output_names.stem_of(source).removesuffix(f"-{words.year}")
    out = output_names.option_of(more, "--out") or f"{stem}-{words.year}"
    more += [] if output_names.option_of(more, "--out") else [f"--out={out}"]
    more += previous_of(words, more)
    check = [
        sys.executable,
        os.path.join(program.HERE, "check"),
        *more,
        *([f"--lpis={words.lpis}"] if words.lpis else []),
        "--",
        source,
    ]
    status = processes.run(check, check=False).returncode
    if status:
        raise Stop(f"{source} has no yes: nothing was published", status)
    if os.path.isfile(os.path.join(out, "country.txt")):
        publish = shlex.join(
            ["tools/country", "publish", words.register, str(words.year), out, *(["--new"] if words.new else [])]
        )
        raise Stop(installation.here(f"{out} is a country, with a yes: {publish}"))
    if not words.new and not os.path.isfile(os.path.join(out, "lineage.csv")):
        raise Stop(f"{out} has a yes, and no lineage.csv{how_to_propose(words, out)}")
    return out


def how_to_propose(words: argparse.Namespace, out: str) -> str:
    """The commands that propose what became of last year's parcels, and go on."""
    lineage = f"tools/lineage --register {shlex.quote(words.register)} {shlex.quote(out)} {shlex.quote(out)}"
    again = f"tools/year {shlex.quote(words.register)} {words.year} {shlex.quote(out)}"
    return installation.here(f": {lineage} proposes it; look at it, and then: {again}")


def previous_of(words: argparse.Namespace, more: list[str]) -> list[str]:
    """Last year's tables and names, where they are named."""
    if not words.previous or output_names.option_of(more, "--previous"):
        return []
    names = os.path.join(words.previous, "identifiers.csv")
    is_given = not os.path.isfile(names) or output_names.option_of(more, "--identifiers")
    return [f"--previous={words.previous}", *([] if is_given else [f"--identifiers={names}"])]
