"""The words of a command line about a source: what is accepted, and what its layers and columns are called. What
they do not say, lpis.toml beside it may."""

from __future__ import annotations

from . import acceptance, recipe
from ..source import source_settings


def add_options(parser):
    acceptance.add_to(parser, "mend or leave out what is wrong, and report it")
    parser.add_argument(
        "--classes",
        metavar="FILE",
        help="the table of classes (class, percent); without it that of LAND, else OUT/classes.csv",
    )
    parser.add_argument("--epsg", metavar="N", type=int, help="the system of coordinates of the release, in metres")
    parser.add_argument(
        "--name",
        metavar="WHAT=FOUND",
        action="append",
        default=[],
        help="what a layer or a column is called in LAND: parcels=blocks, parcels.parcel=block_id",
    )
    parser.add_argument(
        "--keep",
        metavar="COLUMN",
        action="append",
        default=[],
        help="a column of LAND that is added to each finding, such as the district; may be given several times",
    )
    recipe.add_between(parser)
    parser.add_argument(
        "--identifiers",
        metavar="FILE",
        help="identifiers.csv of an earlier year (kind, old, new), whose names are used again",
    )
    parser.set_defaults(workers=None, snakemake=False, profile=None)  # but where a command has words for them


def names_of(parser, words):
    """What --name gives, as a table. `options.complete` adds what is said beside the source."""
    names = dict(word.split("=", 1) for word in words.name if "=" in word)
    if len(names) != len(words.name):
        parser.error("--name is LAYER=FOUND or LAYER.COLUMN=FOUND, such as parcels.parcel=block_id")
    if unknown := sorted(set(names) - set(source_settings.known_names())):
        parser.error(
            f"--name {unknown[0]}={names[unknown[0]]}: there is no {unknown[0]}, but"
            f" {', '.join(source_settings.known_names())}"
        )
    return names
