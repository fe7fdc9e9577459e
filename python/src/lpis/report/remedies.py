"""What to do about a finding, by its kind: how to mend it in the source, and what --accept does where that can be
accepted."""

from __future__ import annotations

PARCELS = "overlap of parcels"  # an overlap in the layer of parcels
MEND = {
    "overlap": "draw the border between the two once: take the place away from one of them",
    PARCELS: "cut the place out of the parcel that has no piece there",
    "gap": "where nobody else has the place, stretch a piece over it; else take it out of the parcel",
    "outside": "cut the piece at the border of its parcel; or, where no other parcel has the place, stretch the parcel",
    "invalid": "draw its border anew, so that it does not cross itself (in QGIS: Fix geometries, then look at it)",
    "shape": "give the row a polygon",
    "degrees": "transform the shape to the system of the others, in metres",
    "far": "move the shape to where the others are: its system of coordinates is another, or a number is mistyped",
    "points": "cut the shape into several pieces, or parcels",
    "nameless": "give the row its identifier",
    "doubled": "give each row an identifier of its own, or make one row of them",
    "stranger": "correct the parcel that the piece names, or add that parcel",
    "bare": "add the pieces of this parcel, or take it out",
    "identifier": "give it 1 to 40 of A-Z a-z 0-9 . _ : / -",
    "class": "add the class with its percentage to the table of classes, or correct the class of the pieces",
    "classes": "name the table of classes (class, percent) by --classes FILE",
    "percent": "write percentages from 0 to 100 in digits alone",
    "table": "mend the table: one header, and the same number of fields in each row",
    "system": "name a system of coordinates in metres by --epsg N, such as the one that this finding names",
    "previous": "name the folder of last year's tables of this area by --previous, or leave that option out",
    "rows": "run tools/country prepare, which splits it into regions",
    "lost": "look at its shape: it is too narrow for whole millimetres, or other rows cover all of it",
    "left out": "mend the row: prepared.csv has the reason",
    "made": "give the parcel a shape of its own",
    "added": "find out which row of the source it comes from",
    "changed": "look at the place: the tables differ there from the source",
}
ACCEPT = {
    "overlap": "the one whose identifier sorts first gets it",
    PARCELS: "the place stays with the pieces that have it, or is left out",
    "gap": "the place is left out of the parcel",
    "outside": "the piece keeps the place, and its parcel gets it; where another piece has it too, the one whose"
    " identifier sorts first",
    "invalid": "it is made valid, and a hole never becomes land",
    "shape": "a piece is left out, a parcel is made of its pieces",
    "degrees": "a piece is left out, a parcel is made of its pieces",
    "far": "a piece is left out, a parcel is made of its pieces",
    "nameless": "a parcel is left out, a piece is named by its row",
    "doubled": "the rows are joined, and a piece of another parcel gets a new name",
    "stranger": "the piece is left out",
    "bare": "the parcel is left out",
}
TAKEN = ("lost", "left out", "made", "added", "changed")  # what comes of others that are accepted


def title(kind: str, layer: str) -> str:
    """What a kind of finding is called: overlaps of parcels are told from those of pieces."""
    return PARCELS if (kind, layer) == ("overlap", "parcels") else kind


def of(kind: str, layer: str = "", is_of_layer: bool = False) -> str:
    """What to do about a finding that stops. What is wrong with a whole layer cannot be accepted."""
    called = title(kind, layer)
    words = MEND.get(called, "mend the source")
    if is_of_layer or (kind not in ACCEPT and kind not in TAKEN):
        return words
    done = ACCEPT.get(called, "the tables are taken as they are")
    return f"{words}; or --accept {kind.replace(' ', '-')}: {done}"
