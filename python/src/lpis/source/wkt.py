"""Polygons as text: the grammar of the tables (docs/FORMATS.md) with coordinates of any number of decimals, and SRID,
Z, M, ZM, EMPTY and curves as words of their own. Whatever else comes is refused with the word and its offset: nothing
is passed over and nothing guessed. Python's standard library alone: GEOS and GDAL give no offset, drop what they do
not know, and read an exponent and NaN."""

from __future__ import annotations

import math
import re

from ..formats import wkb

BLANK = r"[ \t\r\n]"
NUMBER = r"[+-]?(?:[0-9]+(?:\.[0-9]*)?|\.[0-9]+)"
POINT = rf"{BLANK}*{NUMBER}{BLANK}+{NUMBER}{BLANK}*"
RING = rf"\({POINT}(?:,{POINT})*\)"
BODY = rf"{BLANK}*\({BLANK}*{RING}(?:{BLANK}*,{BLANK}*{RING})*{BLANK}*\){BLANK}*"
PLAIN = re.compile(rf"{BLANK}*(?:POLYGON{BODY}|MULTIPOLYGON{BLANK}*\({BODY}(?:,{BODY})*\){BLANK}*)\Z", re.IGNORECASE)
OUTSIDE = " \t\r\n,)"
MEMBER = re.compile(rf"\){BLANK}*\)")
IS_NUMBER = re.compile(NUMBER + r"\Z").match
TOKEN = re.compile(r"[(),]|[^ \t\r\n(),]+")
SRID = re.compile(rf"{BLANK}*SRID=([0-9]{{1,9}});", re.IGNORECASE)
MARKS = ("Z", "M", "ZM")
SURFACES = ("POLYGON", "MULTIPOLYGON", "CURVEPOLYGON", "MULTISURFACE")
DECIMAL_COMMA = re.compile(rf"[( \t\r\n]*[+-]?[0-9]+,[0-9]+{BLANK}+[+-]?[0-9]+,[0-9]")
KEYWORD = re.compile(rf"({'|'.join(SURFACES)})(ZM|Z|M)?\Z", re.IGNORECASE)


def read(text):
    """The polygons of a text; None where it says that it is empty."""
    srid = SRID.match(text)
    start = srid.end() if srid else 0
    found = plain(text, start) if PLAIN.match(text, start) else Reader(text, start).shape()
    if found is not None and srid:
        found.srid = int(srid[1])
    return found


def plain(text, start):
    """The fast way for a text that the grammar is known to accept."""
    parts = [part.split("(") for part in MEMBER.split(text[text.index("(", start) :])]
    members = [
        member
        for part in parts
        if (
            member := [
                list(map(float, ring.replace(")", " ").replace(",", " ").split()))
                for ring in part
                if ring.strip(OUTSIDE)
            ]
        )
    ]
    if all(is_ring(ring) for member in members for ring in member):
        return wkb.Found.of_blob(wkb.packed(members))
    return wkb.Found(wkb.judge_rings([[list(zip(ring[0::2], ring[1::2])) for ring in member] for member in members]))


def is_ring(numbers):
    """Whether x and y in turn are four points or more, of which the last is the first, and numbers."""
    return len(numbers) >= 8 and numbers[:2] == numbers[-2:] and all(map(math.isfinite, numbers))


class Reader:
    """Walks from token to token."""

    def __init__(self, text, start):
        self.text, self.notes, self.members = text, set(), []
        self.tokens = [(word[0], word.start()) for word in TOKEN.finditer(text, start)] + [("", len(text))]
        self.at, self.mark, self.made = 0, "", wkb.Made()

    def wrong(self, wanted):
        word, offset = self.tokens[self.at]
        found = f"{word[:30]!r}" if word else "the end"
        raise wkb.Unreadable(
            f"the text of the polygon is wrong at offset {offset}: {found}, where {wanted} is wanted{self.hint()}"
        )

    def hint(self):
        """What people mean most often by a text that is wrong."""
        word = self.tokens[self.at][0]
        if re.fullmatch(r"[+-]?[0-9.]+e[+-]?[0-9]+", word, re.IGNORECASE):
            return ": write it without an exponent"
        if (
            word == ","
            and DECIMAL_COMMA.match(self.text, self.tokens[0][1] + len(self.tokens[0][0]))
            and "." not in self.text
        ):
            return ": write decimal points, not commas"
        return ""

    def word(self):
        return self.tokens[self.at][0]

    def takes(self, *words):
        """Passes a token where it is one of some words."""
        if self.word().upper() not in words:
            return False
        self.at += 1
        return True

    def one_of(self, *words):
        """The token that is passed, or nothing."""
        return self.tokens[self.at - 1][0].upper() if self.takes(*words) else ""

    def want(self, mark):
        if not self.takes(mark):
            self.wrong(f"'{mark}'")

    def shape(self):
        head = KEYWORD.match(self.word())
        if head is None:
            self.wrong("POLYGON or MULTIPOLYGON")
        self.at += 1
        self.mark = (head[2] or "").upper() or self.one_of(*MARKS)
        self.notes |= set(self.mark.lower())
        if self.takes("EMPTY"):
            self.end()
            return None
        kind = head[1].upper()
        if kind in ("POLYGON", "CURVEPOLYGON"):
            self.members.append(self.rings(kind == "CURVEPOLYGON"))
        else:
            self.list(lambda: self.members.append(self.member(kind == "MULTISURFACE")))
        self.end()
        return wkb.Found(wkb.judge_rings(self.members), frozenset(self.notes))

    def end(self):
        if self.word():
            self.wrong("the end")

    def list(self, part):
        """Parts with commas between them, in brackets."""
        self.want("(")
        part()
        while self.takes(","):
            part()
        self.want(")")

    def named(self, *words):
        """Passes a word of a curve, with the mark of the whole where it is written again."""
        word = self.one_of(*words)
        if word and self.word().upper() in MARKS and self.word().upper() != self.mark:
            self.wrong("'('")
        if word:
            self.takes(*MARKS)
        return word

    def member(self, may_curve):
        word = self.named("POLYGON", "CURVEPOLYGON") if may_curve else ""
        return self.rings(word == "CURVEPOLYGON")

    def rings(self, may_curve):
        rings = []
        self.list(lambda: rings.append(self.curve() if may_curve else self.points()))
        return rings

    def curve(self):
        """A ring of lines and arcs."""
        word = self.named("CIRCULARSTRING", "COMPOUNDCURVE", "LINESTRING")
        if word != "COMPOUNDCURVE":
            return self.arcs() if word == "CIRCULARSTRING" else self.points()
        way = []

        def part():
            points = self.arcs() if self.named("CIRCULARSTRING", "LINESTRING") == "CIRCULARSTRING" else self.points()
            if way and way[-1] != points[0]:
                raise wkb.Unreadable(f"the parts of a curve do not meet at {points[0][0]} {points[0][1]}")
            way.extend(points[1:] if way else points)

        self.list(part)
        return way

    def arcs(self):
        self.notes.add("curve")
        return self.made.straightened(self.points())

    def points(self):
        points = []
        self.list(lambda: points.append(self.point()))
        return points

    def point(self):
        values = []
        while len(values) < 2 + len(self.mark):
            if not IS_NUMBER(self.word()):
                self.wrong("a number")
            values.append(float(self.word()))
            self.at += 1
        return values[0], values[1]
