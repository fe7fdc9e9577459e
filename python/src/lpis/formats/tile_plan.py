"""The tiling of a country: country.txt, whose lines cut the plane in prefix order, and the tiles that a box meets.
Whole millimetres."""

import os
import re

from .table_streams import Trouble

FILE, HEAD = "country.txt", "lpis-country 1"
FAR = 20_000_000_000
MOST_REGIONS = 10_000
NAME = re.compile(r"[A-Za-z0-9_-]{1,100}")
NUMBER = re.compile(r"0|-?[1-9][0-9]{0,10}")


class Unreadable(Trouble):
    """A line of country.txt that is none."""


class Tiling:
    """The lines of country.txt after its first: ("x", number), ("y", number) or ("region", name). A cut is followed by
    what lies below its line, then by what lies from it on."""

    def __init__(self, nodes):
        self.nodes = nodes
        self.folders = [word for kind, word in nodes if kind == "region"]
        # the number of a region; where the second part of a cut begins
        self.regions, self.after = [0] * len(nodes), [0] * len(nodes)
        awaited, count = [], 0
        for place, (kind, _) in enumerate(nodes):
            if kind != "region":
                awaited.append(place)
                continue
            self.regions[place] = count
            count += 1
            if awaited:
                self.after[awaited.pop()] = place + 1

    def text(self):
        return "".join(f"{line}\n" for line in [HEAD, *(f"{kind} {word}" for kind, word in self.nodes)])

    def boxes(self):
        """The tiles as boxes, in order; what no cut bounds goes one beyond the range of coordinates."""
        found, waiting = [], [(-FAR - 1, -FAR - 1, FAR + 1, FAR + 1)]
        for kind, cut in self.nodes:
            box = waiting.pop()
            if kind == "region":
                found.append(box)
                continue
            side = 0 if kind == "x" else 1
            waiting.append((*box[:side], max(cut, box[side]), *box[side + 1 :]))
            waiting.append((*box[: side + 2], min(cut, box[side + 2]), *box[side + 3 :]))
        return found

    def met(self, box):
        """The numbers of the tiles that a box (least x and y, greatest x and y) meets, ascending: touching is no
        meeting."""
        found, waiting = [], [0]
        while waiting:
            place = waiting.pop()
            kind, cut = self.nodes[place]
            if kind == "region":
                found.append(self.regions[place])
                continue
            side = 0 if kind == "x" else 1
            if cut < box[side + 2]:
                waiting.append(self.after[place])
            if box[side] < cut:
                waiting.append(place + 1)
        return found


def of_folder(folder):
    """The tiling that stands in a country's folder."""
    path = os.path.join(folder, FILE)
    if not os.path.exists(path):
        raise FileNotFoundError(f"{path} is not there: {folder} is no country that was split")
    with open(path, encoding="latin-1", newline="") as file:
        try:
            return read(file.read())
        except Unreadable as error:
            raise Unreadable(f"{path}: {error}") from None


def node_of(line):
    """What a line says, or None where it is no line of a country."""
    kind, blank, word = line.partition(" ")
    if kind == "region" and blank and NAME.fullmatch(word):
        return kind, word
    if kind in ("x", "y") and NUMBER.fullmatch(word) and abs(int(word)) <= FAR:
        return kind, int(word)
    return None


def read(text):
    """The tiling of a text; `Unreadable` names the first line that is none."""
    lines = text.split("\n")
    nodes, owed, names = [], 1, set()
    for number, line in enumerate(lines[:-1], 1):
        if number == 1:
            if line != HEAD:
                raise Unreadable(f"line 1 is not {HEAD}")
            continue
        node = node_of(line)
        if node is None or not owed:
            raise Unreadable(f"line {number} is no line of a tiling: {line[:60]!r}")
        if node[0] == "region":
            if node[1] in names or len(names) == MOST_REGIONS:
                raise Unreadable(
                    f"line {number}: {node[1]} stands before"
                    if node[1] in names
                    else f"line {number}: more than {MOST_REGIONS} regions"
                )
            names.add(node[1])
        nodes.append(node)
        owed += -1 if node[0] == "region" else 1
    if owed or lines[-1]:
        raise Unreadable(
            f"line {len(lines)}: "
            + ("text without a line end" if lines[-1] else "the text ends, and parts of cuts are missing")
        )
    return Tiling(nodes)
