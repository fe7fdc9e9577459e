"""Calls `lpis cut` on small releases in a temporary folder, many units a call, and finds every unit that it refuses.
No certificate is written.

A unit is a list of parcels with their pieces. The units of one call stand in cells of their own, moved by whole
millimetres, so that none is refused for the sake of another; a refusal names its unit by the identifiers, and a place
is moved back.
"""

from __future__ import annotations

import math
import os
import tempfile
from concurrent.futures import FIRST_COMPLETED, ThreadPoolExecutor, wait
from dataclasses import dataclass

from ..formats import polygons, refusal_line
from ..system import processes, program
from ..system.trouble import Trouble

FAR = 19_000_000_000  # of the coordinates' range, with room to spare
GAP = 10_000
POINTS_A_CALL = 200_000
UNITS_A_CALL = 4_000
MOST_FAULTS = 200_000
PARTS = 8  # what is left after a refusal is asked in so many calls


@dataclass
class Parcel:
    name: str
    members: list
    pieces: list  # of (name, members)


@dataclass
class Fault:
    """The refusal of a unit: its line with the identifiers and the place of the release."""

    code: str
    kind: str
    names: list
    place: tuple | None

    def line(self):
        at = ""
        if self.place:
            x, y = self.place
            d = math.lcm(x.denominator, y.denominator)
            at = f" at {int(x * d)} {int(y * d)} {d}"
        return f"refused {self.code} {self.kind} {' '.join(self.names)}{at}"


def run_on(command, folder):
    """The status and the line of `lpis cut` on a folder, whose certificate nobody wants."""
    ended = processes.run(program.call(command, "cut", folder, os.devnull), capture_output=True, text=True, check=False)
    if ended.returncode not in (0, 1, 2) or not ended.stdout:
        raise Trouble(f"{' '.join(command)} cut: status {ended.returncode} {ended.stderr.strip()}")
    return ended.returncode, ended.stdout.strip()


class Placed:
    """A unit in its cell: its rows' texts, and what its short names stand for."""

    def __init__(self, unit, number, move):
        self.move, self.names, self.parcels, self.covers = move, {}, [], []
        for parcel in unit:
            short = f"a{number}.{len(self.names)}"
            self.names[short] = parcel.name
            self.parcels.append(f'{short},"{polygons.write(parcel.members, move)}"\n')
            for name, members in parcel.pieces:
                piece = f"c{number}.{len(self.names)}"
                self.names[piece] = name
                self.covers.append(f'{piece},{short},G,"{polygons.write(members, move)}"\n')

    def fault(self, refused):
        """A refusal with the names and the place of the release."""
        place = refused.place and (refused.place[0] - self.move[0], refused.place[1] - self.move[1])
        return Fault(refused.code, refused.kind, [self.names[name] for name in refused.names], place)


def batches(units):
    """Units by the call, placed row after row from the lower left of the range, so that no two touch."""
    batch, count, x, y, height = [], 0, -FAR, -FAR, 0
    for unit in units:
        shapes = [shape for parcel in unit for shape in [parcel.members, *(m for _, m in parcel.pieces)]]
        left, low, right, high = polygons.box(shapes)
        size = sum(len(polygons.points(shape)) for shape in shapes)
        if x > -FAR and x + right - left > FAR:
            x, y, height = -FAR, y + height + GAP, 0
        if batch and (count + size > POINTS_A_CALL or len(batch) >= UNITS_A_CALL or y + high - low > FAR):
            yield batch
            batch, count, x, y, height = [], 0, -FAR, -FAR, 0
        if right - left > 2 * FAR or high - low > 2 * FAR:
            yield [Placed(unit, 0, (0, 0))]
            continue
        batch.append(Placed(unit, len(batch), (x - left, y - low)))
        count, x, height = count + size, x + right - left + GAP, max(height, high - low)
    if batch:
        yield batch


def ask(command, batch):
    """The number of a placed unit that `lpis cut` refuses and its fault, or None where all are sound."""
    with tempfile.TemporaryDirectory() as folder:
        for name, head, lines in (
            ("parcels", "parcel,wkt\n", [line for placed in batch for line in placed.parcels]),
            ("covers", "piece,parcel,class,wkt\n", [line for placed in batch for line in placed.covers]),
            ("classes", "class,percent\n", ["G,100\n"]),
        ):
            with open(os.path.join(folder, name + ".csv"), "w", encoding="ascii") as file:
                file.write(head)
                file.writelines(lines)
        status, line = run_on(command, folder)
    if status == 0:
        return None
    refused = refusal_line.read(line)
    if refused is None or refused.kind not in ("parcel", "parcels", "piece", "pieces"):
        raise Trouble(f"lpis cut printed {line!r} of shapes that could be read")
    number = next(i for i, placed in enumerate(batch) if refused.names[0] in placed.names)
    return number, batch[number].fault(refused)


def search(batches_of, ask_one, count, progress, most=None):
    """The fault that `ask_one` finds of each item that has one. After a refusal its item is set aside and the rest is
    parted. Where `most` are found, the search ends."""
    faults, done, waiting, workers = [], 0, set(), os.cpu_count() or 1
    with ThreadPoolExecutor(workers) as pool:

        def submit(batch):
            waiting.add(pool.submit(lambda: (batch, ask_one(batch))))

        def submit_more():
            while len(waiting) < 2 * workers and (batch := next(batches_of, None)) is not None:
                submit(batch)

        batches_of = iter(batches_of)
        submit_more()
        while waiting:
            ready, waiting = wait(waiting, return_when=FIRST_COMPLETED)
            for job in ready:
                batch, answer = job.result()
                if answer is None:
                    done += len(batch)
                else:
                    number, fault = answer
                    faults.append(fault)
                    done += 1
                    rest = batch[:number] + batch[number + 1 :]
                    if most and len(faults) >= most:
                        for other in waiting:
                            other.cancel()
                        return faults
                    size = -(-len(rest) // PARTS)
                    for i in range(0, len(rest), size or 1):
                        submit(rest[i : i + size])
            progress(done, count, len(faults))
            submit_more()
    return faults


def all_faults(command, units, progress):
    """The first fault of each unit that has one; no more than `MOST_FAULTS` and a few."""
    units = list(units)
    return search(batches(units), lambda batch: ask(command, batch), len(units), progress, MOST_FAULTS)
