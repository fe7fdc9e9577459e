"""Makes a land that fails small, while it still fails in the same way: whole parcels with their pieces are taken out,
then rows, and of few rows members, rings, corners and the decimals of coordinates."""

import time

from lpis_helpers.lands_shapes import Shape

TRIES, SECONDS = 200, 90.0
MOST_ROWS = 8  # of which corners are taken out, one after the other
DECIMALS = (0, 3, 6)


class Shrinking:
    """The search for a small land of which `fails` is still true."""

    def __init__(self, land, fails, tries=TRIES):
        self.land, self.fails, self.left, self.end = land, fails, tries, time.monotonic() + SECONDS

    def run(self):
        self.halve(self.by_parcel())
        self.halve([[row] for row in self.land.rows()])
        if len(self.land.rows()) <= MOST_ROWS:
            self.corners()
            any(self.takes(rounded(self.land, decimals)) for decimals in DECIMALS)
        return self.land

    def by_parcel(self):
        """Each parcel with its pieces."""
        groups = {}
        for row in self.land.rows():
            groups.setdefault(row.fields["parcel"], []).append(row)
        return list(groups.values())

    def takes(self, land):
        """Whether a smaller land fails too; it then takes the place of the one before."""
        if time.monotonic() > self.end:
            self.left = 0
        if self.left <= 0 or not land.rows():
            return False
        self.left -= 1
        if self.fails(land):
            self.land = land
            return True
        return False

    def halve(self, groups):
        """Takes out as many groups of rows as go, in parts that become smaller."""
        size = max(1, len(groups) // 2)
        kept = [[(row.layer, row.number) for row in group] for group in groups]
        keys = {(row.layer, row.number): row for row in self.land.rows()}
        while True:
            at = 0
            while at < len(kept):
                gone = [keys[key] for group in kept[at : at + size] for key in group]
                smaller = self.land.without(gone)
                if self.takes(smaller):
                    names = [key for group in kept[:at] + kept[at + size :] for key in group]
                    ordered = sorted(names, key=lambda key: (key[0] != "parcels", key[1]))
                    keys = dict(zip(ordered, self.land.rows()))
                    kept = kept[:at] + kept[at + size :]
                else:
                    at += size
            if size == 1 or self.left <= 0:
                return
            size = max(1, size // 2)

    def corners(self):
        """Takes out corners, rings and members of what is left."""
        for place in range(len(self.land.rows())):
            number = 0
            while self.left > 0:
                row = self.land.rows()[place]
                smaller = list(smaller_shapes(row.shape))
                if number >= len(smaller):
                    break
                other = self.land.without([])
                other.rows()[place].shape = smaller[number]
                if not self.takes(other):
                    number += 1


def smaller_shapes(shape):
    """The shape without a member, a ring or a corner."""
    members = shape.members
    if len(members) > 1:
        for at in range(len(members)):
            yield like(shape, members[:at] + members[at + 1 :])
    for at, member in enumerate(members):
        for place in range(1, len(member)):
            yield like(shape, [*members[:at], member[:place] + member[place + 1 :], *members[at + 1 :]])
        for place, ring in enumerate(member):
            if len(ring) > 4 and shape.form in ("polygon", "multi"):
                for corner in range(1, len(ring) - 1):
                    fewer = [*member[:place], ring[:corner] + ring[corner + 1 :], *member[place + 1 :]]
                    yield like(shape, [*members[:at], fewer, *members[at + 1 :]])


def rounded(land, decimals):
    """The land with so many decimals in its coordinates."""
    other = land.without([])
    for row in other.rows():
        row.shape = like(
            row.shape,
            [
                [[(round(x, decimals), round(y, decimals)) for x, y in ring] for ring in member]
                for member in row.shape.members
            ],
        )
    return other


def like(shape, members):
    return Shape(members, shape.form, shape.has_z, shape.has_m)
