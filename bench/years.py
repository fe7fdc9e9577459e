"""Releases of several years of one map, for scripts that publish them."""

import os
import shutil

from common import CERT, done, lpis, run_helper
from lpis_helpers.tables import write_lines


def read(path):
    with open(path, encoding="ascii") as file:
        return file.read().splitlines()


class Years:
    """The same map each year, under other names: in each year but the first every tenth parcel gets a new one."""

    def __init__(self, folder, count):
        self.first = os.path.join(folder, "first")
        run_helper("make_parcels", count, self.first)
        self.parcels, self.covers = read(os.path.join(self.first, "parcels.csv")), read(
            os.path.join(self.first, "covers.csv")
        )
        self.names = {line.split(",", 1)[0]: line.split(",", 1)[0] for line in self.parcels[1:]}
        self.folder = folder

    def write(self, number):
        """The folder of a year's release, and its certificate."""
        rows = ["old,new"]
        if number > 0:
            for place, parcel in enumerate(self.names):
                if place % 10 == number % 10:
                    new = f"{parcel}-{number}"
                    rows.append(f"{self.names[parcel]},{new}")
                    self.names[parcel] = new
        folder = os.path.join(self.folder, f"year{number}")
        os.makedirs(folder)
        shutil.copy(os.path.join(self.first, "classes.csv"), folder)
        write_lines(folder, "lineage.csv", rows)
        renamed = [line.split(",", 1) for line in self.parcels[1:]]
        write_lines(folder, "parcels.csv", self.parcels[:1] + [f"{self.names[name]},{rest}" for name, rest in renamed])
        pieces = [line.split(",", 2) for line in self.covers[1:]]
        write_lines(
            folder,
            "covers.csv",
            self.covers[:1] + [f"{piece},{self.names[name]},{rest}" for piece, name, rest in pieces],
        )
        cert = os.path.join(folder, CERT)
        done([lpis(), "cut", folder, cert])
        return folder, cert, rows
