"""What an identifier of the tables was called in the source: identifiers.csv, where tools/prepare wrote one beside
them."""

from __future__ import annotations

import csv
import os

from . import guarded_csv, identifiers


class SourceNames:
    """The names that tools/prepare changed, by kind: parcel, piece and class."""

    def __init__(self, folder):
        self.rows, path = [], os.path.join(folder, "identifiers.csv")
        try:
            with open(path, encoding="utf-8-sig", newline="") as file:
                self.rows = [
                    tuple(guarded_csv.plain(row.get(name) or "") for name in ("kind", "old", "new"))
                    for row in csv.DictReader(file)
                ]
        except FileNotFoundError:
            pass  # nothing was changed
        except (UnicodeDecodeError, csv.Error) as error:
            raise OSError(f"{path} cannot be read: {error}") from None

    def of(self, identifier):
        """What identifiers.csv has of an identifier of the tables, as (kind, old)."""
        return [(kind, old) for kind, old, new in self.rows if new == identifier]

    def now(self, name):
        """The parcels' identifiers in place of a name of the source: by identifiers.csv, or the name itself, or what
        tools/prepare makes of it."""
        found = [new for kind, old, new in self.rows if kind == "parcel" and old.strip() == name.strip()]
        return found or [name if identifiers.is_one(name) else identifiers.made_of(name)]
