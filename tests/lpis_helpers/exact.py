"""Whether the tables of a folder are a sound map, by the exact arithmetic of exact_map.py and without lpis; and the
report that they then have."""

from lpis_helpers.exact_map import Truth
from lpis.report import release_report


def judged(folder):
    """What is wrong with the map, empty where it is sound, and the lines that `lpis check` prints of a sound one."""
    land = release_report.read(folder)

    def opened(members):
        return [[ring[:-1] for ring in member] for member in members]

    truth = Truth(
        [(name, opened(members)) for name, members in land.parcels.items()],
        [(*piece[:3], opened(piece[3])) for piece in land.pieces],
    )
    wrong = [
        f"{what}: {value}"
        for what, value in (("no cut", truth.bad), ("turns", truth.uneven), ("faces", truth.faces))
        if value
    ]
    return wrong, truth.report({piece[2]: land.percents.get(piece[2]) or 0 for piece in land.pieces}).splitlines()
