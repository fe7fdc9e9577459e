"""Tests that no certificate that `cut` makes is longer than what is read of an input: by the numbers in the sources."""

import re
from pathlib import Path

CRATES = Path(__file__).parents[2] / "crates"
FARTHEST, LONGEST_ID, ROWS = "-20000000000", "x" * 40, 200_000


def constant(path: str, name: str) -> int:
    """The number that a constant of a crate is."""
    source = (CRATES / path).read_text(encoding="utf-8")
    found = re.search(rf"const {name}: \w+ = ([\d_]+);", source)
    assert found, f"{path} has no {name}"
    return int(found.group(1))


def test_longest_certificate() -> None:
    """With the most triangles, flats, rows and pairs, and the longest numbers, it is within an input."""
    triangles, flats = (constant("lpis_cert/src/cert.rt", name) for name in ("MOST_TRIANGLES", "MOST_FLATS"))
    pairs = constant("lpis_cutter/src/crowding.rt", "MOST_PAIRS")
    last = triangles - 1
    lengths = {
        f"t {' '.join([FARTHEST] * 6)}\n": triangles + flats,
        f"piece {LONGEST_ID} {triangles} {flats}\n": ROWS,
        f"parcel {LONGEST_ID} {flats}\n": ROWS,
        f"exact merge {LONGEST_ID} {flats}\n": ROWS,
        f"s {last} {last} 5\n": pairs,
        f"lpis-cert 2\npairs {pairs}\nend\n": 1,
    }
    most = sum(len(line) * count for line, count in lengths.items())
    assert most <= constant("lpis_run/src/reading.rt", "GREATEST_LIMIT")
    assert pairs == int(
        (re.findall(r"most_pairs = (\d+)", (CRATES / "lpis_cutter/specs/Refusals.antt").read_text("utf-8")) or [0])[0]
    )
