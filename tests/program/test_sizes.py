"""Runs the built program over inputs of growing sizes: one row, two, and one more than each power of two. Each is
answered, and as the sums say: a contract allows `failed memory` for any input, so that none is told as too long while
there is memory is seen here alone.

    MOST=100000 pytest --long tests/program/test_sizes.py      so many rows at most, in place of 40,000; without --long
        10,000

Of each size: `area` of a table, and of one row whose ring has as many corners; `cut`, `check` and `locate` of a release
with as many parcels and points; `publish` of it, then of a second year that renames each parcel, and `trace` of the
first and the last one.
"""

import os

from lpis_helpers import calls
import pytest
from lpis_helpers.spare import exhaustive
from lpis_helpers.tables import polygon_text, write_lines, write_release

MOST_CORNERS = 99_000
ROW = 300  # parcels beside one another


def sizes(most):
    """1, 2, and one more than each power of two from there."""
    return [1, 2, *(2**k + 1 for k in range(1, 64) if 2**k + 1 <= most)]


def lpis(folder, *words):
    return calls.lpis(*words, cwd=folder)


def square(k):
    """The k-th square of ten metres, in centimetres."""
    x, y = 1000 * (k % ROW), 1000 * (k // ROW)
    return [[[(x, y), (x + 1000, y), (x + 1000, y + 1000), (x, y + 1000)]]]


def saw(corners):
    """A ring with so many corners: teeth of one metre on a straight base, and twice its area in square metres."""
    teeth = max(1, (corners - 2) // 2)
    tops = "".join(f",{x + 1} 1,{x} {2 if x else 1}" for x in reversed(range(teeth)))
    return f"(0 0,{teeth} 0,{teeth} 1{tops[len(f',{teeth} 1'):]},0 0)", 2 * teeth + (teeth - 1)


def write(folder, count, year):
    parcels = [(f"{year}-{k}", square(k)) for k in range(count)]
    write_release(folder, parcels, [(f"p{name}", name, "G", shape) for name, shape in parcels])
    write_lines(
        folder, "lineage.csv", ["old,new", *(f"2024-{k},2025-{k}" for k in range(count if year == 2025 else 0))]
    )


FEW = 10_000  # sizes beyond it wait for --long


@pytest.fixture(
    params=[size if size <= FEW else exhaustive(size) for size in sizes(int(os.environ.get("MOST", "40000")))]
)
def count(request):
    return request.param


def test_area(count, tmp_path):
    (tmp_path / "areas.csv").write_text(
        "\n".join(["wkt", *(f'"{polygon_text(square(k))}"' for k in range(count))]) + "\n"
    )
    assert lpis(tmp_path, "area", "areas.csv") == (0, "100.0000000\n" * count, "")
    if 4 <= count <= MOST_CORNERS:
        ring, twice = saw(count)
        (tmp_path / "ring.csv").write_text(f'wkt\n"POLYGON({ring})"\n')
        assert lpis(tmp_path, "area", "ring.csv") == (0, f"{twice // 2}.{5 * (twice % 2)}000000\n", "")


def test_two_years(count, tmp_path):
    for year in (2024, 2025):
        write(tmp_path / str(year), count, year)
        status, line, _ = lpis(tmp_path, "cut", year, "cert.txt")
        assert status == 0 and line.startswith(f"triangles {2 * count} pairs ")
        status, report, _ = lpis(tmp_path, "check", year, "cert.txt")
        assert status == 0 and report.startswith(f"parcels {count} pieces {count}\n")
        assert report.endswith(f"total area {100 * count}.0000000 eligible {100 * count}.000000000\nyes\n")
        points = "".join(f"{k},{10 * (k % ROW) + 5},{10 * (k // ROW) + 5}\n" for k in range(count))
        (tmp_path / "points.csv").write_text("point,x,y\n" + points)
        wanted = "".join(f"point {k} parcel {year}-{k} piece p{year}-{k} class G\n" for k in range(count))
        assert lpis(tmp_path, "locate", year, "cert.txt", "points.csv")[:2] == (0, wanted + "yes\n")
        status, report, _ = lpis(tmp_path, "publish", "years.db", year, year, "cert.txt")
        assert status == 0 and report.endswith(f"published {year}\n")
    for k in {0, count - 1}:
        assert lpis(tmp_path, "trace", "years.db", f"2024-{k}") == (0, f"2025-{k}\n", "")
