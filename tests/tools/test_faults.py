"""Tests tools/faults on a release with one fault of each kind. Wants `lpis cut`: built, or named by LPIS."""

import json
import shlex

import pytest
from lpis_helpers.calls import ended_with, tool
from lpis_helpers.places import BUILT
from lpis.faults import trial_cuts
from lpis.system import shapely_there


def square(x, y, width=10.0):
    return f'"POLYGON(({x} {y},{x + width:.3f} {y},{x + width:.3f} {y + 10},{x} {y + 10},{x} {y}))"'


PARCELS = [
    f"sound,{square(0, 0)}",
    f"gap,{square(20, 0)}",
    f"left,{square(40, 0)}",
    f"right,{square(49.999, 0)}",
    f"bow,{square(70, 0)}",
    f"inner,{square(90, 0)}",
    f"sound,{square(110, 0)}",
    'text,"POLYGON((0.0001 0,1 0,1 1,0 0))"',
    f"bare,{square(130, 0)}",
    f"class,{square(150, 0)}",
]
COVERS = [
    f"c1,sound,G,{square(0, 0)}",
    f"c2,gap,G,{square(20, 0, 9.999)}",
    f"c3,left,G,{square(40, 0)}",
    f"c4,right,G,{square(49.999, 0)}",
    'c5,bow,G,"POLYGON((70 0,80 10,80 0,70 10,70 0))"',
    f"c6,inner,G,{square(90, 0)}",
    f"c7,inner,G,{square(95, 0, 5)}",
    f"c8,text,G,{square(0, 0)}",
    f"c9,stranger,G,{square(0, 0)}",
    f"c10,class,none,{square(150, 0)}",
    f"c 11,sound,G,{square(0, 0)}",
    f'"c12\r",sound,G,{square(0, 0)}',
]
WANTED = {
    ("34", "sound"),
    ("38 14", "text"),
    ("37", "bare"),
    ("35", "c9 stranger"),
    ("36", "c10 class"),
    ("33", "c 11 sound"),
    ("33", r"c12\r sound"),
    ("43", "gap"),
    ("41", "left right"),
    ("40", "c5"),
}


ITEMS = [list(range(first, first + 30)) for first in range(0, 3000, 30)]


def ask(batch):
    """The first item of a batch that is faulty, with its number."""
    return next(((number, item) for number, item in enumerate(batch) if item % 7 == 0), None)


def test_a_search_finds_each_faulty_item_once():
    assert sorted(trial_cuts.search(ITEMS, ask, 3000, lambda *_: None)) == list(range(0, 3000, 7))


def test_a_search_ends_where_enough_are_found():
    assert len(trial_cuts.search(ITEMS, ask, 3000, lambda *_: None, 50)) == 50


def faults(folder, out):
    return tool("faults", folder, out, "--lpis", shlex.quote(BUILT))


@pytest.fixture
def release(tmp_path):
    if BUILT is None:
        pytest.skip("the program is not built")
    for name, lines in (
        ("parcels", ["parcel,wkt", *PARCELS]),
        ("covers", ["piece,parcel,class,wkt", *COVERS]),
        ("classes", ["class,percent", "G,37"]),
    ):
        (tmp_path / f"{name}.csv").write_text("\n".join(lines) + "\n", encoding="ascii")
    return tmp_path


def test_each_kind_of_fault(release):
    """Each fault once and no more, of two pieces on one place one of both; the overlap's place is in metres and
    moved back."""
    ended_with(1, faults(release, release / "out.geojson"))
    features = json.loads((release / "out.geojson").read_text(encoding="utf-8"))["features"]
    found = {(f["properties"]["code"], f["properties"]["names"]) for f in features}
    inner = {names for code, names in found if code in ("41", "43") and ("c6" in names or names == "inner")}
    assert len(inner) == 1, found
    assert {(code, names) for code, names in found if names not in inner} == WANTED
    overlap = next(f["properties"] for f in features if f["properties"]["names"] == "left right")
    assert 49.999 <= overlap["x"] <= 50


@pytest.mark.skipif(not shapely_there.python(), reason=shapely_there.LACKING)
def test_a_fault_has_its_land(release):
    """The overlap, the gap and what is outside of its parcel with width and area, else the whole shape; what has no
    shape is no polygon. Numbers are numbers."""
    with open(release / "parcels.csv", "a", encoding="ascii") as parcels, open(
        release / "covers.csv", "a", encoding="ascii"
    ) as covers:
        parcels.write(f"wide,{square(170, 0)}\n")
        covers.write('c13,wide,G,"POLYGON((170.5 0,180.002 0,180.002 10,170.5 10,170.5 0))"\n')
    ended_with(1, faults(release, release / "out.geojson"))
    features = json.loads((release / "out.geojson").read_text(encoding="utf-8"))["features"]
    found = {
        (told["kind"], told["names"]): (told["area_m2"], told["width_m"])
        for told in (f["properties"] for f in features)
    }
    sizes = {
        ("overlap", "left right"): (0.01, 0.001),
        ("gap", "gap"): (0.01, 0.001),
        ("gap", "wide"): (5.0, 0.5),
        ("outside", "wide"): (0.02, 0.002),
    }
    for key, (area, width) in sizes.items():
        assert found[key] == (pytest.approx(area, abs=1e-6), pytest.approx(width, rel=0.02)), key
    for key, area in {
        ("stranger", "c9 stranger"): 100.0,
        ("class", "c10 class"): 100.0,
        ("bare", "bare"): 100.0,
        ("doubled", "sound"): 100.0,
        ("invalid", "c5"): 50.0,
    }.items():
        assert found[key] == (pytest.approx(area, abs=1e-6), None), key
    assert found["shape", "text"] == (None, None)
    forms = {f["properties"]["names"]: f["geometry"] and f["geometry"]["type"] for f in features}
    assert (forms["text"], {form for name, form in forms.items() if name != "text"}) == (None, {"MultiPolygon"})
    rows = {
        f["properties"]["names"]: (f["properties"]["table"], f["properties"]["row"], f["properties"]["file_line"])
        for f in features
    }
    assert (rows["bare"], rows["c9 stranger"], rows["left right"]) == (
        ("parcels", 9, 10),
        ("covers", 9, 10),
        ("parcels", 3, 4),
    )


def test_a_header_that_is_refused_is_the_one_fault(release):
    (release / "parcels.csv").write_text("parcel;wkt\n", encoding="ascii")
    run = faults(release, release / "out.geojson")
    assert run.returncode == 1 and run.stdout.startswith("31 "), run.stdout
