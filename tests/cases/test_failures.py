"""A release and a country that are published while reads and writes are short and interrupted, and fail at each call
in turn (failing.c)."""

import os
import shutil
import subprocess
from pathlib import Path

from lpis_helpers import country_example
import pytest
from program import CLASSES, LPIS, SECONDS, lpis, write
from lpis_helpers.registers import said
from test_histories import MAPS, MARKED, certificate_of, hand_in, lines_of, tables_of

# The inputs in the order in which they are read.
NAMES = ["parcels", "covers", "classes", "cert", "lineage"]
REGIONS = ["west", "southeast", "northeast"]
OF_REGIONS = [f"lineage region {region}" for region in REGIONS] + [
    f"{name} region {region}" for region in REGIONS for name in NAMES[:4]
]
OF_COUNTRY = ["country", "classes", "cert", *OF_REGIONS]


class Run:
    """Runs of a command over a register that is as it was before each."""

    def __init__(self, folder, shim, register, words):
        self.folder, self.shim, self.kept, self.words = folder, shim, register, words
        self.register = folder / "register.db"
        self.whole = self.answer()  # in short reads and writes, none of which fails

    def answer(self, **failing):
        """The status, the lines of standard output and of standard error, and what the register holds then."""
        shutil.copy(self.kept, self.register)
        environment = {
            **os.environ,
            "LD_PRELOAD": str(self.shim),
            **{name: str(value) for name, value in failing.items()},
        }
        words = [self.register if word is None else word for word in self.words]
        run = subprocess.run(
            [LPIS, *map(str, words)],
            env=environment,
            stdin=subprocess.DEVNULL,
            capture_output=True,
            timeout=SECONDS,
            check=False,
        )
        return run.returncode, run.stdout.decode().splitlines(), run.stderr.decode().splitlines(), said(self.register)


def regions_before(name, whole):
    """How many of the lines of a country's regions stand before a failure of this input."""
    region = name.split(" region ")[-1]
    return whole[1][: REGIONS.index(region)] if region in REGIONS and not name.startswith("lineage") else []


@pytest.fixture(scope="module")
def shim(preloaded):
    return preloaded(Path(__file__).with_name("failing.c"))


@pytest.fixture(scope="module")
def release(shim, tmp_path_factory):
    """`publish` and `exact` of a split that follows the whole."""
    folder, halves = tmp_path_factory.mktemp("release"), MAPS["halves"]
    hand_in(folder / "kept.db", folder / "whole", 2024, MAPS["whole"], "")
    place = write(folder / "halves", *tables_of(halves), CLASSES, lineage="old,new\nA,B\nA,C\n")
    marked = write(folder / "marked", *tables_of(halves), CLASSES, lineage=f"{MARKED}A,B,1\nA,C,1\n")
    cert = folder / "cert.txt"
    cert.write_text(certificate_of(halves, ""), encoding="ascii")
    publish = Run(folder, shim, folder / "kept.db", ["publish", None, "2025", place, cert])
    exact = Run(folder, shim, folder / "kept.db", ["exact", None, marked, cert, folder / "out.txt"])
    assert publish.whole[:3] == (0, lines_of(halves, 2025, ["A split"]), [])
    assert exact.whole[:3] == (0, ["exact 1"], [])
    return {"publish": publish, "exact": exact}


@pytest.fixture(scope="module")
def country(shim, tmp_path_factory):
    """`publish-country` and `exact-country` of the second year of examples/country-years."""
    folder = tmp_path_factory.mktemp("country")
    for year in ("2024", "2025"):
        country_example.write(folder / year, year, lambda region: lpis("cut", region, region / "cert.txt"))
    kept, out = folder / "country.db", folder / "blocks.txt"
    assert lpis("publish-country", kept, 2024, folder / "2024")[-1] == "published 2024"
    exact = Run(folder, shim, kept, ["exact-country", None, folder / "2025", out])
    assert (exact.whole[0], exact.whole[1][-1], exact.whole[2]) == (0, "exact 2", [])
    publish = Run(
        folder,
        shim,
        kept,
        ["publish-country", None, "2025", folder / "2025", "--exact", shutil.copy(out, folder / "exact.txt")],
    )
    status, lines, told, _ = publish.whole
    assert (status, [*lines[:3], lines[-1]], told) == (0, [*exact.whole[1][:-1], "published 2025"], [])
    return {"publish-country": publish, "exact-country": exact}


@pytest.mark.parametrize(
    "kind, command, names",
    [
        ("release", "publish", NAMES),
        ("release", "exact", NAMES),
        ("country", "publish-country", OF_COUNTRY),
        ("country", "exact-country", [name for name in OF_COUNTRY if name != "cert"]),
    ],
)
def test_each_read_fails(kind, command, names, request):
    """The input is named, in the order in which they are read, nothing is printed but the lines of a country's regions
    before it, and the register is as before."""
    run, met, at = request.getfixturevalue(kind)[command], [], 1
    before = said(run.kept)
    while (found := run.answer(FAIL_READ=at)) != run.whole and at < 10_000:
        name = found[2][0].removeprefix("failed read ") if found[2] else ""
        met += [name] if name not in met[-1:] else []
        assert found == (3, regions_before(name, run.whole), [f"failed read {name}"], before), at
        at += 1
    assert met == names


@pytest.mark.parametrize("kind, command", [("release", "publish"), ("country", "publish-country")])
def test_each_write_fails(kind, command, request):
    """What was printed is a beginning of the whole, and the release is there; not where a region's line was not
    written, since the rest is decided after it."""
    run, at = request.getfixturevalue(kind)[command], 1
    whole, regions = run.whole, [line for line in run.whole[1] if line.startswith("region ")]
    while (found := run.answer(FAIL_WRITE=at)) != whole and at < 10_000:
        is_beginning, is_decided = (
            "\n".join(whole[1]).startswith("\n".join(found[1])),
            len(found[1]) > len(regions) or not regions,
        )
        register = whole[3] if is_decided or (found[1] == regions and found[3] == whole[3]) else said(run.kept)
        assert (found[0], is_beginning, found[2], found[3]) == (3, True, ["failed write out"], register), at
        at += 1
    assert at > 1
