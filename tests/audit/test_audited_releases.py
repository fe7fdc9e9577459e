"""Tests the second checker of audit/ beside the built program: both decide each case, and have to agree.

Of generated releases of nasty shapes: each sound one with the certificate that was cut, and then with a damaged
certificate or table, or made wrong. The verdict has to be that of `lpis check`, and each report its report byte for
byte. Of a series of releases each condition refuses some. LPIS in the environment names the program.
"""

import random
import shutil
import sys
from collections import Counter
from pathlib import Path

from lpis_helpers import calls
from lpis_helpers import damage
import idea_pictures
import pytest
import release as audit
from lpis_helpers.nasty_shapes import Release
from lpis_helpers.places import BUILT, TOP as HOUSE

TOP = Path(HOUSE)
RELEASES, LEAST = 100, (3, 2, 3, 3)  # of a series; cases of each condition, series by series
MOST_LINES, MOST_LINES_OF_SOURCE, MOST_LINES_OF_READERS, COLUMNS = 365, 365, 315, 120  # of audit/
DAMAGES = (
    ["tables"] * 12
    + ["wrong"] * 9
    + damage.CONDITIONS * 3
    + [damage.pair_added, damage.other_edge] * 2
    + damage.TEXTS * 7
)
EXACT = TOP / "examples" / "exact"


def lpis(*words):
    return calls.lpis(*words, encoding="utf-8", errors="backslashreplace")[:2]


def audited(main, *words):
    """What a part of the second checker answers: status and text."""
    try:
        return 0, main(*(word and str(word) for word in words))
    except audit.No as fault:
        return 1, f"no {fault}\n"


def expect_same(name, folder, cert):
    """One case: equal verdicts, and equal reports where they are yes; answers the code, or `yes`."""
    (status, text), (its_status, its_text) = lpis("check", folder, cert), audited(audit.main, folder, cert)
    assert (
        text == its_text if status == 0 else its_status == 1
    ), f"{name}: lpis {status} {text[-200:]!r}, audit {its_status} {its_text[-200:]!r}"
    return "yes" if status == 0 else text.split(" ")[1]


def damaged_certificate(cert, change, numbers):
    lines = cert.read_text(encoding="ascii").split("\n")[:-1]
    end = numbers.choice(["\n"] * 9 + ["", "\n\n", "\r\n", "\n "]) if change in damage.TEXTS else "\n"
    cert.write_bytes(("\n".join(change(lines, numbers) or lines) + end).encode("utf-8"))


@pytest.mark.parametrize("series, least", enumerate(LEAST))
def test_releases(series, least, tmp_path):
    """Each sound release with its own certificate, and then, in turn: that certificate damaged, or a byte of one of
    the four files, or the release made wrong."""
    numbers, codes, sound, wrong, cert = (
        random.Random(75 + series),
        Counter(),
        tmp_path / "sound",
        tmp_path / "wrong",
        tmp_path / "cert.txt",
    )
    for number in range(series * RELEASES, (series + 1) * RELEASES):
        Release(number, False).write(sound)
        status, text = lpis("cut", sound, cert)
        assert status == 0, f"release {number} is not cut: {text}"
        codes[expect_same(f"release {number}", sound, cert)] += 1
        change, file = DAMAGES[number % len(DAMAGES)], numbers.choice(
            [cert, *(sound / f"{name}.csv" for name in ("parcels", "covers", "classes"))]
        )
        if change == "tables":
            file.write_bytes(damage.edited(file.read_bytes(), numbers))
        elif change == "wrong":
            Release(number, True).write(wrong)
        else:
            damaged_certificate(cert, change, numbers)
        codes[
            expect_same(
                f"release {number}, {getattr(change, '__name__', change)}", wrong if change == "wrong" else sound, cert
            )
        ] += 1
    assert (
        min(codes[str(code)] for code in range(60, 70)) >= least
    ), f"of {codes.total()} cases: {sorted(codes.items())}"


def test_size():
    """The second checker is read in an hour, that of a source in another, and what it reads with in a third: so many
    lines that are not blank, none long."""
    files = {path.name: path for path in (TOP / "audit").glob("*.*")}
    budgets = {
        ("lineage.py", "register.py", "release.py"): MOST_LINES,
        ("source.py",): MOST_LINES_OF_SOURCE,
        ("readers.py", "shapes.py"): MOST_LINES_OF_READERS,
    }
    assert sorted(files) == sorted(name for names in budgets for name in names)
    for names, most in budgets.items():
        lines = [line for name in names for line in files[name].read_text(encoding="utf-8").splitlines()]
        assert (sum(line != "" for line in lines) <= most, max(map(len, lines)) <= COLUMNS) == (True, True)


@pytest.mark.parametrize(
    "header",
    [
        "class,percent",
        "class",
        "class,eligible",
        "Class,ELIGIBLE,Percent",
        "class,percent,percent",
        "class,percent,eligible,eligible",
        "x,x,class,percent",
        "",
        "\ufeffclass,percent",
        "\ufeff\ufeffx,class,percent",
        '"class","percent"',
        "class,percent\r\n\r\n",
        "class,percent,wKt,w\u212at",
    ],
    ids=repr,
)
def test_empty(header, tmp_path):
    """Releases without a parcel: the header of the classes alone decides."""
    texts = {
        "cert.txt": "lpis-cert 2\npairs 0\nend\n",
        "parcels.csv": "parcel,wkt\n",
        "covers.csv": "piece,parcel,class,wkt\n",
        "classes.csv": header,
    }
    for name, text in texts.items():
        (tmp_path / name).write_text(text, encoding="utf-8")
    expect_same(header, tmp_path, tmp_path / "cert.txt")


def test_pictures(tmp_path):
    """The pictures of docs/GUIDE.md and docs/IDEA.md are those that dev/pictures draws."""
    idea_pictures.draw(tmp_path, tmp_path)
    for name in idea_pictures.DRAWINGS:
        assert (tmp_path / f"{name}.svg").read_text() == (TOP / "docs" / f"{name}.svg").read_text(), name


def expect_agreement(said, tool, *words):
    run = calls.run(sys.executable, TOP / "tools" / tool, "--audit", "--lpis", BUILT, *words)
    assert "two programs agree" in run.stdout and said in run.stdout, run.stdout[-300:] + run.stderr[-300:]


@pytest.mark.parametrize("year, said", [("2024", "agree: yes, and"), ("2025", "agree: refused 60")])
def test_report(year, said, tmp_path):
    """`--audit` of tools/report: two programs agree, of a yes and of a no."""
    lpis("cut", EXACT / "2024", tmp_path / "cert.txt")
    expect_agreement(said, "report", EXACT / year, tmp_path / "cert.txt")


def test_year(tmp_path):
    """`--audit` of tools/year, of two years in a register."""
    years = shutil.copytree(EXACT, tmp_path / "years")
    for year, said, more in (("2024", "says about", ["--new"]), ("2025", "agree on the marks of", [])):
        expect_agreement(said, "year", "--year-anyway", tmp_path / "tools.db", year, years / year, *more)
