"""Runs the built program over the worked examples' inputs, each cut off at each byte: no beginning of an input gets the
answer of the whole, but where only its last line end or the quote before it is missing. A series is the beginnings of
one input: how many there are stands in its message.

A beginning of a certificate, of either version and with blocks of exact splits and merges or without, is refused as 54,
at the line behind its last line end. One of a table is refused, but where a percentage at its end is cut off behind a
digit: that is another one, and so is the report. One of a lineage table is refused, by `exact` too, which writes
nothing, and the register is as before. One of a table for `area` has the areas of no row that is not whole. One of a
region's lineage table is refused by `publish-country` and `exact-country`, at whatever place of the country it stands;
one of the certificate with the country's blocks as 54, and one of country.txt as 90, both at the line behind its last
line end.
"""

import pathlib
import re
import shutil

from lpis_helpers import country_example
import pytest
from lpis_helpers.calls import lpis
from lpis_helpers.places import TOP

EXAMPLES = pathlib.Path(TOP, "examples")
NEAR, STEP = 2, 17  # bytes: about a line's end, and from one beginning to the next


@pytest.fixture
def expect_series(request):
    """Tests that of each beginning the answer is what is wanted: without --long of those alone that end at a line's
    end or beside it, and of some others."""
    is_long = request.config.getoption("long")

    def expect(whole, answer_of, wanted_of):
        expect_each(
            whole,
            [length for length in range(len(whole)) if is_long or is_near_an_end(whole, length) or length % STEP == 0],
            answer_of,
            wanted_of,
        )

    return expect


def is_near_an_end(whole, length):
    """Whether a beginning ends within two bytes of a line's end, or of the file's."""
    return b"\n" in whole[max(0, length - NEAR) : length + NEAR] or min(length, len(whole) - length) <= NEAR


def expect_each(whole, lengths, answer_of, wanted_of):
    """Of beginnings of these lengths the answer is what is wanted."""
    found = [(length, answer_of(whole[:length]), wanted_of(length)) for length in lengths]
    wrong = [
        f"{length} bytes: {answer} in place of {wanted}"
        for length, answer, wanted in found
        if not (wanted(answer) if callable(wanted) else answer == wanted)
    ]
    assert found and not wrong, f"{len(wrong)} of {len(lengths)} beginnings"


def refused(code, whole):
    """At the line behind the last line end of a beginning."""
    return lambda length: (2, f"refused {code} line {whole[:length].count(10) + 1}\n", "")


def is_refused(answer):
    return answer[0] in (1, 2) and answer[1].startswith("refused ") and answer[1].count("\n") == 1 and not answer[2]


def is_as_good(whole, length):
    """Only the last line end is missing, and the quote before it."""
    return whole[length:] in (b"\n", b'"\n')


def is_shortened(whole, length):
    """The number at the end of the last row lacks digits, and not all."""
    return whole[length - 1 : length].isdigit() and re.fullmatch(rb"[0-9]+\n", whole[length:]) is not None


def written(path, data):
    path.write_bytes(data)
    return path


def certificate_of(release, folder):
    kept = EXAMPLES / release / "cert.txt"
    if not kept.exists():
        lpis("cut", EXAMPLES / release, kept := folder / "cert.txt")
    return kept.read_bytes()


@pytest.mark.parametrize(
    "release", ["square", "older", "pasture", "holes", "junctions", "members", "sweep", "years/2024", "years/2025"]
)
def test_certificates(release, tmp_path, expect_series):
    whole = certificate_of(release, tmp_path)
    expect_series(
        whole,
        lambda data: lpis("check", EXAMPLES / release, written(tmp_path / "cut.txt", data)),
        refused("54 cert", whole),
    )


@pytest.mark.parametrize("release", ["square", "older"])
@pytest.mark.parametrize("table", ["parcels.csv", "covers.csv", "classes.csv"])
def test_tables(release, table, tmp_path, expect_series):
    whole, cut = (EXAMPLES / release / table).read_bytes(), shutil.copytree(EXAMPLES / release, tmp_path / "cut")
    cert = written(tmp_path / "cert.txt", certificate_of(release, tmp_path))
    of_whole = lpis("check", EXAMPLES / release, cert)

    def wanted(length):
        if is_as_good(whole, length):
            return of_whole
        if table == "classes.csv" and is_shortened(whole, length):
            return lambda answer: answer[0] == 0 and answer[1].endswith("\nyes\n") and answer[1] != of_whole[1]
        return is_refused

    def answer(data):
        written(cut / table, data)
        return lpis("check", cut, cert)

    expect_series(whole, answer, wanted)


def test_areas(tmp_path, expect_series):
    whole = (EXAMPLES / "square.csv").read_bytes()

    def wanted(length):
        if length < 5:
            return (2, "refused 31 area row 0\n", "") if length < 3 else (0, "", "")
        return (
            (0, "100.0000000\n", "")
            if is_as_good(whole, length)
            else lambda answer: is_refused(answer) and answer[1].startswith("refused 38 area row 1 wkt ")
        )

    expect_series(whole, lambda data: lpis("area", written(tmp_path / "area.csv", data)), wanted)


def marked(lineage):
    """The same lineage, its endings first, with a mark in each other row: a last mark that is cut off leaves its
    merge marked in part."""
    header, *rows = lineage.decode().splitlines()
    rows.sort(key=lambda row: not row.endswith(","))
    return "".join(
        f"{row},{'exact' if row == header else '' if row.endswith(',') else 1}\n" for row in [header, *rows]
    ).encode()


@pytest.mark.parametrize("is_marked", [False, True], ids=["lineage", "marks"])
def test_lineage(is_marked, tmp_path, expect_series):
    """By `exact` and `publish` of the second year."""
    first, cut = EXAMPLES / "years" / "2024", shutil.copytree(EXAMPLES / "years" / "2025", tmp_path / "2025")
    register, cert, blocks, out = (tmp_path / name for name in ("years.db", "cert.txt", "blocks.txt", "out.txt"))
    lpis("cut", first, cert)
    lpis("publish", register, 2024, first, cert)
    lpis("cut", cut, cert)
    whole = (cut / "lineage.csv").read_bytes()
    written(cut / "lineage.csv", whole := marked(whole) if is_marked else whole)
    lpis("exact", register, cut, cert, blocks)

    def answer(data):
        written(cut / "lineage.csv", data)
        return years(tmp_path, out, ("exact", cut, cert, out), ("publish", 2025, cut, blocks), "north")

    def wanted(length):
        if is_as_good(whole, length):
            return (
                lambda found: found[0][0] == found[1][0] == 0
                and found[2] == blocks.read_bytes()
                and found[3] == (0, "north-1\nnorth-2\n", "")
            )
        return lambda found: found[0] == found[1] and is_refused(found[1]) and found[2:] == (None, (0, "north\n", ""))

    expect_series(whole, answer, wanted)


def years(folder, out, exact, publish, name):
    """The answers of two commands over a copy of a register, what the first wrote, and what is traced of an
    identifier then."""
    out.unlink(missing_ok=True)
    copy = shutil.copy(folder / "years.db", folder / "copy.db")
    made = exact and lpis(exact[0], copy, *exact[1:])
    found = lpis(publish[0], copy, *publish[1:])
    return made, found, out.read_bytes() if out.exists() else None, lpis("trace", copy, name)


@pytest.mark.parametrize("is_for_exact", [False, True])
def test_blocks(is_for_exact, tmp_path, expect_series):
    """A certificate with blocks, for `check`, and one that `exact` is to give blocks."""
    first, second = (EXAMPLES / "exact" / year for year in ("2024", "2025"))
    register, plain, cert, out = (tmp_path / name for name in ("years.db", "plain.txt", "cert.txt", "out.txt"))
    lpis("cut", first, cert)
    lpis("publish", register, 2024, first, cert)
    lpis("cut", second, plain)
    lpis("exact", register, second, plain, cert)
    whole = (plain if is_for_exact else cert).read_bytes()

    def answer(data):
        written(tmp_path / "cut.txt", data)
        if not is_for_exact:
            return lpis("check", second, tmp_path / "cut.txt")
        return lpis("exact", shutil.copy(register, tmp_path / "copy.db"), second, tmp_path / "cut.txt", out)

    expect_series(whole, answer, refused("54 cert", whole))
    assert not out.exists()


@pytest.fixture(scope="module")
def country(tmp_path_factory):
    """The second year of examples/country-years, with the country's blocks, and the register of the first."""
    folder = tmp_path_factory.mktemp("country")
    country_example.begin(folder, lpis)
    (folder / "exact.txt").rename(folder / "2025" / "exact.txt")
    return folder


@pytest.mark.parametrize(
    "name", ["country.txt", "exact.txt", "west/lineage.csv", "southeast/lineage.csv", "northeast/lineage.csv"]
)
def test_countries(name, country, tmp_path, expect_series):
    """By `publish-country`, and by `exact-country`, which does not read the certificate."""
    cut, whole, blocks = (
        shutil.copytree(country / "2025", tmp_path / "2025"),
        (country / "2025" / name).read_bytes(),
        (country / "2025" / "exact.txt").read_bytes(),
    )
    out = tmp_path / "out.txt"
    shutil.copy(country / "years.db", tmp_path)
    line = refused("54 cert" if name == "exact.txt" else "90 country", whole)

    def answer(data):
        written(cut / name, data)
        exact = None if name == "exact.txt" else ("exact-country", cut, out)
        return years(tmp_path, out, exact, ("publish-country", 2025, cut, "--exact", cut / "exact.txt"), "mill")

    def is_refused_there(found):
        last = found[1].splitlines()[-1:]
        return (
            found[0] in (1, 2)
            and last[0].startswith("refused ")
            and (last[0].endswith(f" region {name.split('/')[0]}") or last[0].startswith("refused 81 "))
            and not found[2]
        )

    def wanted(length):
        if name.endswith("lineage.csv") and is_as_good(whole, length):
            return (
                lambda found: found[0][0] == found[1][0] == 0 and found[2] == blocks and found[3] == (0, "lane\n", "")
            )
        is_right = is_refused_there if name.endswith("lineage.csv") else line(length).__eq__
        return (
            lambda found: is_right(found[1]) and found[0] in (None, found[1]) and found[2:] == (None, (0, "mill\n", ""))
        )

    expect_series(whole, answer, wanted)
