"""`check` of tables alone, beside `cut` and then `check` with the certificate that `cut` wrote: the same text and
the same status."""

import shutil

import pytest
import test_areas
import test_certificates
import test_tables
from lpis_helpers import calls
from program import CLASSES, LEFT, RIGHT, TOP, short, write

EXAMPLES = sorted(path.parent.relative_to(TOP) for path in (TOP / "examples").glob("**/covers.csv"))
# The tables of each release of the other worked cases.
RELEASES = [
    *((test_tables.PARCEL, test_tables.HALVES, classes) for classes, _ in test_tables.OF_CLASSES),
    *(
        (parcels, f'{test_tables.COVERS}L,A,G,"{LEFT}"\n{right},"{RIGHT}"\n', classes)
        for parcels, right, classes, _ in test_tables.JOINED
    ),
    *((parcels, covers, CLASSES) for parcels, covers, _ in test_tables.REFUSED),
    *(
        tables
        for parcels, pieces, *_ in test_areas.CUT
        for tables in [(*test_areas.tables_of(parcels, pieces), CLASSES)]
    ),
    *((parcels, covers, CLASSES) for parcels, covers, *_ in test_certificates.OTHERS),
    (test_certificates.PARCEL, test_certificates.ONE_PIECE, CLASSES),
    (test_certificates.PARCEL, test_certificates.HALVES, CLASSES),
    (*test_areas.STRIPS, CLASSES),
]
TABLES = ["parcels", "covers", "classes"]


def by_certificate(release, cert):
    """Status and texts of `cut` where it refuses the release, else of `check` with the certificate that it wrote."""
    told = calls.lpis("cut", release, cert)
    return calls.lpis("check", release, cert) if told[0] == 0 else told


@pytest.mark.parametrize("parcels, covers, classes", RELEASES, ids=short)
def test_worked_releases(parcels, covers, classes, tmp_path):
    release = write(tmp_path / "release", parcels, covers, classes)
    assert calls.lpis("check", release) == by_certificate(release, tmp_path / "cert.txt")


@pytest.mark.parametrize("release", EXAMPLES, ids=str)
def test_examples(release, tmp_path):
    alone = calls.lpis("check", TOP / release)
    assert alone == by_certificate(TOP / release, tmp_path / "cert.txt")
    assert (alone[0], alone[2]) in ((0, ""), (1, ""), (2, ""))


@pytest.mark.parametrize("missing", range(3), ids=TABLES.__getitem__)
def test_missing_tables(missing, tmp_path):
    """The first table that is missing is named, and none of those behind it is looked at; a certificate that lies in
    the folder is none that was named."""
    release = shutil.copytree(TOP / "examples" / "square", tmp_path / "release")
    for name in TABLES[missing:]:
        (release / f"{name}.csv").unlink()
    assert calls.lpis("check", release) == (3, "", f"failed read {TABLES[missing]}\n")


def test_certificates_in_the_folder(tmp_path):
    """Nothing is read but the three tables, and nothing is written."""
    release = shutil.copytree(TOP / "examples" / "square", tmp_path / "release")
    told = calls.lpis("check", release)
    (release / "cert.txt").write_text("none\n", encoding="ascii")
    before = sorted((path.name, path.read_bytes()) for path in release.iterdir())
    assert calls.lpis("check", release) == told and told[0] == 0
    assert sorted((path.name, path.read_bytes()) for path in release.iterdir()) == before
