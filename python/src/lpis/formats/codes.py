"""What each code of docs/FORMATS.md means, what usually causes it, and what to do: (meaning, cause, remedy).

`python3 python/src/lpis/formats/codes.py` writes the tables of codes into docs/FORMATS.md.
"""

import pathlib

MARKS = "<!-- codes -->\n", "<!-- end -->\n"

POLYGON_TEXTS = {
    "10": (
        "the text does not begin with POLYGON or MULTIPOLYGON",
        "a line or a point among the shapes, a GEOMETRYCOLLECTION, hexadecimal WKB, an empty field",
        "export polygons alone, as text (`ST_AsText(geom, 3)`, `AsWKT(geom, 3)`)",
    ),
    "11": (
        "the polygon is EMPTY",
        "rounding shrank a sliver to nothing, or the source has empty shapes",
        "leave out the row, and look at why it was empty",
    ),
    "12": (
        "the text has Z, M or an SRID; flat coordinates without SRID are read",
        "`ST_AsEWKT`, a 2.5D layer",
        "`ST_AsText(ST_Force2D(geom), 3)`; by ogr2ogr `AsWKT(geom, 3)`, which writes no Z",
    ),
    "13": (
        "this is not a plain number; exponents are not read",
        "`OGR_WKT_PRECISION=3` (that is digits, not decimals), a decimal comma, `nan`",
        "write three decimals by `ST_AsText(geom, 3)` or `AsWKT(geom, 3)`, after rounding all borders together",
    ),
    "14": (
        "a coordinate is finer than a millimetre",
        "`-lco GEOMETRY=AS_WKT`, or `ST_AsText(geom)` without its 3",
        "round all borders together (docs/GUIDE.md), then write three decimals",
    ),
    "15": (
        "a coordinate is beyond 20,000,000 m",
        "an easting with a zone prefix (EPSG:4647, 5649), millimetres",
        "transform to the system without the prefix (EPSG:25832), in metres",
    ),
    "16": (
        "a ring has fewer than four points",
        "rounding shrank a ring, or the ring is not closed",
        "leave out the ring; round all borders together",
    ),
    "17": (
        "a ring's last point differs from its first",
        "text put together by hand",
        "end each ring with its first point, written with the same value",
    ),
    "18": (
        "the text's brackets or commas are wrong here",
        "a text cut off (a limit of 255 or 32,767 letters), a typing error",
        "export to CSV directly, not through a spreadsheet or a shapefile's text column",
    ),
    "19": (
        "the polygon has more than 100,000 points",
        "a whole forest or river as one shape",
        "cut the shape into several pieces, or parcels",
    ),
}

TABLES = {
    "30": (
        (
            "this row has another number of fields than the header, its `wkt` is not UTF-8, or a second byte order mark"
            " follows the first"
        ),
        "a `wkt` with commas that is not quoted; semicolons; text after the last row; another encoding",
        "quote the `wkt`, separate by commas, write UTF-8",
    ),
    "31": (
        "a column is missing; columns are found by the names in the first line",
        "an empty file, UTF-16, gzip, semicolons or tabs, a header in another language, no header at all",
        "write the header of docs/GUIDE.md, in UTF-8 (or ASCII), separated by commas, not compressed",
    ),
    "32": (
        "two columns have the same name",
        "a join that kept both columns, or names that differ in case alone",
        "name the columns in the export's SELECT",
    ),
    "33": (
        "this is not a valid identifier, which has 1 to 40 of `A-Z a-z 0-9 . _ : / -`",
        "a blank, an umlaut, a NULL written as an empty field, a name with more than 40 letters",
        "replace such letters by a rule that keeps identifiers different, the same rule each year",
    ),
    "34": (
        "this identifier is in an earlier row too",
        "a parcel of several parts written as several rows; a join that doubled rows",
        "one row for each identifier: collect the parts into one MULTIPOLYGON",
    ),
    "35": (
        "the piece's parcel is not in parcels.csv",
        "the two tables come from different days or filters; letters that differ in case",
        "export both tables in one go, with the same WHERE",
    ),
    "36": (
        "the piece's class is not in classes.csv",
        "a new class of land cover, or letters that differ in case",
        "add the class with its `percent` from 0 to 100",
    ),
    "37": (
        "no row of covers.csv names this parcel",
        "a parcel without land cover, or whose pieces rounding removed",
        "add its pieces, or leave the parcel out",
    ),
    "38": (
        "the `wkt` is not the text of a polygon; a second code and a place in the text follow",
        "see codes 10 to 19",
        "see codes 10 to 19",
    ),
    "39": (
        "`eligible` is neither 0 nor 1",
        "`true`, `yes`, `t`, a percentage, a blank in quotation marks",
        "write 0 or 1 (in SQL: `eligible::int`), or name the column `percent` and write percentages",
    ),
    "3a": (
        "the table has more than 200,000 rows",
        "a whole country in one release",
        "make a country of regions of it (`tools/country split`, docs/GUIDE.md)",
    ),
    "3b": (
        "`percent` is no whole number from 0 to 100",
        "a share from 0 to 1, decimals, a sign, leading zeros, `%`, an empty field",
        "write 0 to 100 in digits alone (in SQL: `round(100 * share)::int`)",
    ),
    "3c": (
        "`exact` in lineage.csv is neither empty nor 0 nor 1",
        "`yes`, `true`, `x`, a blank in quotation marks",
        "write 1 in each row of a split or merge that is exact, and nothing else; or leave the column out",
    ),
    "3d": (
        (
            "`x` or `y` of a point is not a coordinate; the column and a second code follow: 13 no plain number, 14"
            " more than nine decimals, 15 beyond 20,000,000 m"
        ),
        "a decimal comma, an exponent, an empty field, more decimals than a receiver has",
        "write metres of the parcels' system, with at most nine decimals (`ROUND(ST_X(geom)::numeric, 9)`)",
    ),
}

NUMBERS = {
    "13": ("this is not a plain number; exponents are not read",),
    "14": ("this has more than nine decimals",),
    "15": ("this is beyond 20,000,000 m",),
}

CUTS = {
    "40": (
        "no cut into triangles was found for this piece",
        (
            "it crosses itself (a bow tie), covers a place twice, or has no area; or this piece and those before it"
            " need more than 2,000,000 triangles"
        ),
        (
            "repair it (`ST_MakeValid`, `v.clean`) before rounding all borders together; split a release that large"
            " into regions (`tools/country split`)"
        ),
    ),
    "41": (
        "two parcels, or two pieces, overlap: the place is inside both (on a border: just right of it and above)",
        "each shape was rounded by itself, or the source overlaps",
        "round all borders together; where the overlap is wider than a millimetre or two, correct the source",
    ),
    "42": (
        (
            "two pieces overlap or could not be separated, and no place was found; or more than 32,000,000 pairs of"
            " triangles are near each other"
        ),
        (
            "as 41, but too thin for a place to be named; or thousands of corners on one straight border, like a"
            " comb, or many slanted strips side by side"
        ),
        "as 41; split a polygon with so many corners into several, or the release into regions (`tools/country split`)",
    ),
    "43": (
        "a parcel and its pieces disagree: the place is in one and not in the other",
        "a gap between pieces, a piece that leaves its parcel, shapes rounded by themselves",
        "make the parcel the union of its pieces' faces, after rounding all borders together",
    ),
    "44": (
        "a parcel's border is not that of its pieces, and no place was found",
        "as 43, but too thin for a place to be named",
        "as 43",
    ),
    "45": (
        (
            "a marked split or merge is not exact: no flats were found with which its parts make up the whole, or a"
            " certificate would need too many of them"
        ),
        (
            "each year was rounded by itself, a new corner lies a millimetre off the old border, or land was gained"
            " or lost"
        ),
        (
            "draw the new shapes from the old corners, or leave the marks of this split or merge out; `tools/explain"
            " --register DB` shows what differs"
        ),
    ),
}

CERTIFICATE_TEXTS = {
    "50": (
        "line 1 is neither `lpis-cert 1` nor `lpis-cert 2`",
        "Windows line ends, a byte order mark, another file than a certificate",
        "use the certificate as `lpis cut` wrote it, and transfer it as a binary file",
    ),
    "51": ("this is not a line of a certificate", "the file was edited, or its line ends changed", "cut again"),
    "52": ("this is not a number, or it is out of range", "the file was edited", "cut again"),
    "53": (
        "this line is not allowed at this place",
        "the file was edited, or two certificates were joined",
        "cut again",
    ),
    "54": (
        "the certificate ends too early",
        "the disk was full, or a copy broke off",
        "cut or copy again, compare digests",
    ),
    "55": (
        "there is text behind the certificate's end",
        "two certificates were joined, or a line was added",
        "cut or copy again",
    ),
    "56": (
        "more than 2,000,000 triangles or flats are declared",
        "a release too large for one certificate",
        "split the release",
    ),
}

CERTIFICATES = {
    "60": (
        "the certificate belongs to another release: identifiers differ, or its pair lines are out of order",
        "the tables were exported anew after the cut",
        "cut again from these tables",
    ),
    "61": ("a piece has no triangle in the certificate", "a certificate that was not made by `lpis cut`", "cut again"),
    "62": (
        "a triangle of this piece is not counter-clockwise",
        "a certificate that was not made by `lpis cut`",
        "cut again",
    ),
    "63": (
        "a flat of this piece or parcel is not three different points of one line",
        "a certificate that was not made by `lpis cut`",
        "cut again",
    ),
    "64": (
        "a corner in the certificate is no point of this piece or parcel",
        "the tables changed after the cut (a corner moved), or its first line names the other version",
        "cut again from these tables",
    ),
    "65": (
        "the triangles do not have this piece's border",
        "the tables changed after the cut (a corner was added or removed)",
        "cut again from these tables",
    ),
    "66": (
        "the border of this parcel is not that of its pieces: there is a gap, an overlap or another border",
        "the tables changed after the cut, or `lpis cut` would refuse with 43 or 44",
        "run `lpis cut` on these tables: it reports a place where it can",
    ),
    "67": (
        "two triangles are near each other, and no line of the certificate separates them",
        "the tables changed after the cut, or shapes overlap",
        "run `lpis cut`: it reports a place of the overlap where it can",
    ),
    "68": (
        "a line of the certificate separates two triangles that are not near each other",
        "a certificate that was not made by `lpis cut`",
        "cut again",
    ),
    "69": (
        "a line of the certificate does not separate its two triangles",
        "the tables changed after the cut, or shapes overlap",
        "run `lpis cut`: it reports a place of the overlap where it can",
    ),
}

LINEAGES = {
    "70": (
        "the old identifier is not live in the last release",
        "a typing error, or a row of an earlier year",
        "leave out the row, or name the identifier of the last release",
    ),
    "71": (
        "the old identifier is still in this release, so nothing has become of it",
        "a row for a parcel that only changed its shape",
        "leave out the row; kept identifiers need none",
    ),
    "72": (
        "the successor is not in this release",
        "a typing error, or a parcel left out of the export",
        "correct the row or the export",
    ),
    "73": (
        "this row is there twice",
        "a join that doubled rows, or one row in the tables of two regions",
        "leave out one",
    ),
    "74": (
        "an identifier ends and has a successor too",
        "an empty `new` beside rows with one",
        "leave out the row with the empty `new`",
    ),
    "75": (
        "an identifier was dropped and no row records what became of it",
        "a parcel left out of the export, or a split that was not recorded",
        "add its row: successors, or an empty `new` for an ending",
    ),
    "76": (
        "an identifier was used in an earlier release and not in the last one",
        "numbers that are given again",
        "give the parcel a new identifier",
    ),
    "77": (
        "the register keeps no shape of this old parcel, which belongs to a marked split or merge",
        "the register is of an earlier version of `lpis`, and no release was published since it was moved",
        "publish this release without marks; from then on the register keeps shapes",
    ),
    "78": (
        "a row is marked exact, and belongs to no split or merge of which every row is marked",
        "one row of a split or merge was left unmarked, or an ending, a replacement or a redrawing was marked",
        "mark every row of the split or merge, or none; leave the mark out of all other rows",
    ),
}

EXACTS = {
    "6a": (
        (
            "the certificate's `exact` blocks are not those of the marked splits and merges, in order; the identifier"
            " is the first that differs"
        ),
        "`lpis exact` (of a country `lpis exact-country`) was not run, or the marks in lineage.csv changed after it",
        "run it, and publish with the certificate that it writes",
    ),
    "6b": (
        "a flat of this split or merge is not three different points of one line",
        "a certificate that was not made by `lpis exact`",
        "run `lpis exact` again",
    ),
    "6c": (
        "a corner of a flat is no point of the old and the new shapes of this split or merge",
        "the tables changed after `lpis exact`, or it was run over another register",
        "run `lpis exact` again, over this register and these tables",
    ),
    "6d": (
        "the border of this split's or merge's whole is not that of its parts and the flats",
        "the shapes do not make up one another, or the tables changed after `lpis exact`",
        "run `lpis exact` again: where they do not, it answers 45",
    ),
}

REGISTERS = {
    "80": (
        "the year is not later than the last published one",
        "the release is published already, or the year is mistyped",
        (
            "`sqlite3 -readonly register.db 'SELECT year FROM lpis_release'` lists the published years; the register"
            " was not changed"
        ),
    ),
    "81": (
        "the lineage table does not fit this release and the last; a second code follows",
        "see codes 70 to 78",
        "see codes 70 to 78",
    ),
    "82": (
        "the database failed; printed as `failed store`",
        "a full or failing disk, another program that holds the file locked, a trigger on a table of the register",
        "look at the disk, end the other program, drop the trigger, try again",
    ),
    "83": (
        "the identifier is in no release",
        "a typing error; a name of the source that `tools/prepare` changed, such as `M\u00fchle`",
        "look it up in `identifiers.csv`, or `tools/explain release --name NAME` does",
    ),
    "84": (
        (
            "this database cannot be read as a register: its tables hold no valid history, or a shape in it is not the"
            " polygon of a live parcel"
        ),
        "a later version, a file that was edited",
        "name the right file, or restore its last copy",
    ),
    "85": (
        "the certificate does not show that a marked split or merge is exact; a second code follows",
        "see codes 6a to 6d",
        "see codes 6a to 6d",
    ),
}

COUNTRIES = {
    "90": (
        (
            "this line is not allowed here in country.txt: it does not begin with `region`, `x` or `y`, its"
            " number or name is not allowed, or there is a line too few or too many"
        ),
        (
            "a name with a blank or a dot, a name twice, Windows line ends, a last line without its line feed, more"
            " than 10,000 regions"
        ),
        "write country.txt as docs/FORMATS.md has it, and name each folder by 1 to 100 of `a-z A-Z 0-9 _ -`",
    ),
    "92": (
        "this parcel of the region's table does not meet the region's rectangle",
        "a parcel in the wrong folder, or country.txt with its cuts exchanged",
        "give each region the parcels whose boxes meet its rectangle, and no others",
    ),
    "93": (
        "this identifier is in an earlier region too, for a parcel that does not reach this one",
        "two regions that number their parcels alike",
        "give identifiers that differ over the whole country",
    ),
    "94": (
        "this parcel is in an earlier region too, with another polygon or other pieces",
        "the regions were exported on different days, rounded apart, or in another order of rows",
        "export all regions from one table, rounded once, with rows in one order",
    ),
    "95": (
        "this parcel meets the region's rectangle, and its table does not have it",
        "a parcel on a seam that was given to one region alone",
        "give a parcel to each region whose rectangle its box meets",
    ),
    "96": (
        "the region's table of classes is not that of the country, from this row on",
        "a class that was added to one region, or rows in another order",
        "copy the country's classes.csv into each region",
    ),
}

FAILURES = {
    "memory": "there was not enough memory; nothing was decided",
    "read": "an input could not be opened or read, or is longer than 1 GiB; nothing was decided",
    "write": "the output could not be written in full (a full disk, a closed pipe)",
    "store": REGISTERS["82"][0],
}

GROUPS = [
    ("Polygon texts (reported behind 38)", POLYGON_TEXTS),
    ("Tables", TABLES),
    ("Cutting", CUTS),
    ("Certificate texts", CERTIFICATE_TEXTS),
    ("Certificates", CERTIFICATES),
    ("Lineage (reported behind 81)", LINEAGES),
    ("Exact lineage (reported behind 85)", EXACTS),
    ("The register", REGISTERS),
    ("A country", COUNTRIES),
]
# by the sections of docs/FORMATS.md before its last one
DEFINED = [POLYGON_TEXTS, TABLES, CERTIFICATE_TEXTS, CERTIFICATES, LINEAGES, EXACTS, COUNTRIES]
CODES = {code: words for _, group in GROUPS for code, words in group.items()}

REFUSED_BY_THE_GATE = {*CUTS, *CERTIFICATES, "80", "81", "83", "85", "92", "93", "94", "95", "96"}
BEHIND = {"38": POLYGON_TEXTS, "3d": NUMBERS, "81": LINEAGES, "85": EXACTS}  # the codes that stand behind one


def status_of(line):
    """The status that `lpis` ends with where it printed this line."""
    words = line.split()
    if words[:1] == ["failed"]:
        return 3
    if words[:1] == ["refused"] and len(words) > 1:
        return 1 if words[1] in REFUSED_BY_THE_GATE else 2
    return 0


def lines_of(code):
    """What a code means, for people: also the codes that stand behind it, and the status that lpis ends with."""
    meaning, cause, remedy = CODES[code]
    group = next(title for title, group in GROUPS if code in group)
    lines = [f"code {code} ({group}): {meaning}"]
    if not cause.startswith("see code"):
        lines += [f"  usual cause: {cause}", f"  remedy: {remedy}"]
    lines += [f"  {other}: {words[0]}" for other, words in BEHIND.get(code, {}).items()]
    if code == "82":
        return [*lines, "  lpis ends with status 3"]
    first = next((outer for outer, inner in BEHIND.items() if code in inner), code)
    return [*lines, f"  lpis ends with status {status_of(f'refused {first}')}"]


def table_of_codes(defined=()):
    """The tables of all codes. The groups that are defined elsewhere on the page have no column of meanings."""
    lines = []
    for title, group in GROUPS:
        first = 1 if group in defined else 0
        columns = ["Code", *("Meaning", "Usual cause", "Remedy")[first:]]
        lines += [f"### {title}", "", f"| {' | '.join(columns)} |", "|---" * len(columns) + "|"]
        lines += [f"| {' | '.join([code, *words[first:]])} |" for code, words in group.items()]
        lines.append("")
    return "\n".join(lines)


def with_codes(page):
    """The text of docs/FORMATS.md with the tables of all codes between its marks."""
    before, rest = page.split(MARKS[0])
    return before + MARKS[0] + "\n" + table_of_codes(DEFINED) + "\n" + MARKS[1] + rest.split(MARKS[1], 1)[1]


if __name__ == "__main__":
    FORMATS = pathlib.Path(__file__).resolve().parents[4] / "docs" / "FORMATS.md"
    FORMATS.write_text(with_codes(FORMATS.read_text(encoding="utf-8")), encoding="utf-8")
