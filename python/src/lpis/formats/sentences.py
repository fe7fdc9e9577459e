"""The sentences about a refusal that tools/explain and the page in a browser share. page/words.csv has them in other
languages."""

SENTENCES = {
    "code": "code {code}: {meaning}",
    "cause": "usual cause: {cause}",
    "remedy": "remedy: {remedy}",
    "row": "{path}: row {row}, line {line}; in QGIS: $id {line} of a delimited text layer, fid {row} through OGR",
    "no row": "{path} has no row {row} (it has {count}): is it the file that was read?",
    "wanted header": "wanted header: {names}",
    "found header": "found header in {path}: {names}",
    "offset": "wkt at offset {offset}: {word}, at point number {number}, after {before}",
    "end of text": "the end of the text",
    "lines": "{path} has {count} lines{without}",
    "without": ", the last without its line end",
    "line": "line {number}: {text}",
    "shape": "{column} {name}: row {row} of {table}.csv, line {line}{others}; {extent}",
    "no shape": "{column} {name} is in no row of {table}.csv",
    "no polygon": "its wkt is no polygon",
    "piece": "its piece {piece}: row {row} of covers.csv, line {line}; {extent}",
    "empty": "{name} is empty",
    "long": "{name} has {count} letters: {value}",
    "letter": "{name} {value} has a letter that no identifier has, number {number}: {letter}",
    "extent": "x {left} to {right}, y {low} to {high}",
    "place": "place in metres: {metres}   POINT({x} {y})",
    "exactly": "x {x}, y {y}",
    "about": "about x {x}, y {y}",
}
