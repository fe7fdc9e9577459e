"""Wrong bodies: what they are, where they stand, and which of them are due to be tried.

`must-fail/` of a crate has those that break a headline promise: the gate tries them. `wrong/` has the others, which
`dev/wrong` tries. `wrong/tried` has a line for each of these that was refused, NAME DIGEST: the digest is of the
crate's sources and of the edit, so that it tells whether either has changed since.
"""

import hashlib
import re
from pathlib import Path

TOP = Path(__file__).resolve().parent.parent
CRATES = TOP / "crates"
AT_THE_MERGE, LATER = "must-fail", "wrong"
PARTS = "src", "specs", "proofs"
PAGE = TOP / "docs" / "contributing" / "wrong-bodies.md"
LIST = re.compile(r"(?ms)^<!-- wrong -->\n.*?^<!-- end -->$")


def edits(crate, folder=LATER):
    """The paths of a crate's wrong bodies in one of the two folders, by name."""
    return sorted((CRATES / crate / folder).glob("*.edit"))


def digest(edit):
    """The sum of all files of the crate's sources, by name and bytes, and of the edit."""
    crate = edit.parent.parent
    files = sorted(it for part in PARTS for it in (crate / part).rglob("*") if it.is_file())
    total = hashlib.sha256()
    for path in [*files, edit]:
        name, text = str(path.relative_to(crate)).encode(), path.read_bytes()
        total.update(b"%d %d\n" % (len(name), len(text)) + name + text)
    return total.hexdigest()


def tried(crate):
    """What `wrong/tried` of a crate has: a digest by the name of each edit."""
    path = CRATES / crate / LATER / "tried"
    lines = path.read_text(encoding="utf-8").splitlines() if path.exists() else []
    return dict(line.split(" ", 1) for line in lines)


def due(crate):
    """The wrong bodies of a crate's `wrong/` that were not tried over its sources as they stand."""
    before = tried(crate)
    return [edit for edit in edits(crate) if before.get(edit.stem) != digest(edit)]


def note(crate, found):
    """Writes what edits came to into `wrong/tried`: by name the digest of one that was refused, and else ''."""
    names = {edit.stem for edit in edits(crate)}
    after = {name: sum for name, sum in (tried(crate) | found).items() if sum and name in names}
    text = "".join(f"{name} {sum}\n" for name, sum in sorted(after.items()))
    (CRATES / crate / LATER / "tried").write_text(text, encoding="utf-8")


def page():
    """The page of wrong bodies, with the names of all of them as they stand in the folders."""
    lines = []
    for crate in sorted(path.name for path in CRATES.iterdir()):
        for folder, words in ((AT_THE_MERGE, "at each merge"), (LATER, "before a version")):
            if found := edits(crate, folder):
                lines += ["", f"### {crate}, {words}", "", *(f"- {edit.stem.replace('_', ' ')}" for edit in found)]
    return LIST.sub("\n".join(["<!-- wrong -->", *lines, "", "<!-- end -->"]), PAGE.read_text(encoding="utf-8"))
