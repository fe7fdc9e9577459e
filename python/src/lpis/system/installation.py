"""What texts of this repository name, as it is called where lpis is installed: commands, pages.

    python3 installation.py PREFIX FILE..        changes the names in files below PREFIX, which `./install` has just put
        there
"""

import os
import re
import sys

PACKAGE = os.path.dirname(os.path.dirname(os.path.realpath(__file__)))
# The folder of the tools: of a wheel, of what is installed, or of a clone.
FOLDERS = [os.path.normpath(os.path.join(PACKAGE, place)) for place in ("carried/lib/lpis", "../..", "../../../tools")]
HERE = next((folder for folder in FOLDERS if os.path.isfile(os.path.join(folder, "run.sh"))), FOLDERS[-1])
COMMANDS = [
    name
    for name in sorted(os.listdir(HERE))
    if name not in ("installed", "lpis")
    and os.path.isfile(os.path.join(HERE, name))
    and os.access(os.path.join(HERE, name), os.X_OK)
]
PAGES = ("BELIEVE", "GUIDE", "GUIDE-COUNTRY", "FORMATS", "IDEA", "PROOF", "WINDOWS")
OF_SOURCES = re.compile(
    r"`[^`]*\b(?:bench|crates|dev|tests)/[^`]*`|\]\([./]*(?:bench|tests)/|\b(?:README|CONTRIBUTING|ARCHITECTURE|DECISIONS)\.md"  # noqa: E501
)
NOTE = "> Paths below `bench/`, `crates/`, `dev/` and `tests/` are those of the sources of lpis.\n"


def named(text, prefix):
    """A text with the names that things have below the prefix."""
    text = re.sub(rf"\btools/({'|'.join(COMMANDS)})\b", r"lpis-\1", text)
    text = re.sub(r"\btools/(audit\w*\.sql)", rf"{prefix}/lib/lpis/\1", text)
    text = re.sub(r"(?<![\w/.])audit/", f"{prefix}/lib/lpis/audit/", text)
    text = re.sub(r'\./lpis(?= |`|")|"\$(?:OLD)?PWD/lpis"', "lpis", text)
    text = re.sub(r"(?<![\w/])examples/(?=\w)", f"{prefix}/share/doc/lpis/examples/", text)
    return re.sub(rf"\bdocs/({'|'.join(PAGES)})\.md", rf"{prefix}/share/doc/lpis/\1.md", text)


def page(text, prefix):
    """A page, with a note where it names what only the sources have."""
    text = named(text, prefix)
    if not OF_SOURCES.search(text):
        return text
    title, rest = text.split("\n", 1)
    return f"{title}\n\n{NOTE}{rest}"


def here(text):
    """A text as it is to be read beside these tools."""
    if not os.path.isdir(os.path.join(HERE, "program")):
        return text
    return named(text, os.path.dirname(os.path.dirname(HERE)))


def main():
    prefix, paths = sys.argv[1], sys.argv[2:]
    for path in paths:
        with open(path, encoding="utf-8") as file:
            text = file.read()
        with open(path, "w", encoding="utf-8") as file:
            file.write((page if path.endswith(".md") else named)(text, prefix))


if __name__ == "__main__":
    main()
