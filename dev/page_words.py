"""The words of the page in a browser, page/words.csv: what `dev/page` writes and reads of them, and `dev/lint` looks
for."""

import csv
import io
import re
import sys
from pathlib import Path

TOP = Path(__file__).resolve().parent.parent
sys.path.insert(0, str(TOP / "python" / "src"))
from lpis.formats import codes
from lpis.formats.sentences import SENTENCES

WORDS = TOP / "page" / "words.csv"
PARTS = ("meaning", "cause", "remedy")
CODES = ("1", "3", "4", "5", "6")  # of area, check and cut, by what they begin with
ELSEWHERE = ("3c", "3d", "45", "6a", "6b", "6c", "6d")  # of these the codes that other commands alone print


def english():
    """The English of the keys that python/src/lpis has."""
    shown = {code: words for code, words in codes.CODES.items() if code[0] in CODES and code not in ELSEWHERE}
    return {
        **SENTENCES,
        **{f"{code} {part}": text for code, words in shown.items() for part, text in zip(PARTS, words)},
    }


def rows():
    with open(WORDS, encoding="utf-8", newline="") as file:
        return list(csv.reader(file))


def write():
    """Writes the English of python/src/lpis. Keys that are not there yet come at the end, without words in the other
    languages."""
    head, *lines = rows()
    words = english()
    lines = [[key, words.get(key, text), *others] for key, text, *others in lines]
    lines += [
        [key, text, *[""] * (len(head) - 2)] for key, text in words.items() if key not in {line[0] for line in lines}
    ]
    made = io.StringIO()
    csv.writer(made, lineterminator="\n").writerows([head, *lines])
    WORDS.write_text(made.getvalue(), encoding="utf-8")


def stale():
    """The keys whose English is not that of python/src/lpis."""
    known = {line[0]: line[1] for line in rows()}
    return [key for key, text in english().items() if known.get(key) != text]


def faults():
    """What is to be mended: English that is not that of python/src/lpis, codes that are no more, and cells that are
    empty or have other places."""
    head, *lines = rows()
    words = english()
    yield from (f"{key} is not as python/src/lpis has it: dev/page --words writes it" for key in stale())
    for key, text, *others in lines:
        if key.split()[-1] in PARTS and " " in key and key not in words:
            yield f"{key} is of no code that the page prints"
        for language, other in zip(head[2:], others):
            if not other:
                yield f"{key} has no words in the column {language}"
            elif sorted(re.findall(r"\{\w+\}", other)) != sorted(re.findall(r"\{\w+\}", text)):
                yield f"{key} has other places in the column {language}"


def table():
    """Languages, and each key in each language; an empty cell is left out, and English stands for it."""
    head, *lines = rows()
    words = {key: {name: text for name, text in zip(head[1:], texts) if text} for key, *texts in lines}
    return {"languages": words.pop("language name"), "words": words}
