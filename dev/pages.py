"""The pages: which they are, and what `dev/lint --pages` says of their sentences and their words. No merge waits for
that.

- no sentence is over 40 words, and the sentences of a page have fewer than 22 on average; a piece of code counts as one
word, and what scripts
  write between marks is not read. A cell of a table has the same limit
- no page has more words or lines than PAGE_WORDS and PAGE_LINES allow, nor all of them together than ALL_WORDS;
docs/BELIEVE.md, docs/believe/
  and bench/results/ are apart
- each part of docs/PROOF.md, from a heading to the next, is read aloud in a minute: A_MINUTE words, code counted as one
"""

import re
from pathlib import Path

TOP = Path(__file__).resolve().parent.parent
LONGEST, MEAN = 40, 22  # words of a sentence: at most, and fewer than on average
ALL_WORDS = 46_620
A_MINUTE = 160
PAGE_WORDS = {
    "README.md": 700,
    "docs/IDEA.md": 1_240,
    "docs/GUIDE*.md": 7_370,
    "docs/FORMATS.md": 8_300,
    "docs/WINDOWS.md": 520,
    "docs/ARCHITECTURE.md": 4_700,
    "docs/DECISIONS.md": 4_500,
    "CONTRIBUTING.md": 900,
    "docs/contributing/*.md": 3_800,
    "docs/GLOSSARY.md": 1_050,
    "CHANGELOG.md": 1_900,
    "bench/RESULTS.md": 1_740,
    "docs/*.1": 4_720,  # the pages of the manual together
}
PAGE_LINES = {"docs/DECISIONS.md": 274, "CONTRIBUTING.md": 110, "bench/RESULTS.md": 250}


def pages():
    return [*sorted(TOP.glob("*.md")), *sorted((TOP / "docs").rglob("*.md")), TOP / "bench" / "RESULTS.md"]


def sentences_of(text):
    """The sentences of prose, and those of the cells of tables: what scripts write between marks, code and headings
    left out."""
    text = re.sub(r"(?ms)^<!-- (?!end)[^>]*-->\n.*?^<!-- (?:trust: )?end -->$|^```.*?^```$|^<!--.*?-->$", "", text)
    prose, cells, block = [], [], []
    for line in [*text.split("\n"), ""]:
        is_item = re.match(r"\s*(?:[-*]|\d+\.) ", line)
        if block and (is_item or not line.strip() or line.startswith(("|", "#", "    ", "!["))):
            prose.append(" ".join(block))
            block = []
        if line.startswith("|"):
            cells += re.sub(r"`[^`]*`", "code", line).strip("|").split("|")
        elif line.strip() and not line.startswith(("#", "    ", "![")):
            block.append(line[is_item.end() :] if is_item else line.strip())

    def cut(block):
        return [
            part for part in re.split(r"(?<=[.?!])[\"')*_]*\s+", re.sub(r"`[^`]*`", "code", block)) if words_in(part)
        ]

    return [part for block in prose for part in cut(block)], [part for cell in cells for part in cut(cell)]


def words_in(sentence):
    return sum(any(sign.isalnum() for sign in word) for word in sentence.split())


def check_sentences(fault):
    for path in pages():
        prose, cells = sentences_of(path.read_text(encoding="utf-8"))
        for sentence in [*prose, *cells]:
            if words_in(sentence) > LONGEST:
                fault(
                    path,
                    f"a sentence of {words_in(sentence)} words, wanted: no more than {LONGEST}: {sentence[:60]} ..",
                )
        mean = sum(map(words_in, prose)) / max(1, len(prose))
        if mean >= MEAN:
            fault(path, f"{mean:.1f} words a sentence, wanted: fewer than {MEAN}")
    return len(pages())


def check_budgets(fault):
    """Prints how many words each page has and may have."""
    counts = {
        name: sum(len(path.read_text(encoding="utf-8").split()) for path in TOP.glob(name)) for name in PAGE_WORDS
    }
    for name, most in {**PAGE_WORDS, "all": ALL_WORDS}.items():
        words = counts.get(name, sum(counts.values()))
        print(f"  {name:20} {words:7,} words of {most:7,}")
        if words > most:
            fault(name, f"{words:,} words, wanted: no more than {most:,}")
    for name, most in PAGE_LINES.items():
        lines = len((TOP / name).read_text(encoding="utf-8").splitlines())
        if lines > most:
            fault(name, f"{lines} lines, wanted: no more than {most}")
    return len(PAGE_WORDS) + 1 + len(PAGE_LINES) + check_minutes(fault)


def check_minutes(fault):
    """Each part of PROOF, without its tables."""
    text = (TOP / "docs" / "PROOF.md").read_text(encoding="utf-8")
    parts = re.split(r"(?m)^#+ ", text)[1:]
    for part in parts:
        title, _, rest = part.partition("\n")
        words = words_in(re.sub(r"`[^`]*`", "code", re.sub(r"(?m)^\|.*$", "", rest)))
        if words > A_MINUTE:
            fault("docs/PROOF.md", f"'{title}' has {words} words, and {A_MINUTE} are read in a minute")
    return len(parts)
