"""What stands between the marks of docs/BELIEVE.md and of the pages of docs/believe: definitions, types and contracts
as they stand in the sources. Imported by `dev/trust`, which says what the marks are."""

import math
import os
import re
import textwrap
from pathlib import Path

from definitions import TOP, Definition, lies_in
from roots import EXAMPLES
from source_texts import WIDTH, joined, law_of, promise_of, type_of

HEAD = TOP / "docs" / "BELIEVE.md"
MORE = TOP / "docs" / "believe"
INDEX = MORE / "README.md"
COMMENTS = TOP / "dev" / "comments.txt"

MOST_FORMULAS = 1  # of an example on BELIEVE
WORDS, SIGNS, EXAMPLE = 200, 50, 20  # words of prose and of formulas in a minute; seconds for an example
MARK = re.compile(r"(?ms)^<!-- trust: (?!end)(.*?) -->\n.*?^<!-- trust: end -->$")


def wrapped(words, first="", later=""):
    return textwrap.wrap(
        words, WIDTH, initial_indent=first, subsequent_indent=later, break_long_words=False, break_on_hyphens=False
    )


def commented(line, comment):
    """A line with its comment behind it, or above it where it has no room for it."""
    whole = f"{line}  -- {comment}" if comment else line
    return [whole] if len(whole) <= WIDTH else [*wrapped(comment, "-- ", "-- "), line]


def laid_out(text, comment):
    """A definition with its comment in as few lines as the width allows. A record of short fields is one line, and what
    has no comment behind its first line of two."""
    lines = []
    for line in joined(text).split("\n"):
        goes_on = lines and line.startswith("      ") and len(lines[-1]) + 1 + len(line.strip()) <= WIDTH
        lines[-1:] = [f"{lines[-1]} {line.strip()}"] if goes_on else [*lines[-1:], line]
    head, *rest = lines
    first = commented(head, comment)
    short = (f"{head} " if head.endswith(" where") else f"{head}; ") + "; ".join(line.strip() for line in rest)
    is_record = head.endswith(" where") and not any(line.startswith("   ") for line in rest)
    if rest and len(short) <= WIDTH and (is_record or len(rest) == 1 and (not comment or len(first) > 1)):
        return commented(short, comment)
    return [*first, *rest]


def own_comments():
    """What a mark `define` says of a definition or a type in place of its comment: that is for readers of its file, who
    have had what stands above it. Nothing, where the text of the page says it."""
    lines = COMMENTS.read_text(encoding="utf-8").splitlines()
    return {name: words.strip() for name, _, words in (line.partition(":") for line in lines)}


def name_of(node):
    return node.label.rpartition("'s ")[2].rpartition(".")[2]


def begins(text):
    """The title of a page, and the promise that stands below it."""
    title, _, rest = text.partition("\n")
    return title.lstrip("# "), " ".join(line.lstrip("> ") for line in rest.strip("\n").split("\n\n")[0].split("\n"))


def minutes_of(text):
    """How many minutes a page takes to read, in fives: without boxes, the chapter on them and the formulas of examples;
    with all; and how many examples it has."""
    text = re.sub(r"(?s)<!-- trust: time -->.*?<!-- trust: end -->", "", text)
    examples = sum(len(re.findall(r"(?m)^- ", part)) for part in re.findall(r"(?s)<!-- trust: ex(.*?)<!-- tr", text))
    boxes = "\n".join(re.findall(r"(?ms)^```\w+\n(.*?)^```$", text))
    plain = re.sub(r"(?s)<!--.*?-->", "", re.sub(r"(?ms)^```.*?^```$", "", text))
    spans = [span for span in re.findall(r"`[^`]+`", plain) if " " in span or "\n" in span]
    short = re.sub(r"(?ms)^## How to read.*?(?=^## )", "", plain)
    comments, rest = " ".join(re.findall(r"-- (.*)", boxes)), re.sub(r"-- .*", "", boxes)

    def needs(prose, signs=""):
        words = len(re.sub(r"`[^`]+`", "code", prose).split())
        return 5 * math.ceil((words / WORDS + len(signs.split()) / SIGNS + examples * EXAMPLE / 60) / 5)

    return needs(short), needs(plain + comments, " ".join([*spans, rest])), examples


class Nodes:
    """What has a place on the pages: definitions and types, and which of them each uses."""

    def __init__(self, trust):
        self.trust, self.used = trust, {}
        self.types = {
            node: name
            for crate in trust.crates.values()
            for (kind, name, _), node in crate.nodes.items()
            if kind == "type" and (node.is_promise or node in trust.reached)
        }

    def is_shown(self, node):
        """It stands on a page: a definition that is reached, or a type."""
        is_public = isinstance(node, Definition) and not node.spec.is_private and node in self.trust.reached
        return is_public or node in self.types

    def uses(self, node):
        """What it names that stands on a page, in the order in which it names it: in its clauses, and of a type in
        what callers see of it."""
        if node not in self.used:
            found = list(self.trust.names_in(node))
            if node in self.types:
                text = re.sub(r"//[^\n]*|\buse [^\n]*", "", type_of(self.trust.crates[node.crate], self.types[node]))
                found += [self.type_named(node.crate, word) for word in re.findall(r"\b[A-Z]\w+", text)]
            self.used[node] = [other for other in dict.fromkeys(found) if other is not node and self.is_shown(other)]
        return self.used[node]

    def type_named(self, crate, name):
        """The type of a name in a crate's sources: its own, or one that they import."""
        crates = [crate, *(other for other, imported in self.trust.crates[crate].imported() if imported == name)]
        found = (self.trust.crates[other].type_of(name) for other in crates if other in self.trust.crates)
        return next((node for node in found if node in self.types), None)

    def in_order(self, wanted, done):
        """These, and what they use and is not done, each behind what it uses."""
        order, seen = [], set(done)

        def visit(node):
            if node not in seen:
                seen.add(node)
                for other in self.uses(node):
                    visit(other)
                order.append(node)

        for node in wanted:
            visit(node)
        return order

    def files_in_order(self, nodes):
        """The files of these definitions, and the types, each file whole and behind what it uses."""
        units, members, order, seen = {}, {}, [], set()
        for node in nodes:
            unit = node.spec if isinstance(node, Definition) else node
            units[node] = unit
            members.setdefault(unit, []).append(node)

        def visit(unit):
            if unit not in seen:
                seen.add(unit)
                for other in (other for node in members[unit] for other in self.uses(node) if other in units):
                    visit(units[other])
                order.append((unit, members[unit]))

        for unit in list(members):
            visit(unit)
        return order


class Pages:
    """The texts of the pages: each definition that is reached stands on one of them."""

    def __init__(self, trust, paths):
        self.trust, self.nodes = trust, Nodes(trust)
        self.old = {path: path.read_text(encoding="utf-8") for path in paths}
        self.printed, self.home, self.new, self.cited = {}, {}, {}, set()  # a node's page; by WHERE; texts; laws
        self.own = {name_of(node) for node in trust.reached} - {"None"}
        self.comments = own_comments()
        for path, text in self.old.items():
            for words in re.findall(r"(?s)<!-- trust: files (.*?) -->", text):
                self.home |= {where: path for where in words.split()}
        for path in paths:
            self.path, self.done = path, set()
            self.new[path] = MARK.sub(self.written, self.old[path])
        for path in paths:
            self.minutes = minutes_of(self.new[path])
            self.new[path] = MARK.sub(self.list_of_pages, self.new[path])
        labels = {node.label.replace("'s ", "/") for node in self.printed}
        trust.faults += [f"{COMMENTS.name} has {label}, and no page" for label in self.comments if label not in labels]

    def page_of(self, node):
        """The page of a definition or a type: one that shows it, else by its file, else by its crate."""
        if node in self.printed:
            return self.printed[node]
        spec = getattr(node, "spec", None)
        found = (self.home.get(where) for where in (node.label.replace("'s ", "/"), spec and spec.key, node.crate))
        return next(filter(None, found), None)

    def mark(self, words, lines):
        return "\n".join([f"<!-- trust: {words} -->", *lines, "<!-- trust: end -->"])

    def written(self, match):
        kind, *words = match.group(1).split()
        kinds = {
            "define": self.defined,
            "examples": self.examples,
            "files": self.files,
            "laws": self.laws,
            "promise": self.promises,
            "contract": self.contracts,
        }
        if kind in ("pages", "links", "time"):
            return match.group(0)
        if kind not in kinds:
            raise SystemExit(f"{self.path.name}: what is a mark '{match.group(1)}'?")
        return self.mark(match.group(1), kinds[kind](words))

    # What the marks say.

    def defined(self, words):
        """These definitions and types with all that they use and the page has not had, in as few lines as can be, and
        without words that change no meaning; what lies elsewhere, behind `without`, is left out."""
        at = words.index("without") if "without" in words else len(words)
        left_out = [node for node in self.trust.reached if lies_in(words[at + 1 :], node)]
        lines = []
        for node in self.nodes.in_order([self.trust.find(item) for item in words[:at]], [*self.done, *left_out]):
            self.printed[node] = self.path
            self.done.add(node)
            if node in self.nodes.types:
                lines += self.short_type(node)
                continue
            comment = " ".join(line.lstrip("- ") for line in self.comment_of(node))
            comment = self.comments.get(node.label, comment)
            text = "\n".join(self.text_of(node)[len(self.comment_of(node)) :])
            lines += laid_out(re.sub(r"(?m)^( *)(?:(?:abbrev|unfoldable|pub) )+", r"\1", text), comment)
        return ["```text", *lines, "```"]

    def short_type(self, node):
        """A type in one line, where its fields fit it, with a comment of one sentence; one that contracts see as
        something else as that."""
        name = self.nodes.types[node]
        comment, _, rest = type_of(self.trust.crates[node.crate], name).partition("pub ")
        sentence = re.split(r"[.:](?: |$)", re.sub(r"/// ?", "", comment).replace("\n", " ").strip())[0]
        sentence = self.comments.get(node.label.replace("'s ", "/"), sentence)
        if value := re.search(r"ghost Value = \{ (.*) \};", rest):
            generics = re.match(r"struct \w+(<[\w, ]+>)?", rest).group(1) or ""
            return commented(f"type {name}{generics} = {value.group(1)}", sentence)
        fields = re.findall(r"(?m)^ +(?:pub )?((?:ghost )?\w+: .*?),(?: //.*)?$", rest)
        short = f"struct {name} {{ {', '.join(fields)} }}"
        first, *lines = [short] if len(short) <= WIDTH else rest.split("\n")
        return [*commented(first, sentence), *lines]

    def text_of(self, node):
        return [*self.comment_of(node), *joined(node.signature() if node.law() else node.text.rstrip("\n")).split("\n")]

    @staticmethod
    def comment_of(node):
        return [line for line in node.written if line.startswith("--") and not line.startswith("-- ----")]

    def examples(self, names):
        """Laws of the crate of examples: what each says, and its clauses, on BELIEVE where they are few; on another
        page its name too."""
        lines = []
        for name in names:
            found = law_of(self.trust.crates[EXAMPLES], name)
            if found is None:
                raise SystemExit(f"{self.path.name}: there is no law {name} in {EXAMPLES}")
            self.cited.add(name)
            shown = found[1] if self.path != HEAD or len(found[1]) <= MOST_FORMULAS else []
            clauses = ", ".join(f"`{clause}`".replace(" ", "\0") for clause in shown)
            words = re.sub(r"(\([\w./]+,) (?=[\w./]+\))", "\\1\0", found[0])  # of a point: in one line
            lines += wrapped(f"{words} {clauses}".rstrip() + f" ({name})" * (self.path != HEAD), "- ", "  ")
        return [line.replace("\0", " ") for line in lines]

    def laws(self, modules):
        """All laws of the examples, module by module."""
        lines = []
        for name in modules:
            source = self.trust.crates[EXAMPLES].modules[(name,)].source
            head = re.match(r"//! (.*)", source).group(1)
            lines += ["", f"### {head.rstrip('.')}", "", *self.examples(re.findall(r"(?m)^pub fn (\w+)", source))]
        return [*lines, ""]

    def promises(self, items):
        texts = []
        for item in items:
            crate, _, name = item.partition("/")
            text = promise_of(self.trust.crates[crate], name) if crate in self.trust.crates else None
            if text is None:
                raise SystemExit(f"{self.path.name}: there is no public {item}")
            texts.append(text)
        return ["```rust", "\n\n".join(texts), "```"]

    def contracts(self, items):
        """Public functions as `promise` shows them, without their comments."""
        return [line for text in self.promises(items) for line in text.split("\n") if not line.startswith("///")]

    def files(self, wheres):
        """All that is reached and lies there, file by file, and where the names of other pages stand."""
        for where in wheres:
            if not any(lies_in([where], node) for node in self.trust.reached):
                raise SystemExit(f"{self.path.name}: no promise rests on {where}")
        mine = [
            node
            for node in self.in_sources()
            if self.page_of(node) == self.path and lies_in(wheres, node) and node not in self.done
        ]
        types, lines = [], []
        for unit, members in self.nodes.files_in_order(mine):
            self.done |= set(members)
            self.printed |= {node: self.path for node in members}
            if unit in self.nodes.types:
                types.append(unit)
                continue
            lines += self.file_of(unit, members, types)
            types = []
        if types:
            lines += ["", "### What else is named", "", *self.types(types)]
        return ["", *self.elsewhere(mine), *lines[1:], ""]

    def in_sources(self):
        """What has a place on the pages, crate by crate as in crates.txt, in the order of the files."""
        for crate in self.trust.crates.values():
            definitions = (node for spec in crate.specs.values() for node in spec.definitions.values())
            yield from (
                node
                for node in (*definitions, *(node for node in crate.nodes.values() if node in self.trust.reached))
                if self.nodes.is_shown(node)
            )

    def types(self, nodes):
        texts = [type_of(self.trust.crates[node.crate], self.nodes.types[node]) for node in nodes]
        return ["```rust", "\n\n".join(filter(None, texts)), "```"] if any(texts) else []

    def elsewhere(self, nodes):
        """The names of other pages, by page."""
        pages = {}
        for other in dict.fromkeys(other for node in nodes for other in self.nodes.uses(node)):
            if (path := self.page_of(other)) not in (None, self.path):
                pages.setdefault(path, set()).add(name_of(other))
        lines = []
        for path in (path for path in self.old if path in pages):
            link = Path(os.path.relpath(path, self.path.parent))
            names = ", ".join(f"`{name}`" for name in sorted(pages[path]))
            lines += wrapped(f"from [{begins(self.old[path])[0]}]({link}): {names}", "- ", "  ")
        return ["Names of other pages:", "", *lines, ""] if lines else []

    def file_of(self, spec, nodes, types):
        lines, head = [], ""
        for node in nodes:
            if node.head != head:
                head = node.head
                lines += [*[""][: len(lines)], head.rstrip("\n")] if head else []
            lines += [*[""][: len(lines)], *self.text_of(node)]
        laws = [
            text for node in nodes if node.law() and (text := promise_of(self.trust.crates[spec.crate], node.law()))
        ]
        tied = ["```rust", "\n\n".join(laws), "```"] if laws else []
        place = spec.path.relative_to(TOP / "crates")
        heading = ["", f"### {spec.sentence()}", "", f"`{place}`", ""]
        return [*heading, *self.named_otherwise(spec, nodes), *self.types(types), "```text", *lines, "```", *tied]

    def named_otherwise(self, spec, nodes):
        """What names of a file are elsewhere, where it gives them another name, or takes one of std or the kit that
        is also one of these crates."""
        text, told = re.sub(r"--[^\n]*", "", "".join(node.head + node.text for node in nodes)), []
        for name, (module, old) in spec.scope.names.items():
            crate, *path = [part for part in module.split(".")[1:] if part not in ("specs", "TheVariants")]
            is_told = name != old if crate.startswith("lpis_") else name in self.own
            if is_told and re.search(rf"(?<![\w.-]){re.escape(name)}(?![\w-])", text):
                home = "/".join([crate, *(path[-1:] if path[0] == "declared" else path)])
                told.append(f"`{name}` is {f'`{old}`' if name != old else 'that'} of `{home}`")
        return [*wrapped(f"Here {', '.join(told)}."), ""] if told else []

    def list_of_pages(self, match):
        """A row for each page but the first, with its promise; or links to them alone; or how long the page takes."""
        kind, others = match.group(1), [path for path in self.new if path not in (HEAD, INDEX)]
        if kind == "links":
            links = [f"[{begins(self.new[path])[0]}]({MORE.name}/{path.name})".replace(" ", "\0") for path in others]
            return self.mark(kind, ["", *(line.replace("\0", " ") for line in wrapped(", ".join(links) + ".")), ""])
        if kind == "pages":
            rows = [
                f"| [{title}]({path.name}) | {promise} |"
                for path in others
                for title, promise in [begins(self.new[path])]
            ]
            return self.mark(kind, ["", "| Page | What it promises |", "|---|---|", *rows, ""])
        if kind == "time":
            short, long, examples = self.minutes
            said = f"It takes {short} minutes, with all formulas {long}: {WORDS} words a minute, {SIGNS} of formulas"
            return self.mark(kind, wrapped(f"{said}, {EXAMPLE} seconds for each of {examples} examples."))
        return match.group(0)
