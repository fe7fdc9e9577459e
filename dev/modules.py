"""The text of sources, as definitions.py looks at it: the items of a file of src/, with their clauses, and what a
file of any kind imports."""

import re

NAME = r"[^\W\d][\w']*(?:-[^\W\d][\w']*)*"
MODULE = r"Rattle(?:\.[\w\-]+)+"
IMPORT = re.compile(rf"\buse\s+({MODULE})(?:\.\{{([^}}]*)\}}|\s+as\s+({NAME}))?")


class Scope:
    """The imports of a file or a block: names, and names of modules."""

    def __init__(self, text):
        self.names, self.modules = {}, {}
        for module, names, alias in IMPORT.findall(text):
            if names:
                for name in filter(None, (part.strip() for part in names.split(","))):
                    old, _, new = name.partition(" as ")
                    self.names[(new or old).strip()] = (module, old.strip())
            else:
                self.modules[alias or module.rpartition(".")[2]] = module


def closing(text, at):
    """The place of the brace that closes the one at a place."""
    depth = 0
    for place in range(at, len(text)):
        depth += {"{": 1, "}": -1}.get(text[place], 0)
        if depth == 0:
            return place
    raise SystemExit("a brace is not closed")


def without_generics(text):
    text = text.replace("->", "")
    while (shorter := re.sub(r"<[^<>]*>", "", text)) != text:
        text = shorter
    return text


def without_comments(text):
    text = re.sub(r"""(?s)//[^\n]*|"(?:\\.|[^"\\])*"|'(?:\\.|[^\\'\n])'""", " ", text)
    return re.sub(r"#!?\[[^\]]*\]", " ", text)


def items(text):
    """The items of a block: each its head, its clauses, and its body."""
    at = 0
    while at < len(text):
        start, depth, clauses, head = at, 0, [], ""
        while at < len(text):
            sign = text[at]
            depth += {"(": 1, "[": 1, ")": -1, "]": -1}.get(sign, 0)
            if sign == ";" and depth == 0:
                yield (head + text[start:at]).strip(), clauses, ""
                at += 1
                break
            if sign == "{" and depth > 0:  # of an array's item
                at = closing(text, at) + 1
                continue
            if sign == "{":
                end = closing(text, at)
                head += text[start:at]
                body = text[at + 1 : end]
                at = start = end + 1
                if re.search(r"\buse\s[^;]*$", head):
                    head += "{" + body + "}"
                elif re.search(r"\b(requires|ensures)(\s+\w+)?\s*$|\bghost\s+\w+\s*[=:]\s*$", head):
                    clauses.append(body)
                    head += "{}"
                else:
                    yield head.strip(), clauses, body
                    break
                continue
            at += 1


class Module:
    """A file of src/: its items, its imports, and the modules and names that it passes on."""

    def __init__(self, path, name):
        self.name, self.source = name, path.read_text(encoding="utf-8")
        text = without_comments(self.source)
        self.items = list(items(text))
        self.scope = Scope("\n".join(head for head, _, _ in self.items if head.startswith("ghost use")))
        self.modules, self.uses = {}, []
        for head, _, _ in self.items:
            if found := re.match(r"(pub(?:\([^)]*\))?\s+)?mod\s+(\w+)$", head):
                self.modules[found.group(2)] = (found.group(1) or "").strip() == "pub"
            if found := re.match(r"(pub\s+)?use\s+((?:\w+::)*)(\w+|\*|\{[^}]*\})$", head):
                names = re.findall(r"\w+|\*", found.group(3))
                self.uses.append((bool(found.group(1)), tuple(found.group(2).split("::")[:-1]), names))
