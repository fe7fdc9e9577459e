"""Types, contracts and definitions as they stand in the sources, laid out for a page: imported by `dev/trust` and
believing.py."""

import re

from modules import closing

WIDTH = 120
CODE_WIDTH = 100
TYPE = r"(?m)^(?:[ \t]*(?:///|#\[)[^\n]*\n)*pub(?:\(\w+\))? (?:struct|enum|trait) {name}\b"
FUNCTION = r"(?m)^(?:[ \t]*(?:///|#\[)[^\n]*\n)*[ \t]*pub fn {name}\b"
CLAUSE = re.compile(r"\b(?:requires|ensures)(?:\s+\w+)?\s*$|\bghost\s+\w+\s*[=:]\s*$")


def without_attributes(text):
    return re.sub(r"(?m)^[ \t]*#\[[^\n]*\n", "", text)


def shown(text):
    """A text without the blanks before all of its lines."""
    lines = text.strip("\n").split("\n")
    least = min((len(line) - len(line.lstrip()) for line in lines if line.strip()), default=0)
    return "\n".join(line[least:] for line in lines)


def in_one_line(found):
    """A variant with its fields in one line, where that fits."""
    line = f"{found.group(1)} {{ {' '.join(found.group(2).split()).rstrip(',')} }},"
    return line if len(line) <= CODE_WIDTH else found.group(0)


def in_few_lines(body):
    """The fields of a struct, or the variants of an enum: each in one line, with a comment of one line behind it,
    where that fits."""
    lines = [""]
    short = re.sub(r"(?m)^([ \t]+\w+) \{\n((?:[ \t]+\w+: [^\n/]*,\n)+)[ \t]+\},$", in_one_line, body)
    for line in short.split("\n"):
        comment = lines[-1].strip()
        whole = f"{line} {comment.replace('///', '//', 1)}"
        is_alone = comment.startswith("/// ") and not lines[-2].strip().startswith("///")
        if is_alone and line.endswith(",") and len(whole) <= WIDTH:
            lines[-1] = whole
        else:
            lines.append(line)
    return "\n".join(lines[1:])


def in_page_width(found):
    """A line that goes on in the next one, and that line behind it, where both fit the page."""
    line = f"{found.group(1)} {found.group(2)}"
    return line if len(line) <= WIDTH else found.group(0)


def joined(text):
    """A definition whose signature, or whose right side of one line, is not broken where the page has room for it."""
    lines = []
    for line in text.split("\n"):
        goes_on = (
            lines and re.match(r" +(?:→ |: Type 0|where$|Type 0)", line) and not lines[-1].lstrip().startswith("--")
        )
        if goes_on and len(whole := f"{lines[-1]} {line.strip()}") <= WIDTH:
            lines[-1] = whole
        else:
            lines.append(line)
    return re.sub(r"(?m)^([^\n]* =)\n +([^\n]+)(?=\n\S|\n\n|\n?\Z)", in_page_width, "\n".join(lines))


def function_of(crate, name):
    """The public function of a name: its file's text, and where it begins and where its body does; None where there
    is none."""
    for module in crate.modules.values():
        if found := re.search(FUNCTION.format(name=name), module.source):
            at = found.start()
            while (at := module.source.index("{", at)) >= 0:
                if not CLAUSE.search(module.source[found.start() : at]):
                    return module.source, found.start(), at
                at = closing(module.source, at) + 1
    return None


def promise_of(crate, name):
    """A public function up to its body: comment, signature and clauses."""
    found = function_of(crate, name)
    return found and shown(without_attributes(found[0][found[1] : found[2]].rstrip()))


def law_of(crate, name):
    """The comment of a law in one line, and its clauses, each in one line; None where there is no such law."""
    text = promise_of(crate, name)
    if text is None:
        return None
    words = " ".join(
        line.strip().removeprefix("///").strip() for line in text.split("\n") if line.strip().startswith("///")
    )
    clauses = []
    for found in re.finditer(r"\bensures(?:\s+\w+)?\s*\{", text):
        clauses.append(" ".join(text[found.end() : closing(text, found.end() - 1)].split()))
    return words, clauses


def public_fields(body):
    """The fields that callers see, each with its comment."""
    field = r"(?:[ \t]*///[^\n]*\n)*[ \t]*(?:pub(?:\(crate\))? )?(?:ghost )?\w+: (?:\{[^}]*\}|[^,{}]*(?:<[^>]*>)?),\n"
    return "".join(part for part in re.findall(field, body) if re.search(r"(?m)^\s*pub\b", part))


def type_of(crate, name):
    """A type as callers see it: a struct's public fields, an enum's variants, a trait whole, and what contracts see
    of it."""
    for module in crate.modules.values():
        found = re.search(TYPE.format(name=name), module.source)
        if not found:
            continue
        end = re.compile(r"[{;]").search(module.source, found.end())
        head = without_attributes(module.source[found.start() : end.start()]).rstrip()
        text, fields = head + ";", ""
        if end.group() == "{":
            body = module.source[end.end() : closing(module.source, end.start())]
            is_struct = "pub struct" in head
            fields = in_few_lines(public_fields(body) if is_struct else without_attributes(body).strip("\n") + "\n")
            text = f"{head} {{\n{fields}}}" if fields else f"{head} {{ .. }}"
        return shown(text) + model_of(crate, name, bool(fields))
    return ""


def model_of(crate, name, has_fields):
    """What contracts see in place of a type: its `Value`, and, where its fields are public, how they make it up."""
    for module in crate.modules.values():
        if found := re.search(rf"impl(?:<[^>]*>)? Model for {name}\b[^{{]*\{{", module.source):
            body = module.source[found.end() : closing(module.source, found.end() - 1)]
            wanted = "Value|view|invariant" if has_fields else "Value"
            parts = re.finditer(rf"ghost (?:{wanted}) = \{{", body)
            lines = [body[part.start() : closing(body, part.end() - 1) + 2] for part in parts]
            seen = f"\n// contracts see {'an' if name[0] in 'AEIOU' else 'a'} `{name}` as\n"
            return seen + "\n".join(shown(line) for line in lines)
    return ""
