"""The definitions of specs/, and what the contracts of public functions and types lead to: imported by `dev/trust`.

What the promises of the program (roots.py) lead to is to be believed. What only other promises lead to is between
crates: it is proved, and in no page."""

import re

import roots
from facts import TOP, crates
from modules import NAME, Module, Scope, closing, items, without_generics

WORD = re.compile(rf"(\.)?({NAME})(?:\.({NAME}))?(\s*=(?![=>]))?")


class Node:
    """Something with names in it: a definition, the clauses of a function, or what a contract sees of a type."""

    def __init__(self, crate, label):
        self.crate, self.label, self.parts, self.is_promise = crate, label, [], False

    def add(self, text, scopes):
        self.parts.append((text, scopes))


class Definition(Node):
    """A definition of a file of specs/."""

    def __init__(self, spec, name):
        super().__init__(spec.crate, f"{spec.key}.{name}")
        self.spec, self.name, self.comment, self.text, self.head = spec, name, "", "", ""
        self.written = []  # its lines as they stand, its comment among them

    def law(self):
        found = re.search(r"tied by the law `(\w+)`", self.comment)
        return found and found.group(1)

    def signature(self):
        return re.split(rf"\n(?={re.escape(self.name)}\s)", self.text)[0]


class Spec:
    """A file of specs/: its definitions, and which of them has a name."""

    def __init__(self, crate, path, folder):
        self.crate, self.path = crate, path
        self.module = ".".join(path.relative_to(folder).with_suffix("").parts)
        self.key = f"{crate}/{self.module.replace('.', '/')}"
        self.is_private = self.module.split(".")[0] == "private"
        self.definitions, self.owner = {}, {}
        text = path.read_text(encoding="utf-8")
        self.scope = Scope(text)
        lines = text.split("\n")
        head = 0
        while head < len(lines) and lines[head].startswith("--"):
            head += 1
        self.head = " ".join(line[2:].strip() for line in lines[:head])
        self.read(lines[head:])

    def foreign(self):
        """The names that it has of std and of the kit's crates."""
        known = (name for name, (module, _) in self.scope.names.items() if not module.split(".")[1].startswith("lpis"))
        return {name for name in known if name[0] != "◌" or name.strip("◌")}

    def sentence(self):
        return re.split(r"\.(?:\s|$)", self.head, maxsplit=1)[0]

    def read(self, lines):
        """A definition within a module of parameters has the module's head."""
        comment, current, head, is_open, edge = [], None, "", False, ""
        for line in lines:
            if line.startswith("module ") or is_open:
                head, is_open, edge = (head if is_open else "") + line + "\n", not line.rstrip().endswith("where"), ""
                continue
            if line.strip() and not line.startswith((" ", "--")):
                head = ""
            edge = edge or re.match(" *", line)[0]
            line = line.removeprefix(edge) if head else line
            if line.startswith("--"):
                comment.append(line)
            elif line.strip() and not re.match(r"(pub )?(use|mod|infix[lr]?)\b", line):
                if not re.match(r"[\s()}]", line):
                    current = self.define(line)
                    current.head = head or current.head
                current.comment += " ".join(line[2:].strip() for line in comment)
                current.text += line + "\n"
                current.written += [*comment, line]
                comment = []
                variant = re.match(rf"\s+({NAME})\s*:", line)
                if variant and current.text.startswith("pub data"):
                    self.owner[variant.group(1)] = current

    def define(self, line):
        name = re.match(rf"(?:(?:abbrev|unfoldable|pub|data|record)\s+)*({NAME}|◌\S+◌)", line).group(1)
        if name not in self.definitions:
            self.definitions[name] = self.owner[name] = Definition(self, name)
        return self.definitions[name]


class Crate:
    """The sources of a crate: nodes of its functions and types, and which are public."""

    def __init__(self, name):
        self.name, self.nodes, self.modules, self.fields = name, {}, {}, set()
        folder = TOP / "crates" / name
        files = sorted((folder / "specs").rglob("*.antt"))
        specs = [Spec(name, path, folder / "specs") for path in files if path.name != "Lib.antt"]
        self.specs = {spec.module: spec for spec in specs if spec.definitions}
        root = next(path for path in (folder / "src/lib.rt", folder / "src/main.rt") if path.exists())
        self.load(root, folder / "src", ())
        self.public = self.published()
        for module in self.modules.values():
            for item in module.items:
                self.declare(module, *item)
        for module in self.modules.values():
            for item in module.items:
                self.implement(module, *item)

    def load(self, path, folder, name):
        module = self.modules[name] = Module(path, name)
        for child in module.modules:
            if child != "tests":
                self.load(folder / f"{child}.rt", folder / child, (*name, child))

    def published(self):
        """The public names: those of public modules, and those that they pass on."""
        public, names = [()], set()
        for name in public:
            module = self.modules[name]
            public += [(*name, child) for child, is_public in module.modules.items() if is_public]
            names |= {(name, item) for item in self.pub_items(module)}
            for is_public, path, given in module.uses:
                source = path[1:] if path[:1] == ("crate",) else (*name, *path)
                if is_public and source in self.modules:
                    names |= {
                        (source, item) for item in (self.pub_items(self.modules[source]) if given == ["*"] else given)
                    }
        return names

    @staticmethod
    def pub_items(module):
        found = (
            re.match(r"pub\s+(?:const\s+|extern\s+)?(?:fn|struct|enum|trait|type)\s+(\w+)", head)
            for head, _, _ in module.items
        )
        return [match.group(1) for match in found if match]

    def imported(self):
        """What its sources import of other crates: crate and name."""
        found = (
            (path[0], name)
            for module in self.modules.values()
            for _, path, names in module.uses
            if path
            for name in names
        )
        return {(crate, name) for crate, name in found if crate.startswith("lpis_")}

    def node(self, kind, name, place=None):
        return self.nodes.setdefault((kind, name, place), Node(self.name, f"{self.name}'s {name}"))

    def type_of(self, name):
        return self.nodes.get(("type", name, None))

    def law(self, name):
        found = (
            node for (kind, label, _), node in self.nodes.items() if (kind, label) == ("fn", name) and node.is_promise
        )
        return next(found, None)

    def declare(self, module, head, clauses, body):
        """Functions, types and traits."""
        found = re.match(r"(?:pub(?:\([^)]*\))?\s+)?(?:const\s+|extern\s+)?(fn|struct|enum|trait)\s+(\w+)", head)
        if not found:
            return
        kind, name = found.groups()
        node = self.node("fn", name, module.name) if kind == "fn" else self.node("type", name)
        node.is_promise |= (module.name, name) in self.public
        scopes = [module.scope]
        if kind == "fn":
            for clause in clauses:
                node.add(clause, scopes)
        elif kind == "trait":
            self.members(node, body, scopes, lambda _: True)
        else:
            if re.search(r"\bpub\s+(?!ghost)(\w+)\s*:", body):
                self.fields.add(name)
            for field in re.finditer(r"ghost\s+\w+\s*:\s*\{", body):
                node.add(body[field.end() : closing(body, field.end() - 1)], scopes)

    def members(self, node, body, scopes, wanted):
        inner = list(items(body))
        scopes = [Scope("\n".join(head for head, _, _ in inner if head.startswith("ghost use"))), *scopes]
        for head, clauses, _ in inner:
            for clause in clauses if wanted(head) else []:
                node.add(clause, scopes)

    def implement(self, module, head, clauses, body):
        """Impls: the members of a trait's, and the public functions of a type's own."""
        if not re.match(r"impl\b", head):
            return
        trait, _, of = without_generics(head)[4:].rpartition(" for ")
        name = re.findall(r"\w+", of.split(" where ")[0])[-1]
        trait = (re.findall(r"\w+", trait) or [""])[-1]
        kind = self.type_of(name)
        if kind is None:
            return
        if trait == "Model":
            seen = ("ghost Value", "ghost view", "ghost invariant") if name in self.fields else ("ghost Value",)
            self.members(kind, body, [module.scope], lambda head: head.startswith(seen))
            return
        calls = self.node("impl", name)
        calls.is_promise = kind.is_promise
        hidden = self.type_of(trait) is not None and not self.type_of(trait).is_promise
        self.members(calls, body, [module.scope], lambda head: not hidden if trait else re.match(r"pub\s", head))
        for head, _, _ in [] if trait else items(body):
            if found := re.match(r"pub\s+(?:extern\s+)?fn\s+(\w+)", head):
                method = self.node("method", f"{name}::{found.group(1)}")
                self.members(method, body, [module.scope], lambda other, head=head: other == head)


class Trust:
    """All crates, and what each name leads to."""

    def __init__(self):
        self.crates = {name: Crate(name) for name in crates()}
        self.faults = []
        promises = [node for crate in self.crates.values() for node in crate.nodes.values() if node.is_promise]
        self.proved = self.follow(promises)
        examples = [node for node in promises if node.crate == roots.EXAMPLES]
        self.reached = self.follow([*roots.of(self.crates), *examples])

    def at(self, module, name):
        """What a name of a module is: a definition, a type, or nothing of these crates."""
        parts = module.split(".")
        crate = self.crates.get(parts[1]) if len(parts) > 2 else None
        if crate is None or parts[2] != "specs":
            return None
        if parts[3:4] == ["declared"]:
            return next((kind for part in (*parts[::-1], name) if (kind := crate.type_of(part))), None)
        spec = crate.specs.get(".".join(parts[3:]))
        if spec is None or name not in spec.owner:
            self.faults.append(f"{module} has no {name}")
            return None
        return spec.owner[name]

    def meaning(self, node, scopes, first, second):
        spec = getattr(node, "spec", None)
        if spec and first in spec.owner:
            return spec.owner[first]
        for scope in scopes:
            if first in scope.names:
                return self.at(*scope.names[first])
            if first in scope.modules and second:
                return self.at(scope.modules[first], second)
        return None if spec else self.crates[node.crate].type_of(first)

    def names_in(self, node):
        parts = node.parts
        if isinstance(node, Definition):
            law = node.law()
            parts = [(node.head + (node.signature() if law else node.text), [node.spec.scope])]
            if law:
                yield self.law(node, law)
        for text, scopes in parts:
            known = [name for scope in scopes for name in scope.names] + [
                *(node.spec.owner if isinstance(node, Definition) else ())
            ]
            for name in known:
                if name[0] == "◌" and f" {name.strip('◌')} " in text:
                    yield self.meaning(node, scopes, name, "")
            for dot, first, second, sets in WORD.findall(re.sub(r"(?m)--.*$|^\s+pub\s+\S+\s*:", " ", text)):
                if not dot and not (sets and not second) and "-" not in first + second:
                    yield self.meaning(node, scopes, first, second)

    def law(self, node, name):
        law = self.crates[node.crate].law(name)
        if law is None or node not in self.names_in(law):
            self.faults.append(f"{node.label} is tied by no public law {name} that names it")
        return law

    def follow(self, roots, without=()):
        """What these lead to, nearest first, each with what leads to it."""
        reached = {root: None for root in roots}
        todo = list(roots)
        for node in todo:
            for other in self.names_in(node):
                if other is not None and other not in reached and not lies_in(without, other):
                    reached[other] = node
                    todo.append(other)
        return reached

    def chain(self, node):
        """What leads to something: from a root, else from another promise."""
        labels, reached = [], self.reached if node in self.reached else self.proved
        while node is not None:
            labels.append(node.label)
            node = reached[node]
        return " <- ".join(labels)

    def specs(self):
        return [spec for crate in self.crates.values() for spec in crate.specs.values()]

    def find(self, item):
        """A definition, CRATE/FILE.NAME, or a type, CRATE/NAME."""
        crate, _, rest = item.partition("/")
        module, _, name = rest.rpartition(".")
        if not module and crate in self.crates and (kind := self.crates[crate].type_of(name)):
            return kind
        spec = self.crates[crate].specs.get(module.replace("/", ".")) if crate in self.crates else None
        if spec is None or name not in spec.definitions:
            raise SystemExit(f"dev/trust: there is no {item}")
        return spec.definitions[name]

    def check_specs(self):
        for spec in self.specs():
            if not spec.sentence():
                self.faults.append(f"{spec.key} does not begin with a sentence that says what it says")
            for node in spec.definitions.values():
                if spec.is_private and node in self.proved:
                    self.faults.append(f"{self.chain(node)}: a promise rests on a private definition")
                if not spec.is_private and node not in self.proved:
                    self.faults.append(f"{node.label}: no promise rests on it, so it is one for specs/private/")


def lies_in(wheres, node):
    spec = getattr(node, "spec", None)
    return bool({node.crate, node.label.replace("'s ", "/"), spec and spec.key} & set(wheres))
