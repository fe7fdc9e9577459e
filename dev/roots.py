"""The promises that the program makes to its users: imported by definitions.py.

They are the contracts of what the program's crates call or implement of other crates, of the functions that the page in
a browser calls, and of those that the promises of docs/PROOF.md name behind `Functions:`."""

import re
from pathlib import Path

PROOF = Path(__file__).resolve().parent.parent / "docs" / "PROOF.md"
PROGRAMS = ("lpis", "lpis_page")
EXAMPLES = "lpis_examples"


def told_functions():
    """The functions that the promises name: `check`, or `Register::commit`."""
    page = PROOF.read_text(encoding="utf-8")
    promises = page[page.index("\n# The promises\n") : page.index("\n# The ground\n")]
    told = re.findall(r"(?ms)^Functions: (.*?) Definitions:", promises)
    return {name for names in told for name in re.findall(r"`([\w:]+)`", names)}


def methods_in(crate):
    """The names that a crate's sources call of a value or a type."""
    sources = (re.sub(r"//[^\n]*", "", module.source) for module in crate.modules.values())
    return {name for source in sources for name in re.findall(r"(?:\.|::)(\w+)\(", source)}


def of(crates):
    """The nodes of these contracts, of all crates by their names. An impl is more than what is called of it, so its
    methods stand for it. A type without a clause says nothing by itself: it stands on the page where a contract
    names it."""
    called = {name for crate in PROGRAMS for name in crates[crate].imported()}
    methods = {name for crate in PROGRAMS for name in methods_in(crates[crate])}
    told = told_functions()
    for crate in crates.values():
        for (kind, name, _), node in crate.nodes.items():
            of_type, _, method = name.partition("::")
            is_called = (
                (crate.name, of_type) in called and (not method or method in methods) and (kind != "type" or node.parts)
            )
            is_own = crate.name in PROGRAMS and kind == "fn"
            if (
                kind != "impl"
                and (node.is_promise or method)
                and (is_called or is_own or (kind != "type" and name in told))
            ):
                yield node
