"""What is made of the program's table of commands, for dev/crates: tools/words.txt, and the synopsis of docs/lpis.1.

The table is in crates/lpis_command_line/src: `commands.rt`, and `arguments.rt`, where the comment on each argument
begins with what it is in the words of tools/words.txt (WORDS below); of a folder its files follow.
"""

import re
from itertools import groupby
from pathlib import Path

TOP = Path(__file__).resolve().parent.parent
SOURCES = TOP / "crates" / "lpis_command_line" / "src"
WORDS = """\
# Which words of a command line are files: a line for each command, with its words in order. dev/crates --write makes it; tests/program/test_files.py holds it against the program.
#
#     NAME       a file that is read, by the name that a failure has for it; >NAME is one that is written; [NAME] is one that is read where it is named
#     FOLDER/    a folder, whose files stand in a line of their own, in the order in which they are opened; * is each region, [..] what is read where it is there
#     register   a register
#     -          no file; -.. is one word or more that are none, at the end
#     --OPTION   behind the words in order: an option; --OPTION=NAME is one whose value is a file that is read
"""  # noqa: E501
ARGUMENT = re.compile(
    r'((?:/// .*\n)+)pub\(crate\) const (\w+): Argument = Argument \{\s*id: "([\w-]+)",\s*takes: Takes::(\w+),'
)
LINE = re.compile(r'Line \{\s*name: "([\w-]+)",\s*about: "[^"]*",\s*arguments: &\[([\w, ]*)\],')
SYNOPSIS = re.compile(r"(?s)(?<=^\.Sh SYNOPSIS\n).*?(?=^\.Nm\n\.Fl Fl help$)", re.M)


def table():
    """The arguments by their names, as (id, takes, kind, files), and the commands, as (name, arguments)."""
    arguments = {}
    for comment, name, word, takes in ARGUMENT.findall((SOURCES / "arguments.rt").read_text(encoding="utf-8")):
        kind, files = re.fullmatch(r"`([^`]+)`: (.*)", " ".join(comment.replace("/// ", "").split())).groups()
        arguments[name] = word, takes, kind, files
    lines = LINE.findall((SOURCES / "commands.rt").read_text(encoding="utf-8"))
    return arguments, [(name, [arguments[each] for each in re.findall(r"\w+", names)]) for name, names in lines]


def words_text():
    arguments, commands = table()
    rows = [f"{name:16} {' '.join(kind for _, _, kind, _ in words)}" for name, words in commands]
    folders = [f"{kind:16} {files}" for _, _, kind, files in arguments.values() if kind.endswith("/")]
    return "\n".join([WORDS + rows[0], *rows[1:], "", *folders, ""])


def shown(argument):
    """An argument as the manual's synopsis has it."""
    word, takes, kind, _ = argument
    if kind.startswith("["):
        return f".Op Ar {kind.strip('[]').upper()}"
    plain = {"Word": word.upper(), "Year": word.upper(), "Words": f"{word.upper()} ..", "WordIfAny": word.upper()}
    return plain.get(takes) or f".Op Fl Fl {word}" + (" Ar FILE" if "=" in kind else "")


def synopsis():
    lines = []
    for name, words in table()[1]:
        lines += [".Nm", f".Cm {name}"]
        for is_macro, rows in groupby(map(shown, words), lambda row: row.startswith(".Op")):
            lines += rows if is_macro else [".Ar " + " ".join(rows)]
    return "".join(f"{line}\n" for line in lines)


def made():
    """What is made, by its path: the text that stands there, and the one that should."""
    page = TOP / "docs" / "lpis.1"
    words, old = TOP / "tools" / "words.txt", page.read_text(encoding="utf-8")
    return {
        words: (words.read_text(encoding="utf-8"), words_text()),
        page: (old, SYNOPSIS.sub(lambda _: synopsis(), old, count=1)),
    }
