"""Holds tools/words.txt, which has the words of a command line that are files, against the built program.

Each command of `lpis --help` has a line there, and each line is a command's. Each has as many words as the program
wants. Of the files that a command reads by that table each is missing in turn, while all others are there: the program
has to fail for that name, and ./lpis to say its path. With all of them there it fails for none. What a command writes
is handed a folder that is not there.
"""

import pathlib
import re
import shutil
import subprocess

import pytest
from lpis_helpers.calls import lpis, run
from lpis_helpers.places import TOP as HOUSE

TOP = pathlib.Path(HOUSE)
EXAMPLE = TOP / "examples" / "square"
NO_ROWS = "; where no identifier was dropped, as in a first year, it is the line old,new alone"
OTHER_WORDS = {"register": "register.db", "year": "2024", "id": "A"}
ROWS = [
    line.split()
    for line in (TOP / "tools" / "words.txt").read_text(encoding="utf-8").splitlines()
    if line and not line.startswith("#")
]
COMMANDS = {head: rest for head, *rest in ROWS if not head.endswith("/")}
FOLDERS = {head: rest for head, *rest in ROWS if head.endswith("/")}


def words_of(command):
    """The names of the words that the program wants of a command, or takes, in brackets as [OPTIONS] are, which are
    none of them."""
    usage = re.search(r"(?m)^Usage: .*$", lpis(command, "--help")[1])
    return re.findall(r"[<[]([a-z-]+)[]>]", usage[0]) if usage else []


def make_land(folder):
    """What any folder of the table may have: a release, and a country of one region."""
    for name in ("parcels.csv", "covers.csv", "classes.csv"):
        shutil.copy(EXAMPLE / name, folder)
    (folder / "country.txt").write_text("lpis-country 1\nregion west\n", encoding="ascii")
    shutil.copytree(EXAMPLE, folder / "west")
    for place in (folder, folder / "west"):
        (place / "lineage.csv").write_text("old,new\n", encoding="ascii")


def make_file(path):
    """A file that is read by this name: where its text is not what the command wants, that is no failure."""
    shutil.copy(
        {"area": TOP / "examples" / "square.csv", "cert": EXAMPLE / "cert.txt"}.get(path.stem, EXAMPLE / "parcels.csv"),
        path,
    )
    return path


class Case:
    """A command in a folder of its own: its words, and what it reads and writes by the table, as (name, region,
    path)."""

    def __init__(self, top, command):
        self.top, self.words, self.reads, self.writes, self.loose = top, [command], [], [], []
        names = words_of(command)
        for number, kind in enumerate(word.strip("[]") for word in COMMANDS[command]):
            path = top / f"{number}"
            path.mkdir()
            if kind.startswith("--"):
                option, _, kind = kind.partition("=")
                self.words.append(option)
                if not kind:
                    continue
            name = names[number] if number < len(names) else ""
            if kind in ("register", "-", "-.."):
                self.words.append(OTHER_WORDS.get(name, name))
            elif kind.startswith(">"):
                self.writes.append((kind[1:], path / "none" / "out.txt"))
                self.words.append(path / "none" / "out.txt")
            elif kind.endswith("/"):
                make_land(path)
                self.reads += [self.of_folder(path, file) for file in FOLDERS.get(kind, []) if not file.startswith("[")]
                self.loose += [
                    self.of_folder(path, file.strip("[]")) for file in FOLDERS.get(kind, []) if file.startswith("[")
                ]
                self.words.append(path)
            else:
                self.reads.append((kind, "", make_file(path / f"{kind}.txt")))
                self.words.append(path / f"{kind}.txt")

    @staticmethod
    def of_folder(folder, file):
        region, path = ("west", folder / "west" / file[2:]) if file.startswith("*/") else ("", folder / file)
        return path.stem, region, path

    def told(self):
        """The last two lines on standard error."""
        (self.top / "register.db").unlink(missing_ok=True)
        return run(TOP / "lpis", *self.words, cwd=self.top, stdin=subprocess.DEVNULL).stderr.splitlines()[-2:]


def test_commands():
    told = re.search(r"(?ms)^Commands:\n(.*?)^$", lpis("--help")[1] + "\n")
    assert sorted(set(re.findall(r"(?m)^  ([\w-]+)", told[1])) - {"help"}) == sorted(COMMANDS)


@pytest.mark.parametrize("command", COMMANDS)
def test_words(command):
    assert len(words_of(command)) == sum(not kind.startswith("--") for kind in COMMANDS[command])
    assert [kind for kind in COMMANDS[command] if kind.endswith("/") and kind not in FOLDERS] == []


@pytest.mark.parametrize("command", COMMANDS)
def test_files(command, tmp_path):
    case = Case(tmp_path, command)
    for name, region, path in case.reads:
        away = path.rename(path.with_suffix(".away"))
        ours = f"{name} of region {region}" if region else name
        assert case.told() == [
            f"failed read {name}{' region ' if region else ''}{region}",
            f"lpis: {ours} is {path}: it is missing{NO_ROWS * (name == 'lineage')}",
        ]
        away.rename(path)
    for *_, path in case.loose:
        path.unlink()
    told = case.told()
    assert [line for line in told if line.startswith("failed read")] == []
    for name, path in case.writes:
        assert told == [
            f"failed write {name}",
            f"lpis: {name} is {path}: it is missing, and so is the folder {path.parent}",
        ]


@pytest.mark.parametrize("command, name", [("check", ""), ("locate", "points"), ("publish", "")])
def test_left_out(command, name, tmp_path):
    """Where the certificate is not named it is no file that fails, and the words behind it are told by their paths."""
    case = Case(tmp_path, command)
    _, _, cert = next(read for read in case.reads if read[0] == "cert")
    case.words.remove(cert)
    assert [line for line in case.told() if line.startswith("failed read")] == []
    for read, _, path in case.reads:
        if read == name:
            path.unlink()
            assert case.told() == [f"failed read {name}", f"lpis: {name} is {path}: it is missing"]
