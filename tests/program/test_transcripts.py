"""Runs the built program as its users do, and compares what it prints and answers with what is stored here.

A transcript (*.md beside this file) is a page with commands and what they print, indented by four spaces:

    $ lpis area missing.csv
    2> failed read area
    status 3

The line after `$` goes to bash. Then come the lines of standard output, of which none is empty, those of standard error
behind `2> `, and the status where it is not 0. Lines without indentation are remarks. The commands of one transcript
run one after the other in one folder of their own, where `examples` is the repository's. The lines of README.md are run
too, in one shell, by the script ./lpis and the tools, but for those that load, install or test: of them what goes to
standard output counts. Its land.gpkg is a sound one, and what shows a page counts the maps in it. A command that does
not end in ten minutes, which a loaded machine keeps, is stopped, and is one that failed.
"""

import contextlib
import os
import pathlib
import select
import signal
import subprocess

import pytest
from lpis_helpers import dirty
from lpis_helpers.places import BUILT, TOP as HOUSE
from lpis.system import shapely_there

HERE, TOP = pathlib.Path(__file__).resolve().parent, pathlib.Path(HOUSE)
SECONDS = 600  # of one command
NOT_RUN = ("git clone ", "./test ", "sudo ")  # of README.md
LAND, PAGE = "tools/check land.gpkg", "xdg-open "
MAPS = 'xdg-open() { grep -c "<canvas" "$1"; }'
pytestmark = pytest.mark.finds_program


def commands_of(page):
    """The commands of a page: for each its line number, and the lines that it is to give."""
    commands = []
    for number, line in enumerate(page.read_text(encoding="utf-8").splitlines(), 1):
        if line.startswith("    $ "):
            commands.append((number, line[6:], []))
        elif line.startswith("    "):
            commands[-1][2].append(line[4:])
    return commands


def commands_of_readme():
    """Those that compute or show something: what each gives stands below it, or behind it as a remark where it is
    installed."""
    page, heading, commands = TOP / "README.md", "", []
    lines = page.read_text(encoding="utf-8").splitlines()
    for number, command, wanted in commands_of(page):
        heading = next(line for line in reversed(lines[:number]) if line.startswith("#"))
        command, _, remark = (part.strip() for part in command.partition(" # "))
        if command.startswith(LAND):
            commands.append((number, f"{command} | tail -n 1", ["yes"]))
        elif command.startswith(PAGE):
            commands.append((number, command, ["1"]))
        elif not f"{command} ".startswith(NOT_RUN):
            commands.append((number, command, [remark] if heading == "## Install" else wanted))
    return commands


PAGES = {page.name: commands_of(page) for page in sorted(HERE.glob("*.md"))}
README = commands_of_readme()


def each(page, commands):
    lacking = pytest.mark.skipif(not shapely_there.python(), reason=shapely_there.LACKING)
    return [
        pytest.param(
            page,
            place,
            wanted,
            id=f"{page}:{number}: {command}",
            marks=[lacking] * command.startswith(("tools/check", PAGE)),
        )
        for place, (number, command, wanted) in enumerate(commands)
    ]


def lines_of(text, mark):
    """The lines of a text behind a mark. A line without an end is told apart."""
    lines = text.decode("utf-8", "backslashreplace").split("\n")
    end = lines.pop()
    return [mark + line if line else mark.rstrip() for line in lines] + ([mark + end + " (no line end)"] if end else [])


@contextlib.contextmanager
def shell(script, folder, **more):
    """A shell that runs a script. Where it has not ended when it is left, it is stopped, with what it runs."""
    with subprocess.Popen(
        ["bash", "-c", script],
        cwd=folder,
        stdin=subprocess.DEVNULL,
        stdout=subprocess.PIPE,
        start_new_session=True,
        **more,
    ) as running:
        try:
            yield running
        finally:
            if running.poll() is None:
                os.killpg(running.pid, signal.SIGKILL)


def given_by(command, folder):
    """The lines that a command gives, where `lpis` is the program."""
    path = f"{folder.parent / 'program'}{os.pathsep}{os.environ['PATH']}"
    with shell(command, folder, env=dict(os.environ, PATH=path, LC_ALL="C"), stderr=subprocess.PIPE) as run:
        try:
            out, errors = run.communicate(timeout=SECONDS)
        except subprocess.TimeoutExpired:
            return [f"(no end after {SECONDS} seconds)"]
    return lines_of(out, "") + lines_of(errors, "2> ") + [f"status {run.returncode}"] * bool(run.returncode)


def given_by_readme(folder):
    """What README.md's lines give, without blanks at their ends, in a folder that has script, tools and examples.
    One that does not end is the last."""
    for name in ("lpis", "tools", "examples"):
        (folder / name).symlink_to(TOP / name)
    dirty.make(folder / "land.gpkg", [])
    # Behind each command a line, to say that it has ended.
    script = "\n".join(
        [MAPS, *(f"exec 8>&1 >{number}.out\n{command}\nexec >&8 8>&-; echo" for number, command, _ in README)]
    )
    with shell(
        script, folder, env=dict(os.environ, TMPDIR=str(folder), LC_ALL="C"), stderr=subprocess.DEVNULL
    ) as running:
        for number, *_ in README:
            if not select.select([running.stdout], [], [], SECONDS)[0]:
                yield [f"(no end after {SECONDS} seconds; the lines below it were not run)"]
                return
            has_ended = os.read(running.stdout.fileno(), 1)
            lines = (folder / f"{number}.out").read_text(encoding="utf-8").splitlines()
            yield [line.rstrip() for line in lines] if has_ended else ["(the shell ended before)"]
        running.wait()


@pytest.fixture(scope="module")
def given(tmp_path_factory):
    """What each command of a page gives: they are run at the first look."""
    top, found = tmp_path_factory.mktemp("transcripts"), {}
    (top / "program").mkdir()
    (top / "program" / "lpis").symlink_to(BUILT)

    def given(page):
        if page not in found:
            folder = top / page.removesuffix(".md")
            folder.mkdir()
            if page == "README.md":
                found[page] = list(given_by_readme(folder))
            else:
                (folder / "examples").symlink_to(TOP / "examples")
                found[page] = [given_by(command, folder) for _, command, _ in PAGES[page]]
        return found[page]

    return given


@pytest.mark.parametrize(
    "page, place, wanted",
    [case for page, commands in [("README.md", README), *PAGES.items()] for case in each(page, commands)],
)
def test_command(page, place, wanted, given):
    assert given(page)[place] == wanted
