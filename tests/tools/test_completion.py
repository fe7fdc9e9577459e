"""Holds tools/completion.bash against the tools: what a shell completes of each are the options of its help."""

import pathlib
import re
import subprocess

import pytest
from lpis_helpers.places import TOOLS

TEXT = pathlib.Path(TOOLS, "completion.bash").read_text(encoding="utf-8")
STEPS = ("prepare", "split", "cut", "check", "publish", "status")


def options_of_help(*words):
    """Those of the usage line with which the help begins."""
    command = [f"{TOOLS}/{words[0]}", *words[1:], "--help"]
    text = subprocess.run(command, capture_output=True, text=True, check=True).stdout
    return {*re.findall(r"\[(--[a-z-]+)", text.partition("\n\n")[0]), "--help"}


def completed(pattern):
    """The options on the line, or in the body, that a pattern finds."""
    found = re.search(pattern, TEXT)
    return set(re.findall(r"--[a-z-]+", found[0])) if found else set()


@pytest.mark.parametrize("tool", ["check", "explain", "faults", "lineage", "prepare", "report", "year"])
def test_tools(tool):
    assert completed(rf"_lpis_{tool}\(\) \{{[^}}]*\}}") == options_of_help(tool)


@pytest.mark.parametrize("step", STEPS)
def test_steps_of_a_country(step):
    line = rf"(?m)^    {step}\) .*" if step != "check" else r"(?m)^    \*\) _lpis_options '--parcels --lpis.*"
    assert completed(line) == options_of_help("country", step)


def test_steps():
    steps = re.search(r"_lpis_files -W '(prepare .*)'", TEXT)
    assert steps and steps[1].split() == [*STEPS, "--version", "--help"]
