"""Folders of tests: one for each test of a class, or one for all of them. And cases that wait for `--long`."""

import os
import tempfile
from pathlib import Path

import pytest


def read(*names):
    return Path(*names).read_text(encoding="utf-8")


def write(text, *names):
    Path(*names).write_text(text, encoding="utf-8")


def write_script(text, *names):
    """Writes a program that anybody may run."""
    write(text, *names)
    Path(*names).chmod(0o755)


def exhaustive(*values):
    """A case of a test that waits for `--long`."""
    return pytest.param(*values, marks=pytest.mark.long)


def few_at_once(values, few):
    """Cases of which all but the first few wait for `--long`."""
    return [*values[:few], *map(exhaustive, values[few:])]


class Spare:
    """A folder for each test, whose name begins with `prefix`."""

    prefix = None

    @pytest.fixture(autouse=True)
    def spare(self):
        with tempfile.TemporaryDirectory(prefix=self.prefix) as self.folder:
            self.set_up()
            yield

    def set_up(self):
        """What a test wants in its folder."""

    def path(self, *names):
        return os.path.join(self.folder, *names)


class Kept:
    """A folder that the tests of a class share."""

    prefix = None

    @pytest.fixture(autouse=True, scope="class")
    def kept(self, request):
        with tempfile.TemporaryDirectory(prefix=self.prefix) as request.cls.folder:
            request.cls.set_up()
            yield

    @classmethod
    def set_up(cls):
        """What all tests want in the folder."""

    @classmethod
    def path(cls, *names):
        return os.path.join(cls.folder, *names)
