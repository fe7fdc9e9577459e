"""What a tool is doing, and how much of it is done, as a share, with the time left. On a terminal this is one line that
is written over, and goes where something else is printed. In a file nothing of it stands in the first ten seconds of a
run, then a line for each step, and one a minute for its share. Nothing is told where the tool is to be quiet.

    say = Teller("country")
    say("rounding")           a step is begun
    say(Note("it is kept"))   what is told in any case
    progress = Progress("country", "rounding", 120, "cells")
    progress.add()            another one is done
    progress.end()            where it is not known how many there are, or it ends early
"""

from __future__ import annotations

import shutil
import sys
import time

from . import printing, unforeseen

FIRST, ON_TERMINAL, IN_FILE = 10.0, 0.5, 60.0  # seconds: the first line of a step, and from one to the next


class Quiet:
    is_quiet = False  # set once, by the command line
    tool = "lpis"  # whose steps these are, where it is not said


class Note(str):
    """What is told as it is, and is no step."""


class Line:
    """The last line of a terminal, which is written over."""

    def __init__(self, file=None):
        self.file, self.width, self.is_busy = file, 0, False

    def show(self, words):
        words = words[: shutil.get_terminal_size().columns - 1]
        self.write(f"\r{words:{self.width}}")
        self.width = len(words)

    def clear(self):
        """Takes it away, before something else is printed."""
        if self.width and not self.is_busy:
            self.write(f"\r{' ' * self.width}")
            self.write("\r")  # a return in the middle of a text would be written out
            self.width = 0

    def write(self, text):
        self.is_busy = True
        print(text, end="", file=self.file or sys.stderr, flush=True)
        self.is_busy = False


LINE = Line()
printing.before.append(LINE.clear)


class Teller:
    """Tells of a tool what it is doing, which is also where it fails."""

    def __init__(self, tool, clock=time.monotonic):
        self.tool, self.clock, self.began, Quiet.tool = tool, clock, clock(), tool

    def __call__(self, told):
        if isinstance(told, Note):
            print(f"{self.tool}: {told}", file=sys.stderr, flush=True)
            return
        unforeseen.PLACE.step = str(told)
        if Quiet.is_quiet:
            return
        if sys.stderr.isatty():
            LINE.show(f"{self.tool}: {told}")
        elif self.clock() - self.began >= FIRST:
            print(f"{self.tool}: {told}", file=sys.stderr, flush=True)


class Progress:
    """A step of a tool: `count` things of a kind."""

    def __init__(self, tool, what, count, things, clock=time.monotonic, file=None):
        self.tool, self.what, self.count, self.things, self.clock = tool, what, count, things, clock
        self.file = sys.stderr if file is None else file
        self.is_terminal = self.file.isatty()
        self.line = LINE if file is None else Line(file)
        self.done, self.start, self.told = 0, clock(), None

    def add(self, number=1):
        self.done += number
        if Quiet.is_quiet:
            return
        now = self.clock()
        since = now - (self.start if self.told is None else self.told)
        if since >= (FIRST if self.told is None else ON_TERMINAL if self.is_terminal else IN_FILE) or (
            self.told is not None and self.done == self.count
        ):
            self.told = now
            self.tell(now)

    def tell(self, now):
        words = f"{self.tool}: {self.words(now)}"
        if self.is_terminal:
            self.line.show(words)
        else:
            print(words, file=self.file, flush=True)

    def words(self, now):
        share = f"{self.what}: {self.done} of {self.count} {self.things} ({100 * self.done // max(1, self.count)} %)"
        left = (now - self.start) / self.done * (self.count - self.done) if self.done else 0
        return share + (f", {time_of(left)} left" if self.done < self.count else f", took {time_of(now - self.start)}")

    def end(self):
        if self.is_terminal:
            self.line.clear()


class Bytes(Progress):
    """A step over so many bytes of files, told in megabytes."""

    def __init__(self, tool, what, size, **more):
        super().__init__(tool, what, max(1, size >> 20), "MB", **more)
        self.bytes = 0

    def took(self, number):
        """So many bytes passed by; never more than there are."""
        self.reached(self.bytes + number)

    def reached(self, bytes_so_far):
        self.bytes = bytes_so_far
        now = min(self.bytes >> 20, self.count)
        if now > self.done:
            self.add(now - self.done)


def time_of(seconds):
    """A length of time for people."""
    return (
        f"{seconds:.0f} s"
        if seconds < 90
        else f"{seconds / 60:.0f} min"
        if seconds < 5400
        else f"{seconds / 3600:.1f} h"
    )


def over(rows, what, things="rows"):
    """Rows of a list, with their progress."""
    return each(rows, Quiet.tool, what, len(rows), things, 100)


def each(rows, tool, what, count, things, at_once=1000):
    """Rows as they come, with their progress."""
    progress = Progress(tool, what, count, things)
    for number, row in enumerate(rows, 1):
        yield row
        if number % at_once == 0:
            progress.add(at_once)
    progress.end()


def read(records, tool, what, size):
    """The records of a table with their lines, as `streams.Stream` has them, with the share of its bytes that passed
    by."""
    progress = Bytes(tool, what, size)
    for record in records:
        yield record
        progress.took(len(record[2]))
    progress.end()
