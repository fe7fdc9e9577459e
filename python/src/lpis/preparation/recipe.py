"""What tools that round have in common: a width in words, what is told meanwhile, and the end by a signal."""

import contextlib
import os
import sys

from ..system import files, placing, processes, progress

MOST_WIDE = 100.0  # metres


def add_between(parser):
    parser.add_argument(
        "--between",
        metavar="METRES",
        type=width,
        help="report land between parcels that nobody has, up to this width in metres (default 1)",
    )


def width(text):
    """A width in metres: above 0, and below what a parcel has."""
    value = float(text)
    if not 0 < value <= MOST_WIDE:
        raise ValueError
    return value


def teller(name):
    """Progress on standard error, which is also what the tool is doing where it fails."""
    return progress.Teller(name)


def stop_at_once(name, *folders):
    """A signal ends the tool from now on, what it runs and the folders."""

    def last(stopped):
        for folder in folders:
            placing.clear(folder)
        files.forget()
        with contextlib.suppress(OSError, ValueError):  # a full or closed standard error
            wiped = f"\r{' ' * progress.LINE.width}\r" if progress.LINE.width else ""
            os.write(sys.stderr.fileno(), f"{wiped}{name}: {stopped}\n".encode(errors="backslashreplace"))
        os._exit(stopped.status)

    processes.tell("no table is written")
    processes.listen(last)


def unwritten(out):
    """What is said where no table takes its place."""
    return f"no table is written in {out}" + (
        " (the tables there are from an earlier run)" if os.path.exists(os.path.join(out, "parcels.csv")) else ""
    )
