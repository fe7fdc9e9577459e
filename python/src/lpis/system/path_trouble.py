"""What is wrong with a path that could not be read or written, or with the output of a run, as far as one sees."""

import os
import stat

MOST = 1 << 30  # bytes that the program reads of a file
FULL = 1 << 20  # a disk with no more bytes free is full
GEOPACKAGE = (b"SQLite format 3", b"GP")  # at the start, and at byte 68
PERMISSION = "there is no permission to"


def folder_of(path):
    return os.path.dirname(path.rstrip("/")) or ("/" if path.startswith("/") else ".")


def has_head(path):
    """Whether a file begins as a database of SQLite does."""
    return beginning(path).startswith(GEOPACKAGE[0])


def beginning(path):
    try:
        with open(path, "rb") as file:
            return file.read(70)
    except OSError:
        return b""


def is_package(path):
    """Whether a file is a GeoPackage."""
    return os.path.isfile(path) and has_head(path) and beginning(path)[68:] == GEOPACKAGE[1]


def free_at(path):
    """How many bytes are free where a path, or an open file, lies; very many where that is not known."""
    try:
        found = os.statvfs(path)
    except OSError:
        return 1 << 62
    return found.f_bavail * found.f_frsize


def is_read_only(path):
    try:
        return bool(os.statvfs(path).f_flag & os.ST_RDONLY)
    except OSError:
        return False


def of_place(path, is_read):
    """What is wrong with a file or its folder before it is read or written; nothing where they are as they should
    be."""
    folder, is_there = folder_of(path), os.path.exists(path)
    if os.path.isdir(path):
        return "it is a folder"
    if is_read and not is_there and os.path.islink(path):
        return f"it is a link to {os.readlink(path)}, which is missing"
    if not is_there and not os.path.isdir(folder):
        return (
            f"{folder} is not a folder" if os.path.exists(folder) else f"it is missing, and so is the folder {folder}"
        )
    if not is_there and not os.access(folder, os.X_OK):
        return f"{PERMISSION} enter the folder {folder}"
    return ""


def of_reading(path):
    """What is wrong with a path that could not be read."""
    if found := of_place(path, True):
        return found
    if not os.path.exists(path):
        return "it is missing"
    if not os.access(path, os.R_OK):
        return f"{PERMISSION} read it"
    if os.stat(path).st_size > MOST:
        return f"it is over 1 GiB ({MOST:,} bytes)"
    return "it is there, and reading it failed"


def of_writing(path):
    """What is wrong with a path that could not be written; nothing where that is not seen."""
    folder = folder_of(path)
    if found := of_place(path, False):
        return found
    if os.path.exists(path) and not os.access(path, os.W_OK):
        return "it lies on a file system that is read-only" if is_read_only(path) else f"{PERMISSION} write it"
    if not os.access(folder, os.W_OK):
        is_read = is_read_only(folder)
        return (
            f"the folder {folder} lies on a file system that is read-only"
            if is_read
            else (f"{PERMISSION} write into the folder {folder}")
        )
    is_device = os.path.exists(path) and stat.S_ISCHR(os.stat(path).st_mode)
    return "the disk is full" if not is_device and free_at(folder) <= FULL else ""


def of_output(number):
    """What is wrong with an output, an open file of this number."""
    mode = os.fstat(number).st_mode
    if stat.S_ISFIFO(mode) or stat.S_ISSOCK(mode):
        return "the program that reads it ended early"
    if stat.S_ISREG(mode) and free_at(number) <= FULL:
        return "the disk is full"
    return "its device takes no more" if stat.S_ISCHR(mode) else "writing it failed"
