#!/usr/bin/env python3
"""Checks the release of a folder against a certificate, as `lpis check DIR CERT` does, by the library.

    check.py LIBRARY DIR CERT        LIBRARY is the path of liblpis.so
"""

import ctypes
import os
import sys

FAILED = 3


class Reply(ctypes.Structure):
    """What a call hands over beside the text."""

    _fields_ = [("length", ctypes.c_size_t), ("status", ctypes.c_uint8)]


def checker(path):
    """`lpis_check` of a library: of the bytes of three tables and a certificate it gives text and status, or None."""
    call = ctypes.CDLL(path).lpis_check
    call.restype = ctypes.c_bool
    call.argtypes = [ctypes.c_char_p, ctypes.c_size_t] * 5 + [ctypes.POINTER(Reply)]

    def check(*inputs):
        reply, room = Reply(length=256), b""
        while reply.length > len(room):
            room = ctypes.create_string_buffer(reply.length)
            words = [word for data in inputs for word in (data, len(data))]
            if call(*words, room, len(room), ctypes.byref(reply)):
                return room.raw[: reply.length], reply.status
        return None

    return check


def main():
    if len(sys.argv) != 4:
        sys.exit(__doc__)
    library, folder, cert = sys.argv[1:]
    inputs = []
    for path in [*(os.path.join(folder, f"{name}.csv") for name in ("parcels", "covers", "classes")), cert]:
        with open(path, "rb") as file:
            inputs.append(file.read())
    answer = checker(library)(*inputs)
    if answer is None:
        print("no answer: out of memory, or a file is over 1 GiB", file=sys.stderr)
        return FAILED
    text, status = answer
    sys.stdout.buffer.write(text)
    return status


if __name__ == "__main__":
    sys.exit(main())
