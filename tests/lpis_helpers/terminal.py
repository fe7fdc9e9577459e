"""A terminal that a program writes to, and what it shows there."""

import contextlib
import os
import pty


class Terminal:
    """Pass `end` to a program, and call `handed_on` once it has started."""

    def __init__(self):
        self.own, self.end = pty.openpty()
        self.shown = b""

    def __enter__(self):
        return self

    def __exit__(self, *_):
        os.close(self.own)

    def handed_on(self):
        os.close(self.end)
        return self

    def parts(self):
        """What is shown, as it comes, until no program has the terminal."""
        with contextlib.suppress(OSError):
            while part := os.read(self.own, 4096):
                self.shown += part
                yield part.decode("utf-8", "replace")

    def whole(self):
        return "".join(self.parts())
