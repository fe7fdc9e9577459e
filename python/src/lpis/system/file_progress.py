"""How much of its files a program has read and written, as the system counts it: the progress of programs that say
nothing while they work."""

import threading

EACH = 1.0  # seconds


def moved(pid):
    """The bytes that a process has read and written so far; None where the system does not tell."""
    try:
        with open(f"/proc/{pid}/io", encoding="ascii") as file:
            counts = dict(line.split(": ") for line in file.read().splitlines())
        return int(counts["rchar"]) + int(counts["wchar"])
    except (OSError, ValueError, KeyError):
        return None


class Watched:
    """Tells the progress of a process, within a `with`; where the system does not count, nothing."""

    def __init__(self, pid, shown):
        self.pid, self.shown, self.is_over = pid, shown, threading.Event()
        self.thread = threading.Thread(target=self.go, daemon=True)

    def __enter__(self):
        self.thread.start()
        return self

    def __exit__(self, *_):
        self.is_over.set()
        self.thread.join()
        self.shown.end()

    def go(self):
        while not self.is_over.wait(EACH):
            count = moved(self.pid)
            if count is None:
                return
            self.shown.reached(min(count, (self.shown.count << 20) - 1))  # how many bytes there are is reckoned
