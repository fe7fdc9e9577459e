"""Stops a tool from outside in the midst of its work, however slow the machine is."""

import signal
import subprocess
import time

from lpis_helpers.terminal import Terminal

SIGNALS = (signal.SIGINT, signal.SIGTERM, signal.SIGHUP)
SECONDS = 600


def hears_signals():
    """For the start of a tool that is to be stopped: what its parent ignores (a job in the background, nohup) it
    would ignore too."""
    for number in SIGNALS:
        signal.signal(number, signal.SIG_DFL)


def until(is_so, words):
    """Waits for a state."""
    end = time.monotonic() + SECONDS
    while not is_so():
        if time.monotonic() > end:
            raise RuntimeError(f"not so in {SECONDS} s: {words}")
        time.sleep(0.01)


def stopped(words, step, number=signal.SIGINT, **more):
    """The status of a tool that got a signal once its terminal showed a step, and all that it said there."""
    shown, is_sent = "", False
    with Terminal() as terminal, subprocess.Popen(
        words, stdout=subprocess.DEVNULL, stderr=terminal.end, preexec_fn=hears_signals, **more
    ) as run:
        for part in terminal.handed_on().parts():
            shown += part
            if step in shown and not is_sent:
                run.send_signal(number)
                is_sent = True
    return run.returncode, shown
