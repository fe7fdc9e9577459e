"""What a tool prints. A stranger's text is made fit for people: letters that nobody sees, that move the cursor or
turn a line round are written out."""

import contextlib
import io
import os
import re
import sys

# Of what is printed: all but line ends, tabs, and the return before a line that is printed anew.
UNSEEN = re.compile("(?!^\r)[\x00-\x08\x0b-\x1f\x7f-\x9f\u061c\u200e\u200f\u2028-\u202e\u2066-\u2069\ud800-\udfff]")

# What follows a password's name in the words of a connection, and what stands between the user and the host of an
# address.
PASSWORD = re.compile(
    r"""(?i)(\b(?:ssl)?(?:password|passwd|pwd)\s*=\s*)(?:'(?:[^'\\]|\\.)*'?|"(?:[^"\\]|\\.)*"?|(?:\\.|\S)+)"""
)
PASSWORD_OF_ADDRESS = re.compile(r"(\b[A-Za-z][A-Za-z0-9+.-]*://[^\s:/@]*:)[^\s@]*(?=@)")


before = []  # what is called before something is printed: a line of progress goes away
# What has a colour on a terminal: a yes green, what stops and what is refused red.
COLOURED = re.compile(r"^(?P<green>yes)$|^(?P<red>refused|no)\b(?=:? )|\b(?P<bold>stops?)\b(?= \()", re.MULTILINE)
COLOURS = {"green": 32, "red": 31, "bold": 31}


def escaped(text):
    """A text as it stands in a line: nothing in it ends the line."""
    return (
        text
        if text.isprintable()
        else "".join(letter if letter.isprintable() else written_out(letter) for letter in text)
    )


def readable(name):
    """A name in a line, in quotation marks where letters of it are written out."""
    return name if name.isprintable() else f"'{escaped(name)}'"


def counted(count, name):
    """1 piece, 2 pieces."""
    return f"{count} {name}{'' if count == 1 else 's'}"


def written_out(letter):
    byte = ord(letter) - 0xDC00  # of what is no letter
    return f"\\x{byte:02x}" if 0x80 <= byte <= 0xFF else letter.encode("unicode_escape").decode("ascii")


def coloured(text):
    """A text for a terminal."""
    return COLOURED.sub(lambda found: f"\x1b[{COLOURS[found.lastgroup]}m{found[0]}\x1b[0m", text)


def has_colours(stream):
    """Whether a stream is a terminal that shows colours, and NO_COLOR does not say otherwise."""
    return stream.isatty() and not os.environ.get("NO_COLOR") and os.environ.get("TERM") != "dumb"


def without_passwords(text):
    """A text in which no password of a database stands, such as that of PG:dbname=land password=.."""
    if "=" not in text and "://" not in text:
        return text
    return PASSWORD_OF_ADDRESS.sub(r"\1***", PASSWORD.sub(r"\1***", text))


class Printed(io.TextIOWrapper):
    """Standard output or standard error, whatever letters come."""

    is_coloured = False

    def write(self, text):
        for call in before:
            call()
        text = without_passwords(text)
        text = UNSEEN.sub(lambda found: written_out(found[0]), text) if UNSEEN.search(text) else text
        return super().write(coloured(text) if self.is_coloured else text)


class Answer(Printed):
    """Standard output. What it takes no more goes nowhere: the tool goes on to its end, and only that is a failure."""

    failure = None

    def write(self, text):
        try:
            return super().write(text)
        except OSError as error:
            self.fail(error)
        return len(text)

    def flush(self):
        try:
            super().flush()
        except OSError as error:
            self.fail(error)

    def fail(self, error):
        self.failure = self.failure or error
        lead_nowhere(self)


class Told(Printed):
    """Standard error. What it does not take goes nowhere, and nothing else hangs on that: a tool keeps its status."""

    def write(self, text):
        with contextlib.suppress(OSError):
            super().write(text)
            return len(text)
        lead_nowhere(self)
        return len(text)

    def flush(self):
        with contextlib.suppress(OSError):
            super().flush()
            return
        lead_nowhere(self)


def lead_nowhere(stream):
    """What waits in a stream, and all that follows, goes nowhere."""
    with contextlib.suppress(OSError, ValueError):
        os.dup2(os.open(os.devnull, os.O_WRONLY), stream.fileno())


_closed = []  # streams that the caller closed


def begin():
    """From now on what is printed is fit for a terminal. A stream that the caller closed takes everything and keeps
    nothing."""
    take_numbers()
    for name, kind in (("stdout", Answer), ("stderr", Told)):
        stream = getattr(sys, name)
        if stream is None:
            _closed.append(name)
            setattr(sys, name, open(os.devnull, "w", encoding="utf-8", errors="backslashreplace"))
        elif type(stream) is io.TextIOWrapper:
            more = {
                "encoding": stream.encoding,
                "line_buffering": stream.line_buffering,
                "write_through": stream.write_through,
            }
            made = kind(stream.detach(), errors="backslashreplace", **more)
            made.is_coloured = name == "stdout" and has_colours(made)
            setattr(sys, name, made)


def take_numbers():
    """Gives the numbers of streams that the caller closed to nothing: else a file that is opened would have one, and
    what this process runs would write into it. Of standard output nothing can be written there: that stays a failure
    for what this process runs or becomes.
    """
    for number, mode in enumerate((os.O_RDONLY, os.O_RDONLY, os.O_WRONLY)):
        try:
            os.fstat(number)
        except OSError:
            os.set_inheritable(os.open(os.devnull, mode), True)


def finish():
    """Writes what waits. Where standard output took not all, the exception is raised once."""
    if "stdout" in _closed:
        _closed.clear()
        raise OSError("standard output is closed")
    try:
        sys.stdout.flush()
    except (OSError, ValueError):
        lead_nowhere(sys.stdout)
        raise
    failure, sys.stdout.failure = getattr(sys.stdout, "failure", None), None
    if failure:
        raise failure
