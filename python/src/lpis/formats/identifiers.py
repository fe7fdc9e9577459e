"""Names that are no identifiers, and the same rule for them each year: German letters as two, accents dropped, other
letters as `_`, and behind it six digits of a digest of the name as it was, so that different names stay different
whatever else is in a release."""

import hashlib
import unicodedata

from .byte_tables import is_identifier

LETTERS = {
    "\u00e4": "ae",
    "\u00f6": "oe",
    "\u00fc": "ue",
    "\u00c4": "Ae",
    "\u00d6": "Oe",
    "\u00dc": "Ue",
    "\u00df": "ss",
    "\u00e6": "ae",
    "\u00f8": "o",
    "\u0142": "l",
    "\u0111": "d",
}
PLAIN = frozenset("ABCDEFGHIJKLMNOPQRSTUVWXYZabcdefghijklmnopqrstuvwxyz0123456789._:/-")
MOST = 40


def is_one(name):
    return is_identifier(name.encode("utf-8", "replace"))


def made_of(name):
    """The identifier in place of a name that is none."""
    text = "".join(LETTERS.get(letter, letter) for letter in name.strip())
    text = "".join(letter for letter in unicodedata.normalize("NFKD", text) if not unicodedata.combining(letter))
    text = "".join(letter if letter in PLAIN else "_" for letter in text)
    return f"{text[:MOST - 7]}_{hashlib.sha256(name.encode('utf-8', 'replace')).hexdigest()[:6]}"
