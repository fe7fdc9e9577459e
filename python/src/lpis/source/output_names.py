"""What the folder of a source is called where none is named, and what options say."""

from __future__ import annotations

import os
import re

from ..system.printing import without_passwords


def stem_of(source: str) -> str:
    """The name of a source without its ending, of letters that do in a folder's name."""
    stem = os.path.splitext(os.path.basename(without_passwords(source).rstrip("/")))[0]
    return re.sub("[^A-Za-z0-9._-]+", "_", stem).strip("_-.") or "land"


def option_of(words: list[str], option: str) -> str:
    """The value of an option among words; nothing where it is not there."""
    for word, following in zip(words, [*words[1:], ""]):
        if word == option:
            return following
        if word.startswith(f"{option}="):
            return word.partition("=")[2]
    return ""
