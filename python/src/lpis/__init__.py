"""Proved checks of a Land Parcel Identification System's releases.

    report = lpis.check(parcels, covers, classes)     # or lpis.Refused, with a code, words and a place

Tables are paths, bytes, or whatever has `__geo_interface__` (`lpis.tables`). Areas are square metres, exactly
(`lpis.Area`). A coordinate finer than a millimetre is refused and never rounded; `lpis.prepare` rounds all borders of a
source together. `lpis.Register` keeps the years. `lpis.cut` makes a certificate, for whoever it is handed over to. The
answers are those of the proved code, as a library in this process or as a program: `lpis.backend()` says which.
"""

from __future__ import annotations

import importlib
from typing import TYPE_CHECKING, Any

if TYPE_CHECKING:
    from .answers import Certificate, LandClass, Parcel, Piece, Report, area, check, cut
    from .areas import Area
    from .backends import backend
    from .preparing import Prepared, prepare
    from .refusals import Error, Failed, Point, Refused
    from .registers import Ending, Publication, Register, Shape
    from .tables import table

__all__ = [
    "Area",
    "Certificate",
    "Ending",
    "Error",
    "Failed",
    "LandClass",
    "Parcel",
    "Piece",
    "Point",
    "Prepared",
    "Publication",
    "Refused",
    "Register",
    "Report",
    "Shape",
    "area",
    "backend",
    "check",
    "cut",
    "prepare",
    "table",
]

__version__: str  # which only who asks for it looks up

_PLACES = {
    "Area": "areas",
    "Certificate": "answers",
    "Ending": "registers",
    "Error": "refusals",
    "Failed": "refusals",
    "LandClass": "answers",
    "Parcel": "answers",
    "Piece": "answers",
    "Point": "refusals",
    "Prepared": "preparing",
    "Publication": "registers",
    "Refused": "refusals",
    "Register": "registers",
    "Report": "answers",
    "Shape": "registers",
    "area": "answers",
    "backend": "backends",
    "check": "answers",
    "cut": "answers",
    "prepare": "preparing",
    "table": "tables",
}


def __getattr__(name: str) -> Any:
    """A public name: they are loaded where one is first asked for, since a tool that starts wants none of them."""
    if name == "__version__":
        return importlib.import_module(f"{__name__}.tree").version()
    if name not in _PLACES:
        raise AttributeError(f"module {__name__!r} has no attribute {name!r}")
    for one, place in _PLACES.items():  # all at once: what one call raises has the name of the others too
        found = getattr(importlib.import_module(f"{__name__}.{place}"), one)
        found.__module__ = __name__  # as what they are found, printed and pickled
        globals()[one] = found
    return globals()[name]


def __dir__() -> list[str]:
    return sorted({*globals(), *__all__})
