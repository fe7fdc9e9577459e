"""How QGIS draws a layer of findings, by the state of each: the text of a style (QML), for the table layer_styles of a
GeoPackage, from which QGIS takes it by itself."""

from __future__ import annotations

STATES = {  # as on a page
    "open": ("#d00000", "stops"),
    "new": ("#d00000", "stops, new since the last run"),
    "accepted": ("#b06500", "accepted"),
    "told": ("#2166ac", "reported"),
}
WIDTHS = {"new": 1.2}  # of the border, in millimetres
USUAL = 0.6
NAME = "layer_styles"
TABLE = f"""
CREATE TABLE {NAME} (id INTEGER PRIMARY KEY NOT NULL, f_table_catalog TEXT, f_table_schema TEXT,
  f_table_name TEXT, f_geometry_column TEXT, styleName TEXT, styleQML TEXT, styleSLD TEXT, useAsDefault BOOLEAN,
  description TEXT, owner TEXT, ui TEXT, update_time DATETIME);
"""
ROW = f"INSERT INTO {NAME} VALUES (NULL, '', '', ?, 'geom', 'findings', ?, '', 1, 'by state', '', NULL, ?)"


def rgb(colour: str, opaque: int) -> str:
    return ",".join(str(int(colour[at : at + 2], 16)) for at in (1, 3, 5)) + f",{opaque}"


def option(name: str, value: str) -> str:
    return f'<Option type="QString" name="{name}" value="{value}"/>'


def symbol(number: int, state: str) -> str:
    colour, _ = STATES[state]
    options = {
        "color": rgb(colour, 90),
        "style": "solid",
        "outline_color": rgb(colour, 255),
        "outline_style": "solid",
        "outline_width": str(WIDTHS.get(state, USUAL)),
        "outline_width_unit": "MM",
    }
    found = "".join(option(*one) for one in options.items())
    return (
        f'<symbol type="fill" name="{number}" alpha="1" clip_to_extent="1" force_rhr="0">'
        '<layer class="SimpleFill" enabled="1" locked="0" pass="0">'
        f'<Option type="Map">{found}</Option></layer></symbol>'
    )


def text() -> str:
    """The style, by the column `state`."""
    categories = "".join(
        f'<category value="{state}" symbol="{number}" label="{words}" render="true" type="string"/>'
        for number, (state, (_, words)) in enumerate(STATES.items())
    )
    symbols = "".join(symbol(number, state) for number, state in enumerate(STATES))
    return (
        "<!DOCTYPE qgis PUBLIC 'http://mrcc.com/qgis.dtd' 'SYSTEM'>\n"
        + '<qgis version="3.22" styleCategories="Symbology">'
        + '<renderer-v2 type="categorizedSymbol" attr="state" enableorderby="0" forceraster="0" symbollevels="0">'
        + f"<categories>{categories}</categories><symbols>{symbols}</symbols></renderer-v2></qgis>"
    )
