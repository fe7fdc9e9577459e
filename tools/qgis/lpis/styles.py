"""How outputs look: faults by their code, lineage by its kind, the rest in one colour."""

from qgis.core import (
    QgsCategorizedSymbolRenderer,
    QgsFillSymbol,
    QgsLineSymbol,
    QgsMarkerSymbol,
    QgsPalLayerSettings,
    QgsRendererCategory,
    QgsSingleSymbolRenderer,
    QgsTextFormat,
    QgsVectorLayerSimpleLabeling,
    QgsWkbTypes,
)

SOUND, FAULT, OTHER, POINT = "#1a9641", "#d7191c", "#e7298a", "#2c7bb6"
GAP = "#e66101"  # land that nobody has
FAINT = 64  # of 255: how much a filled shape covers
COLOURS = (FAULT, "#2c7bb6", "#fdae61", "#7b3294", SOUND, "#a6611a", "#e66101", "#404040")
KINDS = {"split": "#1b9e77", "merged": "#7570b3", "replaced": "#66a61e", "redrawn": "#e6ab02", "ended": "#666666"}


def symbol(layer, colour):
    kind = layer.geometryType()
    if kind == QgsWkbTypes.PointGeometry:
        return QgsMarkerSymbol.createSimple(
            {"name": "cross2", "color": colour, "outline_color": colour, "outline_width": "0.8", "size": "5"}
        )
    if kind == QgsWkbTypes.LineGeometry:
        return QgsLineSymbol.createSimple({"color": colour, "width": "1"})
    red, green, blue = (int(colour[place : place + 2], 16) for place in (1, 3, 5))
    return QgsFillSymbol.createSimple(
        {"color": f"{red},{green},{blue},{FAINT}", "outline_color": colour, "outline_width": "0.6"}
    )


def label(layer, field):
    settings, form = QgsPalLayerSettings(), QgsTextFormat()
    form.setSize(8)
    settings.fieldName = field
    settings.setFormat(form)
    layer.setLabeling(QgsVectorLayerSimpleLabeling(settings))
    layer.setLabelsEnabled(True)


def in_one_colour(colour, field):
    def style(layer):
        layer.setRenderer(QgsSingleSymbolRenderer(symbol(layer, colour)))
        label(layer, field)

    return style


def by_value(field, colour_of, words_of, name):
    """A colour for each value that the layer has."""

    def style(layer):
        found = {}
        for feature in layer.getFeatures():
            found.setdefault(feature[field] or "", words_of(feature))
        shown = [
            QgsRendererCategory(value, symbol(layer, colour_of(number, value)), words)
            for number, (value, words) in enumerate(sorted(found.items()))
        ]
        layer.setRenderer(QgsCategorizedSymbolRenderer(field, shown))
        label(layer, name)

    return style


parcels, fault, report = (
    in_one_colour(SOUND, "parcel"),
    in_one_colour(FAULT, "name"),
    in_one_colour(FAULT, "identifiers"),
)
land = by_value(
    "kind", lambda number, _: COLOURS[number % len(COLOURS)], lambda feature: feature["kind"], "identifiers"
)
between, found, located = (
    in_one_colour(GAP, "identifiers"),
    in_one_colour(OTHER, "identifier"),
    in_one_colour(POINT, "parcel"),
)
faults = by_value(
    "code",
    lambda number, _: COLOURS[number % len(COLOURS)],
    lambda feature: f"{feature['code']}: {feature['meaning']}",
    "names",
)
lineage = by_value(
    "kind", lambda _, kind: KINDS.get(kind, OTHER), lambda feature: feature["kind"] or "not clear", "old"
)
