"""Layers from what lpis and its tools write: tables of parcels, GeoJSON of faults, a register's shapes."""

import csv
import json
import os
import re
import sqlite3
from pathlib import Path

from osgeo import ogr
from qgis.core import (
    QgsCoordinateReferenceSystem,
    QgsFeature,
    QgsField,
    QgsFields,
    QgsGeometry,
    QgsProcessingAlgorithm,
    QgsProcessingException,
    QgsProcessingParameterCrs,
    QgsProcessingParameterDefinition,
    QgsProcessingUtils,
    QgsRectangle,
    QgsWkbTypes,
)
from qgis.PyQt.QtCore import QVariant

TEXT, NUMBER, WHOLE = QVariant.String, QVariant.Double, QVariant.Int
POINTS, LINES, POLYGONS = QgsWkbTypes.Point, QgsWkbTypes.MultiLineString, QgsWkbTypes.MultiPolygon
LEAST = 50.0  # metres: a fifth of it is shown around a fault that is a point
# a text that a spreadsheet would take for a formula has an apostrophe before it in tables for people
MARKED = re.compile("'+[=+\\-@\t\r]")
csv.field_size_limit(1 << 30)


class Algorithm(QgsProcessingAlgorithm):
    """What all algorithms share: their names, and how rows and styles come into layers."""

    NAME, TITLE, HELP = "", "", ""
    FOLDERS = ("DIR", "NEW")  # the parameters that name the folder of a release

    def name(self):
        return self.NAME

    def displayName(self):
        return self.TITLE

    def shortHelpString(self):
        return self.HELP

    def createInstance(self):
        return type(self)()

    def add_system(self):
        self.addParameter(QgsProcessingParameterCrs("CRS", "System of coordinates of the release", optional=True))

    def system(self, parameters, context):
        """The system that is named; else that of the report which `prepare` wrote beside the tables."""
        found = self.parameterAsCrs(parameters, "CRS", context) if self.parameterDefinition("CRS") else None
        folders = [str(parameters[name]) for name in self.FOLDERS if parameters.get(name)]
        return (
            found
            if found and found.isValid()
            else next(
                filter(QgsCoordinateReferenceSystem.isValid, map(system_of, folders)), QgsCoordinateReferenceSystem()
            )
        )

    def fill(self, name, place, columns, kind, rows, source=None):
        """Writes rows, each its values and a shape or none, into an output; answers where it is, or None where it is
        not wanted. The columns of a source stand before these, and its system is taken where the release's is not
        known."""
        parameters, context = place
        fields, system = QgsFields(), self.system(parameters, context)
        for column, form in columns:
            fields.append(QgsField(column, form))
        if source:
            fields, system = (
                QgsProcessingUtils.combineFields(source.fields(), fields),
                system if system.isValid() else source.sourceCrs(),
            )
        sink, where = self.parameterAsSink(parameters, name, context, fields, kind, system)
        if sink is None and not self.parameterDefinition(name).flags() & QgsProcessingParameterDefinition.FlagOptional:
            raise QgsProcessingException(self.invalidSinkError(parameters, name))
        if sink is None:
            return None
        for values, shape in rows:
            feature = QgsFeature(fields)
            feature.setAttributes(values)
            if shape is not None:
                feature.setGeometry(shape)
            if not sink.addFeature(feature):
                raise QgsProcessingException(f"a row of {name} could not be written: {values}")
        return where


class Styled(Algorithm):
    """An algorithm whose outputs get a style when they are loaded."""

    STYLED = {}

    def postProcessAlgorithm(self, context, feedback):
        for name, style in self.STYLED.items():
            layer = QgsProcessingUtils.mapLayerFromString(self.written.get(name) or "", context)
            if layer is not None:
                style(layer)
                layer.triggerRepaint()
        zoom(
            [
                layer
                for name in self.written
                if name.startswith("FAULT_")
                and (layer := QgsProcessingUtils.mapLayerFromString(self.written[name] or "", context))
            ]
        )
        return {}


def zoom(layers):
    """Shows the place of a fault, where there is a window."""
    from qgis.utils import iface

    extent = QgsRectangle()
    for layer in layers if iface else ():
        if layer.featureCount():
            extent.combineExtentWith(iface.mapCanvas().mapSettings().layerExtentToOutputExtent(layer, layer.extent()))
    if not extent.isNull():
        extent.grow(max(extent.width(), extent.height(), LEAST) / 5)
        iface.mapCanvas().setExtent(extent)
        iface.mapCanvas().refresh()


def system_of(folder):
    """The system that the report beside the tables of a folder names, or its findings where there is no report yet."""
    try:
        with open(os.path.join(folder, "report.geojson"), encoding="utf-8", errors="replace") as file:
            found = re.search(r"EPSG::(\d+)", file.read(400))
    except OSError:
        found = None
    if found:
        return QgsCoordinateReferenceSystem(f"EPSG:{found[1]}")
    package = (
        ogr.Open(os.path.join(folder, "findings.gpkg"))
        if os.path.isfile(os.path.join(folder, "findings.gpkg"))
        else None
    )
    system = package.GetLayer(0).GetSpatialRef() if package and package.GetLayerCount() else None
    number = system.GetAuthorityCode(None) if system else None
    return QgsCoordinateReferenceSystem(f"EPSG:{number}") if number else QgsCoordinateReferenceSystem()


def findings_of(path):
    """The rows of all layers of findings.gpkg that have polygons: properties and shape."""
    package = ogr.Open(path) if os.path.isfile(path) else None
    for layer in (package.GetLayer(number) for number in range(package.GetLayerCount())) if package else ():
        for feature in layer:
            if feature.GetGeometryRef() is not None:
                shape = QgsGeometry()
                shape.fromWkb(bytes(feature.GetGeometryRef().ExportToWkb()))
                yield feature.items(), shape


def shape_of(text):
    shape = QgsGeometry.fromWkt(text)
    shape.convertToMultiType()
    return shape


def rows_of(path):
    """The rows of a table as dictionaries, by names in lower case."""
    with open(path, encoding="utf-8-sig", newline="") as file:
        reader = csv.DictReader(file)
        reader.fieldnames = [name.lower() for name in reader.fieldnames or []]
        for row in reader:
            yield {
                name: value[1:] if isinstance(value, str) and MARKED.match(value) else value
                for name, value in row.items()
            }


def shapes_of(folder):
    """The parcels of a release: identifier to shape."""
    return {row["parcel"]: shape_of(row["wkt"]) for row in rows_of(os.path.join(folder, "parcels.csv"))}


def features_of(path):
    """The features of a GeoJSON file: properties and shape."""
    with open(path, encoding="utf-8") as file:
        collection = json.load(file)
    for feature in collection["features"]:
        if feature.get("geometry"):
            shape = QgsGeometry()
            shape.fromWkb(bytes(ogr.CreateGeometryFromJson(json.dumps(feature["geometry"])).ExportToWkb()))
            yield feature["properties"], shape


def kept_of(register):
    """The identifiers of a register's last release: first year, and the text of the shape or None."""
    if not os.path.isfile(register):
        raise QgsProcessingException(f"{register} is not there")
    address = Path(register).resolve().as_uri()
    for mode in ("mode=ro", "immutable=1"):
        base = sqlite3.connect(f"{address}?{mode}", uri=True, timeout=60)
        try:
            return base.execute(
                "SELECT lpis_span.id, since, wkt FROM lpis_span LEFT JOIN lpis_text USING (id) WHERE until = 0 ORDER"
                " BY id"
            ).fetchall()
        except sqlite3.Error as error:
            reason = error
        finally:
            base.close()
    raise QgsProcessingException(f"{register}: {reason}")
