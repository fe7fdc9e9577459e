"""Prepares a release from two layers."""

import os
import tempfile

from qgis.core import (
    QgsCoordinateTransformContext,
    QgsFeature,
    QgsFeatureRequest,
    QgsField,
    QgsFields,
    QgsGeometry,
    QgsPointXY,
    QgsProcessing,
    QgsProcessingException,
    QgsProcessingOutputNumber,
    QgsProcessingOutputString,
    QgsProcessingParameterBoolean,
    QgsProcessingParameterFeatureSink,
    QgsProcessingParameterFeatureSource,
    QgsProcessingParameterField,
    QgsProcessingParameterFile,
    QgsProcessingParameterFolderDestination,
    QgsProcessingParameterNumber,
    QgsVectorFileWriter,
)

from . import places, styles
from .check import Folder, by_kind, values_of
from .layers import NUMBER, POINTS, POLYGONS, TEXT, WHOLE, features_of, findings_of, rows_of, system_of

LOOK = 1
LAYERS = ("report", "between")  # what a run writes for QGIS; the last only where there is something
COLUMNS = {
    "PARCELS": {"parcel": "PARCEL_ID"},
    "COVERS": {"piece": "PIECE_ID", "parcel": "PIECE_PARCEL", "class": "PIECE_CLASS"},
}
REPORT_COLUMNS = [
    ("kind", TEXT),
    ("layer", TEXT),
    ("row", TEXT),
    ("identifiers", TEXT),
    ("width_m", NUMBER),
    ("area_m2", NUMBER),
    ("stops", WHOLE),
    ("words", TEXT),
]
LAND_COLUMNS = [*REPORT_COLUMNS, ("done", TEXT)]
CONFLICTS = ("overlap", "gap", "outside")
FOUND_COLUMNS = [
    ("kind", TEXT),
    ("layer", TEXT),
    ("row", TEXT),
    ("identifier", TEXT),
    ("area_m2", NUMBER),
    ("words", TEXT),
    ("done", TEXT),
]


def stamp(path):
    """When a file was written last: a report of an earlier run is not this one's."""
    return os.stat(path).st_mtime_ns if os.path.exists(path) else 0


def conflicts_of(path):
    """The places in conflict that nobody accepted."""
    for row in rows_of(path) if os.path.exists(path) else ():
        if row["kind"] in CONFLICTS and row["state"] in ("open", "new"):
            yield {**row, "identifier": row["identifiers"], "done": ""}


def place_of(row):
    return QgsGeometry.fromPointXY(QgsPointXY(float(row["x"]), float(row["y"]))) if row["x"] else None


class PrepareRelease(Folder):
    NAME, TITLE = "preparerelease", "Prepare a release"
    HELP = (
        "From a layer of parcels and one of land cover to the tables of a release: all is tested first and each finding"
        " is named. What would change or lose land stops, unless 'accept' is set. The findings are points, where they"
        " have a place, and polygons of the land that they are about: the overlap, the gap, what is outside of its"
        " parcel, with width and area, also before anything is accepted. What was settled is layers too. lpis.toml"
        " beside the layers' file says which fields are meant where none is named, and the table of classes, the system"
        " and the width where these are left out."
    )
    STYLED = {
        "FINDINGS": styles.found,
        "LAND": styles.land,
        "REPORT_POINTS": styles.report,
        "REPORT_LINES": styles.report,
        "REPORT_POLYGONS": styles.report,
        "BETWEEN": styles.between,
    }

    def initAlgorithm(self, configuration=None):
        polygons = [QgsProcessing.TypeVectorAnyGeometry]
        self.addParameter(QgsProcessingParameterFeatureSource("PARCELS", "Parcels", polygons))
        self.addParameter(
            QgsProcessingParameterField("PARCEL_ID", "identifier of the parcel", None, "PARCELS", optional=True)
        )
        self.addParameter(QgsProcessingParameterFeatureSource("COVERS", "Pieces of land cover", polygons))
        self.addParameter(
            QgsProcessingParameterField("PIECE_ID", "identifier of the piece", None, "COVERS", optional=True)
        )
        self.addParameter(
            QgsProcessingParameterField("PIECE_PARCEL", "identifier of its parcel", None, "COVERS", optional=True)
        )
        self.addParameter(QgsProcessingParameterField("PIECE_CLASS", "its class", None, "COVERS", optional=True))
        self.addParameter(
            QgsProcessingParameterFile("CLASSES", "Table of classes (class, percent)", extension="csv", optional=True)
        )
        self.addParameter(
            QgsProcessingParameterFile(
                "IDENTIFIERS", "identifiers.csv of an earlier year", extension="csv", optional=True
            )
        )
        self.addParameter(
            QgsProcessingParameterFile(
                "PREVIOUS",
                "Last year's folder: borders that did not change stay as they are there",
                behavior=QgsProcessingParameterFile.Folder,
                optional=True,
            )
        )
        self.addParameter(
            QgsProcessingParameterNumber(
                "EPSG",
                "EPSG number of the release, in metres",
                QgsProcessingParameterNumber.Integer,
                optional=True,
                minValue=1,
            )
        )
        self.addParameter(
            QgsProcessingParameterFile(
                "REVIEWED",
                "Copy of findings.csv: accept the rows that have 1 in the column accepted",
                extension="csv",
                optional=True,
            )
        )
        self.addParameter(
            QgsProcessingParameterNumber(
                "WIDTH",
                "Name land between parcels up to this width, in metres (1, where nothing says another)",
                QgsProcessingParameterNumber.Double,
                optional=True,
                minValue=0.001,
                maxValue=100.0,
            )
        )
        self.addParameter(
            QgsProcessingParameterBoolean("ACCEPT", "Accept: mend or leave out what is wrong, and name it", False)
        )
        self.addParameter(QgsProcessingParameterFolderDestination("OUT", "Folder of the release"))
        self.addParameter(
            QgsProcessingParameterFeatureSink(
                "FINDINGS", "Findings", QgsProcessing.TypeVectorPoint, optional=True, createByDefault=True
            )
        )
        self.addParameter(
            QgsProcessingParameterFeatureSink(
                "LAND", "Findings: their land", QgsProcessing.TypeVectorPolygon, optional=True, createByDefault=True
            )
        )
        self.add_shapes("Report", "REPORT_")
        self.addParameter(
            QgsProcessingParameterFeatureSink(
                "BETWEEN",
                "Land between parcels that nobody has",
                QgsProcessing.TypeVectorPolygon,
                optional=True,
                createByDefault=True,
            )
        )
        self.addOutput(QgsProcessingOutputNumber("STATUS", "Status"))
        self.addOutput(QgsProcessingOutputString("SUMMARY", "Summary"))

    def processAlgorithm(self, parameters, context, feedback):
        self.out = out = self.parameterAsString(parameters, "OUT", context)
        os.makedirs(out, exist_ok=True)
        before = {path: stamp(path) for path in (os.path.join(out, f"{name}.geojson") for name in LAYERS)}
        self.said = self.said_of_sources(parameters, context, feedback)
        with tempfile.TemporaryDirectory() as spare:
            package = os.path.join(spare, "land.gpkg")
            for number, layer in enumerate(COLUMNS):
                self.export(parameters, context, layer, package, number == 0)
            ran = places.done(
                places.run([places.tool("prepare"), *self.options(parameters, context), "--", package, out], feedback),
                "tools/prepare",
                (LOOK,),
            )
        place = parameters, context
        found = [*rows_of(os.path.join(out, "prepared.csv")), *conflicts_of(os.path.join(out, "findings.csv"))]
        rows = [(values_of(row, FOUND_COLUMNS), place_of(row)) for row in found]
        land = [(values_of(row, LAND_COLUMNS), shape) for row, shape in findings_of(os.path.join(out, "findings.gpkg"))]
        *reports, between = [path if stamp(path) != old else "" for path, old in before.items()]
        reports = [] if ran.status else reports  # without tables nothing was settled
        gaps = by_kind(features_of(between) if os.path.exists(between) else (), REPORT_COLUMNS)["POLYGONS"]
        self.written = {
            "FINDINGS": self.fill("FINDINGS", place, FOUND_COLUMNS, POINTS, rows),
            "LAND": self.fill("LAND", place, LAND_COLUMNS, POLYGONS, land),
            "BETWEEN": self.fill("BETWEEN", place, REPORT_COLUMNS, POLYGONS, gaps),
            **self.fill_shapes(place, reports, REPORT_COLUMNS, "REPORT_"),
        }
        return {**self.written, "OUT": out, "STATUS": ran.status, "SUMMARY": "\n".join(ran.lines)}

    def system(self, parameters, context):
        return system_of(self.out)

    def said_of_sources(self, parameters, context, feedback):
        """What lpis.toml says beside the file of the parcels, or beside that of the land cover; None where neither
        has one."""
        for name in COLUMNS:
            layer = self.parameterAsVectorLayer(parameters, name, context)
            said = places.said_beside(layer.source()) if layer else None
            if said:
                feedback.pushInfo(f"lpis.toml beside {layer.source()} is taken where a parameter is left out")
                return said
        return None

    def options(self, parameters, context):
        words = ["--accept"] if self.parameterAsBool(parameters, "ACCEPT", context) else []
        for name, option in (
            ("CLASSES", "--classes"),
            ("IDENTIFIERS", "--identifiers"),
            ("PREVIOUS", "--previous"),
            ("REVIEWED", "--accept-from"),
        ):
            path = self.parameterAsFile(parameters, name, context)
            words += [option, path] if path else []
        if self.said and self.said.classes and "--classes" not in words:
            words += [
                "--classes",
                self.said.classes,
                *(f"--name={name}={found}" for name, found in self.said.names.items() if name.startswith("classes.")),
            ]
        for name, option, kept in (("WIDTH", "--between", "between"), ("EPSG", "--epsg", "epsg")):
            value = parameters.get(name) or getattr(self.said, kept, None)
            words += [option, str(value)] if value else []
        return words

    def field(self, parameters, context, layer, column, name, source):
        """The place of a field: that which is named, else by lpis.toml, else by the column's own name."""
        said = self.said.names.get(f"{layer.lower()}.{column}") if self.said else None
        found = next(iter(self.parameterAsFields(parameters, name, context)), None) or said or column
        place = source.fields().lookupField(found)
        if place < 0:
            raise QgsProcessingException(
                f"{layer.lower()} have no field {found}: {name} names the field that has {column}"
            )
        return place

    def export(self, parameters, context, layer, package, is_first):
        """Writes a layer into the GeoPackage under the names that the tool reads. All of its features have to
        arrive."""
        source = self.parameterAsSource(parameters, layer, context)
        if source is None:
            raise QgsProcessingException(self.invalidSourceError(parameters, layer))
        fields, taken = QgsFields(), []
        for column, name in COLUMNS[layer].items():
            taken.append(self.field(parameters, context, layer, column, name, source))
            fields.append(QgsField(column, source.fields().at(taken[-1]).type()))
        options = QgsVectorFileWriter.SaveVectorOptions()
        options.driverName, options.layerName = "GPKG", layer.lower()
        options.actionOnExistingFile = (
            QgsVectorFileWriter.CreateOrOverwriteFile if is_first else QgsVectorFileWriter.CreateOrOverwriteLayer
        )
        writer = QgsVectorFileWriter.create(
            package, fields, source.wkbType(), source.sourceCrs(), QgsCoordinateTransformContext(), options
        )
        if writer.hasError():
            raise QgsProcessingException(writer.errorMessage())
        count = 0
        for feature in source.getFeatures(QgsFeatureRequest(), source.FlagSkipGeometryValidityChecks):
            one = QgsFeature(fields)
            one.setAttributes([feature.attribute(place) for place in taken])
            one.setGeometry(feature.geometry())
            if not writer.addFeature(one):
                raise QgsProcessingException(f"{layer.lower()}: feature {feature.id()}: {writer.errorMessage()}")
            count += 1
        del writer
        if count != source.featureCount():
            raise QgsProcessingException(
                f"{layer.lower()}: {source.featureCount()} features, and {count} were handed on"
            )
