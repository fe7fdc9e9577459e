"""Lineage between two years, publishing, tracing, and what a register keeps."""

import os

from qgis.core import (
    QgsProcessing,
    QgsProcessingException,
    QgsProcessingOutputNumber,
    QgsProcessingOutputString,
    QgsProcessingParameterBoolean,
    QgsProcessingParameterFeatureSink,
    QgsProcessingParameterFile,
    QgsProcessingParameterNumber,
    QgsProcessingParameterString,
    QgsProcessingParameterVectorLayer,
)

from . import places, styles
from .layers import NUMBER, POLYGONS, TEXT, WHOLE, Algorithm, Styled, kept_of, rows_of, shape_of, shapes_of

YES, LEFT = 0, 1
SHARED = [
    ("old", TEXT),
    ("new", TEXT),
    ("square_metres", NUMBER),
    ("of_old_percent", NUMBER),
    ("of_new_percent", NUMBER),
    ("kind", TEXT),
    ("exact", TEXT),
    ("row", TEXT),
]


def add_file(algorithm, name, words, is_folder=False, is_optional=False):
    behavior = QgsProcessingParameterFile.Folder if is_folder else QgsProcessingParameterFile.File
    algorithm.addParameter(QgsProcessingParameterFile(name, words, behavior=behavior, optional=is_optional))


class ProposeLineage(Styled):
    NAME, TITLE = "lineage", "Lineage between two releases"
    HELP = (
        "Writes lineage.csv into the folder of the newer release, where none is there: a row for each new parcel that"
        " has land of a dropped one, with marks for splits and merges that are exact to the millimetre. What is not"
        " clear gets no row. The layer has each dropped parcel with what it shares with a new one."
    )
    STYLED = {"SHARED": styles.lineage}

    def initAlgorithm(self, configuration=None):
        add_file(self, "OLD", "Folder of the older release", True, True)
        add_file(self, "REGISTER", "or the register, for the shapes of its last release", is_optional=True)
        add_file(self, "NEW", "Folder of the newer release", True)
        self.add_system()
        self.addParameter(
            QgsProcessingParameterFeatureSink(
                "SHARED",
                "Dropped parcels and what became of them",
                QgsProcessing.TypeVectorPolygon,
                optional=True,
                createByDefault=True,
            )
        )
        self.addOutput(QgsProcessingOutputString("LINEAGE", "Table"))
        self.addOutput(QgsProcessingOutputString("SUMMARY", "Summary"))

    def processAlgorithm(self, parameters, context, feedback):
        old, register, new = (self.parameterAsFile(parameters, name, context) for name in ("OLD", "REGISTER", "NEW"))
        if bool(old) == bool(register):
            raise QgsProcessingException("one of the two is wanted: the folder of the older release, or the register")
        source = [f"--register={register}", "--"] if register else ["--", old]
        ran = places.done(places.run([places.tool("lineage"), *source, new, new], feedback), "tools/lineage", (LEFT,))
        shapes = {name: shape_of(text) for name, _, text in kept_of(register) if text} if register else shapes_of(old)
        rows = [(values_of(row), shapes.get(row["old"])) for row in rows_of(os.path.join(new, "lineage-report.csv"))]
        self.written = {"SHARED": self.fill("SHARED", (parameters, context), SHARED, POLYGONS, rows)}
        return {**self.written, "LINEAGE": os.path.join(new, "lineage.csv"), "SUMMARY": "\n".join(ran.lines)}


def values_of(row):
    return [
        float(row[name]) if form == NUMBER and row[name] else None if form == NUMBER else row[name]
        for name, form in SHARED
    ]


class Publish(Algorithm):
    NAME, TITLE = "publish", "Publish a year"
    HELP = (
        "Backup, check, exact where rows are marked, publish, report, and a line in the log beside the register. It"
        " stops before anything is done where the year is far from the last one."
    )

    def initAlgorithm(self, configuration=None):
        self.addParameter(QgsProcessingParameterFile("REGISTER", "Register (a new one where 'first year' is set)"))
        self.addParameter(
            QgsProcessingParameterNumber(
                "YEAR", "Year", QgsProcessingParameterNumber.Integer, minValue=1, maxValue=9999
            )
        )
        add_file(self, "DIR", "Folder of the release, with lineage.csv", True)
        self.addParameter(QgsProcessingParameterBoolean("NEW", "First year: make a new register", False))
        self.addOutput(QgsProcessingOutputString("VERDICT", "Verdict"))
        self.addOutput(QgsProcessingOutputString("REPORT", "Report"))

    def checkParameterValues(self, parameters, context):
        return True, ""

    def processAlgorithm(self, parameters, context, feedback):
        register, year = str(parameters["REGISTER"]), self.parameterAsInt(parameters, "YEAR", context)
        folder = self.parameterAsFile(parameters, "DIR", context)
        more = ["--new"] if self.parameterAsBool(parameters, "NEW", context) else []
        ran = places.run(
            [places.tool("year"), *more, f"--lpis={places.lpis()}", "--", register, str(year), folder], feedback
        )
        refusal = next((line for line in ran.lines if line.startswith("refused")), "")
        if ran.status != YES and not refusal:
            raise QgsProcessingException(f"not published, status {ran.status}: {' '.join(ran.told) or ran.last()}")
        return {
            "VERDICT": refusal or f"published {year}",
            "REPORT": "" if refusal else os.path.join(folder, f"report-{year}.html"),
        }


class Trace(Styled):
    NAME, TITLE = "trace", "Trace an identifier"
    HELP = (
        "What an identifier of any year has become: its descendants of the last release, with the shapes that the"
        " register keeps. Where a layer of parcels is named, they are selected in it."
    )
    STYLED = {"DESCENDANTS": styles.parcels}

    def initAlgorithm(self, configuration=None):
        add_file(self, "REGISTER", "Register")
        self.addParameter(QgsProcessingParameterString("ID", "Identifier"))
        self.addParameter(
            QgsProcessingParameterVectorLayer(
                "PARCELS",
                "Layer of parcels in which to select them",
                [QgsProcessing.TypeVectorAnyGeometry],
                optional=True,
            )
        )
        self.addParameter(
            QgsProcessingParameterString("FIELD", "its field with the identifier", "parcel", optional=True)
        )
        self.add_system()
        self.addParameter(
            QgsProcessingParameterFeatureSink(
                "DESCENDANTS", "Descendants", QgsProcessing.TypeVectorPolygon, optional=True, createByDefault=True
            )
        )
        self.addOutput(QgsProcessingOutputString("NAMES", "Identifiers"))
        self.addOutput(QgsProcessingOutputNumber("COUNT", "Number of descendants"))

    def flags(self):
        return super().flags() | self.FlagNoThreading

    def processAlgorithm(self, parameters, context, feedback):
        register, name = self.parameterAsFile(parameters, "REGISTER", context), self.parameterAsString(
            parameters, "ID", context
        )
        if not os.path.isfile(register):
            raise QgsProcessingException(f"{register} is not there")
        ran = places.done(places.run([places.lpis(), "trace", "--", register, name], feedback), "lpis trace")
        kept = {kept: (since, text) for kept, since, text in kept_of(register)}
        rows = [([found, kept[found][0]], shape_of(kept[found][1]) if kept[found][1] else None) for found in ran.lines]
        layer = self.parameterAsVectorLayer(parameters, "PARCELS", context)
        if layer is not None:
            field = self.parameterAsString(parameters, "FIELD", context)
            names = ", ".join("'" + found.replace("'", "''") + "'" for found in ran.lines)
            layer.selectByExpression(f'"{field}" IN ({names})' if names else "FALSE")
        self.written = {
            "DESCENDANTS": self.fill(
                "DESCENDANTS", (parameters, context), [("parcel", TEXT), ("since", WHOLE)], POLYGONS, rows
            )
        }
        return {**self.written, "NAMES": " ".join(ran.lines), "COUNT": len(ran.lines)}


class KeptShapes(Styled):
    NAME, TITLE = "keptshapes", "Kept shapes of a register"
    HELP = "The parcels of a register's last release, with the first year of each. The register is only read."
    STYLED = {"SHAPES": styles.parcels}

    def initAlgorithm(self, configuration=None):
        add_file(self, "REGISTER", "Register")
        self.add_system()
        self.addParameter(QgsProcessingParameterFeatureSink("SHAPES", "Kept shapes", QgsProcessing.TypeVectorPolygon))

    def processAlgorithm(self, parameters, context, feedback):
        rows = [
            ([name, since], shape_of(text) if text else None)
            for name, since, text in kept_of(self.parameterAsFile(parameters, "REGISTER", context))
        ]
        self.written = {
            "SHAPES": self.fill("SHAPES", (parameters, context), [("parcel", TEXT), ("since", WHOLE)], POLYGONS, rows)
        }
        return self.written
