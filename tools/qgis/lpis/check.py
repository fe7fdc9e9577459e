"""Checks a release or a country, and finds all faults of a release."""

import os
import tempfile

from qgis.core import (
    QgsProcessing,
    QgsProcessingException,
    QgsProcessingOutputNumber,
    QgsProcessingOutputString,
    QgsProcessingParameterFeatureSink,
    QgsProcessingParameterFile,
    QgsWkbTypes,
)

from . import places, styles
from .layers import LINES, POINTS, POLYGONS, TEXT, NUMBER, WHOLE, Styled, features_of, shapes_of

YES, REFUSED, UNREADABLE = 0, 1, 2
FAULT_COLUMNS = [
    ("code", TEXT),
    ("kind", TEXT),
    ("names", TEXT),
    ("width_m", NUMBER),
    ("area_m2", NUMBER),
    ("table", TEXT),
    ("row", WHOLE),
    ("meaning", TEXT),
    ("place", TEXT),
    ("line", TEXT),
]
SHAPE_COLUMNS = [("kind", TEXT), ("name", TEXT), ("line", TEXT)]
# Of each kind of shape the form of its output, and what a parameter calls it.
KINDS = {
    "POINTS": (POINTS, QgsProcessing.TypeVectorPoint),
    "LINES": (LINES, QgsProcessing.TypeVectorLine),
    "POLYGONS": (POLYGONS, QgsProcessing.TypeVectorPolygon),
}


def by_kind(features, columns):
    """The rows of each output, by what the shapes are."""
    rows = {name: [] for name in KINDS}
    for properties, shape in features:
        name = next(name for name, (form, _) in KINDS.items() if shape.type() == QgsWkbTypes.geometryType(form))
        if name != "POINTS":
            shape.convertToMultiType()
        rows[name].append((values_of(properties, columns), shape))
    return rows


def values_of(properties, columns):
    """The values of columns: texts as texts, and numbers as numbers, or none."""
    return [
        str(properties.get(column) or "") if form == TEXT else number_of(properties.get(column))
        for column, form in columns
    ]


def number_of(value):
    """A number of JSON or of a table; None where there is none."""
    return (
        None
        if value in (None, "")
        else int(value)
        if isinstance(value, bool)
        else float(value)
        if isinstance(value, str)
        else value
    )


def of_certificate(cert):
    """The words that hand a certificate to tools/explain."""
    return [f"--cert={path}" for path in cert]


class Folder(Styled):
    """An algorithm over the folder of a release or a country."""

    FOLDER = "Folder of the release (parcels.csv, covers.csv, classes.csv)"

    def add_folder(self):
        self.addParameter(QgsProcessingParameterFile("DIR", self.FOLDER, behavior=QgsProcessingParameterFile.Folder))

    def add_certificate(self):
        self.addParameter(
            QgsProcessingParameterFile("CERT", "Certificate that was handed over (none is needed)", optional=True)
        )

    def folder_and_cert(self, place):
        """The folder, and the certificate in a list, which is empty where none is named."""
        parameters, context = place
        cert = self.parameterAsFile(parameters, "CERT", context)
        return self.parameterAsFile(parameters, "DIR", context), [cert] if cert else []

    def add_shapes(self, words, before=""):
        for name, (_, source) in KINDS.items():
            self.addParameter(
                QgsProcessingParameterFeatureSink(
                    before + name, f"{words}: {name.lower()}", source, optional=True, createByDefault=True
                )
            )

    def fill_shapes(self, place, paths, columns, before=""):
        """Writes the shapes of GeoJSON files, where they are there, into the outputs of their kinds."""
        rows = by_kind((found for path in paths if os.path.exists(path) for found in features_of(path)), columns)
        return {
            before + name: self.fill(before + name, place, columns, form, rows[name])
            for name, (form, _) in KINDS.items()
        }

    def explained(self, words, line, place, feedback):
        """The words of a refusal, and its shapes as layers."""
        with tempfile.TemporaryDirectory() as spare:
            picture = os.path.join(spare, "fault.geojson")
            if line.startswith("refused"):
                places.run([places.tool("explain"), *words, "--geojson", picture], feedback, given=line)
            return self.fill_shapes(place, [picture], SHAPE_COLUMNS, "FAULT_")


class CheckRelease(Folder):
    NAME, TITLE = "checkrelease", "Check a release"
    HELP = (
        "Answers yes only where no two parcels overlap, no two pieces overlap, and each parcel is filled by its pieces"
        " exactly. No certificate is needed, and no file is made of one. The report has each parcel's exact area and"
        " eligible area; of a refusal the fault's place and shapes are layers, and its words are in the log."
    )
    STYLED = {
        "REPORT": styles.parcels,
        "FAULT_POINTS": styles.fault,
        "FAULT_LINES": styles.fault,
        "FAULT_POLYGONS": styles.fault,
    }

    def initAlgorithm(self, configuration=None):
        self.add_folder()
        self.add_certificate()
        self.add_system()
        self.addParameter(
            QgsProcessingParameterFeatureSink(
                "REPORT",
                "Report: parcels with their areas",
                QgsProcessing.TypeVectorPolygon,
                optional=True,
                createByDefault=True,
            )
        )
        self.add_shapes("Fault", "FAULT_")
        self.addOutput(QgsProcessingOutputString("VERDICT", "Verdict"))
        self.addOutput(QgsProcessingOutputNumber("STATUS", "Status of lpis"))

    def processAlgorithm(self, parameters, context, feedback):
        place = parameters, context
        folder, cert = self.folder_and_cert(place)
        feedback.setProgressText("checking")
        ran = places.done(
            places.run([places.lpis(), "check", "--", folder, *cert], feedback, quiet=True),
            "lpis check",
            (REFUSED, UNREADABLE),
        )
        feedback.pushInfo(ran.last())
        rows = report_rows(folder, ran.lines) if ran.status == YES else []
        columns = [("parcel", TEXT), ("area", TEXT), ("eligible", TEXT), ("area_m2", NUMBER), ("eligible_m2", NUMBER)]
        self.written = {
            "REPORT": self.fill("REPORT", place, columns, POLYGONS, rows),
            **self.explained([folder, *of_certificate(cert)], ran.last(), place, feedback),
        }
        return {**self.written, "VERDICT": ran.last(), "STATUS": ran.status}


def report_rows(folder, lines):
    """The report's lines of parcels, each with its shape. A text that is no yes to its end has none."""
    if not lines or lines[-1] != "yes":
        raise QgsProcessingException("the report does not end with yes")
    shapes = shapes_of(folder)
    for line in lines:
        words = line.split()
        if words[:1] == ["parcel"]:
            yield [words[1], words[3], words[5], float(words[3]), float(words[5])], shapes[words[1]]


class FindFaults(Folder):
    NAME, TITLE = "allfaults", "All faults of a release"
    HELP = (
        "Each row's first fault, each parcel's first fault with its pieces, each two parcels that overlap: each as the"
        " polygon of the overlap, of the gap or of what is outside of its parcel, with width and area, or as a point"
        " where nothing has an area; styled by their code. Nothing here is part of a yes."
    )
    STYLED = {"POINTS": styles.faults, "LINES": styles.faults, "POLYGONS": styles.faults}

    def initAlgorithm(self, configuration=None):
        self.add_folder()
        self.add_system()
        self.add_shapes("Faults")
        self.addOutput(QgsProcessingOutputNumber("COUNT", "Number of faults"))
        self.addOutput(QgsProcessingOutputString("SUMMARY", "Faults by code"))

    def processAlgorithm(self, parameters, context, feedback):
        folder = self.parameterAsFile(parameters, "DIR", context)
        with tempfile.TemporaryDirectory() as spare:
            path = os.path.join(spare, "faults.geojson")
            ran = places.done(
                places.run([places.tool("faults"), f"--lpis={places.lpis()}", "--", folder, path], feedback),
                "tools/faults",
                (REFUSED,),
            )
            self.written = self.fill_shapes((parameters, context), [path], FAULT_COLUMNS)
        words = ran.last().split()
        return {**self.written, "COUNT": int(words[1]) if len(words) > 1 else 0, "SUMMARY": "\n".join(ran.lines)}


class CheckCountry(Folder):
    NAME, TITLE = "checkcountry", "Check a country"
    HELP = (
        "One yes for all regions of a folder with country.txt. The table has the regions that passed, with their counts"
        " and sums; of a refusal the shapes at the seam are layers."
    )
    FOLDER = "Folder of the country (country.txt, classes.csv, a folder for each region)"
    STYLED = {"FAULT_POINTS": styles.fault, "FAULT_LINES": styles.fault, "FAULT_POLYGONS": styles.fault}

    def initAlgorithm(self, configuration=None):
        self.add_folder()
        self.add_system()
        self.addParameter(
            QgsProcessingParameterFeatureSink(
                "REGIONS", "Regions that passed", QgsProcessing.TypeVector, optional=True, createByDefault=True
            )
        )
        self.add_shapes("Fault", "FAULT_")
        self.addOutput(QgsProcessingOutputString("VERDICT", "Verdict"))
        self.addOutput(QgsProcessingOutputNumber("STATUS", "Status of lpis"))

    def processAlgorithm(self, parameters, context, feedback):
        place, folder = (parameters, context), self.parameterAsFile(parameters, "DIR", context)
        ran = places.done(
            places.run([places.lpis(), "country", "--", folder], feedback), "lpis country", (REFUSED, UNREADABLE)
        )
        if ran.status == YES and ran.last() != "yes":
            raise QgsProcessingException("the report does not end with yes")
        columns = [("region", TEXT), ("parcels", WHOLE), ("pieces", WHOLE), ("area", TEXT), ("eligible", TEXT)]
        words = [line.split() for line in ran.lines if line.startswith("region ")]
        rows = [([line[1], int(line[3]), int(line[5]), line[7], line[9]], None) for line in words]
        self.written = {
            "REGIONS": self.fill("REGIONS", place, columns, QgsWkbTypes.NoGeometry, rows),
            **self.explained([folder], ran.last(), place, feedback),
        }
        return {**self.written, "VERDICT": ran.last(), "STATUS": ran.status}
