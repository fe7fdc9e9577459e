"""Locates points: which parcel and which piece of a release each of them is in."""

import csv
import math
import os
import tempfile

from qgis.core import (
    QgsCoordinateTransform,
    QgsGeometry,
    QgsPointXY,
    QgsProcessing,
    QgsProcessingException,
    QgsProcessingOutputNumber,
    QgsProcessingOutputString,
    QgsProcessingParameterFeatureSink,
    QgsProcessingParameterFeatureSource,
)

from . import places, styles
from .check import REFUSED, UNREADABLE, YES, Folder, of_certificate
from .layers import POINTS, TEXT

ADDED = [("parcel", TEXT), ("piece", TEXT), ("class", TEXT)]


class LocatePoints(Folder):
    NAME, TITLE = "locatepoints", "Locate points"
    HELP = (
        "Which parcel and which piece each point is in, exactly: on a border too a point is in one or in none. The"
        " release is checked first, and no point of a refused one is located. Points in another system are transformed"
        " where the release's is known: named here, or by the report beside its tables. A point outside of all parcels"
        " has no parcel."
    )
    STYLED = {
        "LOCATED": styles.located,
        "FAULT_POINTS": styles.fault,
        "FAULT_LINES": styles.fault,
        "FAULT_POLYGONS": styles.fault,
    }

    def initAlgorithm(self, configuration=None):
        self.addParameter(QgsProcessingParameterFeatureSource("INPUT", "Points", [QgsProcessing.TypeVectorPoint]))
        self.add_folder()
        self.add_certificate()
        self.add_system()
        self.addParameter(
            QgsProcessingParameterFeatureSink("LOCATED", "Points with their parcels", QgsProcessing.TypeVectorPoint)
        )
        self.add_shapes("Fault", "FAULT_")
        self.addOutput(QgsProcessingOutputString("VERDICT", "Verdict"))
        self.addOutput(QgsProcessingOutputNumber("STATUS", "Status of lpis"))
        self.addOutput(QgsProcessingOutputNumber("INSIDE", "Number of points in a parcel"))

    def processAlgorithm(self, parameters, context, feedback):
        place = parameters, context
        folder, cert = self.folder_and_cert(place)
        source = self.parameterAsSource(parameters, "INPUT", context)
        if source is None:
            raise QgsProcessingException(self.invalidSourceError(parameters, "INPUT"))
        points = list(self.points(source, place))
        ran = self.located(folder, cert, points, feedback)
        feedback.pushInfo(ran.last())
        found = answers(ran.lines) if ran.status == YES else {}
        self.written = {
            "LOCATED": self.fill("LOCATED", place, ADDED, POINTS, rows_of(points, found), source),
            **self.explained([folder, *of_certificate(cert)], ran.last(), place, feedback),
        }
        return {**self.written, "VERDICT": ran.last(), "STATUS": ran.status, "INSIDE": sum(map(bool, found.values()))}

    def points(self, source, place):
        """Each point of the layer with its feature; a feature of several points has one for each."""
        system = self.system(*place)
        transform = (
            QgsCoordinateTransform(source.sourceCrs(), system, place[1].transformContext())
            if system.isValid() and source.sourceCrs().isValid()
            else None
        )
        if transform is None and source.sourceCrs().isGeographic():
            raise QgsProcessingException(
                f"the points are in degrees ({source.sourceCrs().authid()}): name the system of the release"
            )
        for feature in source.getFeatures():
            shape = feature.geometry()
            if shape.isEmpty():
                raise QgsProcessingException(f"feature {feature.id()} has no point")
            if transform:
                shape.transform(transform)
            for point in shape.vertices():
                if not (math.isfinite(point.x()) and math.isfinite(point.y())):
                    raise QgsProcessingException(f"feature {feature.id()}: its point has no place in {system.authid()}")
                yield feature, point

    @staticmethod
    def located(folder, cert, points, feedback):
        feedback.setProgressText(f"locating {len(points)} points")
        with tempfile.TemporaryDirectory() as spare:
            table = os.path.join(spare, "points.csv")
            with open(table, "w", encoding="ascii", newline="") as file:
                writer = csv.writer(file, lineterminator="\n")
                writer.writerow(["point", "x", "y"])
                writer.writerows(
                    [number, f"{point.x():.9f}", f"{point.y():.9f}"] for number, (_, point) in enumerate(points)
                )
            return places.done(
                places.run([places.lpis(), "locate", "--", folder, *cert, table], feedback, quiet=True),
                "lpis locate",
                (REFUSED, UNREADABLE),
            )


def rows_of(points, found):
    """The columns of each point's feature with what was found of it, and the point; nothing where no point was
    located."""
    for number, (feature, point) in enumerate(points if found else ()):
        yield [*feature.attributes(), *(found[number] or [None] * len(ADDED))], QgsGeometry.fromPointXY(
            QgsPointXY(point)
        )


def answers(lines):
    """Parcel, piece and class of each point by its number, None where it is in no parcel. A text that is no yes to
    its end has none."""
    if not lines or lines[-1] != "yes":
        raise QgsProcessingException("the answer does not end with yes")
    words = [line.split() for line in lines if line.startswith("point ")]
    return {int(line[1]): line[3::2] if line[2] == "parcel" else None for line in words}
