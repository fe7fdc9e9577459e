"""The provider: all algorithms of the plugin, and where the program is."""

from processing.core.ProcessingConfig import ProcessingConfig, Setting
from qgis.core import QgsProcessingProvider

from . import places
from .check import CheckCountry, CheckRelease, FindFaults
from .history import KeptShapes, ProposeLineage, Publish, Trace
from .locate import LocatePoints
from .prepare import PrepareRelease

ALGORITHMS = (
    PrepareRelease,
    CheckRelease,
    FindFaults,
    ProposeLineage,
    Publish,
    Trace,
    KeptShapes,
    CheckCountry,
    LocatePoints,
)


class Provider(QgsProcessingProvider):
    def id(self):
        return "lpis"

    def name(self):
        return "LPIS release checks"

    def load(self):
        ProcessingConfig.addSetting(
            Setting(
                self.name(),
                places.SETTING,
                "Folder of the installed lpis (lib/lpis), where it is not found by itself",
                "",
                valuetype=Setting.FOLDER,
            )
        )
        self.refreshAlgorithms()
        return True

    def unload(self):
        ProcessingConfig.removeSetting(places.SETTING)

    def loadAlgorithms(self):
        for algorithm in ALGORITHMS:
            self.addAlgorithm(algorithm())
