"""Puts the provider into QGIS's Processing toolbox, and takes it away again."""

from qgis.core import QgsApplication

from .provider import Provider


class Plugin:
    def __init__(self, interface):
        self.provider = None

    def initProcessing(self):
        self.provider = Provider()
        QgsApplication.processingRegistry().addProvider(self.provider)

    def initGui(self):
        self.initProcessing()

    def unload(self):
        QgsApplication.processingRegistry().removeProvider(self.provider)
