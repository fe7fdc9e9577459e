"""The gate in QGIS: a provider of Processing algorithms over the program lpis and its tools."""


def classFactory(interface):
    """The plugin, as QGIS asks for it."""
    from .plugin import Plugin

    return Plugin(interface)
