"""The commands, one module each: words of a command line in, a status out.

`tools/NAME` and the installed `lpis-NAME` start `lpis.commands.NAME`, whose docstring is its help. A command takes
its words apart, goes on in a Python that has Shapely where it wants that, and calls one layer below. None is called
by another: one that wants another starts it as a program. `remarks` has no tool: `lpis` starts it, for what it says
beside the program's own words.
"""
