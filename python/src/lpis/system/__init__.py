"""Files, processes, the terminal and the command line: what every other layer stands on.

In come paths, words and programs. Out come files that take their place whole or together, programs that end with
the tool, lines that are fit for a terminal, and a status: an answer, a trouble that was foreseen, or the last
resort.

The layer above calls `command_line.run` and `Parser` of a command, `files.anew` and `placing.put` where it writes,
`processes.run` in place of `subprocess.run`, `progress.Progress` where a step may last, `printing.readable` for a
stranger's text, `databases` for a stranger's SQLite, `installation.here` where a text names a command,
`program.command` for `lpis` itself. `trouble.Trouble` is raised for what was foreseen. Nothing here knows what a
parcel is, but that `command_line` asks `formats` of what kind a file is.
"""
