"""Tables for people, which open them in spreadsheets: there a text that begins with =, +, -, @, a tab or a return is a
formula. It gets an apostrophe, and who reads such a table takes it off: every text is read back as what it was. Tables
for `lpis` have no apostrophes.

    table = cells.Writer(file)
    table.writerow([cells.text(name), area])        text: a stranger's; numbers stay as they are
    name = cells.plain(field)
    area = cells.number(field)
"""

import re

FORMULA = re.compile("'*[=+\\-@\t\r]")
QUOTED = re.compile('[",\r\n]')


def text(field):
    field = "" if field is None else str(field)
    return "'" + field if FORMULA.match(field) else field


def plain(field):
    return field[1:] if field.startswith("'") and FORMULA.match(field) else field


def number(field):
    """The number of a text, which may have a decimal comma; `ValueError` where it is none, or none but to Python:
    1_00."""
    if "_" in field or not field.isascii():
        raise ValueError(field)
    return float(field.replace(",", "."))


def quoted(field):
    field = "" if field is None else str(field)
    return '"' + field.replace('"', '""') + '"' if QUOTED.search(field) else field


class Writer:
    """As `csv.writer`, which leaves a return in a field without quotation marks, so that the record would end there."""

    def __init__(self, file):
        self.file = file

    def writerow(self, fields):
        self.file.write((",".join(map(quoted, fields)) or '""') + "\n")

    def writerows(self, rows):
        for fields in rows:
            self.writerow(fields)
