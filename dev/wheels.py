"""The wheel of the package `lpis`: written by `dev/package` for release/, and by pip of a clone.

A wheel is a zip with the files of the package and four of facts. It carries what `./install` puts (lpis/carried), so
that program and tools are those of the archive; the pages of the manual go where a system has them. Its bytes depend on
these files alone: names are sorted, times are one.
"""

import ast
import base64
import configparser
import hashlib
import re
import shutil
import sys
import tempfile
import zipfile
from pathlib import Path

sys.dont_write_bytecode = True
from facts import TOP, installed, is_newer, libc_of, version_of

SETTINGS = TOP / "pyproject.toml"
PACKAGE = TOP / "python" / "src" / "lpis"
CARRIED = Path("lpis", "carried")
HOME = CARRIED / "lib" / "lpis"
UP = "../../../.."  # from there to the folder of the package
LIBRARY = HOME / "program" / "liblpis.so"
# commands are those of the wheel; a completion and a plugin are found elsewhere
NOT_CARRIED = ("bin", "share/bash-completion", "share/lpis")
TIME = (1980, 1, 1, 0, 0, 0)


def project():
    """The table [project] of pyproject.toml with its tables below: each value stands in one line, as Python has it
    too."""
    parser = configparser.ConfigParser(delimiters=("=",), interpolation=None)
    parser.optionxform = str
    parser.read_string(SETTINGS.read_text(encoding="utf-8").partition("\n[tool.")[0])
    tables = {name.strip("[]"): parser[name] for name in parser.sections()}  # [[..]] is one of a list
    return {
        name: {key: ast.literal_eval(value) for key, value in table.items()}
        for name, table in tables.items()
        if name.startswith("project")
    }


def version_of_wheel(version, is_unfinished):
    """An unfinished version is older than the finished one, for pip too."""
    return f"{version}.dev0+unfinished" if is_unfinished else version


def plant(folder, library=None):
    """Puts into a folder what the wheel installs; gives the folder of what is carried."""
    top = installed(folder, str(CARRIED))
    for path in sorted((folder / HOME / "python" / "lpis").iterdir()):
        path.rename(folder / "lpis" / path.name)
    shutil.rmtree(folder / HOME / "python")
    for path in (folder / HOME).glob("*"):
        if path.is_file() and path.suffix in ("", ".sh"):
            path.write_text(re.sub(r'(?<=["/])python(?=["/])', UP, path.read_text(encoding="utf-8")), encoding="utf-8")
    for name in NOT_CARRIED:
        shutil.rmtree(top / name)
    if library:
        shutil.copy(library, folder / LIBRARY)
    return top


def tag_of(folder):
    """The platforms on which it starts, by the newest C library that program or library want."""
    needed = "2.17"
    for path in (folder / HOME / "program" / "lpis", folder / LIBRARY):
        found = libc_of(path) if path.exists() else needed
        needed = found if is_newer(found, needed) else needed
    return f"py3-none-manylinux_{needed.replace('.', '_')}_x86_64"


def describe(folder, version, tag):
    """Adds the files of facts but the list of all, and puts the manual where systems have it; gives the folder of
    the facts."""
    about = project()
    facts = folder / f"lpis-{version}.dist-info"
    facts.mkdir()
    lines = [
        "Metadata-Version: 2.1",
        "Name: lpis",
        f"Version: {version}",
        f"Summary: {about['project']['description']}",
        f"Requires-Python: {about['project']['requires-python']}",
    ]
    lines += [f"Author: {about['project.authors']['name']}", f"License: {about['project.license']['text']}"]
    lines += [f"Project-URL: {name}, {place}" for name, place in about.get("project.urls", {}).items()]
    for extra, names in about["project.optional-dependencies"].items():
        lines += [f"Provides-Extra: {extra}", *(f"Requires-Dist: {name} ; extra == '{extra}'" for name in names)]
    scripts = [f"{name} = {place}" for name, place in about["project.scripts"].items()]
    for name, text in (
        ("METADATA", lines),
        ("WHEEL", ["Wheel-Version: 1.0", "Generator: lpis", "Root-Is-Purelib: false", f"Tag: {tag}"]),
        ("entry_points.txt", ["[console_scripts]", *scripts]),
    ):
        (facts / name).write_text("".join(f"{line}\n" for line in text), encoding="utf-8")
    manual = folder / CARRIED / "share" / "man"
    if manual.exists():
        place = folder / f"lpis-{version}.data" / "data" / "share"
        place.mkdir(parents=True)
        manual.rename(place / "man")
    return facts


def zipped(folder, facts, path):
    """Writes the wheel of a folder, with the list of its files and their digests."""
    record = facts.relative_to(folder) / "RECORD"
    lines = []
    with zipfile.ZipFile(path, "w") as file:
        for source in sorted(path for path in folder.rglob("*") if path.is_file()):
            name, data = source.relative_to(folder).as_posix(), source.read_bytes()
            put(file, name, data, source.stat().st_mode & 0o100)
            digest = base64.urlsafe_b64encode(hashlib.sha256(data).digest()).rstrip(b"=").decode("ascii")
            lines.append(f"{name},sha256={digest},{len(data)}\n")
        put(file, record.as_posix(), "".join([*lines, f"{record.as_posix()},,\n"]).encode("utf-8"), False)
    return path


def put(file, name, data, may_run):
    about = zipfile.ZipInfo(name, TIME)
    about.create_system, about.external_attr = 3, (0o100755 if may_run else 0o100644) << 16
    file.writestr(about, data, zipfile.ZIP_DEFLATED, 9)


def wheel(folder, out, version):
    """Writes the wheel of a planted folder; gives its path."""
    tag = tag_of(folder)
    return zipped(folder, describe(folder, version, tag), Path(out) / f"lpis-{version}-{tag}.whl")


# What pip calls, in a clone: of no finished version.


def build_wheel(wheel_directory, config_settings=None, metadata_directory=None):
    """`-C library=PATH` carries a library; without it the program answers."""
    with tempfile.TemporaryDirectory() as spare:
        folder = Path(spare)
        top = plant(folder, (config_settings or {}).get("library"))
        return wheel(
            folder, wheel_directory, version_of_wheel(version_of(top / "lib" / "lpis" / "program" / "lpis"), True)
        ).name


def build_editable(wheel_directory, config_settings=None, metadata_directory=None):
    """A wheel that leads to this clone."""
    version, tag = version_of_wheel(version_of(TOP / "program" / "lpis"), True), "py3-none-any"
    with tempfile.TemporaryDirectory() as spare:
        folder = Path(spare)
        (folder / "lpis.pth").write_text(f"{PACKAGE.parent}\n", encoding="utf-8")
        return zipped(folder, describe(folder, version, tag), Path(wheel_directory) / f"lpis-{version}-{tag}.whl").name


def build_sdist(sdist_directory, config_settings=None):
    raise OSError("the package is made of a clone of lpis: there is no archive of its sources")
