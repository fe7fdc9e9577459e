"""A clone of this tree in which something is packed."""

import os
import shutil

from lpis_helpers.calls import done
from lpis_helpers.places import BUILT, TOP

AUTHOR = ["-c", "user.name=a", "-c", "user.email=a@b", "-c", "commit.gpgsign=false"]


def house(folder, source=TOP):
    """A clone with this tree's files, changed ones too, without its tags, and the program as if it was built of
    them."""
    done("git", "clone", "-q", *["--no-tags"] * (source == TOP), source, folder)
    if source == TOP:
        names = done("git", "-C", TOP, "ls-files", "-z", "-m", "-o", "--exclude-standard").split("\0")
        for name in filter(None, names):
            (folder / name).unlink(missing_ok=True)
            if os.path.exists(os.path.join(TOP, name)):
                (folder / name).parent.mkdir(parents=True, exist_ok=True)
                shutil.copy(os.path.join(TOP, name), folder / name)
        done("git", *AUTHOR, "-C", folder, "add", "-A")
        done("git", *AUTHOR, "-C", folder, "commit", "-q", "--allow-empty", "-m", "as it is")
    program = folder / "out" / "program"
    program.mkdir(parents=True)
    shutil.copy(BUILT, program / "lpis")
    commit = done("git", "-C", folder, "rev-parse", "--short=12", "HEAD")
    (program / "facts").write_text(
        f"commit {commit}kit rattle-kit-0 logic 1\nsources {done(folder / 'dev' / 'sources')}", encoding="ascii"
    )
    return folder
