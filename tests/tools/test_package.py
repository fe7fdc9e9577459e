"""Tests dev/package and what docs/GUIDE.md says of installing. The archive is unpacked as another user (where root runs
this) in a folder with a space, without kit, clone and compiler on the path, and the lines of guide and README are run
word for word. The package is installed, upgraded and removed by dpkg in a folder of its own. Wants the program, built
or named by LPIS; dpkg and lintian for the package. It takes a sample: with WHOLE=1 lintian too, and 20,000 parcels
in the release whose publish is stopped."""

import os
import pathlib
import re
import shutil
import sqlite3
import subprocess
import tempfile
import time
import zipfile

import pytest
from lpis_helpers.calls import done, ended_with, run
from lpis_helpers.packing import AUTHOR, house
from lpis_helpers.places import BUILT, TOP
from lpis_helpers.spare import Kept, exhaustive, write_script
from lpis.system import shapely_there
from lpis_helpers import stopping
from lpis_helpers import tables

pytestmark = pytest.mark.finds_program
PATH = "/usr/sbin:/usr/bin:/sbin:/bin"
OTHER = {"user": "nobody", "group": "nogroup", "extra_groups": []} if os.geteuid() == 0 else {}
LOG_OF_TABLES = 5_000  # bytes, more than the log of a new register has before the first release is written
WHOLE = bool(os.environ.get("WHOLE"))
MANY = 20_000 if WHOLE else 5_000  # parcels of the release whose publish is stopped


def lines_of_readme():
    """The blocks of commands of README.md, each a list of (command, what it prints)."""
    blocks, is_block = [], False
    for line in (pathlib.Path(TOP) / "README.md").read_text(encoding="utf-8").splitlines():
        if line.startswith("    $ "):
            if not is_block:
                blocks.append([])
            blocks[-1].append((line[6:], []))
        elif line.startswith("    "):
            blocks[-1][-1][1].append(line[4:])
        is_block = line.startswith("    ")
    return blocks


def lines_of_install():
    """The commands of the guide's installation: of the package, and those of the archive."""
    part = (
        (pathlib.Path(TOP) / "docs" / "GUIDE.md")
        .read_text(encoding="utf-8")
        .split("\n## Install\n")[1]
        .split("\n## ")[0]
    )
    blocks = re.findall(r"(?m)(?:^    .*\n)+", part)
    return [[(line[4:], []) for line in block.splitlines()] for block in blocks]


def programs_of(path):
    """The processes that run a program."""
    found = []
    for process in filter(str.isdigit, os.listdir("/proc")):
        try:
            found += [int(process)] if os.path.samefile(f"/proc/{process}/exe", path) else []
        except OSError:
            pass
    return found


def is_written(register):
    """Whether a program writes a release into a new register: its log is longer than that of the tables."""
    log = pathlib.Path(f"{register}-wal")
    return log.exists() and log.stat().st_size > LOG_OF_TABLES


@pytest.mark.skipif(not BUILT, reason="the program is not built")
class TestPackages(Kept):
    @classmethod
    def set_up(cls):
        cls.top = pathlib.Path(cls.folder)
        os.chmod(cls.top, 0o755)
        cls.house = house(cls.top / "one")
        cls.packed = run(cls.house / "dev" / "package", "--unfinished", "--without-page")
        cls.out = cls.house / "out" / "package"
        cls.archive = next(cls.out.glob("*.tar.gz"), None)
        cls.package, cls.wheel = (next(cls.out.glob(pattern), None) for pattern in ("*.deb", "*.whl"))

    def test_only_what_passed_is_packed(self):
        (self.house / "README.md").write_text("changed", encoding="ascii")
        ended = run(self.house / "dev" / "package")
        done("git", "-C", self.house, "checkout", "-q", "README.md")
        assert (
            ended.returncode,
            "the whole test did not pass" in ended.stderr,
            "the tree has changes" in ended.stderr,
        ) == (1, True, True), ended.stderr
        assert "unfinished" in self.archive.name

    def dated(self, name):
        """A clone of the house whose CHANGELOG.md has a date behind the version of the program."""
        place = house(self.top / name, self.house)
        changes, version = place / "CHANGELOG.md", done(BUILT, "--version").split()[1]
        changes.write_text(
            changes.read_text(encoding="utf-8").replace(f"\n## {version}\n", f"\n## {version}, 2030-01-01\n"),
            encoding="utf-8",
        )
        self.commit(place)
        return place

    @staticmethod
    def commit(place):
        done("git", *AUTHOR, "-C", place, "commit", "-q", "--allow-empty", "-am", "changed")
        return done("git", "-C", place, "rev-parse", "--short=12", "HEAD").strip()

    @pytest.mark.long
    @pytest.mark.skipif(
        not (shutil.which("dpkg-deb") and shutil.which("mkdocs")), reason="no dpkg, or no mkdocs (Debian: dpkg, mkdocs)"
    )
    def test_release(self):
        """release/ has the files of the last version alone, as dev/lint wants them; a commit that is not finished
        changes nothing there."""
        place, version = self.dated("released"), done(BUILT, "--version").split()[1]
        for name, made in (("page", f"package/lpis-{version}.html"), ("library", "library/liblpis.so")):
            text = (
                f'#!/bin/sh\ncd "$(dirname "$0")/.." && mkdir -p out/{made.split("/")[0]} && echo {name} >out/{made}\n'
            )
            (place / "dev" / name).write_text(text, encoding="ascii")
        commit, release = self.commit(place), place / "release"
        release.mkdir(exist_ok=True)
        (release / "lpis-0.0.1.html").write_text("older", encoding="ascii")
        (place / ".git" / "info" / "exclude").write_text("release\n", encoding="ascii")
        assert (
            run(place / "dev" / "package", "--release").returncode,
            [path.name for path in release.glob("lpis-0.0.1*")],
        ) == (1, ["lpis-0.0.1.html"])
        (place / "out" / "gate.log").write_text(
            f"     9.0 6 passed, 0 failed\n# date 2030-01-02\n# commit {commit}\n", encoding="ascii"
        )
        done(place / "dev" / "package", "--release", cwd=place)
        names = {
            "SHA256SUMS",
            "facts",
            f"lpis-{version}.html",
            f"lpis-{version}-linux-x86_64.tar.gz",
            f"lpis-{version}-site.zip",
            f"lpis_{version}_amd64.deb",
            f"lpis-{version}-py3-none-manylinux_2_34_x86_64.whl",
        }
        assert {path.name for path in release.iterdir() if "qgis" not in path.name} == names
        assert run("sha256sum", "-c", "SHA256SUMS", cwd=release).returncode == 0
        told = run(place / "dev" / "lint").stdout.splitlines()
        assert [line for line in told if line.startswith("release") and "qgis" not in line] == []
        with zipfile.ZipFile(next(release.glob("*.whl"))) as wheel:
            assert wheel.read("lpis/carried/lib/lpis/program/liblpis.so") == b"library\n"
        (release / f"lpis-{version}.html").write_text("another", encoding="ascii")
        assert f"release/lpis-{version}.html: is not as SHA256SUMS has it" in run(place / "dev" / "lint").stdout

    def test_verify_wants_a_file(self):
        """Before anything is proved."""
        ended = run(self.house / "dev" / "package", "--verify", self.top / "none.tar.gz")
        assert (ended.returncode, "none.tar.gz is not there" in ended.stderr, "prov" in ended.stderr) == (
            64,
            True,
            False,
        ), ended.stderr

    @pytest.mark.long
    def test_finished(self):
        """A commit on which the whole test passed, by its log, is packed by its version; one with another commit's
        log, or another commit's tag, is not."""
        finished = self.dated("finished")
        commit = done("git", "-C", finished, "rev-parse", "--short=12", "HEAD").strip()
        log = finished / "out" / "gate.log"
        for text, wanted in (
            (f"     9.0 5 passed, 1 failed\n# commit {commit}\n", 1),
            (f"     9.0 6 passed, 0 failed\n# commit {commit}, with changes\n", 1),
            (f"     9.0 6 passed, 0 failed\n# date 2030-01-02\n# commit {commit}\n", 0),
        ):
            log.write_text(text, encoding="ascii")
            ended = ended_with(wanted, run(finished / "dev" / "package", "--without-page"))
        assert f"test 2030-01-02 on {commit}: 6 passed, 0 failed\n" in (
            finished / "out" / "package" / "facts"
        ).read_text(encoding="ascii")
        assert re.search(
            r"^lpis-\d+\.\d+\.\d+-linux-x86_64\.tar\.gz$", next((finished / "out" / "package").glob("*.tar.gz")).name
        )
        version = done(BUILT, "--version").split()[1]
        done("git", *AUTHOR, "-C", finished, "tag", f"v{version}", "HEAD~1")
        ended = run(finished / "dev" / "package", "--without-page")
        assert (ended.returncode, f"v{version} is another commit" in ended.stderr) == (1, True), ended.stderr

    def test_no_page_is_no_package(self):
        """Where the page can't be made, nothing is packed unless that is asked for."""
        tools = self.top / "tools"
        tools.mkdir()
        for name in ("rt", "wasm-opt"):
            write_script("#!/bin/sh\nexit 1\n", tools / name)
        other = house(self.top / "no page", self.house)
        ended = run(
            other / "dev" / "package", "--unfinished", env={**os.environ, "PATH": f"{tools}:{os.environ['PATH']}"}
        )
        assert (
            ended.returncode,
            "rt ended with status 1" in ended.stderr,
            "--without-page packs the rest" in ended.stderr,
        ) == (64, True, True), ended.stderr
        assert list((other / "out" / "package").glob("lpis*")) == []

    def test_sums(self):
        assert run("sha256sum", "-c", "SHA256SUMS", cwd=self.out).returncode == 0, self.packed.stderr
        facts = (self.out / "facts").read_text(encoding="utf-8")
        digest = done("sha256sum", BUILT).split()[0]
        assert f"sha256 {digest}\n" in facts

    def test_two_packings_are_equal(self):
        other = house(self.top / "an other" / "place", self.house)
        done(
            other / "dev" / "package",
            "--unfinished",
            "--without-page",
            env={**os.environ, "TZ": "Asia/Tokyo"},
            umask=0o077,
        )
        sums = [(place / "out" / "package" / "SHA256SUMS").read_text(encoding="utf-8") for place in (self.house, other)]
        assert sums[0] == sums[1]

    @pytest.mark.parametrize("kind", ("archive", exhaustive("package"), exhaustive("wheel")))
    def test_verify(self, kind):
        file = getattr(self, kind) or pytest.skip("no dpkg (Debian: dpkg)")
        ended = ended_with(0, run(self.house / "dev" / "package", "--verify", file))
        assert f"the program of {file.name} is that of these sources" in ended.stdout, ended.stdout

    def test_verify_what_was_changed(self):
        changed = self.top / "changed"
        changed.mkdir()
        done("tar", "-xzf", self.archive, "-C", changed)
        name = next(changed.iterdir()).name
        for path in ("lib/lpis/program/lpis", "lib/lpis/explain"):
            with open(changed / name / path, "ab") as file:
                file.write(b"#")
        done("tar", "-czf", changed / self.archive.name, "-C", changed, name)
        ended = run(self.house / "dev" / "package", "--verify", changed / self.archive.name)
        assert (
            ended.returncode,
            [
                word in ended.stdout
                for word in ("is not that of these sources", "lib/lpis/explain: it differs", "lib/lpis/report")
            ],
        ) == (1, [True, True, False]), ended.stdout

    def check_lines(self, folder, blocks, **more):
        """Runs the lines of blocks in one shell, and compares what each prints."""
        script = ["set -u"]
        for number, (command, _) in enumerate([line for block in blocks for line in block]):
            script += [f'exec 8>&1 >"$OUT/{number}"', command, 'echo "$?" >>"$OUT/status"', "exec >&8 8>&-"]
        out = pathlib.Path(tempfile.mkdtemp(dir=self.top))
        os.chmod(out, 0o777)
        ended = run(
            "bash",
            "-c",
            "\n".join(script),
            cwd=folder,
            env={"PATH": PATH, "HOME": str(folder), "LC_ALL": "C.UTF-8", "OUT": str(out), "TMPDIR": str(out)},
            **more,
        )
        for number, (command, wanted) in enumerate([line for block in blocks for line in block]):
            lines = (out / str(number)).read_text(encoding="utf-8").splitlines()
            assert [line.rstrip() for line in lines] == wanted, f"{command}\n{ended.stderr}"
        return ended

    def test_lines_of_readme_with_the_archive(self):
        folder = self.top / "a folder für lpis"
        (folder / "release").mkdir(parents=True)
        os.chmod(folder, 0o777)
        shutil.copy(self.archive, folder / "release")
        valley, (_, area, *_), _, gap, years = lines_of_readme()
        _, install = lines_of_install()
        version = [("lpis --version | tail -n 4", self.facts())]
        shown = [valley, gap] if shapely_there.python() else []
        self.check_lines(folder, [install, [(area[0], ["100.0000000"])], *shown, years, version], **OTHER)
        top = next(path for path in folder.iterdir() if (path / "bin").exists())
        links = re.findall(r"\]\(([^)#]+)\)", (top / "README.md").read_text(encoding="utf-8"))
        assert [link for link in links if not (top / link).exists()] == []
        assert "docs/GUIDE.md" in links
        assert "./test" not in (top / "README.md").read_text(encoding="utf-8")  # which is of a clone alone
        assert [path for path in top.rglob("*") if path.is_symlink() and not path.exists()] == []

    def test_a_publish_that_is_stopped(self):
        """By a signal to the script, while the program writes: the script ends by it, no program runs on, and the
        register is whole."""
        folder = self.top / "stopped"
        folder.mkdir()
        top = self.unpacked(folder)
        program, script, release, cert = (
            top / "lib" / "lpis" / "program" / "lpis",
            top / "bin" / "lpis",
            folder / "release",
            folder / "cert.txt",
        )
        tables.write_squares(release, MANY)
        (release / "lineage.csv").write_text("old,new\n", encoding="ascii")
        done(script, "cut", release, cert)
        ends = set()
        for number in stopping.SIGNALS:
            register = folder / f"{number.name}.db"
            publish = [script, "publish", register, "2024", release, cert]
            with subprocess.Popen(
                publish, stdout=subprocess.DEVNULL, stderr=subprocess.DEVNULL, preexec_fn=stopping.hears_signals
            ) as running:
                while running.poll() is None and not is_written(register):
                    time.sleep(0.001)
                running.send_signal(number)
                ended = running.wait()
            assert programs_of(program) == [], number.name
            assert ended in (-number, 0), number.name  # 0: it was through before the signal came
            ends.add(ended)
            published = run(script, *publish[1:])
            assert (published.returncode, "published 2024" in published.stdout) == (
                (0, True) if ended else (1, False)
            ), (published.stdout + published.stderr)
            with sqlite3.connect(register) as base:
                rows = [
                    base.execute(f"SELECT count(*) FROM {name}").fetchone()[0] for name in ("lpis_release", "lpis_text")
                ]
                assert (base.execute("PRAGMA integrity_check").fetchone()[0], rows) == ("ok", [1, MANY]), number.name
            base.close()
        if WHOLE:  # a small one may be through each time
            assert ends != {0}

    def unpacked(self, folder):
        done("tar", "-xzf", self.archive, "-C", folder)
        return next(path for path in folder.iterdir() if path.is_dir())

    def facts(self):
        commit = done("git", "-C", self.house, "rev-parse", "--short=12", "HEAD").strip()
        sources = done(self.house / "dev" / "sources").strip()
        return [
            f"commit {commit}",
            "kit rattle-kit-0 logic 1",
            f"sources {sources}",
            "unfinished: the whole test did not pass on this commit",
        ]

    @pytest.mark.skipif(
        not (WHOLE and shutil.which("lintian")), reason="WHOLE is not set, or there is no lintian (Debian: lintian)"
    )
    def test_lintian(self):
        ended_with(0, run("lintian", "--fail-on", "error", "--allow-root", self.package))

    @pytest.mark.skipif(not (shutil.which("dpkg-deb") and shutil.which("dpkg")), reason="no dpkg (Debian: dpkg)")
    def test_package(self):
        """Installed over an older version, with a tool that is no more, and removed: what the user made stays, and
        nothing else."""
        older = self.top / "older"
        done("dpkg-deb", "-R", self.package, older)
        control = older / "DEBIAN" / "control"
        control.write_text(
            re.sub(r"(?m)^Version: .*$", "Version: 0.0.1", control.read_text(encoding="utf-8")), encoding="utf-8"
        )
        (older / "usr" / "bin" / "lpis-older").symlink_to("../lib/lpis/older")
        (older / "usr" / "lib" / "lpis" / "older").write_text("old\n", encoding="ascii")
        done("dpkg-deb", "-Znone", "--root-owner-group", "--build", older, self.top / "older.deb")
        root = self.top / "root"
        for name in ("var/lib/dpkg/updates", "var/lib/dpkg/info", "usr/bin", "home"):
            (root / name).mkdir(parents=True)
        for name in ("status", "available"):
            (root / "var/lib/dpkg" / name).touch()
        # (dpkg wants programs that are not on the PATH of all users)
        path = f"PATH={os.environ['PATH']}:/usr/sbin:/sbin"
        dpkg = [
            "env",
            path,
            "dpkg",
            f"--root={root}",
            "--force-depends",
            "--force-not-root",
            "--force-script-chrootless",
            f"--log={self.top}/dpkg.log",
        ]
        done(*dpkg, "-i", self.top / "older.deb")
        assert (root / "usr/bin/lpis-older").is_symlink()
        done(*dpkg, "-i", self.package)
        assert (os.path.lexists(root / "usr/bin/lpis-older"), (root / "usr/lib/lpis/older").exists()) == (False, False)
        os.chmod(root / "home", 0o777)
        years, (install, _) = lines_of_readme()[-1], lines_of_install()
        copied = [
            (f"cp -r '{root}/usr/share/doc/lpis/examples' .", []),
            (f"PATH='{root}/usr/bin':$PATH", []),
            ("echo mine >mine.txt", []),
        ]
        assert [line for line, _ in install] == ["sudo apt install ./release/lpis_*_amd64.deb"]
        self.check_lines(
            root / "home",
            [copied, [(line.replace("./lpis", "lpis").replace("tools/", "lpis-"), wanted) for line, wanted in years]],
            **OTHER,
        )
        for tool in sorted((root / "usr" / "bin").iterdir()):
            ended = run(tool, "--help", env={"PATH": PATH, "HOME": "/"})
            assert (ended.returncode, bool(ended.stdout)) == (0, True), f"{tool}: {ended.stderr}"
        done(*dpkg, "-r", "lpis")
        left = sorted(
            str(path.relative_to(root))
            for path in root.rglob("*")
            if not path.is_dir() and "var/lib/dpkg" not in str(path)
        )
        assert [path for path in left if not path.startswith("home/")] == []
        assert "home/mine.txt" in left
