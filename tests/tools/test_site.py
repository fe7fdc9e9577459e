"""The site of the pages, dev/site: each link and each picture is there, and the search knows the pages."""

import json
import shutil
import subprocess
from pathlib import Path

import pytest
from lpis_helpers import site_links
from lpis_helpers.places import TOP

SITE = Path(TOP, "dev", "site")


@pytest.fixture(scope="module", name="site")
def made(tmp_path_factory):
    if not shutil.which("mkdocs"):
        pytest.skip("there is no mkdocs (dev/packages)")
    folder = tmp_path_factory.mktemp("site")
    done = subprocess.run([SITE, folder], capture_output=True, text=True, check=False)
    assert (done.returncode, done.stderr) == (0, "")
    return folder


def test_links(site):
    site_links.expect_whole(site)


def test_a_lost_link_is_seen(tmp_path):
    (tmp_path / "one.html").write_text('<a href="#here"></a><a href="two.html#there"></a>', encoding="utf-8")
    (tmp_path / "two.html").write_text(
        '<h1 id="here"></h1><img src="none.png"><a href="https://x"></a>', encoding="utf-8"
    )
    lost = site_links.lost_links(tmp_path, site_links.pages_of(tmp_path))
    assert sorted(lost) == ["one.html: #here", "one.html: two.html#there", "two.html: none.png"]


def test_search(site):
    places = json.loads((site / "search" / "search_index.json").read_text(encoding="utf-8"))["docs"]
    assert {"docs/BELIEVE.html", "docs/GUIDE.html", "docs/believe/tables.html"} <= {
        place["location"].partition("#")[0] for place in places
    }


def test_words():
    assert subprocess.run([SITE, "one", "two"], capture_output=True, check=False).returncode == 64
