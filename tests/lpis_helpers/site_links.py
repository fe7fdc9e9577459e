"""What the pages of a site of static files link and load, and what of it is not there."""

import html.parser
import os
from pathlib import Path


class Links(html.parser.HTMLParser):
    """What a page links and loads, and the places in it that can be linked."""

    def __init__(self, path):
        super().__init__()
        self.named, self.pictures, self.places = [], [], {""}
        self.feed(path.read_text(encoding="utf-8"))

    def handle_starttag(self, tag, attrs):
        found = dict(attrs)
        self.named += [found[key] for key in ("href", "src") if found.get(key)]
        self.pictures += [found["src"]] if tag == "img" else []
        self.places |= {found[key] for key in ("id", "name") if found.get(key)}


def pages_of(site):
    """The pages, by their paths; the one for a lost page has links that only a server finds."""
    return {path: Links(path) for path in site.rglob("*.html") if path.name != "404.html"}


def lost_links(site, pages):
    """The links to files, and to places in pages, that are not there."""
    lost = []
    for path, page in pages.items():
        for link in page.named:
            name, _, place = link.partition("#")
            target = Path(os.path.normpath(path.parent / name)) if name else path
            is_lost = not target.exists() or target in pages and place not in pages[target].places
            if ":" not in link and is_lost:
                lost.append(f"{path.relative_to(site)}: {link}")
    return lost


def expect_whole(site):
    """All links are found, and there are as many pages, links and pictures as the pages of this project have."""
    pages = pages_of(site)
    assert lost_links(site, pages) == []
    assert len(pages) > 40 and sum(len(page.named) for page in pages.values()) > 1_000
    pictures = {os.path.basename(name) for page in pages.values() for name in page.pictures}
    assert {"parcel.svg", "qgis-faults.png", "idea-walk.svg"} <= pictures
