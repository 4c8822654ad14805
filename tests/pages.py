#!/usr/bin/env python3
"""Looks whether pages of rmmexplain are well formed: each tag is closed in its order, ids are unique, each link leads to one, there is no
script and no other file. Status 1 where one isn't. `examples/verify` calls it.

usage: pages.py PAGE..
"""
import sys
from html.parser import HTMLParser

VOID = {"meta", "input"}
DRAWN = {"rect", "circle", "polyline"}


class Page(HTMLParser):
    def __init__(self):
        super().__init__(convert_charrefs=True)
        self.open, self.ids, self.links, self.wrong = [], [], [], []

    def handle_starttag(self, tag, attributes):
        self.note(tag, attributes)
        if tag not in VOID:
            self.open.append(tag)

    def handle_startendtag(self, tag, attributes):
        self.note(tag, attributes)
        if tag not in DRAWN:
            self.wrong.append(f"<{tag}/>")

    def handle_endtag(self, tag):
        if not self.open or self.open.pop() != tag:
            self.wrong.append(f"</{tag}> out of order")

    def note(self, tag, attributes):
        if tag in ("script", "link", "img", "iframe"):
            self.wrong.append(f"<{tag}>")
        for name, value in attributes:
            if name == "id":
                self.ids.append(value)
            elif name == "href":
                self.links.append(value)
            elif name.startswith("on") or name == "src":
                self.wrong.append(f"{name}={value}")

    def faults(self):
        yield from self.wrong
        yield from (f"<{tag}> isn't closed" for tag in self.open)
        yield from (f"two ids {it}" for it in sorted({it for it in self.ids if self.ids.count(it) > 1}))
        yield from (f"no {link}" for link in self.links if not link.startswith("#") or link[1:] not in self.ids)


def main():
    if len(sys.argv) < 2:
        sys.exit(__doc__)
    status = 0
    for path in sys.argv[1:]:
        page = Page()
        with open(path, encoding="utf-8") as file:
            page.feed(file.read())
        page.close()
        for fault in page.faults():
            print(f"{path}: {fault}")
            status = 1
    sys.exit(status)


if __name__ == "__main__":
    main()
