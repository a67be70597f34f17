#!/usr/bin/env python3
"""Reads an output of hivesaddle on standard input, and writes what it found, a line each.

    read.py csv|json|svg|html
"""
import csv
import io
import json
import sys
import xml.etree.ElementTree
from html.parser import HTMLParser

SVG = "{http://www.w3.org/2000/svg}"
ALONE = {"meta", "line", "circle"}


def from_csv(text):
    for row in csv.DictReader(io.StringIO(text, newline=""), strict=True):
        print(list(row.values()))


def from_json(text):
    for row in json.loads(text):
        print(list(row.values()))


def from_svg(text):
    root = xml.etree.ElementTree.fromstring(text)
    for group in root.iter(SVG + "g"):
        bars = [path.get("d").count("M") for path in group.iter(SVG + "path")]
        print(group.find(SVG + "title").text, "|", group.find(SVG + "text").text, "|", sum(bars))
    elements = {element.tag.removeprefix(SVG) for element in root.iter()}
    assert elements <= {"svg", "title", "style", "clipPath", "rect", "text", "path", "g"}, elements
    assert text.count("http") == 1, "only the name of the language is an address"


class Page(HTMLParser):
    """Keeps the cells, and the bars as their titles, and sees that tags are closed."""

    def __init__(self):
        super().__init__()
        self.open, self.rows, self.bars = [], [], []

    def handle_starttag(self, tag, attributes):
        names = {name for name, _ in attributes}
        assert not names & {"src", "onload", "style", "action", "data"}, attributes
        assert all(value == "#table" for name, value in attributes if name == "href"), attributes
        assert tag not in {"link", "img", "iframe", "b", "base", "form"}, tag
        if tag not in ALONE:
            self.open.append(tag)
        if tag == "tr":
            self.rows.append([])
        if tag in {"td", "th"}:
            self.rows[-1].append("")
        if tag == "li":
            self.bars.append("")

    def handle_endtag(self, tag):
        assert tag in ALONE or self.open.pop() == tag, tag

    def handle_data(self, data):
        if self.open and self.open[-1] in {"td", "th"}:
            self.rows[-1][-1] += data
        if "li" in self.open:
            self.bars[-1] += data


def from_html(text):
    page = Page()
    page.feed(text)
    page.close()
    assert not page.open, page.open
    assert "http:" not in text and "https:" not in text and "url(" not in text
    assert text.count("<script>") == text.count("</script>") == 1
    for row in page.rows:
        print(row)
    for bar in page.bars:
        print(bar)


text = sys.stdin.buffer.read().decode()
{"csv": from_csv, "json": from_json, "svg": from_svg, "html": from_html}[sys.argv[1]](text)
