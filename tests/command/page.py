#!/usr/bin/env python3
"""page.py PAGE SHEET LOG ..: whether the page of the logs is well formed, fetches nothing and has no script, has the numbers of the sheet (the table that
the command should print), and shows each log's items where their places put them: 24 ms for each period of 6,144 bytes, at most 600 columns."""
import re
import sys
import xml.etree.ElementTree as tree

SVG = "{http://www.w3.org/2000/svg}"
LOST = {2: "sync word is neither of the two", 3: "status byte is none of the four", 5: "NST above 64", 6: "header sum wrong", 7: "FCT above 249",
        8: "some STL above 684", 9: "FL differs from the formula", 10: "FL above 1,532"}
LEVELS = ["no damage known", "as it came", "main-stream sum wrong, or as it came", "the worst, as it came"]


def name(kind, code, level):
    if kind == 0:
        return "frames at level %d: %s" % (level, LEVELS[level])
    return "lost, refusal %d: %s" % (code, LOST[code]) if kind == 1 else "idle: null transmission"


def clock(period, whole):
    ms = 24 * period
    return "%d.%03d s" % (ms // 1000, ms % 1000) if 24 * whole < 60000 else "%d:%02d:%02d" % (ms // 3600000, ms // 60000 % 60, ms // 1000 % 60)


def lanes_due(log):
    """Of each name that occurs: the lane's title, and the units of the strip that its marks cover."""
    items = [(int.from_bytes(log[i:i + 8], "big") // 6144, name(*log[i + 8:i + 11])) for i in range(0, len(log), 16)]
    if not items:
        return []
    whole = max(p for p, _ in items) + 1
    each = -(-whole // 600)
    columns = -(-whole // each)
    due = []
    for what in [name(0, 0, v) for v in range(4)] + [name(1, n, 255) for n in LOST] + [name(2, 4, 255)]:
        places = [p for p, w in items if w == what]
        if places:
            title = "%s: %d of %d items, the first at %s, the last at %s" % (what, len(places), len(items), clock(min(places), whole), clock(max(places), whole))
            due.append((title, {u for c in {p // each for p in places} for u in range(c * 600 // columns, (c + 1) * 600 // columns)}))
    return due


def lanes_shown(picture):
    shown = []
    for group in picture.findall(SVG + "g"):
        left = int(group.find(SVG + "rect").get("x"))
        units = set()
        for x, wide, tall, back in re.findall(r"M(\d+) \d+h(\d+)v-(\d+)h-(\d+)z", group.find(SVG + "path").get("d")):
            assert wide == back and 3 <= int(tall) <= 16
            units |= set(range(int(x) - left, int(x) - left + int(wide)))
        shown.append((group.find(SVG + "title").text, units))
    return shown


def main(page, sheet, *logs):
    raw = open(page, "rb").read()
    assert len(raw) < 20000 + 150000 * len(logs), "the page is too long"
    text = raw.decode("ascii")
    assert not re.search(r"<script|<link|<img|src=|href=|url\(|@import", text, re.I), "it has a script or fetches something"
    assert set(re.findall(r"https?://[^\"]*", text)) <= {"http://www.w3.org/1999/xhtml", "http://www.w3.org/2000/svg"}
    pictures = tree.fromstring(raw).findall(".//" + SVG + "svg")
    for picture in pictures:
        assert picture.find(SVG + "title").text and picture.find(SVG + "desc").text and picture.get("role") == "img"
    rows = [line.split(None, 2) for line in open(sheet).read().splitlines()[1:]]
    bars = [(g.find(SVG + "title").text, g.findall(SVG + "text")[1].text) for g in pictures[0].findall(SVG + "g")]
    assert bars == [("%s: %s" % (what, n), "%s (%s per cent)" % (n, part)) for n, part, what in rows[:13]], "the bars are not the sheet's"
    assert "<p>%s items of " % rows[13][0] in text and "to the next: %s.</p>" % rows[14][0] in text
    due = [lanes for lanes in (lanes_due(open(log, "rb").read()) for log in logs) if lanes]
    assert [lanes_shown(picture) for picture in pictures[1:]] == due, "the strips are not the logs'"


main(*sys.argv[1:])
