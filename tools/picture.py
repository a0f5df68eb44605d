#!/usr/bin/env python3
"""Draws docs/picture.svg: the layers of crates, and the way of K1's octets from an area to a sheet and back.

usage: picture.py > docs/picture.svg

The layers are the headings of crates.txt, with the words after each crate's line. Fails where a crate has no words, or uses one that
stands neither below it nor on its left.
"""
import pathlib
import re
import sys

WIDTH = 1080
INK, LINE, PALE = "#1b2a3a", "#8aa0b4", "#f4f7fa"

# K1: parts of the area and of the sheet, in octets; a part with the same colour is carried over.
AREA = [("code 144", 2, None), ("length 48", 2, None), ("priority", 2, "#f2b8a0"), ("ADN length", 2, None), ("name", 18, "#a9d3c4"), ("addr length", 2, None), ("address", 16, "#f3dc9b"), ("alpn dot", 8, "#b9c8ee")]
SHEET = [("RSV", 3, None), ("version", 2, None), ("carrier", 1, None), ("count", 1, None), ("priority", 2, "#f2b8a0"), ("lifetime", 4, None), ("mode", 1, None), ("length", 1, None), ("name", 18, "#a9d3c4"), ("count", 1, None), ("address", 16, "#f3dc9b"), ("length", 2, None), ("alpn dot", 8, "#b9c8ee")]


def text(x, y, s, size=13, anchor="middle", weight="normal", fill=INK):
    return f'<text x="{x:.1f}" y="{y:.1f}" font-size="{size}" text-anchor="{anchor}" font-weight="{weight}" fill="{fill}">{s}</text>'


def box(x, y, w, h, fill):
    return f'<rect x="{x:.1f}" y="{y:.1f}" width="{w:.1f}" height="{h:.1f}" rx="4" fill="{fill}" stroke="{LINE}"/>'


def crates():
    """The layers of crates.txt from bottom to top: a title, and for each crate its name, the crates it uses and a word on it."""
    rows = []
    for line in (pathlib.Path(__file__).resolve().parent.parent / "crates.txt").read_text().splitlines():
        heading = re.fullmatch(r"# ---- (.+)", line)
        crate = re.fullmatch(r"(\w+)(?: staticlib)?:([^#]*)(?:# (.+))?", line)
        if heading:
            rows.append((heading.group(1), []))
        elif crate:
            rows[-1][1].append((crate.group(1), crate.group(2).split(), crate.group(3)))
    return [row for row in rows if row[0] != "programs"]


def layers(top, rows):
    out = [text(20, top, "Layers: each crate uses only what stands below it, or beside it on its left", 16, "start", "bold")]
    y = top + 18
    w = (WIDTH - 180) / max(len(row) for _, row in rows)
    for title, row in reversed(rows):
        out.append(text(20, y + 30, title, 13, "start", fill="#51687d"))
        for i, (name, _, word) in enumerate(row):
            x = 160 + i * w
            out += [box(x, y, w - 10, 46, PALE), text(x + (w - 10) / 2, y + 20, name, 14, weight="bold"), text(x + (w - 10) / 2, y + 38, word, 12)]
        y += 56
    return out, y


def strip(parts, y, scale, below):
    """A row of octets in boxes; returns the drawing and the middle of each coloured part."""
    out, x, middles = [], 20.0, {}
    for i, (name, octets, colour) in enumerate(parts):
        w = octets * scale
        out.append(box(x, y, w, 34, colour or PALE))
        if colour:
            middles[name] = x + w / 2
        if w > 100:
            out.append(text(x + w / 2, y + 22, f"{name}, {octets}", 12))
        else:
            lift = 12 + 13 * (i % 3)
            at = y + 34 + lift if below else y - lift + 6
            out.append(text(x + w / 2, at, f"{name}, {octets}" if octets > 1 else name, 10, fill="#51687d"))
        x += w
    return out, middles


def way(top):
    scale = (WIDTH - 40) / 60
    out = [text(20, top, "K1 (DHCPv6): 52 octets of an option, and the 60 octets of its sheet", 16, "start", "bold")]
    upper, above = strip(AREA, top + 62, scale, False)
    lower, under = strip(SHEET, top + 168, scale, True)
    for name, x in above.items():
        out.append(f'<path d="M{x:.1f} {top + 96} C{x:.1f} {top + 132} {under[name]:.1f} {top + 132} {under[name]:.1f} {top + 168}" fill="none" stroke="{LINE}" stroke-width="2"/>')
    out += upper + lower
    words = "down, read: framed, split into fields, judged, unusable addresses dropped, ordered by priority   ·   up, written: taken apart, judged, laid out"
    out.append(text(WIDTH / 2, top + 270, words, 12, fill="#51687d"))
    return out, top + 290


def misplaced(rows):
    """The crates without words, and the uses that the picture denies."""
    place = {name: (height, i) for height, (_, row) in enumerate(rows) for i, (name, _, _) in enumerate(row)}
    for _, row in rows:
        for crate, uses, word in row:
            if not word:
                yield f"{crate} has no words"
            yield from (f"{crate} uses {use}" for use in uses if use in place and place[use] >= place[crate])


def main():
    rows = crates()
    wrong = list(misplaced(rows))
    if wrong:
        sys.exit("picture.py: " + "; ".join(wrong))
    first, y = layers(34, rows)
    second, height = way(y + 30)
    print(f'<svg xmlns="http://www.w3.org/2000/svg" viewBox="0 0 {WIDTH} {height:.0f}" font-family="sans-serif">')
    print(f'<rect width="{WIDTH}" height="{height:.0f}" fill="white"/>')
    print("\n".join(first + second))
    print("</svg>")


main()
