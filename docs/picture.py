#!/usr/bin/env python3
"""Makes a picture (SVG) of the drawings on standard input, side by side: each begins at a line without a piece.

bench/run gallery | docs/picture.py > docs/styles.svg
"""
import re
import sys
from html import escape

EIGHT = ["#000000", "#e06c75", "#98c379", "#e5c07b", "#61afef", "#c678dd", "#56b6c2", "#dcdfe4"]
WIDTH, HEIGHT = 8.4, 18


def indexed(n):
    """The colour of a number of the table of 256."""
    if n < 16:
        return EIGHT[n % 8]
    if n >= 232:
        return "#" + f"{8 + 10 * (n - 232):02x}" * 3
    steps = [0, 95, 135, 175, 215, 255]
    n -= 16
    return "#" + "".join(f"{steps[k]:02x}" for k in (n // 36, n // 6 % 6, n % 6))


def attributes(parameters):
    """What one code adds to a span."""
    p = [int(x) for x in parameters.split(";")]
    if p[0] == 1:
        return {"font-weight": "bold"}
    if p[0] == 2:
        return {"opacity": "0.6"}
    if p[0] == 3:
        return {"font-style": "italic"}
    if 30 <= p[0] < 38:
        return {"fill": EIGHT[p[0] - 30]}
    if p[:2] == [38, 5]:
        return {"fill": indexed(p[2])}
    if p[:2] == [38, 2]:
        return {"fill": "#%02x%02x%02x" % tuple(p[2:])}
    return {}


def spans(line):
    """The line's texts with their attributes."""
    found, style = [], {}
    for text, code in re.findall(r"([^\x1b]+)|\x1b\[([0-9;]*)m", line):
        if text:
            found.append((text, dict(style)))
        elif code == "0":
            style = {}
        else:
            style.update(attributes(code))
    return found


def main():
    drawings = []
    for line in sys.stdin.read().splitlines():
        plain = re.sub(r"\x1b\[[0-9;]*m", "", line)
        if plain[:1].isalnum():
            drawings.append([])
        drawings[-1].append((spans(line), len(plain)))
    columns = [max(n for _, n in drawing) for drawing in drawings]
    width = sum(columns) * WIDTH + 24 * (len(drawings) + 1)
    height = max(len(drawing) for drawing in drawings) * HEIGHT + 28
    print(f'<svg xmlns="http://www.w3.org/2000/svg" width="{width:.0f}" height="{height}" '
          'font-family="DejaVu Sans Mono, Menlo, Consolas, monospace" font-size="14" xml:space="preserve">')
    print(f'<rect width="{width:.0f}" height="{height}" rx="6" fill="#21252b"/>')
    left = 24.0
    for drawing, columns_of in zip(drawings, columns):
        for i, (texts, _) in enumerate(drawing):
            x = left
            for text, style in texts:
                style = {"fill": "#dcdfe4", **style}
                said = " ".join(f'{k}="{v}"' for k, v in style.items())
                print(f'<text x="{x:.1f}" y="{28 + i * HEIGHT}" textLength="{len(text) * WIDTH:.1f}" {said}>{escape(text)}</text>')
                x += len(text) * WIDTH
        left += columns_of * WIDTH + 24
    print("</svg>")


main()
