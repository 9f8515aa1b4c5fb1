#!/usr/bin/env python3
"""Draws the first table of nanoseconds of docs/benches.md, read from standard input, in SVG: a bar for each cell, on a
logarithmic scale."""
import html
import math
import sys

WIDTH, LEFT, RIGHT, BAR, GAP, STEP = 860, 300, 60, 9, 14, 80
COLOURS = {
    "memory": "#dc2626",
    "opening": "#ea580c",
    "raw": "#ca8a04",
    "called": "#be185d",
    "mutex": "#3b82f6",
    "rwlock": "#0891b2",
    "seqlock": "#65a30d",
    "versions": "#0f766e",
    "collects": "#a855f7",
    "plain": "#6b7280",
}


def cells(line):
    return [cell.strip() for cell in line.strip().strip("|").split("|")]


def first_table(lines):
    """The names of the objects, and of each row in nanoseconds its title and its cells."""
    table = []
    for line in lines:
        if line.startswith("|") and (table or cells(line)[0] == "ns a call"):
            table.append(cells(line))
        elif table:
            break
    rows = [(row[0], row[1:]) for row in table[2:] if "milliseconds" not in row[0]]
    return table[0][1:], rows


def legend(names):
    for at, name in enumerate(names):
        x = 12 + at * STEP
        yield f'<rect x="{x}" y="10" width="10" height="10" fill="{COLOURS[name]}"/>'
        yield f'<text x="{x + 14}" y="19">{name}</text>'


def bars(names, rows, scale):
    y = 36
    for title, values in rows:
        middle = y + len(names) * BAR / 2 + 4
        yield f'<text x="{LEFT - 8}" y="{middle}" text-anchor="end">{html.escape(title)}</text>'
        for name, value in zip(names, values):
            if value != "-":
                length = max(1.0, math.log10(max(float(value), 1.0)) * scale)
                yield f'<rect x="{LEFT}" y="{y}" width="{length:.1f}" height="{BAR - 1}" fill="{COLOURS[name]}"/>'
                yield f'<text x="{LEFT + length + 4:.1f}" y="{y + BAR - 1}" font-size="9">{value}</text>'
            y += BAR
        y += GAP


def main():
    names, rows = first_table(sys.stdin)
    most = max(float(value) for _, values in rows for value in values if value != "-")
    scale = (WIDTH - LEFT - RIGHT) / math.log10(most)
    height = 36 + len(rows) * (len(names) * BAR + GAP)
    print(
        f'<svg xmlns="http://www.w3.org/2000/svg" width="{WIDTH}" height="{height}" viewBox="0 0 {WIDTH} {height}" '
        'font-family="sans-serif" font-size="11">'
    )
    print("<style>text{fill:#1f2937}@media(prefers-color-scheme:dark){text{fill:#e5e7eb}}</style>")
    for line in [*legend(names), *bars(names, rows, scale)]:
        print(line)
    print("</svg>")


main()
