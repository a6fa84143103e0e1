"""The tables of a survey: cells.csv, index.geojson and index.html, from the lines that one_tile.py leaves."""
import csv
import html
import io
import json
import math
import os

from tiling import UNIT

COUNTS = ("areas", "contours", "soundings", "bytes")
LIMITS = ("west", "south", "east", "north")
COLOURS = {"tiles": "#d8ecd9", "no data": "#eeeeee", "refused": "#f6cfc6", "check": "#f8e3a8"}

PAGE = """<!DOCTYPE html>
<html lang="en">
<head>
<meta charset="utf-8">
<title>{title}</title>
<style>
body {{ font-family: sans-serif; margin: 1.5em; color: #222 }}
svg {{ display: block; max-width: 100%; height: auto }}
svg text {{ text-anchor: middle; dominant-baseline: central }}
svg rect {{ stroke: #444; vector-effect: non-scaling-stroke }}
svg a:hover rect {{ stroke-width: 3 }}
table {{ border-collapse: collapse; margin-top: 1.5em; font-variant-numeric: tabular-nums }}
th, td {{ padding: 0.15em 0.5em; font-size: 0.9em; border-bottom: 1px solid #ccc; text-align: right; white-space: nowrap }}
th:first-child, td:first-child, th.verdict, td.verdict {{ text-align: left }}
</style>
</head>
<body>
<h1>{title}</h1>
<p>{summary}</p>
{drawing}
<table>
<tr>{heads}</tr>
{rows}
</table>
</body>
</html>
"""


def read_lines(paths):
    """The lines of all tiles, by their names."""
    lines = []
    for path in paths:
        with open(path) as file:
            lines.append(json.load(file))
    return sorted(lines, key=lambda line: line["name"])


def write(path, text):
    """A file that is there once it is whole."""
    with open(path + ".part", "w", newline="") as out:
        out.write(text)
    os.replace(path + ".part", path)


def degrees(units):
    """Units as degrees with seven decimals."""
    return f"{'-' if units < 0 else ''}{abs(units) // UNIT}.{abs(units) % UNIT:07}"


def is_cell(line):
    return "bytes" in line


def kind(line):
    """What became of a tile: `tiles`, `no data`, `refused`, or `check` where the check of its cell found something."""
    verdict = line["verdict"]
    return next((it for it in ("tiles", "no data", "refused") if verdict.startswith(it)), "check")


def columns(line):
    """The columns of a tile's line in the table, as texts."""
    found = {"name": line["name"], **dict(zip(LIMITS, map(degrees, line["limits"])))}
    found.update((key, str(line.get(key, ""))) for key in COUNTS)
    return {**found, "verdict": line["verdict"], "seconds": f"{line['seconds']:.2f}"}


def write_table(path, lines):
    rows = [columns(line) for line in lines]
    text = io.StringIO()
    table = csv.DictWriter(text, rows[0], lineterminator="\n")
    table.writeheader()
    table.writerows(rows)
    write(path, text.getvalue())


def write_index(path, lines):
    """The coverages of the cells as GeoJSON (RFC 7946)."""
    features = []
    for line in filter(is_cell, lines):
        west, south, east, north = (it / UNIT for it in line["limits"])
        ring = [[west, south], [east, south], [east, north], [west, north], [west, south]]
        shape = {"type": "Polygon", "coordinates": [ring]}
        told = {key: line[key] for key in ("name", *COUNTS, "verdict", "seconds")}
        told["cell"] = f"cells/{line['name']}.000"
        features.append({"type": "Feature", "properties": told, "geometry": shape})
    lines = ",\n".join(map(json.dumps, features))
    write(path, f'{{"type": "FeatureCollection", "features": [\n{lines}\n]}}\n')


# ---- the sheet of all coverages


def summary(lines):
    """What became of the tiles, in a sentence."""
    cells = [line for line in lines if is_cell(line)]
    passed, refused, empty = (sum(kind(line) == it for line in lines) for it in ("tiles", "refused", "no data"))
    size = sum(line["bytes"] for line in cells)
    return (
        f"{len(lines)} tiles: {len(cells)} cells of {size:,} bytes, of which {passed} pass the check; {refused} refused,"
        f" {empty} without data. Pointing at a tile shows its verdict; a cell leads to its picture."
    )


def drawing(lines):
    """All tiles at their places, with names and verdicts."""
    west, south = (min(line["limits"][k] for line in lines) for k in (0, 1))
    east, north = (max(line["limits"][k] for line in lines) for k in (2, 3))
    narrow = max(math.cos(math.radians((south + north) / 2 / UNIT)), 0.01)
    scale = 1400 / max((east - west) * narrow, north - south)
    across, up = scale * narrow, scale
    width, height = (east - west) * across, (north - south) * up
    parts = [f'<svg xmlns="http://www.w3.org/2000/svg" width="{width + 40:.0f}" height="{height + 60:.0f}" viewBox="-20 -30 {width + 40:.2f} {height + 60:.2f}">']
    for line in lines:
        w, s, e, n = line["limits"]
        x, y, wide, high = (w - west) * across, (north - n) * up, (e - w) * across, (n - s) * up
        parts.append(box(line, x, y, wide, high))
    corners = [
        (0, -15, "start", f"{degrees(west)}, {degrees(north)}"),
        (width, height + 15, "end", f"{degrees(east)}, {degrees(south)}"),
    ]
    for x, y, anchor, text in corners:
        parts.append(f'<text x="{x:.2f}" y="{y:.2f}" font-size="14" style="text-anchor: {anchor}">{text}</text>')
    return "\n".join([*parts, "</svg>"])


def box(line, x, y, wide, high):
    """A tile of the drawing; a cell leads to its picture."""
    shown = kind(line)
    verdict = line["verdict"] if shown in ("tiles", "no data") else line["verdict"].split()[0]
    size = min(wide / 6.5, high / 4, 24)
    middle = x + wide / 2
    told = html.escape(f"{line['name']}: {line['verdict']}")
    text = (
        f'<rect x="{x:.2f}" y="{y:.2f}" width="{wide:.2f}" height="{high:.2f}" fill="{COLOURS[shown]}"/>'
        f'<text x="{middle:.2f}" y="{y + high / 2 - 0.7 * size:.2f}" font-size="{size:.2f}">{html.escape(line["name"])}</text>'
        f'<text x="{middle:.2f}" y="{y + high / 2 + 0.7 * size:.2f}" font-size="{0.8 * size:.2f}">{html.escape(verdict)}</text>'
        f"<title>{told}</title>"
    )
    return f'<a href="cells/{line["name"]}.svg">{text}</a>' if is_cell(line) else f"<g>{text}</g>"


def write_sheet(path, lines, raster):
    """One page: all coverages with names and verdicts, and the table. It names no file but the pictures beside it."""
    rows = [columns(line) for line in lines]
    heads = "".join(f'<th class="{key}">{key}</th>' for key in rows[0])
    cells = ("".join(f'<td class="{key}">{html.escape(text)}</td>' for key, text in row.items()) for row in rows)
    body = "\n".join(f"<tr>{row}</tr>" for row in cells)
    title = f"Cells of {html.escape(raster)}"
    write(path, PAGE.format(title=title, summary=summary(lines), drawing=drawing(lines), heads=heads, rows=body))
