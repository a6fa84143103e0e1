#!/usr/bin/env python3
"""Makes the cell of one tile: cuts the grid out of the raster, compiles it, checks the cell and draws it.

    one_tile.py CHART RASTER BAND SHEET OUT TILE

TILE is the tile as JSON. Leaves OUT/grids/NAME.asc and NAME.toml, OUT/cells/NAME.000 and NAME.svg, and then
OUT/lines/NAME.json, the tile's line of the table. A tile without data and a tile that is refused have no cell; their
lines say so. Files get their names when they are whole. Where the program ends otherwise (a device failed, want of
memory) this ends with status 1 and leaves no line.
"""
import json
import os
import subprocess
import sys
import time

import numpy
from osgeo import gdal

import tiling
from tables import write

gdal.UseExceptions()


def row_text(values, empty):
    """The words of a row: decimals that read back as the raster's own numbers, `nan` where there is no data.

    A floating-point number with a decimal of at most three places that reads back as the same number is written so, else
    with as many digits as its type asks for.
    """
    if values.dtype.kind in "iu":
        form = numpy.where(empty, "nan", "%d")
    else:
        exact = values.astype("float64")
        is_short = (numpy.rint(exact * 1000) / 1000).astype(values.dtype) == values
        form = numpy.where(empty, "nan", numpy.where(is_short, "%.3f", "%.17g" if values.dtype.itemsize == 8 else "%.9g"))
    return " ".join(form.tolist()) % tuple(values[~empty].tolist())


def read_nodes(path, band, tile):
    """The values of a tile's nodes, and where there are none."""
    raster = gdal.Open(path)
    source = raster.GetRasterBand(band)
    window = tile.first_col, tile.first_row, tile.cols, tile.rows
    values = source.ReadAsArray(*window)
    empty = source.GetMaskBand().ReadAsArray(*window) == 0
    if values.dtype.kind == "f":
        empty |= numpy.isnan(values)
    values[empty] = 0
    scale, offset = source.GetScale() or 1, source.GetOffset() or 0
    if (scale, offset) != (1, 0):
        values = values.astype("float64") * scale + offset
    return values, empty


def ask(chart, *words, answers=(0,)):
    """The program's status, which is one of the answers, and its lines; whatever else it ends with ends this."""
    done = subprocess.run([chart, *words], capture_output=True, text=True)
    if done.returncode not in answers:
        sys.exit(f"chart {' '.join(words)}: status {done.returncode} {done.stdout.strip()}{done.stderr.strip()}")
    return done.returncode, done.stdout


def make(chart, raster, band, sheet, out, tile):
    """What the table says of a tile, after its cell and its picture have been made."""
    grid, rules = (f"{out}/grids/{tile.name}.{end}" for end in ("asc", "toml"))
    cell, picture = (f"{out}/cells/{tile.name}.{end}" for end in ("000", "svg"))
    for folder in ("grids", "cells", "lines"):
        os.makedirs(f"{out}/{folder}", exist_ok=True)
    for path in (grid, rules, cell, picture):
        if os.path.exists(path):
            os.remove(path)
    values, empty = read_nodes(raster, band, tile)
    if empty.all():
        return {"verdict": "no data"}
    write(grid, tiling.grid_header(tile) + "".join(row_text(*row) + "\n" for row in zip(values, empty)))
    write(rules, tiling.sheet_text(tiling.read_sheet(sheet), tile.name))
    status, line = ask(chart, "compile", grid, rules, cell + ".part", answers=(0, 1))
    if status == 1:
        return {"verdict": line.strip()}
    words = line.split()
    verdict = ask(chart, "check", cell + ".part")[1].strip()
    write(picture, ask(chart, "picture", cell + ".part")[1])
    os.replace(cell + ".part", cell)
    return {**dict(zip(words[::2], map(int, words[1::2]))), "verdict": verdict.removeprefix("check ")}


def main():
    chart, raster, band, sheet, out, tile = sys.argv[1:]
    tile = tiling.Tile(**json.loads(tile))
    start = time.monotonic()
    found = make(chart, raster, int(band), sheet, out, tile)
    line = {"name": tile.name, "limits": tiling.limits(tile), **found, "seconds": round(time.monotonic() - start, 2)}
    write(f"{out}/lines/{tile.name}.json", json.dumps(line) + "\n")


if __name__ == "__main__":
    main()
