"""A raster as tiles that share their border nodes: where they lie, in exact decimals, and what they are called.

A node is the centre of a pixel. Rows count from the north and columns from the west, from 0. Longitudes, latitudes and
cell sizes are Decimals in degrees; GDAL's numbers, which are doubles, stand for the shortest decimal that reads back as
the same double.
"""
import decimal
import json
import math
import os
import re
import subprocess
import tempfile
import tomllib
from decimal import Decimal
from fractions import Fraction
from typing import NamedTuple

from osgeo import gdal

gdal.UseExceptions()

UNIT = 10_000_000  # of a degree; positions are counted so
SNAP = 32  # positions snap to multiples of so many units
MOST_NODES = 1025  # the program's limits, by README.md
MOST_SIZE = 3_000_000
DIGITS = "0123456789ABCDEFGHIJKLMNOPQRSTUVWXYZ"
LAST = Decimal(1).scaleb(-22)  # decimals that are kept, of the 24 that the program reads
EXACT = decimal.Context(prec=60, traps=[decimal.Inexact, decimal.InvalidOperation])


class Unfit(Exception):
    """Why no cells can be made: one line."""


class Raster(NamedTuple):
    """What the tiling needs of a raster: its nodes a side, its north-west node, its cell size."""

    cols: int
    rows: int
    west: Decimal
    north: Decimal
    size: Decimal


class Tile(NamedTuple):
    """A tile: its name, its place among the tiles, its nodes in the raster, its south-west node."""

    name: str
    row: int
    col: int
    first_row: int
    first_col: int
    rows: int
    cols: int
    west: str
    south: str
    size: str


# ---- the raster's place


def decimal_of(number):
    """The shortest decimal that reads back as a double, or the decimal that a text writes; with at most 22 decimals."""
    try:
        return Decimal(str(number)).quantize(LAST, context=decimal.Context(prec=60))
    except decimal.InvalidOperation:
        raise Unfit(f"{number} is no number of degrees") from None


def raster_of(config):
    """The raster of a configuration; its own `west`, `north` and `cell` come before GDAL's doubles."""
    path = config["raster"]
    try:
        source = gdal.Open(str(path))
    except RuntimeError as error:
        raise Unfit(f"{path}: GDAL can't read it: {error}") from None
    left, wide, skew, top, turn, high = source.GetGeoTransform()
    reference = source.GetSpatialRef()
    if reference is not None and not reference.IsGeographic():
        raise Unfit(f"{path}: not in geographic coordinates; gdalwarp makes such a raster")
    if skew != 0 or turn != 0 or wide <= 0 or high >= 0:
        raise Unfit(f"{path}: its rows don't run from west to east, from the north on")
    cols, rows = source.RasterXSize, source.RasterYSize
    size, half = decimal_of(wide), Decimal("0.5")
    near(path, "its cells aren't square", rows * decimal_of(-high), rows * size)
    own = {key: decimal_of(config[key]) if config.get(key) is not None else None for key in ("west", "north", "cell")}
    with decimal.localcontext(EXACT):
        if own["cell"] is not None:
            near(path, "`cell` isn't its cell size", max(rows, cols) * own["cell"], max(rows, cols) * size)
            size = own["cell"]
        west, north = decimal_of(left) + half * size, decimal_of(top) - half * size
    places = {"west": west, "north": north}
    for key, found in list(places.items()):
        if own[key] is not None:
            near(path, f"`{key}` isn't where its north-west node lies", own[key], found)
            places[key] = own[key]
    if not Decimal("0.00001") <= size <= 1:
        raise Unfit(f"{path}: its cells of {size.normalize()} degrees aren't from 0.00001 to 1 degree")
    return Raster(cols, rows, places["west"], places["north"], size)


def near(path, fault, one, other):
    """Two numbers of degrees that differ by less than a unit, or else the fault."""
    if abs(one - other) >= Decimal(1) / UNIT:
        raise Unfit(f"{path}: {fault} ({one.normalize()} and {other.normalize()})")


def text_of(number):
    """A decimal with all its digits and no exponent."""
    text = f"{number:f}"
    return text.rstrip("0").rstrip(".") if "." in text else text


def snapped(degrees):
    """Where the program puts a longitude or a latitude, in units: the nearest multiple of 32, ties upwards."""
    return math.floor(Fraction(degrees) * UNIT / SNAP + Fraction(1, 2)) * SNAP


def node_place(tile, row, col):
    """The snapped position of a node of a tile, in units; the row and the column count in the tile."""
    size = Fraction(tile.size)
    return snapped(Fraction(tile.west) + col * size), snapped(Fraction(tile.south) + (tile.rows - 1 - row) * size)


def limits(tile):
    """West, south, east and north of a tile's outermost nodes, in units."""
    west, south = node_place(tile, tile.rows - 1, 0)
    east, north = node_place(tile, 0, tile.cols - 1)
    return west, south, east, north


# ---- the tiles


def cuts(count, most):
    """The nodes of a side at which tiles of at most `most` nodes begin and end: evenly spread, each shared by two tiles."""
    cells = count - 1
    tiles = -(-cells // (most - 1))
    return [cells * k // tiles for k in range(tiles + 1)]


def name_of(prefix, row, col):
    """A tile's name: the prefix, and its row and its column as two digits of base 36 each."""
    return prefix + "".join(DIGITS[at // 36] + DIGITS[at % 36] for at in (row, col))


def tiles_of(raster, most, prefix):
    """The tiles of a raster, row by row."""
    if raster.rows < 2 or raster.cols < 2:
        raise Unfit("a raster of fewer than two nodes a side")
    rows, cols = cuts(raster.rows, most), cuts(raster.cols, most)
    if len(rows) > 36**2 + 1 or len(cols) > 36**2 + 1:
        raise Unfit(f"{len(rows) - 1} by {len(cols) - 1} tiles: names go up to 1,296 a side")
    found = []
    with decimal.localcontext(EXACT):
        for r, (top, bottom) in enumerate(zip(rows, rows[1:])):
            for c, (left, right) in enumerate(zip(cols, cols[1:])):
                west, south = raster.west + left * raster.size, raster.north - bottom * raster.size
                texts = [text_of(it) for it in (west, south, raster.size)]
                found.append(Tile(name_of(prefix, r, c), r, c, top, left, bottom - top + 1, right - left + 1, *texts))
    return found


def grid_header(tile):
    """The header of a tile's grid."""
    return (
        f"ncols {tile.cols}\nnrows {tile.rows}\nxllcenter {tile.west}\nyllcenter {tile.south}\n"
        f"cellsize {tile.size}\nnodata_value nan\n"
    )


# ---- the sheet


def read_sheet(path):
    with open(path, "rb") as file:
        return tomllib.load(file)


def sheet_text(sheet, name):
    """The rules of a sheet under a cell's name. Integers, strings and arrays are written in TOML as in JSON."""
    return "".join(f"{key} = {json.dumps(value)}\n" for key, value in {**sheet, "name": name}.items())


def try_sheet(chart, path):
    """Lets the program read a sheet, on a grid of four nodes without data, before any tile is made."""
    with tempfile.TemporaryDirectory() as folder:
        grid = os.path.join(folder, "four.asc")
        with open(grid, "w") as out:
            out.write("ncols 2\nnrows 2\nxllcenter 0\nyllcenter 0\ncellsize 1\nnan nan nan nan\n")
        done = subprocess.run([chart, "ground", grid, path, "0", "0"], capture_output=True, text=True)
    if done.returncode != 0:
        raise Unfit(f"{path}: {done.stdout.strip() or f'chart can not read it (status {done.returncode})'}")


def plan(config, chart):
    """The tiles of a configuration, by their names."""
    if not os.access(chart, os.X_OK):
        raise Unfit(f"{chart} isn't there: ./chart at the top of the repository builds it")
    try_sheet(chart, config["sheet"])
    sheet = read_sheet(config["sheet"])
    prefix = str(config.get("prefix") or sheet["name"][:4])
    if not re.fullmatch("[A-Z0-9]{1,4}", prefix):
        raise Unfit(f"`prefix` {prefix}: not one to four of A to Z and 0 to 9")
    most = int(config["nodes"])
    limit = min(MOST_NODES, math.isqrt(MOST_SIZE // (len(sheet["levels"]) + 1)))
    if not 2 <= most <= limit:
        raise Unfit(f"`nodes` {most}: from 2 to {limit} with the {len(sheet['levels'])} levels of the sheet")
    return {tile.name: tile for tile in tiles_of(raster_of(config), most, prefix)}
