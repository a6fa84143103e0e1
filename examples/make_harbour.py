#!/usr/bin/env python3
"""Writes harbour.asc: an invented harbour approach, as usual tools write a grid.

A dredged channel leads from the open sea in the south-west to a basin in the north-east, between
banks that dry at low water; the land on both sides has no data. Depths are metres, positive down.
"""
import math

COLS, ROWS = 28, 20
NODATA = -9999


def depth(row, col):
    x, y = col / (COLS - 1), 1 - row / (ROWS - 1)
    centre = 0.18 + 0.62 * x + 0.05 * math.sin(5 * x)
    away = abs(y - centre)
    if away > 0.42 - 0.22 * x + 0.03 * math.sin(11 * x):
        return None
    bed = 14.5 - 5.0 * x + 0.4 * math.sin(9 * x + 4 * y)
    bank = 1.2 - 6.0 * (away - 0.16) + 0.6 * math.cos(13 * x - 5 * y)
    slope = 1 / (1 + math.exp((away - 0.11) * 55))
    return bank + (bed - bank) * slope


def main():
    with open("harbour.asc", "w", newline="") as out:
        for key, value in [
            ("NCOLS", COLS),
            ("NROWS", ROWS),
            ("XLLCORNER", "5.98755"),
            ("YLLCORNER", "53.44955"),
            ("CELLSIZE", "0.0009"),
            ("NODATA_VALUE", NODATA),
        ]:
            out.write(f"{key} {value}\r\n")
        for row in range(ROWS):
            depths = [depth(row, col) for col in range(COLS)]
            texts = [str(NODATA) if d is None else f"{d:.2f}" for d in depths]
            out.write(" ".join(texts) + " \r\n")


main()
