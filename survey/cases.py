"""The cases of `test`: tilings, headers and values by exact arithmetic, and a whole run whose cells GDAL reads.

    cases.py PROGRAM
"""
import csv
import json
import math
import os
import random
import shutil
import subprocess
import sys
import tempfile
import unittest
from decimal import Decimal
from fractions import Fraction
from html.parser import HTMLParser

import numpy
from osgeo import gdal, osr

import one_tile
import tiling

HERE = os.path.dirname(os.path.abspath(__file__))
PROGRAM = ""
UNIT = tiling.UNIT

SHEET = """version = 1
positive = "up"   # the rest of the line isn't kept
levels = [0, 20, 50]
aspect = 600
sounding_radius = [4000]
name = "XX5TRIAL"
edition = 1
issued = "20260101"
agency = 7
scale = 12000
usage = 5
vertical_datum = 3
sounding_datum = 23
"""


def random_rasters(number):
    """Rasters of any place and cell size: round ones, doubles of all digits, thirds and seconds of arc."""
    chance = random.Random(27)
    for k in range(number):
        size = [chance.uniform(0.00001, 0.001), 1 / 3600 / chance.randint(1, 20), chance.randint(1, 90) / 100_000][k % 3]
        west, north = chance.uniform(-179, 170), chance.uniform(-80, 89)
        if k % 2:
            west, north = round(west, 4), round(north, 3)
        cols, rows = chance.randint(2, 90), chance.randint(2, 90)
        yield tiling.Raster(cols, rows, *map(tiling.decimal_of, (west, north, size))), chance.randint(2, 30)


def header_of(text):
    """A grid's columns, rows, and the snapped places of its columns and rows, by docs/CHART.md."""
    words = text.split()
    head = dict(zip(words[:12:2], words[1:12:2]))
    floor = lambda word: Fraction(math.floor(Fraction(word) * 10**24), 10**24)
    x, y, size = (floor(head[key]) for key in ("xllcenter", "yllcenter", "cellsize"))
    snap = lambda z: math.floor((z * UNIT + 16) / 32) * 32
    cols, rows = int(head["ncols"]), int(head["nrows"])
    return [snap(x + size * c) for c in range(cols)], [snap(y + size * (rows - 1 - r)) for r in range(rows)]


def degrees(units):
    return f"{'-' if units < 0 else ''}{abs(units) // UNIT}.{abs(units) % UNIT:07}"


def write_raster(path, values, transform, nodata=None, epsg=4326, kind=gdal.GDT_Float32):
    reference = osr.SpatialReference()
    reference.ImportFromEPSG(epsg)
    raster = gdal.GetDriverByName("GTiff").Create(path, values.shape[1], values.shape[0], 1, kind)
    raster.SetGeoTransform(transform)
    raster.SetProjection(reference.ExportToWkt())
    if nodata is not None:
        raster.GetRasterBand(1).SetNoDataValue(nodata)
    raster.GetRasterBand(1).WriteArray(values)


class Tilings(unittest.TestCase):
    def test_tiles_share_their_border_nodes_and_cover_all(self):
        for raster, most in random_rasters(120):
            for count in (raster.cols, raster.rows):
                cuts = tiling.cuts(count, most)
                self.assertEqual((cuts[0], cuts[-1]), (0, count - 1))
                sizes = {b - a + 1 for a, b in zip(cuts, cuts[1:])}
                self.assertTrue(2 <= min(sizes) and max(sizes) <= most and max(sizes) - min(sizes) <= 1, (count, most))
                self.assertEqual(len(cuts) - 1, math.ceil((count - 1) / (most - 1)))

    def test_names_differ(self):
        names = {tiling.name_of("XX5A", r, c) for r in range(0, 1296, 35) for c in range(1296)}
        self.assertEqual(len(names), 38 * 1296)
        self.assertEqual(tiling.name_of("XX5A", 37, 1295), "XX5A11ZZ")

    def test_shared_nodes_have_one_place_in_both_headers(self):
        for raster, most in random_rasters(120):
            xs, ys = {}, {}
            for tile in tiling.tiles_of(raster, most, "T"):
                x, y = header_of(tiling.grid_header(tile))
                self.assertEqual((len(x), len(y)), (tile.cols, tile.rows))
                for k, at in enumerate(x):
                    self.assertEqual(xs.setdefault(tile.first_col + k, at), at)
                for k, at in enumerate(y):
                    self.assertEqual(ys.setdefault(tile.first_row + k, at), at)
                self.assertEqual(tiling.limits(tile), (x[0], y[-1], x[-1], y[0]))
            self.assertEqual((len(xs), len(ys)), (raster.cols, raster.rows))
            east = Fraction(raster.west) + (raster.cols - 1) * Fraction(raster.size)
            for at, degree in ((xs[raster.cols - 1], east), (ys[0], Fraction(raster.north))):
                self.assertEqual(at, math.floor((degree * UNIT + 16) / 32) * 32)

    def test_the_program_puts_them_there_too(self):
        with tempfile.TemporaryDirectory() as folder:
            grid = os.path.join(folder, "grid.asc")
            for raster, _ in random_rasters(30):
                raster = raster._replace(cols=min(raster.cols, 9), rows=min(raster.rows, 9))
                for tile in tiling.tiles_of(raster, 5, "T"):
                    with open(grid, "w") as out:
                        out.write(tiling.grid_header(tile) + "1.5 " * (tile.rows * tile.cols))
                    x, y = header_of(tiling.grid_header(tile))
                    for r, c in ((0, 0), (tile.rows - 1, tile.cols - 1)):
                        done = subprocess.run([PROGRAM, "node", grid, str(r), str(c)], capture_output=True, text=True)
                        self.assertEqual(done.stdout, f"node {r} {c} lon {degrees(x[c])} lat {degrees(y[r])} depth 1.5\n")

    def test_a_raster_is_its_centres_and_its_own_decimals(self):
        with tempfile.TemporaryDirectory() as folder:
            path = os.path.join(folder, "r.tif")
            write_raster(path, numpy.zeros((3, 4)), (6.00005, 0.0001, 0, 53.5, 0, -0.0001))
            found = tiling.raster_of({"raster": path})
            self.assertEqual(found, (4, 3, Decimal("6.0001"), Decimal("53.49995"), Decimal("0.0001")))
            own = {"raster": path, "west": "6.000100000000001", "north": 53.49995, "cell": "0.00010000000001"}
            self.assertEqual(tiling.raster_of(own)[2:], tuple(map(Decimal, (own["west"], "53.49995", own["cell"]))))
            for key, value in (("west", "6.0002"), ("north", "53.5"), ("cell", "0.0002")):
                with self.assertRaises(tiling.Unfit):
                    tiling.raster_of({"raster": path, key: value})

    def test_rasters_that_do_not_fit_are_named(self):
        with tempfile.TemporaryDirectory() as folder:
            path = os.path.join(folder, "r.tif")
            for transform, epsg, fault in (
                ((6, 0.001, 0.00001, 53, 0, -0.001), 4326, "rows don't run"),
                ((6, 0.001, 0, 53, 0, 0.001), 4326, "rows don't run"),
                ((6, 0.001, 0, 53, 0, -0.0011), 4326, "aren't square"),
                ((600000, 10, 0, 5900000, 0, -10), 32631, "geographic"),
                ((6, 0.000001, 0, 53, 0, -0.000001), 4326, "from 0.00001 to 1"),
            ):
                write_raster(path, numpy.zeros((5, 5)), transform, epsg=epsg)
                with self.assertRaisesRegex(tiling.Unfit, fault):
                    tiling.raster_of({"raster": path})
            with self.assertRaisesRegex(tiling.Unfit, "GDAL can't read"):
                tiling.raster_of({"raster": os.path.join(folder, "none.tif")})

    def test_a_sheet_that_is_refused_stops_all(self):
        with tempfile.TemporaryDirectory() as folder:
            path, raster = os.path.join(folder, "s.toml"), os.path.join(folder, "r.tif")
            write_raster(raster, numpy.zeros((5, 5)), (6, 0.001, 0, 53, 0, -0.001))
            for text, more, fault in (
                (SHEET.replace("[0, 20, 50]", "[20, 0]"), {}, "refused sheet 5 levels"),
                (SHEET, {"nodes": 867}, "from 2 to 866 with the 3 levels"),
                (SHEET, {"prefix": "XX5TT"}, "`prefix` XX5TT"),
                (SHEET, {"raster": "nowhere"}, "GDAL can't read"),
            ):
                with open(path, "w") as out:
                    out.write(text)
                with self.assertRaisesRegex(tiling.Unfit, fault):
                    tiling.plan({"raster": raster, "sheet": path, "nodes": 3, **more}, PROGRAM)
            self.assertEqual([*tiling.plan({"raster": raster, "sheet": path, "nodes": 3}, PROGRAM)], [f"XX5T0{r}0{c}" for r in "01" for c in "01"])


class Values(unittest.TestCase):
    def test_values_read_back_as_they_are(self):
        chance = numpy.random.default_rng(27)
        wide = chance.uniform(-12000, 12000, 4000)
        for kind in ("float32", "float64", "int16", "uint8"):
            for values in (wide.astype(kind), numpy.round(wide, 2).astype(kind), numpy.round(wide / 1000, 3).astype(kind)):
                empty = chance.random(4000) < 0.1
                words = one_tile.row_text(values, empty).split(" ")
                self.assertEqual([word == "nan" for word in words], empty.tolist())
                read = numpy.array([float(word) for word in words])[~empty].astype(kind)
                self.assertTrue((read == values[~empty]).all())

    def test_decimals_of_three_places_stay_what_they_were(self):
        tenths = numpy.arange(-12000, 12000) / 10
        for kind in ("float32", "float64"):
            words = one_tile.row_text(tenths.astype(kind), tenths == 5).split(" ")
            texts = ["nan" if it == 5 else f"{it:.3f}" for it in tenths.tolist()]
            self.assertEqual([word.replace("-0.000", "0.000") for word in words], texts)

    def test_no_data_is_nan_however_it_is_marked(self):
        with tempfile.TemporaryDirectory() as folder:
            path = os.path.join(folder, "r.tif")
            values = numpy.array([[1, math.nan, 3.5], [-3.4028234663852886e38, 2, -9999]], dtype="float32")
            write_raster(path, values, (6, 0.001, 0, 53, 0, -0.001), nodata=-3.4028234663852886e38)
            tile = tiling.tiles_of(tiling.raster_of({"raster": path}), 3, "T")[0]
            rows = zip(*one_tile.read_nodes(path, 1, tile))
            self.assertEqual([one_tile.row_text(*row) for row in rows], ["1.000 nan 3.500", "nan 2.000 -9999.000"])


def heights():
    """Heights of the whole run's raster: no data in the north-east and in a gap over a border, one depth that is refused."""
    row, col = numpy.mgrid[0:49, 0:61]
    found = numpy.round(-3 + 4 * numpy.sin(col / 7 + row / 11) + 2.4 * numpy.cos(row / 5 - col / 13), 2)
    found[0:17, 40:61] = -9999
    found[20:24, 15:27] = -9999
    found[40, 50] = -12000.5
    return found


class WholeRun(unittest.TestCase):
    """Nine tiles of 21 by 17 nodes: cut off at one of them, and gone on with."""

    @classmethod
    def setUpClass(cls):
        cls.room = tempfile.mkdtemp(prefix="survey-test-")
        cls.addClassCleanup(shutil.rmtree, cls.room)
        at = lambda name: os.path.join(cls.room, name)
        write_raster(at("heights.tif"), heights(), (6.1, 0.001, 0, 53.7, 0, -0.001), nodata=-9999)
        with open(at("rules.toml"), "w") as out:
            out.write(SHEET)
        with open(at("chart"), "w") as out:
            out.write(f'#!/bin/sh\ncase $* in compile*XX5T0101*) [ ! -e broken ] || exit 3 ;; esac\nexec "{PROGRAM}" "$@"\n')
        os.chmod(at("chart"), 0o755)
        open(at("broken"), "w").close()
        cls.cut_off = cls.snakemake()
        cls.lines_then = {it.name: it.stat().st_mtime_ns for it in os.scandir(at("out/lines"))}
        cls.files_then = os.listdir(at("out"))
        os.remove(at("broken"))
        cls.gone_on = cls.snakemake()
        cls.again = cls.snakemake()
        with open(at("out/cells.csv"), newline="") as file:
            cls.table = {row["name"]: row for row in csv.DictReader(file)}

    @classmethod
    def snakemake(cls):
        settings = ["raster=heights.tif", "sheet=rules.toml", "nodes=21", "chart=./chart"]
        words = [sys.executable, "-m", "snakemake", "-s", os.path.join(HERE, "Snakefile"), "-j4", "--keep-going"]
        return subprocess.run([*words, "--config", *settings], cwd=cls.room, capture_output=True, text=True)

    def path(self, name):
        return os.path.join(self.room, "out", name)

    def cells(self):
        return [name for name, row in self.table.items() if row["bytes"]]

    def test_a_run_that_was_cut_off_goes_on(self):
        self.assertNotEqual(self.cut_off.returncode, 0)
        self.assertIn("status 3", self.cut_off.stderr)
        self.assertEqual(len(self.lines_then), 8)
        self.assertNotIn("cells.csv", self.files_then)
        self.assertEqual(self.gone_on.returncode, 0, self.gone_on.stderr)
        now = {it.name: it.stat().st_mtime_ns for it in os.scandir(self.path("lines"))}
        self.assertEqual({name: now[name] for name in self.lines_then}, self.lines_then)
        self.assertEqual({*now} - {*self.lines_then}, {"XX5T0101.json"})
        self.assertIn("Nothing to be done", self.again.stderr + self.again.stdout)

    def test_the_table_has_a_line_for_each_tile(self):
        names = [f"XX5T0{r}0{c}" for r in range(3) for c in range(3)]
        self.assertEqual([*self.table], names)
        self.assertEqual(self.table["XX5T0002"]["verdict"], "no data")
        self.assertRegex(self.table["XX5T0202"]["verdict"], "^refused grid 10 at [0-9]+$")
        self.assertEqual(self.cells(), [it for it in names if it not in ("XX5T0002", "XX5T0202")])
        first = self.table["XX5T0000"]
        self.assertEqual([first[key] for key in ("west", "north")], ["6.1004992", "53.6995008"])
        for name, row in self.table.items():
            is_cell = name in self.cells()
            for end in ("000", "svg"):
                self.assertEqual(os.path.exists(self.path(f"cells/{name}.{end}")), is_cell)
            if is_cell:
                info = subprocess.run([PROGRAM, "info", self.path(f"cells/{name}.000")], capture_output=True, text=True).stdout
                lines = info.splitlines()
                self.assertEqual(lines[0], f"name {name}.000 edition 1 scale 12000")
                self.assertEqual(lines[2], f"areas {row['areas']} contours {row['contours']} soundings {row['soundings']}")
                self.assertEqual(int(row["bytes"]), os.path.getsize(self.path(f"cells/{name}.000")))
                self.assertEqual(row["verdict"], f"tiles {row['areas']}")

    def test_gdal_opens_each_cell_without_a_word(self):
        for name in self.cells():
            words = ["ogrinfo", "-ro", "-so", "-al", self.path(f"cells/{name}.000")]
            done = subprocess.run(words, capture_output=True, text=True)
            self.assertEqual((done.returncode, done.stderr), (0, ""))
            self.assertIn("Layer name: DEPARE", done.stdout)

    def test_heights_count_upwards(self):
        found = heights()
        texts = self.path("grids/XX5T0000.asc"), self.path("grids/XX5T0000.toml")
        for r, c in ((1, 1), (5, 7), (8, 3), (12, 11), (15, 19)):
            at = Fraction(61005 + 10 * c, 10000), Fraction(536995 - 10 * r, 10000)
            words = ["ground", *texts, *(degrees(tiling.snapped(z)) for z in at)]
            kind, least, most = subprocess.run([PROGRAM, *words], capture_output=True, text=True).stdout.split()
            self.assertEqual(kind, "DEPARE")
            self.assertTrue(float(least) <= -found[r, c] < float(most) + 0.1, (r, c))

    def points(self, name, layer, value=None):
        """Points of a cell's objects by GDAL, in units: all, or the ends of lines with an attribute."""
        cell = gdal.OpenEx(self.path(f"cells/{name}.000"), gdal.OF_VECTOR)
        found = []
        for feature in cell.GetLayerByName(layer) or ():
            shape = feature.GetGeometryRef()
            while shape.GetGeometryCount():
                shape = shape.GetGeometryRef(0)
            places = [(round(x * UNIT), round(y * UNIT)) for x, y, *_ in shape.GetPoints()]
            found += [(*it, feature.GetField(value)) for it in (places[0], places[-1])] if value else places
        return found

    def border(self, names, side):
        """The two cells' points on the border that they share, and the ends of contours there with their depths."""
        with open(self.path(f"lines/{names[0]}.json")) as file:
            limit = json.load(file)["limits"][side]
        axis = {2: 0, 1: 1}[side]
        for what in (("M_COVR",), ("DEPCNT", "VALDCO")):
            yield [sorted({point for point in self.points(name, *what) if point[axis] == limit}) for name in names]

    def test_borders_of_neighbours_meet(self):
        compared = ended = 0
        for r in range(3):
            for c in range(3):
                for east, south in ((1, 0), (0, 1)):
                    names = f"XX5T0{r}0{c}", f"XX5T0{r + south}0{c + east}"
                    if {*names} <= {*self.cells()}:
                        points, ends = self.border(names, 2 if east else 1)
                        self.assertEqual(*points)
                        self.assertEqual(*ends)
                        compared, ended = compared + len(points[0]), ended + len(ends[0])
        self.assertGreater(compared, 9 * 17)
        self.assertGreater(ended, 15)

    def test_the_index_has_the_coverages(self):
        index = gdal.OpenEx(self.path("index.geojson"), gdal.OF_VECTOR)
        found = {it.GetField("name"): it.GetGeometryRef().GetEnvelope() for it in index.GetLayer(0)}
        self.assertEqual([*found], self.cells())
        for name, (west, east, south, north) in found.items():
            row = self.table[name]
            self.assertEqual([f"{it:.7f}" for it in (west, south, east, north)], [row[key] for key in ("west", "south", "east", "north")])

    def test_the_page_names_all_and_nothing_remote(self):
        with open(self.path("index.html")) as file:
            text = file.read()
        links = []
        parser = HTMLParser()
        parser.handle_starttag = lambda tag, pairs: links.extend(value for key, value in pairs if key in ("href", "src", "xlink:href"))
        parser.feed(text)
        self.assertEqual(links, [f"cells/{name}.svg" for name in self.cells()])
        self.assertEqual(text.count("http"), 1)  # the namespace of the drawing
        for name, row in self.table.items():
            self.assertIn(f"<title>{name}: {row['verdict']}</title>", text)


if __name__ == "__main__":
    PROGRAM = os.path.abspath(sys.argv[1])
    if not os.access(PROGRAM, os.X_OK):
        sys.exit(f"{PROGRAM} isn't there: ./chart builds it")
    unittest.main(argv=["survey"])
