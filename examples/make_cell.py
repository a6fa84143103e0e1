#!/usr/bin/env python3
"""Writes an S-57 cell (Edition 3.1, over ISO/IEC 8211) of strips of depth that run from south to north.

    make_cell.py STRIPS POINTS SOUNDINGS FILE

Between two neighbouring strips lies a contour of POINTS inner points; the last strip is unsurveyed. The soundings stand
2,000 to a record. The same words give the same bytes. The writer is this script's own and shares nothing with the
program, so that the program's reader is tried on cells that it didn't write.
"""
import struct
import sys

WEST, SOUTH, WIDTH, HEIGHT = 60_000_000, 535_000_000, 40_000, 20_000_000
ISOLATED, CONNECTED, EDGE, FEATURE = 110, 120, 130, 100
DEPARE, DEPCNT, SOUNDG, UNSARE, M_COVR = 42, 43, 129, 154, 302
CATCOV, DRVAL1, DRVAL2, VALDCO = 18, 87, 88, 174
NONE = 255


def field(tag, body):
    return tag, body + b"\x1e"


def record(fields, letter=b"D"):
    entries, position = b"", 0
    for tag, body in fields:
        entries += tag + b"%05d%05d" % (len(body), position)
        position += len(body)
    base = 24 + len(entries) + 1
    length = base + position
    if letter == b"L":
        leader = b"%05d3LE1 09%05d ! 5504" % (length, base)
    else:
        leader = b"%05d D     %05d   5504" % (length, base)
    assert length < 100_000
    return leader + entries + b"\x1e" + b"".join(body for _, body in fields)


def described(tag, control, name, labels, form):
    return field(tag, control + b";&   " + name + b"\x1f" + labels + b"\x1f" + form)


def first_record(further_pairs=b"", *further):
    pairs = b"0001DSIDDSIDDSSI0001DSPM0001VRIDVRIDVRPTVRIDSG2DVRIDSG3D0001FRIDFRIDFOIDFRIDATTFFRIDFSPT" + further_pairs
    return record([
        field(b"0000", b"0000;&   \x1f" + pairs),
        described(b"0001", b"0500", b"ISO/IEC 8211 Record Identifier", b"", b"(b12)"),
        described(b"DSID", b"1600", b"Data Set Identification Field",
                  b"RCNM!RCID!EXPP!INTU!DSNM!EDTN!UPDN!UADT!ISDT!STED!PRSP!PSDN!PRED!PROF!AGEN!COMT",
                  b"(b11,b14,2b11,3A,2A(8),R(4),b11,2A,b11,b12,A)"),
        described(b"DSSI", b"1600", b"Data Set Structure Information Field",
                  b"DSTR!AALL!NALL!NOMR!NOCR!NOGR!NOLR!NOIN!NOCN!NOED!NOFA", b"(3b11,8b14)"),
        described(b"DSPM", b"1600", b"Data Set Parameter Field",
                  b"RCNM!RCID!HDAT!VDAT!SDAT!CSCL!DUNI!HUNI!PUNI!COUN!COMF!SOMF!COMT",
                  b"(b11,b14,3b11,b14,4b11,2b14,A)"),
        described(b"VRID", b"1600", b"Vector Record Identifier Field", b"RCNM!RCID!RVER!RUIN", b"(b11,b14,b12,b11)"),
        described(b"VRPT", b"2600", b"Vector Record Pointer Field", b"*NAME!ORNT!USAG!TOPI!MASK", b"(B(40),4b11)"),
        described(b"SG2D", b"2500", b"2-D Coordinate Field", b"*YCOO!XCOO", b"(2b24)"),
        described(b"SG3D", b"2500", b"3-D Coordinate (Sounding Array) Field", b"*YCOO!XCOO!VE3D", b"(3b24)"),
        described(b"FRID", b"1600", b"Feature Record Identifier Field", b"RCNM!RCID!PRIM!GRUP!OBJL!RVER!RUIN",
                  b"(b11,b14,2b11,2b12,b11)"),
        described(b"FOID", b"1600", b"Feature Object Identifier Field", b"AGEN!FIDN!FIDS", b"(b12,b14,b12)"),
        described(b"ATTF", b"2600", b"Feature Record Attribute Field", b"*ATTL!ATVL", b"(b12,A)"),
        described(b"FSPT", b"2600", b"Feature Record to Spatial Record Pointer Field", b"*NAME!ORNT!USAG!MASK",
                  b"(B(40),3b11)"),
        *further,
    ], b"L")


class Cell:
    """Data records, numbered as they are added."""

    def __init__(self):
        self.records = []

    def add(self, *fields):
        ordinal = (len(self.records) + 1) & 0xFFFF
        self.records.append(record([field(b"0001", struct.pack("<H", ordinal)), *fields]))

    def node(self, rcnm, rcid, *more):
        self.add(field(b"VRID", struct.pack("<BIHB", rcnm, rcid, 1, 1)), *more)

    def feature(self, rcid, prim, group, code, attributes, pointers):
        more = []
        if attributes:
            body = b"".join(struct.pack("<H", number) + text + b"\x1f" for number, text in attributes)
            more.append(field(b"ATTF", body))
        more.append(field(b"FSPT", b"".join(struct.pack("<BIBBB", *pointer) for pointer in pointers)))
        self.add(field(b"FRID", struct.pack("<BIBBHHB", FEATURE, rcid, prim, group, code, 1, 1)),
                 field(b"FOID", struct.pack("<HIH", 7, rcid, 1)), *more)

    def data_set(self, name, counts):
        dsid = struct.pack("<BIBB", 10, 1, 1, 5) + name + b"\x1f1\x1f0\x1f" + b"2026013120260131" + b"03.1"
        dsid += b"\x01" + b"\x1f2.0\x1f" + struct.pack("<BH", 1, 7) + b"\x1f"
        self.add(field(b"DSID", dsid), field(b"DSSI", struct.pack("<BBB8I", 2, 0, 0, *counts)))

    def parameters(self):
        self.add(field(b"DSPM", struct.pack("<BIBBBIBBBBII", 20, 1, 2, 3, 23, 12000, 1, 1, 1, 1, 10_000_000, 10) + b"\x1f"))


def points(*pairs):
    return b"".join(struct.pack("<ii", y, x) for x, y in pairs)


def metres(decimetres):
    whole, tenths = divmod(decimetres, 10)
    return b"%d" % whole if tenths == 0 else b"%d.%d" % (whole, tenths)


def strips(count, inner, soundings):
    cell = Cell()
    nodes, edges = 2 * (count + 1), (count + 1) + 2 * count
    groups = [min(2000, soundings - at) for at in range(0, soundings, 2000)]
    areas, contours = count, max(count - 2, 0)
    cell.data_set(b"XX5STRIP.000", [1, 0, areas + contours + len(groups), 0, len(groups), nodes, edges, 0])
    cell.parameters()
    noise = 12345
    for rcid, size in enumerate(groups, 1):
        body = b""
        for _ in range(size):
            noise = (noise * 1103515245 + 12345) % 2**31
            x = WEST + noise % (count * WIDTH)
            depth = (x - WEST) // WIDTH * 5 + 2
            noise = (noise * 1103515245 + 12345) % 2**31
            body += struct.pack("<iii", SOUTH + noise % HEIGHT, x, depth)
        cell.node(ISOLATED, rcid, field(b"SG3D", body))
    column = [WEST + at * WIDTH for at in range(count + 1)]
    # south ends have the numbers from 1 on, north ends those behind them
    for row, y in enumerate((SOUTH, SOUTH + HEIGHT)):
        for at, x in enumerate(column):
            cell.node(CONNECTED, row * (count + 1) + at + 1, field(b"SG2D", points((x, y))))

    def edge(rcid, first, last, pairs):
        ends = b"".join(struct.pack("<BIBBBB", CONNECTED, node, NONE, NONE, topi, NONE)
                        for node, topi in ((first, 1), (last, 2)))
        more = [field(b"SG2D", points(*pairs))] if pairs else []
        cell.node(EDGE, rcid, field(b"VRPT", ends), *more)

    for at, x in enumerate(column):
        border = at in (0, count)
        pairs = []
        for k in range(1, inner + 1):
            bend = 0 if border else (k * 7919 + at * 104729) % 9000 - 4500
            pairs.append((x + bend, SOUTH + HEIGHT * k // (inner + 1)))
        edge(at + 1, at + 1, count + at + 2, pairs)
    south, north = count + 2, 2 * count + 2
    for at in range(count):
        edge(south + at, at + 1, at + 2, [])
    for at in range(count):
        edge(north + at, count + at + 2, count + at + 3, [])

    def side(at, ornt):
        border = at in (0, count)
        return EDGE, at + 1, ornt, 3 if border else 1, NONE if border else 2

    coverage = [side(0, 1)] + [(EDGE, north + at, 1, 3, NONE) for at in range(count)]
    coverage += [side(count, 2)] + [(EDGE, south + at, 2, 3, NONE) for at in reversed(range(count))]
    rcid = 1
    cell.feature(rcid, 3, 2, M_COVR, [(CATCOV, b"1")], coverage)
    for at in range(count):
        rcid += 1
        outline = [side(at, 1), (EDGE, north + at, 1, 3, NONE), side(at + 1, 2), (EDGE, south + at, 2, 3, NONE)]
        if at == count - 1:
            cell.feature(rcid, 3, 1, UNSARE, [], outline)
        else:
            depths = [(DRVAL1, metres(at * 5)), (DRVAL2, metres(at * 5 + 5))]
            cell.feature(rcid, 3, 1, DEPARE, depths, outline)
    for at in range(1, count - 1):
        rcid += 1
        cell.feature(rcid, 2, 2, DEPCNT, [(VALDCO, metres(at * 5))], [(EDGE, at + 1, 1, NONE, NONE)])
    for node in range(1, len(groups) + 1):
        rcid += 1
        cell.feature(rcid, 1, 2, SOUNDG, [], [(ISOLATED, node, NONE, NONE, NONE)])
    return first_record() + b"".join(cell.records)


def main():
    if len(sys.argv) != 5:
        sys.exit(__doc__)
    count, inner, soundings = (int(word) for word in sys.argv[1:4])
    with open(sys.argv[4], "wb") as out:
        out.write(strips(count, inner, soundings))


if __name__ == "__main__":
    main()
