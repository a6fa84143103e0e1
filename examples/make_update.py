#!/usr/bin/env python3
"""Writes an update (S-57 Edition 3.1, Part 3, 8) of the cell that the program makes of the example's grid.

    make_update.py FILE

It is the first update of edition 1: a depth of 3.8 m that was found where the cell says 5 to 10 m. It inserts the sounding
behind the 34 that the cell has, and makes its area as shoal as it is. The writer is this script's and make_cell.py's, and
shares nothing with the program.
"""
import struct
import sys

from make_cell import CONNECTED, DEPARE, DEPCNT, DRVAL1, EDGE, FEATURE, ISOLATED, NONE, VALDCO, described, field, first_record, record

# what is done to a record; a record's points or pointers are replaced where the record is modified
INSERT, DELETE, MODIFY, REPLACE = 1, 2, 3, 3
M_QUAL = 308


class Update:
    """Records of an update, numbered as they are added, the data set record first."""

    def __init__(self, name, edition, number, date):
        self.records = []
        dsid = struct.pack("<BIBB", 10, 1, 2, 5) + name + b"\x1f" + edition + b"\x1f" + number + b"\x1f" + date + date + b"03.1"
        dsid += b"\x01" + b"\x1f2.0\x1f" + struct.pack("<BH", 1, 7) + b"\x1f"
        self.add(field(b"DSID", dsid), field(b"DSSI", struct.pack("<BBB8I", 2, 0, 0, 0, 0, 0, 0, 0, 0, 0, 0)))

    def add(self, *fields):
        ordinal = len(self.records) + 1 & 0xFFFF
        self.records.append(record([field(b"0001", struct.pack("<H", ordinal)), *fields]))

    def vector(self, rcnm, rcid, version, instruction, *more):
        self.add(field(b"VRID", struct.pack("<BIHB", rcnm, rcid, version, instruction)), *more)

    def feature(self, rcid, prim, group, code, version, instruction, *more):
        self.add(field(b"FRID", struct.pack("<BIBBHHB", FEATURE, rcid, prim, group, code, version, instruction)), *more)

    def bytes(self):
        return first_record(
            b"VRIDSGCCFRIDFSPC",
            described(b"SGCC", b"1600", b"Coordinate Control Field", b"CCUI!CCIX!CCNC", b"(b11,2b12)"),
            described(b"FSPC", b"1600", b"Feature Record to Spatial Record Pointer Control Field", b"FSUI!FSIX!NSPT", b"(b11,2b12)"),
        ) + b"".join(self.records)


def foid(agency, number, part):
    return field(b"FOID", struct.pack("<HIH", agency, number, part))


def attributes(*pairs):
    return field(b"ATTF", b"".join(struct.pack("<H", code) + text + b"\x1f" for code, text in pairs))


def change_of_points(instruction, place, count):
    return field(b"SGCC", struct.pack("<BHH", instruction, place, count))


def change_of_pointers(instruction, place, count):
    return field(b"FSPC", struct.pack("<BHH", instruction, place, count))


def pointers(*rows):
    return field(b"FSPT", b"".join(struct.pack("<BIBBB", *row) for row in rows))


def positions(*pairs):
    return field(b"SG2D", b"".join(struct.pack("<ii", y, x) for x, y in pairs))


def soundings(*triples):
    return field(b"SG3D", b"".join(struct.pack("<iii", y, x, depth) for x, y, depth in triples))


def harbour():
    update = Update(b"XX5HARBR.001", b"1", b"1", b"20260301")
    update.vector(ISOLATED, 1, 2, MODIFY, change_of_points(INSERT, 35, 1), soundings((60_030_000, 534_610_000, 38)))
    update.feature(6, 3, 1, DEPARE, 2, MODIFY, attributes((DRVAL1, b"3.8")))
    return update.bytes()


def every_change():
    """An update of the example's cell that inserts, deletes and modifies records of each kind, several times over."""
    update = Update(b"XX5HARBR.001", b"1", b"1", b"20260301")
    x, y = 60_000_000, 534_600_000
    ends = b"".join(struct.pack("<BIBBBB", CONNECTED, node, NONE, NONE, place, NONE) for node, place in ((21, 1), (22, 2)))
    update.vector(CONNECTED, 21, 1, INSERT, positions((x, y)))
    update.vector(CONNECTED, 22, 1, INSERT, positions((x + 9, y)))
    update.vector(EDGE, 31, 1, INSERT, field(b"VRPT", ends), positions((x + 3, y + 1), (x + 5, y + 2)))
    update.feature(23, 2, 2, DEPCNT, 1, INSERT, foid(7, 99, 1), attributes((VALDCO, b"3")), pointers((EDGE, 31, 1, NONE, NONE)))
    update.vector(EDGE, 31, 2, MODIFY, change_of_points(INSERT, 3, 1), positions((x + 7, y + 3)))
    update.vector(EDGE, 31, 3, MODIFY, change_of_points(REPLACE, 1, 2), positions((x + 2, y), (x + 4, y)))
    update.vector(EDGE, 31, 4, MODIFY, change_of_points(DELETE, 2, 1))
    update.vector(CONNECTED, 21, 2, MODIFY, change_of_points(REPLACE, 1, 1), positions((x, y + 1)))
    update.vector(ISOLATED, 2, 1, INSERT, positions((x, y + 9)))
    update.vector(ISOLATED, 2, 2, DELETE)
    update.vector(ISOLATED, 1, 2, MODIFY, change_of_points(REPLACE, 4, 2), soundings((x, y, 51), (x + 1, y, -3)))
    update.vector(ISOLATED, 1, 3, MODIFY, change_of_points(DELETE, 1, 1))
    update.feature(6, 3, 1, DEPARE, 2, MODIFY, attributes((DRVAL1, b"4.9"), (VALDCO, b"7"), (VALDCO, b"\x7f")))
    update.feature(23, 2, 2, DEPCNT, 2, MODIFY, change_of_pointers(INSERT, 2, 1), pointers((EDGE, 1, 2, NONE, NONE)))
    update.feature(23, 2, 2, DEPCNT, 3, MODIFY, change_of_pointers(REPLACE, 1, 1), pointers((EDGE, 2, 1, NONE, NONE)))
    update.feature(14, 2, 2, DEPCNT, 2, DELETE)
    update.feature(2, 3, 2, M_QUAL, 2, DELETE)
    return update.bytes()


if __name__ == "__main__":
    if len(sys.argv) != 2:
        sys.exit(__doc__.strip())
    with open(sys.argv[1], "wb") as file:
        file.write(harbour())
