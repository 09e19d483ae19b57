#!/usr/bin/env python3
"""Makes the cases of explain: tests/explain/NAME.in, a file as it comes in, and tests/explain/NAME.out, what must be printed of it.
Also crates/explain/stdin and stdout: a small filing and its lines.

Nothing here reads a record or judges one. Each record is station S with one field damaged, and beside each damage stand, by hand,
the code, the field's name and columns and the kind that the papers give it.

usage: explain_cases.py     from the repository's root
"""
import os

from desk_cases import BROKEN, header, record, reference, STATION
from makers import asked

BYTE, RANGE, SHAPE = "byte not admitted", "out of range", "cannot be read"

# What is wrong: the code, the field's name in the maker's table, its name and columns in the paper, its bytes, and the kind.
DAMAGED = [
    (1, "1A", "1A columns 1-11", "  938,2    ", BYTE),
    (1, "1A", "1A columns 1-11", "00000.00000", RANGE),
    (1, "1A", "1A columns 1-11", "      938  ", SHAPE),
    (2, "1A unit", "unit of 1A column 12", "m", BYTE),
    (2, "1A unit", "unit of 1A column 12", " ", RANGE),
    (3, "1Z", "1Z column 13", "9", BYTE),
    (4, "6A", "6A columns 14-15", "fb", BYTE),
    (4, "6A", "6A columns 14-15", "BF", SHAPE),
    (5, "6B", "6B columns 16-17", "XX", BYTE),
    (5, "6B", "6B columns 16-17", "PC", SHAPE),
    (6, "6Z", "6Z columns 18-19", "J ", BYTE),
    (6, "6Z", "6Z columns 18-19", " L", SHAPE),
    (7, "10Z", "10Z column 20", "2", BYTE),
    (8, "2C", "2C columns 21-28", "01.03.21", BYTE),
    (8, "2C", "2C columns 21-28", "30022021", RANGE),
    (8, "2C", "2C columns 21-28", "1032021 ", SHAPE),
    (9, "4A", "4A columns 29-48", "1010_MUSTER & SON   ", BYTE),
    (9, "4A", "4A columns 29-48", "MUSTER_1010         ", SHAPE),
    (10, "4B", "4B columns 49-51", "aut", BYTE),
    (10, "4B", "4B columns 49-51", "A T", SHAPE),
    (11, "4C", "4C columns 52-66", "016e220548n1200", BYTE),
    (11, "4C", "4C columns 52-66", "180E000100N0000", RANGE),
    (11, "4C", "4C columns 52-66", "016E22  48N1200", SHAPE),
    (12, "4D", "4D columns 67-71", "  0.5", BYTE),
    (12, "4D", "4D columns 67-71", "     ", SHAPE),
    (13, "4Z", "4Z columns 72-75", "180m", BYTE),
    (13, "4Z", "4Z columns 72-75", "180 ", SHAPE),
    (14, "7A", "7A columns 76-84", "5m00g7w  ", BYTE),
    (14, "7A", "7A columns 76-84", "0M50G7W  ", SHAPE),
    (15, "8B1", "8B1 columns 85-90", " 30,0 ", BYTE),
    (15, "8B1", "8B1 columns 85-90", "1234.5", SHAPE),
    (16, "8B2", "8B2 column 91", "e", BYTE),
    (17, "9A", "9A columns 92-96", "12O.0", BYTE),
    (17, "9A", "9A columns 92-96", "360.0", RANGE),
    (17, "9A", "9A columns 92-96", "120. ", SHAPE),
    (18, "9B", "9B columns 97-101", " -2,0", BYTE),
    (18, "9B", "9B columns 97-101", "-90.1", RANGE),
    (18, "9B", "9B columns 97-101", "- 2.0", SHAPE),
    (19, "9D", "9D columns 102-103", "v ", BYTE),
    (19, "9D", "9D columns 102-103", " V", SHAPE),
    (20, "9G", "9G columns 104-107", "-1.0", BYTE),
    (20, "9G", "9G columns 104-107", "100.", SHAPE),
    (21, "9Y", "9Y columns 108-111", "30.0", BYTE),
    (21, "9Y", "9Y columns 108-111", "30  ", SHAPE),
    (22, "9XH", "9XH columns 112-118", "000nd00", BYTE),
    (22, "9XH", "9XH columns 112-118", "0000000", SHAPE),
    (23, "9XV", "9XV columns 119-125", "000 D00", BYTE),
    (23, "9XV", "9XV columns 119-125", "00ND000", SHAPE),
    (24, "1Y", "1Y columns 126-136", "893,2      ", BYTE),
    (24, "1Y", "1Y columns 126-136", "    0.0    ", RANGE),
    (24, "1Y", "1Y columns 126-136", "893 .2     ", SHAPE),
    (25, "1Y unit", "unit of 1Y column 137", "K", BYTE),
    (25, "1Y unit", "unit of 1Y column 137", " ", RANGE),
    (26, "13Z", "13Z columns 138-187", "2" + " " * 48 + "&", BYTE),
    (26, "13Z", "13Z columns 138-187", "6" + " " * 49, SHAPE),
    (27, "13Y", "13Y column 188", "b", BYTE),
    (28, "2W", "2W columns 189-196", "2021-3-1", BYTE),
    (28, "2W", "2W columns 189-196", "01011900", RANGE),
    (28, "2W", "2W columns 189-196", "01 32021", SHAPE),
    (29, "2Z", "2Z columns 197-204", "0103202o", BYTE),
    (29, "2Z", "2Z columns 197-204", "29022100", RANGE),
    (29, "2Z", "2Z columns 197-204", "       1", SHAPE),
    (30, "13X", "13X columns 205-219", "AUT2311ab01A001", BYTE),
    (30, "13X", "13X columns 205-219", "AUT23A1AB01A001", SHAPE),
]


def damaged(k, row):
    """Station k with one field damaged: its record and its line."""
    code, field, title, text, kind = row
    changes = {"13X": reference(k, 0), field: text}
    return record(STATION, changes), 'station %d code %d %s "%s" %s twin 0 clash 0' % (k, code, title, text, kind)


def across(k, code):
    """Station k with a rule between fields broken."""
    return record(STATION, {**BROKEN[code], "13X": reference(k, 0)}), "station %d code %d between fields twin 0 clash 0" % (k, code)


def twin(k, owner, changes, what):
    """Station k with the 13X of another."""
    return record(STATION, {**changes, "13X": reference(owner, 0)}), "station %d code %s twin %d clash 0" % (k, what, owner)


def apart(k, owner):
    """Station k with the 13X of another, which breaks no rule, at another height."""
    return record(STATION, {"13X": reference(owner, 0), "9Y": "  31"}), "station %d code 0 twin %d clash %d" % (k, owner, owner)


def good(k):
    return record(STATION, {"13X": reference(k, 0)}), ""


def made(stations):
    """A filing of stations, and what must be printed of it."""
    lines = ["header 0"] + [line for _, line in stations if line]
    lines.append("stations %d bad %d" % (len(stations), len(lines) - 1))
    return header(len(stations)) + b"".join(r for r, _ in stations), "".join(line + "\n" for line in lines).encode("ascii")


def cases():
    yield "every_kind", made([damaged(k, row) for k, row in enumerate(DAMAGED, 1)])
    yield "between_fields", made([across(k, code) for k, code in enumerate(range(31, 40), 1)])
    yield "twins", made([
        good(1),
        twin(2, 1, {}, "0"),
        twin(3, 1, {"9A": "360.0"}, '17 9A columns 92-96 "360.0" out of range'),
        twin(4, 1, {"9G": " " * 4}, "38 between fields"),
        good(5),
    ])
    # at one site A, B and A again: the third clashes with the second
    yield "clashes", made([good(1), apart(2, 1), (good(3)[0], "station 3 code 0 twin 0 clash 2")])
    worst = (26, "13Z", "13Z columns 138-187", "2" + " " * 48 + "&", BYTE)
    yield "full", made([damaged(k, worst) for k in range(1, 299)])
    yield "header_alone", made([])
    yield "bad_header", (header(0, {"letter": "0"}), b"header 3\nstations 0 bad 0\n")
    yield "bytes_218", (b" " * 218, b"refused 2\n")
    yield "bytes_65482", (b" " * 65482, b"refused 1\n")


def store(path, data):
    with open(path, "wb") as f:
        f.write(data)


def main():
    asked(__doc__)
    os.makedirs("tests/explain", exist_ok=True)
    for name, (given, printed) in cases():
        store("tests/explain/%s.in" % name, given)
        store("tests/explain/%s.out" % name, printed)
    given, printed = made([good(1), damaged(2, DAMAGED[33]), twin(3, 1, {}, "0"), across(4, 34)])
    store("crates/explain/stdin", given)
    store("crates/explain/stdout", printed)


if __name__ == "__main__":
    main()
