#!/usr/bin/env python3
"""Makes the record vectors: crates/record_vectors/stdin, and beside it what the program must print.

The answers are worked out from the paper's table, rule by rule, over the model of columns in
column_vectors.py, and share nothing with the library. S is a station's record, H a header's, and h a
header's in a file of two stations.

usage: record_vectors.py     from the repository's root
"""
import os
import random

import column_vectors as columns
from makers import asked

PLACES = [(1, 11), (12, 1), (13, 1), (14, 2), (16, 2), (18, 2), (20, 1), (21, 8), (29, 20), (49, 3), (52, 15), (67, 5),
          (72, 4), (76, 9), (85, 6), (91, 1), (92, 5), (97, 5), (102, 2), (104, 4), (108, 4), (112, 7), (119, 7), (126, 11),
          (137, 1), (138, 50), (188, 1), (189, 8), (197, 8), (205, 15)]
HEADER = [(1, 2), (3, 80), (83, 1), (84, 3), (87, 40), (127, 20), (147, 20), (167, 20), (187, 6), (193, 8), (201, 3),
          (204, 6), (210, 3), (213, 7)]


def cut(places, record):
    return [record[first - 1:first - 1 + length] for first, length in places]


def passes(kind, b):
    return columns.answer(kind, b) == "yes"


def number(kind, b, low=None, high=None, blank=True):
    v = columns.signed(b) if kind == "S" else columns.whole(b) if kind == "W" else columns.decimal(kind, b)
    if isinstance(v, str):
        return blank and v == columns.BLANK
    return (low is None or low <= v) and (high is None or v <= high)


def unit(amount, letter):
    return letter in (b"k", b"M", b"G") if amount.strip(b" ") else letter == b" "


def day(b):
    return columns.date(b) != columns.BAD


def station_code(record):
    f = [None] + cut(PLACES, record)
    rules = [
        number("F", f[1], low=1), unit(f[1], f[2]), f[3] in tuple(b"%d" % i for i in range(1, 9)), passes("K", f[4]),
        passes("V", f[5]), passes("U", f[6]), f[7] in (b"0", b"1"), day(f[8]), passes("N", f[9]), passes("O", f[10]),
        columns.position(f[11]) != columns.BAD, number("W", f[12], blank=False), number("S", f[13], -999, 9999),
        passes("M", f[14]), number("P", f[15]), f[16] in (b"E", b"I"), number("A", f[17], 0, 3599),
        number("E", f[18], -900, 900), passes("Q", f[19]), number("G", f[20]), number("W", f[21], blank=False),
        passes("T", f[22]), passes("T", f[23]), number("F", f[24], low=1), unit(f[24], f[25]), passes("Z", f[26]),
        f[27] in (b"F", b"B"), day(f[28]), day(f[29]), passes("X", f[30])]
    if not all(rules):
        return rules.index(False) + 1
    filled = [None] + [bool(x.strip(b" ")) for x in f[1:]]
    mobile = f[4][:1] == b"M"
    broken = [
        not filled[1] and not filled[24], not filled[1] and filled[15], not mobile and columns.whole(f[12]) != 0,
        mobile and filled[17], not filled[17] and f[22] != b"000ND00", not filled[18] and f[23] != b"000ND00",
        mobile and filled[13], filled[24] and not filled[20], f[4] == b"FL" and not f[9].rstrip(b" ").endswith(b"_R")]
    return 31 + broken.index(True) if any(broken) else 0


def header_code(record, n=None):
    f = [None] + cut(HEADER, record)
    date = columns.date(f[10])
    rules = [
        number("W", f[1], blank=False), passes("t", f[2]), f[3] == b"O", f[4] == b"AUT", passes("m", f[5]), passes("t", f[6]),
        passes("t", f[7]), passes("t", f[8]), number("W", f[9], blank=False), isinstance(date, tuple), f[11] == b"AUT",
        number("W", f[12]), f[13] == b"1.0", f[14] == b" " * 7]
    if n is not None:
        rules.append(columns.whole(f[9]) == n)
    return rules.index(False) + 1 if not all(rules) else 0


def answer(kind, b):
    if len(b) != 219:
        return "6"
    c = station_code(b) if kind == "S" else header_code(b, 2 if kind == "h" else None)
    return "9 %d" % c if c else "0"


def put(places, record, k, text):
    first, length = places[k - 1]
    b = text.encode("latin-1").ljust(length)
    return record[:first - 1] + b + record[first - 1 + length:]


S = b"".join(t.ljust(n).encode() for t, (_, n) in zip(
    ["  938.2", "M", "2", "FB", "CP", "L", "1", "01032021", "1010_MUSTER", "AUT", "016E220548N1200", "    0", " 180", "5M00G7W",
     "  30.0", "E", "120.0", " -2.0", "V", "17.0", "  30", "000ND00", "000ND00", "  893.2", "M", "", "B", "", "", "AUT2311AB01A001"],
    PLACES))
H = b"".join(t.ljust(n).encode() for t, (_, n) in zip(
    [" 1", "Quarterly filing", "O", "AUT", "desk_1@example.at", "+43 1 5550100", "", "M. Muster", "     2", "01042023", "AUT", "",
     "1.0", ""], HEADER))

# For each code texts that break that field's rule alone.
BROKEN = {
    1: ["    0.0", "938.2.0", "938", "-938.2"], 2: [" ", "m", "K"], 3: ["0", "9", " "], 4: ["FC", "fb", "  "], 5: ["CC", "co", "  "],
    6: ["J", "LJ", " L", "1"], 7: ["2", " "], 8: ["01011900", "32012000", "01132000", "0101200", "30022024"],
    9: ["1010MUSTER", "1010_[", "101_MUSTER", " 1010_"], 10: ["A T", " D", "", "aut"],
    11: ["180E000100N0000", "016E600048N1200", "016N220548E1200", "16 E220548N1200"], 12: ["", "   -1", "1    ", "  1.0"],
    13: ["- 5", "180", "--5", "12a"], 14: ["0M00G7W", "5M00G7W N", "5M00O7W", "5000G7W"],
    15: ["- 5.0", "1234.5", "5.", "5,0"], 16: ["F", " "], 17: ["360.0", "-1.0", "+1.0"], 18: ["-90.1", "090.0", "90.1", "-  .5"],
    19: [" H", "X", "HV"], 20: ["-1.0", "100.", "1.00"], 21: ["", " -30", "30"], 22: ["000nd00", "00 ND00", "AAAND00"],
    23: ["000ND0", "000N000", "[00ND00"], 24: ["    0.0", "1e3", "938"], 25: [" ", "m"],
    26: ["6", "4         20O", "4         2O ", "4" + " " * 12 + "_", "x"], 27: ["f", " ", "O"],
    28: ["30021900", "01-12000", "31042024"], 29: ["00012000", "31122OO0", "29022100"], 30: ["AUT2311AB01A00", "aut2311AB01A001", "AUT2311AB01a001", ""],
}
# Changes of several fields that break a rule between fields.
BETWEEN = {
    31: [{1: "", 2: "", 15: "", 24: "", 25: ""}, {1: "", 2: "", 24: "", 25: "", 20: ""}],
    32: [{1: "", 2: ""}, {1: "", 2: "", 15: "   0.0"}],
    33: [{12: "    1"}, {12: "99999"}, {12: "00010", 4: "FL", 9: "1010_R"}],
    34: [{4: "ML"}, {4: "ML", 13: "", 17: "  0.0"}],
    35: [{17: ""}, {17: "", 22: "010ND00"}, {17: "", 22: "000NA00"}],
    36: [{18: "", 23: "010ND00"}, {18: "", 23: "000ND01"}],
    37: [{4: "ML", 17: ""}, {4: "ML", 17: "", 13: "   0"}],
    38: [{20: ""}, {20: "", 13: ""}],
    39: [{4: "FL"}, {4: "FL", 9: "1010_R_"}, {4: "FL", 9: "1010_MUSTERR"}],
}
GOOD = [{}, {17: ""}, {18: ""}, {4: "ML", 17: "", 13: ""}, {4: "ML", 17: "", 13: "", 12: "00100"}, {4: "FL", 9: "1010_R"},
        {4: "FL", 9: "9999_318166502860_R"}, {24: "", 25: ""}, {24: "", 25: "", 20: ""}, {1: "", 2: "", 15: ""}, {15: ""},
        {13: " -99"}, {13: "+180"}, {15: "-005.0"}, {26: "4  1E1850B 2OStadtplatz 1357911"}, {26: "5C712E6E18"},
        {11: "180W000000S9000"}, {9: "1010_"}, {8: "", 28: "01011901", 29: "31129999"}, {8: "29021904", 28: "29022000", 29: "29022024"}]
HEADER_BROKEN = {
    1: ["", "1 ", "-1"], 2: [" Quarterly", "Quarter[ly", "a@b"], 3: ["0", "o", " "], 4: ["AUS", "aut", ""],
    5: [" a@b", "a[b", "a;b"], 6: [" 43", "43@1", "43_1"], 7: ["[", " 1"], 8: ["m@muster", "M_M", " M"], 9: ["", "2", "    -2"],
    10: ["", "01041900", "31132023", "29022100"], 11: ["DEU", "", "AU"], 12: ["1", " 12 ", "-    1"], 13: ["1,0", "2.0", ""], 14: ["x", "      0"],
}


def vectors():
    def changed(places, record, changes):
        for k, text in changes.items():
            record = put(places, record, k, text)
        return record
    for c in GOOD:
        yield "S", changed(PLACES, S, c)
    for k, texts in BROKEN.items():
        for t in texts:
            yield "S", put(PLACES, S, k, t)
    for cases in BETWEEN.values():
        for c in cases:
            yield "S", changed(PLACES, S, c)
    yield "S", put(PLACES, put(PLACES, S, 30, "x"), 3, "0")
    yield "S", put(PLACES, put(PLACES, S, 12, "    1"), 22, "x")
    for b in (b"", S[:218], S + b" ", b" " * 219, b"\0" * 219, b"\xff" * 219, b"0" * 219):
        yield "S", b
    yield "H", H
    yield "H", put(HEADER, put(HEADER, H, 10, "29022024"), 7, "+43 1 5550199")
    for k, texts in HEADER_BROKEN.items():
        for t in texts:
            yield "H", put(HEADER, H, k, t)
            yield "h", put(HEADER, H, k, t)
    for count in ("     2", "000002", "     3", "     0", "999999"):
        yield "H", put(HEADER, H, 9, count)
        yield "h", put(HEADER, H, 9, count)
    yield "h", put(HEADER, put(HEADER, H, 9, "     3"), 14, "x")
    for b in (b"", H[:218], H + b" ", b" " * 219, b"\xff" * 219):
        yield "H", b
    rng = random.Random(2023)
    for _ in range(40):
        b = bytearray(S)
        for _ in range(rng.choice((1, 1, 2, 3))):
            b[rng.randrange(219)] = rng.choice(b" 0123456789ABEFMNORSWX.-+_[\0\xff")
        yield "S", bytes(b)


def main():
    at = "crates/record_vectors/"
    seen = {"S": {}, "H": {}, "h": {}}
    n = 0
    with open(at + "stdin", "wb") as given, open(at + "stdout", "w", encoding="ascii") as wanted:
        for kind, b in vectors():
            a = answer(kind, b)
            seen[kind][a] = seen[kind].get(a, 0) + 1
            given.write(b"%s%03d:%s\n" % (kind.encode(), len(b), b))
            wanted.write("%s %s\n" % (kind, a))
            n += 1
        wanted.write("%d vectors\n" % n)
    assert os.path.getsize(at + "stdin") <= 65536, "the program reads no more than 65,536 bytes"
    missing = [c for c in range(1, 40) if seen["S"].get("9 %d" % c, 0) < 2]
    missing += [-c for c in range(1, 16) if seen["h"].get("9 %d" % c, 0) < 1]
    print(n, "vectors; codes short of two records:", missing)


if __name__ == "__main__":
    asked(__doc__)
    main()
