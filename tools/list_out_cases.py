#!/usr/bin/env python3
"""Makes the cases of list_out: tests/list_out/NAME.in, a file as it comes in, and tests/list_out/NAME.out, what must be printed
of it. Also crates/list_out/stdin and stdout: the two-station file of the paper and its two lines.

The records are those of desk_cases.py: nothing here reads one or judges one. A line is made from the fields that a record was
built from: their spaces are taken off, 13Z stays as it is, and a number stands in the one spelling that is written by hand
beside it in SPELLED.

usage: list_out_cases.py     from the repository's root
"""
import os

from desk_cases import BROKEN, BROKEN_HEADER, GOOD, STATION, header, record, reference, write
from makers import asked

# The one spelling of each number and place in these files, by field: all digit places filled, a minus in the sign column.
SPELLED = {
    "1A": {"  938.2    ": "00938.20000", "938.2      ": "00938.20000", ".00001     ": "00000.00001", "    .5     ": "00000.50000",
           "99999.99999": "99999.99999", "00001.0    ": "00001.00000"},
    "1Y": {"  893.2    ": "00893.20000", "      893.2": "00893.20000"},
    "4C": {"016E220548N1200": "016E220548N1200", "016E22 548N12 0": "016E220548N1200", "180W000000S0000": "180W000000N0000",
           "  0W 0 0 0S 0 0": "000E000000N0000", " 16W 1 2 3S 4 5": "016W010203S0405", "180E000090N0000": "180E000090N0000"},
    "4D": {"    0": "00000", "   25": "00025", "00000": "00000", "99999": "99999"},
    "4Z": {" 180": "0180", "+180": "0180", "0180": "0180", "  -5": "-005", "-999": "-999", "9999": "9999", "  -0": "0000", "  +0": "0000"},
    "8B1": {"  30.0": "030.0", "+30.0 ": "030.0", "  -5.0": "-005.0", "-005.0": "-005.0", " -.5  ": "-000.5", "  -0.0": "000.0",
            "999.9 ": "999.9", "-999.9": "-999.9"},
    "9A": {"120.0": "120.0", "359.9": "359.9", " .5  ": "000.5", "  5.0": "005.0", "0.0  ": "000.0"},
    "9B": {" -2.0": "-02.0", "-90.0": "-90.0", "+90.0": "90.0", "2.0  ": "02.0", " -.1 ": "-00.1", "-0.0 ": "00.0"},
    "9G": {"17.0": "17.0", "7.0 ": "07.0", "  .5": "00.5", "99.9": "99.9"},
    "9Y": {"  30": "0030", "   0": "0000", "9999": "9999"},
}

# Stations that break no rule, in other spellings than S: each number in each accepted way, and every field in its own.
OTHERWISE = [
    {"1A": "938.2      ", "8B1": "+30.0 ", "9A": "359.9", "9B": "+90.0", "9G": "7.0 ", "4Z": "+180", "9Y": "   0"},
    {"1A": ".00001     ", "8B1": " -.5  ", "9A": " .5  ", "9B": " -.1 ", "9G": "  .5", "4Z": "  -5", "4C": "016E22 548N12 0"},
    {"1A": "    .5     ", "8B1": "  -0.0", "9A": "0.0  ", "9B": "-0.0 ", "9G": "99.9", "4Z": "  -0", "4C": "  0W 0 0 0S 0 0"},
    {"1A": "99999.99999", "8B1": "-999.9", "9A": "  5.0", "9B": "2.0  ", "4Z": "-999", "9Y": "9999", "4C": " 16W 1 2 3S 4 5"},
    {"1A": "00001.0    ", "8B1": "999.9 ", "4D": "00000", "4Z": "9999", "4C": "180E000090N0000", "1Y": "      893.2"},
    {"8B1": "-005.0", "4Z": "  +0", "4B": "D  ", "4A": "1010_A  B, C (1)    ", "7A": "100HN0N  ", "9D": "SL"},
    {"4Z": "0180", "4B": "CH ", "4A": "1010_               ", "7A": "5M00G7WD ", "6Z": "XY"},
    {"6A": "ML", "4D": "99999", "9A": " " * 5, "4Z": " " * 4},
]

# 13Z goes out untrimmed.
REMARKS = [
    "2" + " " * 49,
    "3" + "       A0" + " 2" + "I" + "TWO  SPACES INSIDE",
    "4" + " " * 9 + "10" + "O" + " A SPACE FIRST",
    "5" + "0123ABCDE" + "   " + " " * 36 + "Z",
]

# Fields that fill their columns in the one spelling: with S, a line of 249 bytes.
LONGEST = {
    "6Z": "LM", "4A": "1010_MUSTERSTRASSE_5", "7A": "5M00G7WDT", "8B1": "-005.0", "9B": "-90.0", "9D": "SR", "2W": "01011901",
    "2Z": "31129999", "13Z": "2" + "0123456AF" + " 2" + "I" + "FIFTY PLACES, ALL OF THEM IN USE (A).",
}


def outgoing(name, text):
    if name == "13Z":
        return text
    if name in SPELLED and text.strip():
        return SPELLED[name][text]
    return text.strip()


def line(changes):
    return ";".join(outgoing(name, changes.get(name, text)) for name, text in STATION.items()) + "\n"


def good(k, changes):
    """Station k, which breaks no rule: its record and its line."""
    changes = {"13X": reference(k, 0), **changes}
    return record(STATION, changes), line(changes)


def broken(k, code):
    """Station k, which breaks the rule of this code."""
    return record(STATION, {**BROKEN[code], "13X": reference(k, code)}), "station %d code %d\n" % (k, code)


def filing(stations, head=0):
    """A file of these stations and what is printed of it."""
    whole = header(len(stations), BROKEN_HEADER.get(head)) + b"".join(r for r, _ in stations)
    return whole, "".join(text for _, text in stations)


def each_in_turn(changes):
    return [good(k, change) for k, change in enumerate(changes, 1)]


def full():
    """298 stations: broken ones at the ends and between good ones of every kind."""
    kinds = GOOD + OTHERWISE
    return [broken(k, k % 39 + 1) if k in (1, 298) or k % 3 == 0 else good(k, kinds[k % len(kinds)]) for k in range(1, 299)]


def cases():
    yield "two_stations", *filing([good(1, {}), good(1, {})])
    yield "header_alone", *filing([])
    yield "broken_header", *filing([good(1, {}), broken(2, 8)], head=3)
    yield "good_stations", *filing(each_in_turn(GOOD))
    yield "other_spellings", *filing(each_in_turn(OTHERWISE))
    yield "remarks", *filing(each_in_turn([{"13Z": text.ljust(50)} for text in REMARKS]))
    yield "each_code", *filing([broken(k, k // 2) if k % 2 == 0 else good(k, GOOD[k % len(GOOD)]) for k in range(1, 80)])
    yield "one_broken", *filing([broken(1, 39)])
    whole, lines = filing(full())
    assert len(whole) == 65481
    yield "full", whole, lines
    longest, lines = filing(each_in_turn([LONGEST] * 298))
    assert len(lines) == 74202
    yield "full_and_longest", longest, lines
    yield "empty", b"", "refused 2\n"
    yield "one_byte", b"0", "refused 2\n"
    yield "bytes_218", header(0)[:218], "refused 2\n"
    yield "bytes_220", header(0) + b" ", "refused 2\n"
    yield "bytes_65480", whole[:65480], "refused 2\n"
    yield "bytes_65482", whole + b" ", "refused 1\n"


def main():
    os.makedirs("tests/list_out", exist_ok=True)
    names = 0
    for name, given, wanted in cases():
        write("tests/list_out/%s.in" % name, given)
        write("tests/list_out/%s.out" % name, wanted)
        if name == "two_stations":
            write("crates/list_out/stdin", given)
            write("crates/list_out/stdout", wanted)
        names += 1
    print(names, "cases")


if __name__ == "__main__":
    asked(__doc__)
    main()
