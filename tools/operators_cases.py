#!/usr/bin/env python3
"""Makes the cases of operators: tests/operators/NAME.in, a file as it comes in, and tests/operators/NAME.out, what must be printed of
it. Also crates/operators/stdin and stdout: a file of two stations and its page.

The records are those of desk_cases.py: nothing here reads one or judges one. Beside each frequency stands, by hand, what it is in
hundredths of a hertz and in MHz, and each station is given its operator.

usage: operators_cases.py     from the repository's root
"""
import os

from desk_cases import BROKEN, STATION, header, record, write
from makers import asked

# Transmit frequencies: 1A and its unit, hundredths of a hertz, and MHz.
SENT = {
    "S": ("  938.2    ", "M", 93820000000, "938.2"),
    "receive": ("  893.2    ", "M", 89320000000, "893.2"),
    "whole": ("00400.00000", "M", 40000000000, "400.0"),
    "step of k": ("     .00001", "k", 1, "0.00000001"),
    "most k": ("99999.99999", "k", 9999999999, "99.99999999"),
    "step of M": ("     .00001", "M", 1000, "0.00001"),
    "most M": ("99999.99999", "M", 9999999999000, "99999.99999"),
    "step of G": ("     .00001", "G", 1000000, "0.01"),
    "most G": ("99999.99999", "G", 9999999999000000, "99999999.99"),
    "one kHz": ("    1.0    ", "k", 100000, "0.001"),
    "one GHz": ("    1.0    ", "G", 100000000000, "1000.0"),
}

# A station that sends nothing.
SILENT = {"1A": " " * 11, "1A unit": " ", "8B1": " " * 6}


def station(k, operator, sent=None, code=0):
    """Station k of an operator that sends so, or not at all, or breaks a rule, which is none of what it sends."""
    assert code not in (1, 2, 31, 32)
    changes = dict(BROKEN[code]) if code else {}
    if sent:
        changes["1A"], changes["1A unit"] = SENT[sent][:2]
    elif not code:
        changes.update(SILENT)
    if code != 30:
        changes["13X"] = "AUT23%sAB01A%03d" % (operator, k)
    return record(STATION, changes)


def page(stations):
    """A file of stations, each an operator, how it sends and its code, and what is printed of it."""
    whole = header(len(stations)) + b"".join(station(k, *s) for k, s in enumerate(stations, 1))
    good = [s for s in stations if len(s) < 3]
    lines = []
    for code in sorted({s[0] for s in good}):
        own = [s[1] for s in good if s[0] == code]
        sent = sorted((SENT[s][2], SENT[s][3]) for s in own if s)
        line = "operator %s stations %d transmit %d" % (code, len(own), len(sent))
        if sent:
            line += " lowest %d %s MHz highest %d %s MHz" % (sent[0] + sent[-1])
        lines.append(line)
    lines.append("operators %d stations %d of %d" % (len(lines), len(good), len(stations)))
    return whole, "".join(line + "\n" for line in lines)


def cases():
    yield "two_stations", *page([("11", "S"), ("11", "S")])
    yield "header_alone", *page([])
    yield "one_silent", *page([("07", None)])
    yield "codes_out_of_order", *page([("99", "S"), ("00", "S"), ("10", None), ("09", "receive"), ("00", "whole")])
    yield "each_unit", *page([("11", sent) for sent in SENT])
    yield "ends_apart", *page([("%02d" % i, sent) for i, sent in enumerate(SENT)])
    yield "kilohertz_before_gigahertz", *page([("50", "one GHz"), ("50", "one kHz"), ("50", None)])
    yield "bad_stations_not_counted", *page([("11", "S"), ("11", "S", 17), ("12", "S", 30), ("13", "S", 3), ("14", "whole", 39), ("11", None)])
    yield "only_bad_stations", *page([("11", "S", code) for code in range(1, 40) if code not in (1, 2, 31, 32)])
    many, lines = page([("%02d" % (k * 37 % 100), "S" if k % 3 else None) for k in range(1, 299)])
    assert len(many) == 65481 and lines.count("\n") == 101
    yield "full_of_operators", many, lines
    yield "full_of_one", *page([("42", list(SENT)[k % len(SENT)]) for k in range(298)])
    yield "empty", b"", "refused 2\n"
    yield "bytes_218", header(0)[:218], "refused 2\n"
    yield "bytes_65480", many[:65480], "refused 2\n"
    yield "bytes_65482", many + b" ", "refused 1\n"


def main():
    os.makedirs("tests/operators", exist_ok=True)
    names = 0
    for name, given, wanted in cases():
        write("tests/operators/%s.in" % name, given)
        write("tests/operators/%s.out" % name, wanted)
        if name == "two_stations":
            write("crates/operators/stdin", given)
            write("crates/operators/stdout", wanted)
        names += 1
    print(names, "cases")


if __name__ == "__main__":
    asked(__doc__)
    main()
