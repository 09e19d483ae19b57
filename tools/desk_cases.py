#!/usr/bin/env python3
"""Makes the desk's cases: tests/desk/NAME.in, a file as it comes in, and tests/desk/NAME.out, what must be printed of it.
Also crates/desk/stdin and stdout: the two-station file of the paper and its three lines.

Nothing here reads a record or judges one. Each record is built from good fields with one of them damaged, and beside each
damage stands, by hand, the code that the paper's table gives it. A twin is known from whose 13X a station was given, and a
clash from the site that it was given and from the place, named by hand beside its spelling, and the height.

usage: desk_cases.py     from the repository's root
"""
import collections
import os

from makers import asked

# Station S of the paper, its fields in the order of their columns.
STATION = {
    "1A": "  938.2    ", "1A unit": "M", "1Z": "2", "6A": "FB", "6B": "CP", "6Z": "L ", "10Z": "1", "2C": "01032021",
    "4A": "1010_MUSTER         ", "4B": "AUT", "4C": "016E220548N1200", "4D": "    0", "4Z": " 180", "7A": "5M00G7W  ",
    "8B1": "  30.0", "8B2": "E", "9A": "120.0", "9B": " -2.0", "9D": "V ", "9G": "17.0", "9Y": "  30", "9XH": "000ND00",
    "9XV": "000ND00", "1Y": "  893.2    ", "1Y unit": "M", "13Z": " " * 50, "13Y": "B", "2W": " " * 8, "2Z": " " * 8,
    "13X": "AUT2311AB01A001",
}

# A valid header, its fields in the order of their columns; the count is put in by the case.
HEADER = {
    "number": " 1", "content": "QUARTERLY FILING".ljust(80), "letter": "O", "country": "AUT",
    "e-mail": "filing_desk@example.org".ljust(40), "telephone": "+43 1 5550100".ljust(20), "fax": " " * 20,
    "person": "MUSTER, A.".ljust(20), "count": "     0", "date": "01032021", "to": "AUT", "reference": " " * 6,
    "version": "1.0", "reserve": " " * 7,
}

# What breaks each rule of the stations' table: the code, and the fields that are changed.
BROKEN = {
    1: {"1A": "  938,2    "},
    2: {"1A unit": "X"},
    3: {"1Z": "9"},
    4: {"6A": "XX"},
    5: {"6B": "XX"},
    6: {"6Z": "J "},
    7: {"10Z": "2"},
    8: {"2C": "01132021"},
    9: {"4A": "1010-MUSTER         "},
    10: {"4B": "A T"},
    11: {"4C": "016E600548N1200"},
    12: {"4D": "     "},
    13: {"4Z": "180 "},
    14: {"7A": "0M00G7W  "},
    15: {"8B1": "- 5.0 "},
    16: {"8B2": "X"},
    17: {"9A": "360.0"},
    18: {"9B": "-90.1"},
    19: {"9D": " H"},
    20: {"9G": "+7.0"},
    21: {"9Y": "    "},
    22: {"9XH": "000nd00"},
    23: {"9XV": "00AND00"},
    24: {"1Y": "    0.0    "},
    25: {"1Y unit": " "},
    26: {"13Z": "6" + " " * 49},
    27: {"13Y": "A"},
    28: {"2W": "01011900"},
    29: {"2Z": " 1012021"},
    30: {"13X": "AUT2311ab01A001"},
    31: {"1A": " " * 11, "1A unit": " ", "1Y": " " * 11, "1Y unit": " "},
    32: {"1A": " " * 11, "1A unit": " "},
    33: {"4D": "    5"},
    34: {"6A": "ML"},
    35: {"9A": " " * 5, "9XH": "010AB05"},
    36: {"9B": " " * 5, "9XV": "010AB05"},
    37: {"6A": "ML", "9A": " " * 5},
    38: {"9G": " " * 4},
    39: {"6A": "FL"},
}

# Stations that break no rule, each other than S in some way.
GOOD = [
    {},
    {"8B1": "  -5.0", "9A": "359.9", "9B": "-90.0"},
    {"6A": "ML", "4D": "   25", "9A": " " * 5, "4Z": " " * 4},
    {"6A": "FL", "4A": "1010_MUSTER_R       "},
    {"1A": " " * 11, "1A unit": " ", "8B1": " " * 6},
    {"1Y": " " * 11, "1Y unit": " ", "9G": " " * 4},
    {"2C": " " * 8, "2W": "01011901", "2Z": "31129999", "4C": "016E22 548N12 0"},
]

# Spellings of 4C, and the name of the place that each means.
PLACES = {
    "016E220548N1200": "S", "016E22 548N12 0": "S", "016E220648N1200": "a minute further east", "000E000000N0000": "zero", "000W000000N0000": "zero",
    "180E000000N0000": "180 degrees east", "180W000000N0000": "180 degrees west",
}

# What breaks each rule of the header: the code, and the field that is changed.
BROKEN_HEADER = {
    1: {"number": "1 "},
    2: {"content": " QUARTERLY FILING".ljust(80)},
    3: {"letter": "0"},
    4: {"country": "aut"},
    5: {"e-mail": "filing[desk]".ljust(40)},
    6: {"telephone": "+43_1".ljust(20)},
    7: {"fax": "\t".ljust(20)},
    8: {"person": "a@b".ljust(20)},
    9: {"count": "0     "},
    10: {"date": " " * 8},
    11: {"to": "   "},
    12: {"reference": "12345 "},
    13: {"version": "1,0"},
    14: {"reserve": "      0"},
    15: {"count": "     1"},
}


def record(fields, changes):
    assert set(changes) <= set(fields)
    parts = [changes.get(name, text) for name, text in fields.items()]
    assert [len(p) for p in parts] == [len(t) for t in fields.values()]
    made = "".join(parts).encode("ascii")
    assert len(made) == 219
    return made


def header(n, changes=None):
    return record(HEADER, {"count": "%6d" % n, **(changes or {})})


def reference(owner, code, operator="11", site="AB01"):
    """The 13X of station number `owner` at a site; one that breaks rule 30 has its letters in lower case."""
    return "AUT23%s%sA%03d" % (operator, site.lower() if code == 30 else site, owner)


# A station: its record, its code and its twin, and what a clash goes by, operator and site, and where and how high it stands.
Made = collections.namedtuple("Made", "record code twin site stands")


def station(k, code=0, owner=None, good=0, operator="11", site="AB01", place=None, height="  30"):
    """Station k with its code, its 13X taken from station `owner` or its own."""
    owner = owner or k
    changes = {**(BROKEN[code] if code else GOOD[good]), "13X": reference(owner, code, operator, site)}
    if place:
        changes["4C"] = place
    changes.setdefault("9Y", height)
    stands = PLACES.get(changes.get("4C", STATION["4C"])), int(height)
    return Made(record(STATION, changes), code, owner if owner < k else 0, operator + site, stands)


def clash(stations, k):
    """The number of the first station before number k of its site that stands elsewhere, both without a broken rule; else 0."""
    own = stations[k - 1]
    for i, other in enumerate(stations[:k - 1], 1):
        if other.site == own.site and other.stands != own.stands and (other.code, own.code) == (0, 0):
            return i
    return 0


def report(head, rows):
    lines = ["header %d" % head]
    bad = 0
    for k, (code, twin, clash) in enumerate(rows, 1):
        if code or twin or clash:
            bad += 1
            lines.append("station %d code %d twin %d clash %d" % (k, code, twin, clash))
    lines.append("stations %d bad %d" % (len(rows), bad))
    return "".join(line + "\n" for line in lines)


def filing(stations, head=0, count=None):
    """A file of these stations and what is printed of it."""
    changes = {name: text for name, text in BROKEN_HEADER.get(head, {}).items() if name != "count" or count is None}
    first = header(len(stations) if count is None else count, changes)
    rows = [(made.code, made.twin, clash(stations, k)) for k, made in enumerate(stations, 1)]
    return first + b"".join(made.record for made in stations), report(head, rows)


def full():
    """298 stations: each code once, twins of good and of broken stations, and good ones between."""
    made = [station(k, code=k) for k in range(1, 40)]                       # 1 to 39: each code
    made += [station(40 + i, good=i) for i in range(len(GOOD))]              # 40 to 46: good, each in its way
    made += [station(47, owner=40), station(48, owner=40)]                   # two twins of one good station
    made += [station(49, owner=5), station(50, code=12, owner=5)]            # twins of a broken one, good and broken
    made += [station(51, code=30, owner=30)]                                 # a twin by a 13X that itself breaks its rule
    while len(made) < 99:
        made.append(station(len(made) + 1, good=len(made) % len(GOOD)))
    made += [station(100), station(101, code=39), station(102)]
    while len(made) < 298:
        k = len(made) + 1
        turn = k % 5
        if turn == 0:
            made.append(station(k, code=k % 29 + 1))                         # broken
        elif turn == 1:
            made.append(station(k, owner=100 + k % 3))                       # a twin with three digits
        elif turn == 2:
            made.append(station(k, code=31 + k % 9, owner=9))                # broken, and a twin
        else:
            made.append(station(k, good=k % len(GOOD)))                      # good
    return made


# Days that there are and days that there are not, in stations: the field, its text and the station's code.
DAYS = [("2C", "29022024", 0), ("2C", "30022024", 8), ("2C", "29022023", 8), ("2C", "31129999", 0), ("2W", "29022000", 0),
        ("2W", "31042024", 28), ("2W", "31112024", 28), ("2Z", "30042024", 0), ("2Z", "29022100", 29), ("2Z", "32012024", 29)]


def dated(date, head):
    """A filing whose header has a date and whose stations have these days, and what is printed of it."""
    stations = [record(STATION, {field: text, "13X": reference(k, 0)}) for k, (field, text, _) in enumerate(DAYS, 1)]
    return header(len(DAYS), {"date": date}) + b"".join(stations), report(head, [(code, 0, 0) for _, _, code in DAYS])


def sites():
    """Stations of one site: at one place, elsewhere, higher, broken; and what makes another site."""
    east = "016E220648N1200"
    yield "site_one_place", *filing([station(1), station(2, place="016E22 548N12 0", height="0030"), station(3)])
    yield "clash_height", *filing([station(1), station(2, height="  31")])
    yield "clash_place", *filing([station(1), station(2, place=east)])
    yield "clash_place_of_a_twin", *filing([station(1), station(2, owner=1, place=east)])
    yield "site_first_broken", *filing([station(1, code=3), station(2, place=east)])
    yield "site_last_broken", *filing([station(1), station(2, code=17, place=east)])
    yield "clash_past_a_broken_one", *filing([station(1, code=39), station(2), station(3, place=east)])
    yield "clash_with_the_second", *filing([station(1), station(2, place=east), station(3)])
    yield "clash_with_the_lowest", *filing([station(1), station(2), station(3), station(4, place=east)])
    yield "site_zero_east_and_west", *filing([station(1, place="000E000000N0000"), station(2, place="000W000000N0000")])
    yield "clash_180_east_and_west", *filing([station(1, place="180E000000N0000"), station(2, place="180W000000N0000")])
    yield "site_of_another_operator", *filing([station(1), station(2, operator="12", place=east)])
    yield "site_of_another_letter", *filing([station(1), station(2, site="AB11", place=east)])
    apart = [station(k, site="C%03d" % k) for k in range(1, 298)]
    yield "clash_above_255", *filing(apart + [station(298, site="C257", height="  31")])
    yield "clash_full", *filing([station(k, height="%4d" % k) for k in range(1, 299)])


def cases():
    twice = [station(1), station(2, owner=1)]
    yield "two_stations", *filing(twice)
    yield "header_alone", *filing([])
    yield "count_of_another_file", *filing(twice, head=15, count=3)
    for code in BROKEN_HEADER:
        yield "header_code_%02d" % code, *filing([], head=code)
    yield "header_with_a_fax", header(0, {"fax": "+43 1 5550199".ljust(20)}), report(0, [])
    yield "header_and_stations_broken", *filing([station(1, code=17), station(2), station(3, code=30)], head=3)
    yield "days_of_the_calendar", *dated("29022024", 0)
    yield "header_date_of_no_day", *dated("30022024", 10)
    whole, lines = filing(full())
    assert len(whole) == 65481
    yield "full", whole, lines
    yield "full_and_good", *filing([station(k, good=k % len(GOOD)) for k in range(1, 299)])
    yield "full_and_bad", *filing([station(k, code=39 - k % 9, owner=k if k < 260 else 259) for k in range(1, 299)])
    # Numbers of one byte and of two: n, the lowest bad row, the number of bad rows, and a twin.
    for n in (1, 250, 251, 255, 256, 257):
        yield "stations_%d" % n, *filing([station(k) for k in range(1, n)] + [station(n, code=7, owner=n)])
    yield "bad_256", *filing([station(k, code=17) for k in range(1, 257)])
    yield "twin_above_255", *filing([station(k) for k in range(1, 298)] + [station(298, owner=257)])
    yield from sites()
    yield "empty", b"", "refused 2\n"
    yield "one_byte", b"0", "refused 2\n"
    yield "bytes_218", header(0)[:218], "refused 2\n"
    yield "bytes_220", header(0) + b" ", "refused 2\n"
    yield "line_feed_at_the_end", filing(twice)[0] + b"\n", "refused 2\n"
    yield "bytes_65480", whole[:65480], "refused 2\n"
    yield "bytes_65482", whole + b" ", "refused 1\n"
    yield "stations_299", header(299) + b"".join(station(k).record for k in range(1, 300)), "refused 1\n"


def write(path, content):
    with open(path, "wb") as f:
        f.write(content if isinstance(content, bytes) else content.encode("ascii"))


def main():
    os.makedirs("tests/desk", exist_ok=True)
    names = 0
    for name, given, wanted in cases():
        write("tests/desk/%s.in" % name, given)
        write("tests/desk/%s.out" % name, wanted)
        if name == "two_stations":
            write("crates/desk/stdin", given)
            write("crates/desk/stdout", wanted)
        names += 1
    print(names, "cases")


if __name__ == "__main__":
    asked(__doc__)
    main()
