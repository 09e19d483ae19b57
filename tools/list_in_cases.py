#!/usr/bin/env python3
"""Makes the cases of the list's way in: tests/list_in/NAME.in, lines as they come in, NAME.out, the records that must be
written, and NAME.err, what must be said of the lines that are refused. Also crates/list_in/stdin and stdout.

Nothing here judges a line. Each is built from good fields, some of them damaged, and beside each damage stands, by hand, the
number that the paper gives its refusal; what is told beside 10 and 11 is counted in the line. A record that is expected is built from the table of fields,
each in the one spelling, which stands here by hand too.

usage: list_in_cases.py     from the repository's root
"""
import os

from desk_cases import BROKEN, GOOD, STATION, record, reference, write
from makers import asked

# The fields of station S that it has in another spelling than the one.
SPELLED = {
    "1A": "00938.20000", "4D": "00000", "4Z": "0180", "8B1": " 030.0", "9B": "-02.0", "9Y": "0030", "1Y": "00893.20000",
}

# The same for each of the good stations; zero degrees are spelled north.
GOOD_SPELLED = [{}, {"8B1": "-005.0"}, {"4D": "00025"}, {}, {}, {}, {"4C": "016E220548N1200"}]

# A line has room for 219 columns, 29 semicolons and the line feed.
LONGEST = 249


def columns(changes):
    """The thirty fields, each in all its columns."""
    return [changes.get(name, text) for name, text in STATION.items()]


def trimmed(changes):
    """The same without the spaces around them; only 13Z keeps its places."""
    return [text if name == "13Z" else text.strip() for name, text in zip(STATION, columns(changes))]


def short(changes):
    """The same, and 13Z without them too."""
    return [text.strip() for text in columns(changes)]


def line(fields):
    return ";".join(fields).encode("ascii") + b"\n"


def good(k, form=trimmed):
    """A line of good station k, and its record."""
    which = k % len(GOOD)
    changes = {**GOOD[which], "13X": reference(k, 0)}
    spelled = {**SPELLED, **changes, **GOOD_SPELLED[which]}
    return line(form(changes)), record(STATION, spelled)


def told(given, refusal):
    """What is told beside a refusal: with 10 the marks, with 11 the first field that is too long. Of a line that is longer than
    the buffer its first bytes are looked at, and semicolons are counted up to 30."""
    if refusal == 10:
        n = given.count(b";")
        count = "30 or more" if len(given) > LONGEST and n >= 30 else "%d" % n
        return " semicolons %s line feed %s" % (count, "yes" if given.endswith(b"\n") else "no")
    if refusal == 11:
        fields = given[:LONGEST + 1].rstrip(b"\n").split(b";")
        for number, (field, (name, text)) in enumerate(zip(fields, STATION.items()), 1):
            if len(field) > len(text):
                name = "unit of " + name[:2] if name.endswith(" unit") else name
                more = " or more" if len(given) > LONGEST + 1 else ""
                return " field %d %s length %d%s most %d" % (number, name, len(field), more, len(text))
    return ""


# The kinds of what is wrong with a field, in words.
BYTE, RANGE, SHAPE, BETWEEN = "byte not admitted", "out of range", "cannot be read", "between fields"

# The kind of what BROKEN has for each code.
KINDS = {
    **dict.fromkeys((1, 2, 3, 4, 5, 6, 7, 16, 20, 22, 27, 30), BYTE),
    **dict.fromkeys((8, 11, 17, 18, 24, 25, 28), RANGE),
    **dict.fromkeys((9, 10, 12, 13, 14, 15, 19, 21, 23, 26, 29), SHAPE),
    **dict.fromkeys(range(31, 40), BETWEEN),
}


def bad(given, refusal, code=None, kind=None):
    """A line that is refused, and what is said of it."""
    return given, "refused %d" % refusal + ("" if code is None else " code %d %s" % (code, kind)) + told(given, refusal)


def damaged(changes, refusal, code=None, kind=None, form=trimmed):
    return bad(line(form(changes)), refusal, code, kind)


def coming_in(lines):
    """What comes in, the records that are written, and what is said of the others."""
    written, said = [], []
    refused = 0
    for n, (_, what) in enumerate(lines, 1):
        if isinstance(what, bytes) and len(written) == 298:
            what = "refused 1"
        if isinstance(what, bytes):
            written.append(what)
        else:
            refused += 1
            said.append("line %d %s\n" % (n, what))
    said.append("records %d refused %d\n" % (len(written), refused))
    return b"".join(given for given, _ in lines), b"".join(written), "".join(said)


def long_lines(n):
    """Lines of n bytes: with all their marks and a field that is too long, and with other marks."""
    marks = b";" * 29
    return [
        bad(b"x" * (n - 30) + marks + b"\n", 11),            # the marks stand last
        bad(marks + b"x" * (n - 30) + b"\n", 11),            # and first
        bad(b"x" * (n - 29) + marks[1:] + b"\n", 10),
        bad(b"x" * (n - 31) + marks + b";\n", 10),
        bad(marks + b"x" * (n - 31) + b";\n", 10),
        bad(b";" * (n - 1) + b"\n", 10),
        bad(b"x" * (n - 1) + b"\n", 10),
    ]


def too_long(name):
    """Station S with one byte more in a field than it has columns."""
    text = STATION[name]
    return damaged({name: text + text[-1:].replace(" ", "0")}, 11, form=columns)


def many():
    """Lines of every kind, one after the other: 1,200, with 240 records."""
    kinds = [
        lambda k: good(k),
        lambda k: bad(b"\n", 10),
        lambda k: damaged({"8B1": "30"}, 9, 15, SHAPE),
        lambda k: damaged({"6A": "FB "}, 11, form=columns),
        lambda k: bad(b"station %d code 17\n" % k, 10),
    ]
    return [kinds[k % 5](k % 1000) for k in range(1200)]


def cases():
    yield "empty", []
    yield "one_line", [good(0)]
    yield "columns", [good(k, columns) for k in range(len(GOOD))]
    yield "trimmed", [good(k, trimmed) for k in range(len(GOOD))]
    yield "short", [good(k, short) for k in range(len(GOOD))]
    yield "last_line_without_its_line_feed", [good(1), bad(good(2)[0][:-1], 10)]
    yield "only_line_without_its_line_feed", [bad(good(1)[0][:-1], 10)]
    yield "carriage_returns", [bad(good(k)[0][:-1] + b"\r\n", 11) for k in range(3)]
    yield "quoted", [
        damaged({"6A": '"FB"'}, 11),
        damaged({"4A": '"1010_MUSTER"'}, 9, 9, BYTE),
        damaged({"1A": '"938.2"'}, 9, 1, BYTE),
        bad(line('"%s"' % text for text in trimmed({})), 11),
        good(4),
    ]
    yield "other_marks", [
        bad(line(trimmed({})[:29]), 10),                      # 28 semicolons
        bad(line(trimmed({}) + [""]), 10),                    # 30
        bad(line(trimmed({})).replace(b";", b","), 10),
        bad(line(trimmed({})).replace(b";", b"\t"), 10),
        bad(b"\n", 10),
        bad(b";\n", 10),
        bad(b";" * 29 + b"\n", 9, 2 + 1, BYTE),                     # thirty blank fields: 1A and its unit may be blank, 1Z not
        bad(b" \n", 10),
        good(3),
    ]
    yield "codes", [damaged({"13X": reference(1, code), **changes}, 9, code, KINDS[code], columns) for code, changes in BROKEN.items()]
    yield "typed_as_numbers", [
        damaged({"8B1": "30"}, 9, 15, SHAPE),
        damaged({"2C": "1032021"}, 9, 8, SHAPE),
        damaged({"1A": "938,2"}, 9, 1, BYTE),
        damaged({"9A": "120"}, 9, 17, SHAPE),
    ]
    yield "fields_too_long", [too_long(name) for name in STATION]
    yield "first_reason", [
        damaged({"6A": "XXX", "1Z": "9"}, 11),                # 11 before 9
        bad(line(trimmed({"6A": "XXX"}) + [""]), 10),         # 10 before 11
        bad(line(trimmed({"6A": "XX"})[:29]), 10),            # 10 before 9
    ]
    yield "bytes_249", [good(k, columns) for k in range(3)] + long_lines(249)[2:]
    yield "bytes_250", [bad(good(1, columns)[0][:-1] + b" \n", 11), good(2)] + long_lines(250)
    yield "bytes_251", long_lines(251) + [good(1, columns)]
    yield "bytes_5000", long_lines(5000) + [good(1, columns)]
    yield "bytes_200000", [long_lines(200000)[0], good(1), long_lines(200000)[3], good(2)]
    yield "long_line_without_its_line_feed", [good(1), bad(b";" * 29 + b"x" * 4951, 10)]
    yield "comment", [good(1), good(2), bad(b"station 3 code 17\n", 10), good(4)]
    yield "titles", [bad(line(STATION), 11), good(1)]
    yield "byte_order_mark", [bad(b"\xef\xbb\xbf" + good(0)[0].replace(b"938.2", b"00938.20000"), 11), good(1)]
    yield "byte_order_mark_before_a_short_field", [bad(b"\xef\xbb\xbf" + good(0)[0], 9, 1, BYTE), good(1)]
    yield "nul_bytes", [
        damaged({"4B": "A\0T"}, 9, 10, BYTE),
        bad(b"\0" * 3 + b"\n", 10),
        bad(b"\0" * 400 + b"\n", 10),
        damaged({"13X": reference(1, 0) + "\0"}, 11),
        good(1),
        bad(b"\0", 10),
    ]
    yield "other_bytes", [damaged({"4A": "1010_M\x7f"}, 9, 9, BYTE), bad(bytes(c for c in range(256) if c != 10) + b"\n", 10), good(1)]
    yield "lines_298", [good(k) for k in range(1, 299)]
    yield "lines_300", [good(k, columns) for k in range(1, 301)]
    yield "bad_behind_298", [good(k) for k in range(1, 299)] + [
        damaged({"6A": "XX"}, 9, 4, BYTE), good(300), bad(b"\n", 10), too_long("6A"), good(303), bad(good(304)[0][:-1], 10),
    ]
    yield "bad_among_good", [
        good(1), bad(b"\n", 10), good(2), damaged({"9A": "360.0"}, 9, 17, RANGE), too_long("4B"), good(3), long_lines(5000)[0], good(4), good(5),
        damaged(BROKEN[39], 9, 39, BETWEEN),
    ]
    yield "many", many()
    yield "line_feeds", [bad(b"\n", 10)] * 5000


def main():
    os.makedirs("tests/list_in", exist_ok=True)
    names = 0
    for name, lines in cases():
        given, written, said = coming_in(lines)
        write("tests/list_in/%s.in" % name, given)
        write("tests/list_in/%s.out" % name, written)
        write("tests/list_in/%s.err" % name, said)
        names += 1
    given, written, _ = coming_in([good(0), damaged({"9A": "360.0"}, 9, 17, RANGE)])
    write("crates/list_in/stdin", given)
    write("crates/list_in/stdout", written)
    print(names, "cases")


if __name__ == "__main__":
    asked(__doc__)
    main()
