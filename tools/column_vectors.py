#!/usr/bin/env python3
"""Makes the column vectors: crates/column_vectors/stdin, and beside it what the program must print.

The answers are worked out here from the paper's own sentences, by regular expressions and integer
arithmetic, days by Python's own calendar, and share nothing with the library. A vector is a letter for the kind of column, three
digits for the width, a colon, the bytes and a line feed.

usage: column_vectors.py     from the repository's root
"""
import datetime
import itertools
import re
import string

from makers import asked

BAD, BLANK = "bad", "blank"
TEXT = set(b"+-/*.(),= " + (string.ascii_letters + string.digits).encode())


def whole(b):
    if not b.strip(b" "):
        return BLANK
    m = re.fullmatch(rb" *([0-9]{1,18})", b)
    return int(m.group(1)) if m else BAD


def signed(b):
    if not b.strip(b" "):
        return BLANK
    m = re.fullmatch(rb" *([+-]?)([0-9]{1,18})", b)
    if not m:
        return BAD
    return -int(m.group(2)) if m.group(1) == b"-" else int(m.group(2))


FORMATS = {"F": (5, 5, False), "P": (3, 1, True), "A": (3, 1, False), "E": (2, 1, True), "G": (2, 1, False)}


def decimal(kind, b):
    a, c, sign = FORMATS[kind]
    if not b.strip(b" "):
        return BLANK
    m = re.fullmatch(rb" *(%s)([0-9]{0,%d})\.([0-9]{1,%d}) *" % (b"[+-]?" if sign else b"", a, c), b)
    if not m:
        return BAD
    v = int((m.group(2) + m.group(3)).ljust(len(m.group(2)) + c, b"0"))
    return -v if m.group(1) == b"-" else v


def spell_decimal(kind, v):
    a, c, sign = FORMATS[kind]
    if abs(v) >= 10 ** (a + c) or (v < 0 and not sign):
        return "refused"
    d = str(abs(v)).zfill(a + c)
    return "[%s%s.%s]" % (("-" if v < 0 else " ") if sign else "", d[:a], d[a:])


def spell_signed(w, v):
    d = str(abs(v)).zfill(w - 1) if v < 0 else str(v).zfill(w)
    s = "-" + d if v < 0 else d
    return "[%s]" % s if w and len(s) == w else "refused"


def date(b):
    if not b.strip(b" "):
        return BLANK
    if not re.fullmatch(rb"[0-9]{8}", b):
        return BAD
    d, m, y = int(b[:2]), int(b[2:4]), int(b[4:])
    try:
        datetime.date(y, m, d)
    except ValueError:
        return BAD
    return (d, m, y) if y >= 1901 else BAD


def position(b):
    m = re.fullmatch(rb"(.{3})([EW])(.{2})(.{2})(.{2})([NS])(.{2})(.{2})", b, re.S)
    if not m:
        return BAD
    n = [whole(m.group(i)) for i in (1, 3, 4, 5, 7, 8)]
    if any(not isinstance(x, int) for x in n) or max(n[1], n[2], n[4], n[5]) > 59:
        return BAD
    east, north = n[0] * 3600 + n[1] * 60 + n[2], n[3] * 3600 + n[4] * 60 + n[5]
    if east > 180 * 3600 or north > 90 * 3600:
        return BAD
    return (-east if m.group(2) == b"W" else east, -north if m.group(6) == b"S" else north)


def spell_position(p):
    def half(v, w, plus, minus):
        n = abs(v)
        return "%0*d%s%02d%02d" % (w, n // 3600, minus if v < 0 else plus, n // 60 % 60, n % 60)
    return "[%s%s]" % (half(p[0], 3, "E", "W"), half(p[1], 2, "N", "S"))


def emission(b):
    width = b[:4]
    return len(b) == 9 and sum(c in b"0123456789" for c in width) == 3 and sum(c in b"HKMG" for c in width) == 1 and \
        width[:1] not in (b"0", b"K", b"M", b"G") and \
        bool(re.fullmatch(rb"[NAHRJBCFGDPKLMQVWX][0123789X][NABCDEFWX](  |[ABCDEFGHJKLMNWX][ NCFTWX])", b[4:]))


def remarks(b):
    if len(b) != 50:
        return False
    if not b.strip(b" "):
        return True
    return bool(re.fullmatch(rb"[2-5] *[0-9A-F]*", b[:10])) and \
        bool(re.fullmatch(rb"( 0|10| 2)[IO]|   ", b[10:13])) and all(c in TEXT for c in b[13:])


PATTERNS = {
    "X": rb"AUT[0-9]{4}[A-Z0-9-]{5}[0-9]{3}",
    "T": rb"[0-9]{3}[A-Z]{2}[0-9]{2}",
    "N": rb"[0-9]{4}_[A-Za-z0-9+\-/*.(),= _]{15}",
    "O": rb"[A-Z]  |[A-Z]{2} |[A-Z]{3}",
    "U": rb"[A-IK-Z][A-IK-Z ]",
    "K": rb"FB|FL|ML",
    "V": rb"CO|CP|CR|CV|OT",
    "Q": rb"H |V |SR|SL|CR|CL|D |M ",
    "t": rb" *|[A-Za-z0-9+\-/*.(),=][A-Za-z0-9+\-/*.(),= ]*",
    "m": rb" *|[A-Za-z0-9+\-/*.(),=@_][A-Za-z0-9+\-/*.(),= @_]*",
    "B": rb" *",
}


def answer(kind, b):
    if kind == "W":
        v = whole(b)
        return v if isinstance(v, str) else "%d [%s]" % (v, str(v).zfill(len(b)))
    if kind == "S":
        v = signed(b)
        return v if isinstance(v, str) else "%d %s" % (v, spell_signed(4, v))
    if kind in FORMATS:
        v = decimal(kind, b)
        return v if isinstance(v, str) else "%d %s" % (v, spell_decimal(kind, v))
    if kind.upper() in FORMATS and kind.islower():
        return spell_decimal(kind.upper(), signed(b))
    if kind == "s":
        return spell_signed(4, signed(b))
    if kind == "D":
        v = date(b)
        return v if isinstance(v, str) else "%d %d %d [%02d%02d%04d]" % (v + v)
    if kind == "L":
        v = position(b)
        return v if isinstance(v, str) else "%d %d %s" % (v + (spell_position(v),))
    if kind == "M":
        return "yes" if emission(b) else "no"
    if kind == "Z":
        return "yes" if remarks(b) else "no"
    return "yes" if re.fullmatch(PATTERNS[kind], b, re.S) else "no"


def vectors():
    def each(kind, *texts):
        for t in texts:
            yield kind, t if isinstance(t, bytes) else t.encode("latin-1")
    odd = ["", " ", "\0", "\xff", " " * 300, "1" * 300, " " * 282 + "1" * 18, " " * 281 + "1" * 19, "\n", "0", "00", "5\0"]
    for kind in "WSFPAEGDLMZXTNOUKVQtmB":
        yield from each(kind, *odd)
    yield from each("W", "   42", "00042", "4 2", "42 ", "+42", "-42", "99999", "    0", "0x2a", "4.2", "   4a", "a4", "\t42", " 4\xa02")
    yield from each("S", " 180", "+180", "0180", "-180", "  -5", " -05", "-005", "  -0", "  +0", " -5 ", "- 5 ", "-  5", "180 ", "--5 ", "+-5", "-", "+", "9999", "-999", "5-  ", "1234567", "-1000", "10000")
    yield from each("P", "  -5.0", "-005.0", " -.5  ", "  -0.0", "- 5.0 ", "  +5.0", "+005.0", "005.0 ", "5.0   ", "   5.0", "999.9 ", "-999.9", "1234.5", "-1234.5", "   5. ", "   5  ", "   .  ", "  -.  ", "   .5 ", "  +.5 ", "  5 .0", "  5. 0", "5.0-  ", "5.0 0 ", "  5.00", "  -5,0", "  --5.0"[:6], "+-5.0 ", ".     ", "-     ", "   0.0", "\0  5.0", "5.0\0  ")
    yield from each("A", "359.9", "360.0", "  0.0", "000.0", "999.9", "-0.0 ", "+5.0 ", " .1  ", "120.0", "1200.", "12.34", "0120.0", "120,0")
    yield from each("E", "-90.0", " 90.0", "+90.0", "-90.1", "090.0", "100.0", "  -.5", "- .5 ", "-2.0 ", " -2.0", "99.9 ", "-99.9")
    yield from each("G", "17.0", " 7.0", ".5  ", "99.9", "-1.0", "+1.0", "100.", "1.05", "  .0", "0.0 ")
    yield from each("F", "  938.2    ", "00938.20000", "99999.99999", "    0.00001", ".00001     ", "  938.     ", "123456.1   ", "1.234567   ", "  938 .2   ", " -938.2    ", " +938.2    ", "    0.0    ", "938.2", "     1.5   ")
    for kind, most in (("f", 9999999999), ("p", 9999), ("a", 9999), ("e", 999), ("g", 999), ("s", 9999)):
        for v in (0, 1, -1, most, most + 1, -most, -most - 1, 999999999999999999, -999999999999999999, 999, -999, -1000, 3600, 901):
            yield kind, str(v).encode()
    yield from each("D", "01032021", "00032021", "31122021", "32122021", "01001999", "01131999", "01012000", "01011900", "01011901", "31129999", "1 032021", " 1032021", "01032021 ", "0103202", "01 32021", "30022021", "0103202a", "01-32021", "+1032021")
    yield from each("D", "29021904", "29022000", "29022024", "29022400", "29021901", "29022023", "29022100", "29021900", "30022024", "30022000", "31042024", "31062024", "31092024", "31112024", "30042024", "30062024", "30092024", "30112024", "31012023", "31032023", "31052023", "31072023", "31082023", "31102023", "31122023", "28022023", "28022100", "32012024", "31022024", "31002024", "29139999")
    yield from each("L", "016E22 548N12 0", "016E220548N1200", "180E000000N0000", "180E000100N0000", "180E000000N9000", "180W000000S9000", "181E000000N0000", "000E000090N0000", "000E000000N9001", "000W000000S0000", "016W220548S1200", "016e220548N1200", "016E220548n1200", "016N220548E1200", "016E600048N1200", "016E226048N1200", "016E220548N6000", "016E220548N1260", "16 E220548N1200", " 16E220548N1200", "  6E 2 5 8N 2 0", "   E220548N1200", "016E  0548N1200", "016E220548N12  ", "0160220548N1200", "-16E220548N1200", "999E595999N5959", "180E 0 090N 0 0", "016E220548N120", "016E220548N12000")
    for b in ("5M00", "500M", "50M0", "M500", "H500", "5H00", "500H", "0M00", "5000", "5MM0", "5M0K", "K500", "G123", "1G23", "12K5", "HHHH", "5m00", " 5M0"):
        yield "M", (b + "G7W  ").encode()
    for i in range(0x20, 0x7f):
        c = chr(i)
        yield from each("M", "5M00%s7W  " % c, "5M00G%sW  " % c, "5M00G7%s  " % c, "5M00G7W%s " % c, "5M00G7WE%s" % c)
    yield from each("M", "5M00G7W N", "5M00G7WEN", "5M00G7WE ", "5M00G7W\0\0", "5M00G7W", "5M00G7WENN", "5M00\xff7W  ")
    rest = " " * 37
    for head in ("4 1E1850B ", "4  1E1850B", "5C712E6E18", "2         ", "3        F", "4 1e1850b ", "6         ", "1         ", "4F        ", "2 0 0 0 0 ", "4123456789", "4ABCDEFabc", "          "):
        for inst in (" 0I", " 0O", " 2I", "10O", "   ", " 00", " 1I", "0 I", "2 O", "10 ", "  I", "20O", " 2o"):
            yield "Z", (head + inst + rest).encode()
    yield from each("Z", "2" + " " * 49, " " * 50, " " * 49 + "2", "2" + " " * 12 + " Stadtplatz 1,(a)=b/c*d-e+f. " + " " * 8, "2" + " " * 12 + "[" + " " * 36, "2" + " " * 12 + "_" + " " * 36, "2" + " " * 48, "2" + " " * 50, "2" + " " * 48 + "\xe4")
    yield from each("X", "AUT2311AB01A001", "AUT2311-----001", "AUT2311AB 1A001", "AUT2311ab01A001", "AUS2311AB01A001", "AUT23x1AB01A001", "AUT2311AB01A00x", "AUT2311AB01A0011", "AUT2311AB01A00", "aut2311AB01A001", "AUT2311AB01_001")
    yield from each("T", "000ND00", "123AB45", "12 AB45", "123aB45", "123A145", "123AB4 ", "000ND000", "000ND0", "[00ND00")
    yield from each("N", "1010_MUSTER         ", "1010_               ", "1010__R             ", "1010_R              ", "1010MMUSTER         ", "101 _MUSTER         ", "1010_muster(1),=+-/*", "1010_[              ", "1010_^              ", "1010_\xfc              ", "9999_318166502860_R ", "1010_@              ", "1010_MUSTER        ", "1010_;              ")
    yield from each("O", "AUT", "D  ", "CH ", "A T", " D ", "   ", "aut", "A1T", "AU", "AUTT", "A\0\0", "J  ")
    yield from each("U", "L ", "XP", "HH", "J ", "AJ", "JA", "  ", " L", "l ", "L1", "L", "LLL", "[ ")
    for kind in "KVQ":
        for a, b in itertools.product("FBLMCOPRVTHSD ", repeat=2):
            if (a + b) in ("FB", "FL", "ML", "BF", "CO", "CP", "CR", "CV", "OT", "TO", "H ", " H", "V ", "SR", "SL", "CL", "D ", "M ", "RS", "  ", "HV", "F ", "MM", "OO"):
                yield kind, (a + b).encode()
        yield from each(kind, "fb", "FBX", "F", "H", "HH ")
    for i in range(256):
        yield "t", bytes([i])
        yield "m", bytes([i])
    yield from each("t", "abc", " abc", "abc ", "a b", "   ", "a[b", "a^b", "a,b", "a;b", "a_b", "a@b")
    yield from each("m", "desk_1@example.at  ", " desk@example.at", "a b@c", "a[b")
    yield from each("B", " ", "   ", "  x", "\t", "\0 ")


def main():
    at = "crates/column_vectors/"
    n = 0
    with open(at + "stdin", "wb") as given, open(at + "stdout", "w", encoding="ascii") as wanted:
        for kind, b in vectors():
            given.write(b"%s%03d:%s\n" % (kind.encode(), len(b), b))
            wanted.write("%s %s\n" % (kind, answer(kind, b)))
            n += 1
        wanted.write("%d vectors\n" % n)
    print(n)


if __name__ == "__main__":
    asked(__doc__)
    main()
