//! Spellings of fields: good ones in all the ways that 01 admits, and near misses.

use crate::random::Random;

/// Bytes at the borders of the sets that rules speak of.
pub const BORDER_BYTES: &[u8] =
    b" +-./*(),=0123456789:@AEFGHIJKMNORSVWXZ[^_`aegkz{;EWNS\n\t\0\x7f\x80\xc4\xff";

const DIGITS: &[u8] = b"0123456789";
const UPPER: &[u8] = b"ABCDEFGHIJKLMNOPQRSTUVWXYZ";
const TEXT: &[u8] = b"ABCDEFGHIJKLMNOPQRSTUVWXYZabcdefghijklmnopqrstuvwxyz0123456789+-/*.(),=  ";
const NARROW: &[u8] = b"ABCDEFGHIJKLMNOPQRSTUVWXYZ0123456789-";

/// A good spelling of a station's field, never blank unless it is 13Z.
pub fn good_station(random: &mut Random, code: usize) -> Vec<u8> {
    match code {
        1 | 24 => {
            let any = random.within(1, 9_999_999_999);
            let count = random.pick(&[1, 100_000, 93_820_000, 9_999_999_999, any, any, any]);
            decimal(random, 11, [5, 5], false, count)
        }
        2 | 25 => vec![random.pick(b"kMG")],
        3 => vec![random.pick(b"12345678")],
        4 => random.pick(&[*b"FB", *b"FL", *b"ML"]).to_vec(),
        5 => random.pick(&[*b"CO", *b"CP", *b"CR", *b"CV", *b"OT"]).to_vec(),
        6 => {
            let letters = b"ABCDEFGHIKLMNOPQRSTUVWXYZ";
            vec![random.pick(letters), if random.one_in(2) { b' ' } else { random.pick(letters) }]
        }
        7 => vec![random.pick(b"01")],
        8 | 28 | 29 => date(random),
        9 => name(random, false),
        10 => {
            let letters = 1 + random.below(3);
            padded_right(random.word(UPPER, letters), 3)
        }
        11 => place(random),
        12 => {
            let value = random.pick(&[0, 0, 1, 99_999, 5]);
            whole(random, 5, value)
        }
        13 => {
            let any = random.within(-999, 9_999);
            let value = random.pick(&[-999, -1, 0, 180, 999, 9_999, any, any]);
            height(random, value)
        }
        14 => emission(random),
        15 => {
            let any = random.within(-9_999, 9_999);
            let value = random.pick(&[-9_999, -1, 0, 0, 5, 9_999, any, any]);
            decimal(random, 6, [3, 1], true, value)
        }
        16 => vec![random.pick(b"EI")],
        17 => {
            let any = random.within(0, 3_599);
            let value = random.pick(&[0, 1, 3_599, any, any]);
            decimal(random, 5, [3, 1], false, value)
        }
        18 => {
            let any = random.within(-900, 900);
            let value = random.pick(&[-900, -1, 0, 900, any, any]);
            decimal(random, 5, [2, 1], true, value)
        }
        19 => {
            random.pick(&[*b"H ", *b"V ", *b"SR", *b"SL", *b"CR", *b"CL", *b"D ", *b"M "]).to_vec()
        }
        20 => {
            let any = random.within(0, 999);
            let value = random.pick(&[0, 5, 999, any, any]);
            decimal(random, 4, [2, 1], false, value)
        }
        21 => {
            let any = random.within(0, 9_999);
            whole(random, 4, any)
        }
        22 | 23 => [random.word(DIGITS, 3), random.word(UPPER, 2), random.word(DIGITS, 2)].concat(),
        26 => remarks(random),
        27 => vec![random.pick(b"FB")],
        30 => reference(random),
        _ => unreachable!("stations have thirty fields"),
    }
}

/// A spelling of a station's field that mostly breaks its rule.
pub fn bad_station(random: &mut Random, code: usize) -> Vec<u8> {
    if matches!(code, 8 | 28 | 29) && random.one_in(2) {
        return late_date(random);
    }
    let misses: &[&str] = match code {
        1 | 24 => &[
            "00000.00000",
            "        .00",
            "123456.1234",
            "1.234567   ",
            "+00938.2000",
            "  938      ",
            "  938.     ",
            "   .       ",
            "93 8.2     ",
            "938.2.1    ",
            "          x",
        ],
        3 => &["0", "9", " ", "A"],
        4 => &["FA", "MB", "BF", "M ", "  ", "fb", "LF"],
        5 => &["CA", "OC", "TO", "  ", "C ", "cv", "OP"],
        6 => &["J ", "JA", "AJ", "  ", " A", "a ", "A1", "A-"],
        7 => &["2", " ", "O", "/"],
        8 | 28 | 29 => &[
            "00012001", "32012001", "01002001", "01132001", "01011900", "01010000", " 1012001",
            "0101 001", "2001    ", "0101200 ", "1.1.2001",
        ],
        9 => &[
            "101_MUSTER          ",
            " 1010_MUSTER        ",
            "1010 MUSTER         ",
            "1010-MUSTER         ",
            "1010_MUSTER;        ",
            "1010_M[STER         ",
            "1010_M^STER         ",
            "1010_M@STER         ",
            "                    ",
            "1010_M\nSTER         ",
        ],
        10 => &["A T", " D ", "   ", "  D", "a  ", "AU1", "A\0 "],
        11 => &[
            "180E000100N0000",
            "180W000100N0000",
            "000E000090N0001",
            "000E000090S0001",
            "181E000000N0000",
            "000E000091N0000",
            "000E600000N0000",
            "000E006000N0000",
            "000E000000N6000",
            "000E000000N0060",
            "0  E000000N0000",
            "   E000000N0000",
            "000E  0000N0000",
            "000E5 0000N0000",
            "000N000000E0000",
            "000e000000n0000",
            "-10E000000N0000",
            "               ",
        ],
        12 => &["     ", "0    ", " 1 2 ", "   -0", "+0000", "  0.0", "1234x"],
        13 => &[
            "180 ", "- 5 ", "-  5", " -5 ", "--05", "+-05", "   -", "   +", "5.0 ", "1-00", "-x05",
        ],
        14 => &[
            "0M00G7W  ",
            "M500G7W  ",
            "K500G7W  ",
            "G500G7W  ",
            "5000G7W  ",
            "5MM0G7W  ",
            "5M00E7W  ",
            "5M00G4W  ",
            "5M00G7G  ",
            "5M00G7WI ",
            "5M00G7WO ",
            "5M00G7W N",
            "5M00G7WAA",
            " M00G7W  ",
            "5M0 G7W  ",
            "5M00 7W  ",
            "5m00G7W  ",
            "         ",
        ],
        15 => &[
            "1234.5", "- 5.0 ", "+ 5.0 ", "--5.0 ", "5.00  ", "  5   ", "  5.  ", "   .  ",
            " -.   ", "5.0-  ", "5 .0  ", "   -  ", "0x5.0 ",
        ],
        16 => &["O", " ", "e", "1"],
        17 => &["360.0", "999.9", "-00.0", "+00.0", "120  ", "120. ", "  .  ", "1 0.0", "12.00"],
        18 => &["-90.1", " 90.1", "+90.1", "99.9 ", "090.0", "- 9.0", "9.00 ", "  -. ", "45   "],
        19 => &[" H", "HV", "S ", "C ", "  ", "h ", "LS", "RC", "X ", "H\0"],
        20 => &["-1.0", "+1.0", "100.", "17  ", "17. ", "  . ", "1.00", "1 .0"],
        21 => &["    ", "30  ", "-030", "+030", "3 0 ", "3.0 ", "003x"],
        22 | 23 => &["       ", "00 ND00", "000nd00", "000N000", "000ND 0", "ND00000", "000ND-1"],
        26 => return bad_remarks(random),
        27 => &["P", " ", "f", "A"],
        30 => &[
            "DEU2311AB01A001",
            "AUT231 AB01A001",
            "AUT2311AB 1A001",
            "AUT2311ab01A001",
            "AUT2311AB_1A001",
            "AUT2311AB01A01 ",
            "AUT2311AB01A0O1",
            "aut2311AB01A001",
            "               ",
        ],
        _ => return vec![random.pick(BORDER_BYTES)],
    };
    if random.one_in(2) {
        let good = good_station(random, code);
        damaged(random, good)
    } else {
        random.pick(misses).as_bytes().to_vec()
    }
}

/// A good spelling of a header's field, the count being `count`.
pub fn good_header(random: &mut Random, code: usize, count: i64) -> Vec<u8> {
    match code {
        1 => {
            let number = random.within(0, 99);
            whole(random, 2, number)
        }
        2 => text(random, 80, TEXT),
        3 => b"O".to_vec(),
        4 | 11 => b"AUT".to_vec(),
        5 => text(random, 40, &[TEXT, b"@_"].concat()),
        6..=8 => text(random, 20, TEXT),
        9 => whole(random, 6, count),
        10 => date(random),
        12 if random.one_in(3) => vec![b' '; 6],
        12 => {
            let number = random.within(0, 999_999);
            whole(random, 6, number)
        }
        13 => b"1.0".to_vec(),
        14 => vec![b' '; 7],
        _ => unreachable!("headers have fourteen fields"),
    }
}

/// A spelling of a header's field that mostly breaks its rule.
pub fn bad_header(random: &mut Random, code: usize) -> Vec<u8> {
    if code == 10 && random.one_in(2) {
        return late_date(random);
    }
    let misses: &[&str] = match code {
        1 => &["  ", "1 ", "-1", "+1", "x1", "1."],
        3 => &["0", "o", " ", "Q"],
        4 | 11 => &["aut", "DEU", "   ", "AU ", "UAT"],
        9 => &["      ", "2     ", "-00002", "+00002", "   2.0", "00 002"],
        10 => &["        ", "00012001", "32012001", "01002001", "01132001", "01011900", " 1012001"],
        12 => &["2     ", "-00002", "+00002", "   2.0", "00 002", "x     "],
        13 => &["1.1", "1,0", "   ", "1. ", ".10"],
        14 => &["0      ", "      x", "   .   "],
        _ => &[],
    };
    if misses.is_empty() || random.one_in(3) {
        let good = good_header(random, code, 2);
        damaged(random, good)
    } else {
        random.pick(misses).as_bytes().to_vec()
    }
}

/// 4A; a repeater's ends in _R.
pub fn name(random: &mut Random, repeater: bool) -> Vec<u8> {
    let letters = random.below(if repeater { 14 } else { 16 });
    let mut name = random.word(DIGITS, 4);
    name.push(b'_');
    name.extend(random.word(&[TEXT, b"_"].concat(), letters));
    if repeater {
        // The underscore of the four digits will do.
        name.extend(if letters == 0 { &b"R"[..] } else { b"_R" });
    }
    padded_right(name, 20)
}

/// 13X.
pub fn reference(random: &mut Random) -> Vec<u8> {
    let site = random.word(NARROW, 5);
    [b"AUT".to_vec(), random.word(DIGITS, 4), site, random.word(DIGITS, 3)].concat()
}

/// One or two bytes changed, two swapped, or all moved by a place.
pub fn damaged(random: &mut Random, mut text: Vec<u8>) -> Vec<u8> {
    let (a, b) = (random.below(text.len()), random.below(text.len()));
    match random.below(6) {
        0 => text.swap(a, b),
        1 => text.rotate_left(1),
        2 => text.rotate_right(1),
        3 => text.fill(b' '),
        4 => text[a] = random.byte(),
        _ => text[b] = random.pick(BORDER_BYTES),
    }
    text
}

fn padded_right(mut text: Vec<u8>, length: usize) -> Vec<u8> {
    text.resize(length, b' ');
    text
}

/// Spaces around `text`, split at random.
fn centred(random: &mut Random, text: &str, length: usize) -> Vec<u8> {
    let left = random.below(length - text.len() + 1);
    let mut out = vec![b' '; length];
    out[left..left + text.len()].copy_from_slice(text.as_bytes());
    out
}

/// A decimal with some leading zeros more and some closing zeros less.
fn decimal(
    random: &mut Random,
    length: usize,
    places: [usize; 2],
    signed: bool,
    value: i64,
) -> Vec<u8> {
    let [before, after] = places;
    let scale = 10_u64.pow(after as u32);
    let (units, parts) = (value.unsigned_abs() / scale, value.unsigned_abs() % scale);
    let mut whole = if units == 0 { String::new() } else { units.to_string() };
    while whole.len() < before && random.one_in(3) {
        whole.insert(0, '0');
    }
    let mut fraction = format!("{parts:0after$}");
    while fraction.len() > 1 && fraction.ends_with('0') && !random.one_in(3) {
        fraction.pop();
    }
    let sign = sign(random, signed, value);
    centred(random, &format!("{sign}{whole}.{fraction}"), length)
}

/// A sign that fits the value; zero takes either.
fn sign(random: &mut Random, signed: bool, value: i64) -> &'static str {
    match value {
        _ if !signed => "",
        0 => random.pick(&["", "+", "-"]),
        1.. => random.pick(&["", "", "+"]),
        _ => "-",
    }
}

/// A whole number to the last column, behind zeros and spaces.
fn whole(random: &mut Random, length: usize, value: i64) -> Vec<u8> {
    let mut text = value.to_string();
    while text.len() < length && random.one_in(2) {
        text.insert(0, '0');
    }
    format!("{text:>length$}").into_bytes()
}

/// 4Z: a whole number that may have a sign.
fn height(random: &mut Random, value: i64) -> Vec<u8> {
    let mut text = value.unsigned_abs().to_string();
    let sign = if text.len() == 4 { "" } else { sign(random, true, value) };
    while sign.len() + text.len() < 4 && random.one_in(2) {
        text.insert(0, '0');
    }
    format!("{:>4}", format!("{sign}{text}")).into_bytes()
}

/// A day that there is: up to the 28th, the last of a month, or 29 February.
fn date(random: &mut Random) -> Vec<u8> {
    let year = random.within(1901, 9999);
    let year = random.pick(&[1901, 9999, 2000, 2024, year]);
    let month = random.within(1, 12);
    match random.below(4) {
        0 => format!("2902{}", random.pick(&[1904, 2000, 2024, 2400, 9996])),
        1 => format!(
            "{}{month:02}{year}",
            [31, 28, 31, 30, 31, 30, 31, 31, 30, 31, 30, 31][month as usize - 1]
        ),
        _ => format!("{:02}{month:02}{year}", random.within(1, 28)),
    }
    .into_bytes()
}

/// A day near the end of a month that has not 31, which there mostly is not.
fn late_date(random: &mut Random) -> Vec<u8> {
    let any = random.within(1901, 9999);
    let year = random.pick(&[1901, 1904, 2000, 2023, 2024, 2100, 2200, 2400, 9999, any, any]);
    let month = random.pick(&[2, 2, 2, 4, 6, 9, 11]);
    format!("{:02}{month:02}{year}", random.within(28, 32)).into_bytes()
}

/// A text in which zeros that lead one of its numbers, each of so many columns from one on, are spaces
/// now and then: the same value, spelled otherwise.
pub fn loosened(random: &mut Random, text: &[u8], numbers: &[[usize; 2]]) -> Vec<u8> {
    let mut loose = text.to_vec();
    for &[first, length] in numbers.iter().filter(|_| random.one_in(2)) {
        let zeros = text[first..][..length - 1].iter().take_while(|byte| **byte == b'0').count();
        loose[first..][..zeros].fill(b' ');
    }
    loose
}

/// 4C: each number behind zeros or spaces.
pub fn place(random: &mut Random) -> Vec<u8> {
    let longitude = arc(random, 3, 180, b"EW");
    [longitude, arc(random, 2, 90, b"NS")].concat()
}

fn arc(random: &mut Random, places: usize, most: i64, letters: &[u8]) -> Vec<u8> {
    let any = random.within(0, most - 1);
    let degrees = random.pick(&[0, most, any, any, any]);
    let rest = if degrees == most { 0 } else { 59 };
    let degrees = whole(random, places, degrees);
    let (minutes, seconds) = (random.within(0, rest), random.within(0, rest));
    let letter = vec![random.pick(letters)];
    [degrees, letter, whole(random, 2, minutes), whole(random, 2, seconds)].concat()
}

fn emission(random: &mut Random) -> Vec<u8> {
    let mut text = random.word(DIGITS, 4);
    let letter = random.below(4);
    text[0] = random.pick(b"123456789");
    text[letter] = if letter == 0 { b'H' } else { random.pick(b"HKMG") };
    text.push(random.pick(b"NAHRJBCFGDPKLMQVWX"));
    text.push(random.pick(b"0123789X"));
    text.push(random.pick(b"NABCDEFWX"));
    if random.one_in(2) {
        text.push(random.pick(b"ABCDEFGHJKLMNWX"));
        text.push(random.pick(b" NCFTWX"));
    }
    padded_right(text, 9)
}

fn remarks(random: &mut Random) -> Vec<u8> {
    if random.one_in(3) {
        return vec![b' '; 50];
    }
    let generation = vec![random.pick(b"2345")];
    let digits = random.below(10);
    let cell = [vec![b' '; 9 - digits], random.word(b"0123456789ABCDEF", digits)].concat();
    let classes = [*b"   ", *b" 0I", *b" 2I", *b"10I", *b" 0O", *b" 2O", *b"10O"];
    let class = random.pick(&classes).to_vec();
    let letters = random.below(38);
    [generation, cell, class, padded_right(random.word(TEXT, letters), 37)].concat()
}

/// 13Z with one of its four parts wrong.
fn bad_remarks(random: &mut Random) -> Vec<u8> {
    let mut text = remarks(random);
    match random.below(5) {
        0 => text[0] = random.pick(b"1678 0O"),
        1 => text[1 + random.below(9)] = random.pick(b" aGf-0"),
        2 => {
            let classes = [*b"  I", *b" 0 ", *b"00I", *b"20I", *b"0 I", *b" 1O", *b"10o", *b" 20"];
            text[10..13].copy_from_slice(&random.pick(&classes));
        }
        3 => text[13 + random.below(37)] = random.pick(BORDER_BYTES),
        _ => text = damaged(random, text),
    }
    text
}

/// Text that is left-justified, or blank.
fn text(random: &mut Random, length: usize, alphabet: &[u8]) -> Vec<u8> {
    let letters = random.below(length + 1);
    let mut text = random.word(alphabet, letters);
    if let Some(first) = text.first_mut() {
        *first = random.pick(b"AZaz09+-/*.(),=");
    }
    padded_right(text, length)
}
