//! Lines damaged at random: words never contradict the refusal, and cleaning changes nothing twice.

use desk::{Refusal, MAX_LINE_LENGTH, RECORD_LENGTH};
use owners::cleaning::clean;
use owners::words::{explain, field_of};
use owners::{changes, filings, rules};

const STATION: &[u8; RECORD_LENGTH] = include_bytes!("../../desk/station-s.txt");

/// Numbers that look random and come again in every run.
struct Random(u64);

impl Random {
    fn below(&mut self, limit: usize) -> usize {
        self.0 ^= self.0 << 13;
        self.0 ^= self.0 >> 7;
        self.0 ^= self.0 << 17;
        (self.0 % limit as u64) as usize
    }

    fn pick<'a>(&mut self, texts: &[&'a [u8]]) -> &'a [u8] {
        texts[self.below(texts.len())]
    }
}

fn line() -> Vec<u8> {
    let mut line = vec![0; MAX_LINE_LENGTH];
    let length = desk::list_out(STATION, &mut line).unwrap();
    line.truncate(length);
    line
}

/// The line of station S with some bytes put in, taken out or changed.
fn damaged(random: &mut Random) -> Vec<u8> {
    let mut bytes = line();
    for _ in 0..1 + random.below(3) {
        let place = random.below(bytes.len() + 1);
        let end = (place + random.below(3)).min(bytes.len());
        let put: &[&[u8]] = &[
            b"",
            b";",
            b"\"",
            b",",
            b"\r",
            b"0",
            b"XX",
            b"\xef\xbb\xbf",
            b" ",
            b".",
            b"\"\"",
            b";;;;;;",
        ];
        bytes.splice(place..end, random.pick(put).iter().copied());
    }
    if random.below(8) == 0 {
        bytes = bytes.iter().map(|&byte| if byte == b';' { b',' } else { byte }).collect();
    }
    bytes
}

#[test]
fn words_say_what_the_refusal_does() {
    let mut random = Random(2_026);
    let (mut shapes, mut lengths, mut broken) = (0, 0, 0);
    for _ in 0..40_000 {
        let bytes = damaged(&mut random);
        let Err(refusal) = desk::list_in(&bytes, &mut [0; RECORD_LENGTH]) else { continue };
        let words = explain(2, &bytes, refusal);
        let first = &words[0];
        match refusal {
            Refusal::NotALine => {
                shapes += 1;
                let marks = desk::line_marks(&bytes);
                let count = format!("the line has {} semicolons;", marks.semicolons);
                assert_eq!(first.starts_with(&count), marks.semicolons != 29, "{words:?}");
                assert_eq!(words.iter().any(|words| words.contains("does not end")), !marks.ended);
                assert!(field_of(&bytes, refusal).is_none());
            }
            Refusal::FieldTooLong => {
                lengths += 1;
                let field = desk::long_field(&bytes).expect("there is such a field");
                let title = rules::station_title(field.number);
                let say = format!(
                    "field {}, {title}, has {} bytes and may have {}:",
                    field.number, field.length, field.most
                );
                assert!(first.starts_with(&say), "{words:?}");
                assert!(field.length > field.most);
                assert_eq!(field_of(&bytes, refusal), Some(field.number));
            }
            Refusal::RuleBroken { code } => {
                broken += 1;
                let say = match rules::station_title(code.into()) {
                    "" => format!("rule {code} is broken:"),
                    title => format!("field {code}, {title}, is "),
                };
                assert!(first.starts_with(&say), "{words:?}");
            }
            other => panic!("a line was refused with {other:?}"),
        }
        assert_eq!(
            words.iter().any(|words| words.contains("ends in CR")),
            bytes.ends_with(b"\r\n") || bytes.ends_with(b"\r")
        );
        assert_eq!(
            words.iter().any(|words| words.contains("begins with a byte order mark")),
            bytes.starts_with(b"\xef\xbb\xbf")
        );
    }
    assert!(shapes > 1_000 && lengths > 1_000 && broken > 1_000, "{shapes} {lengths} {broken}");
}

#[test]
fn cleaning_twice_changes_nothing_more() {
    let mut random = Random(17);
    let (mut cleaned, mut changed) = (0, 0);
    for _ in 0..40_000 {
        let mut text = Vec::new();
        for _ in 0..random.below(4) {
            let front: &[&[u8]] =
                &[b"", b"", b"", b"sep=;\n", b"sep=,\r\n", b";;;\n", b"\r\n", b"\xef\xbb\xbf"];
            text.extend_from_slice(random.pick(front));
            text.extend_from_slice(&if random.below(2) == 0 {
                line()
            } else {
                damaged(&mut random)
            });
        }
        if let Ok(once) = clean(&text) {
            cleaned += 1;
            changed += usize::from(once.text != text);
            assert_eq!(once.text != text, !once.changes.is_empty());
            let twice = clean(&once.text).expect("a clean list is clean");
            assert_eq!(
                (twice.text == once.text, twice.changes.len()),
                (true, 0),
                "{}",
                text.escape_ascii()
            );
            let kept = |bytes: &[u8]| {
                bytes
                    .iter()
                    .filter(|byte| byte.is_ascii_alphanumeric() || b".,- ".contains(byte))
                    .count()
            };
            let seps = |bytes: &[u8]| bytes.windows(4).filter(|four| *four == b"sep=").count();
            let taken = 3 * (seps(&text) - seps(&once.text));
            assert_eq!(kept(&once.text) + taken, kept(&text), "{}", text.escape_ascii());
        }
    }
    assert!(cleaned > 5_000 && changed > 1_000, "{cleaned} {changed}");
}

#[test]
fn every_list_that_is_taken_in_is_clean() {
    let mut random = Random(5);
    for _ in 0..40_000 {
        let bytes = damaged(&mut random);
        if desk::list_in(&bytes, &mut [0; RECORD_LENGTH]).is_ok() {
            let cleaned = clean(&bytes).expect("it is clean");
            assert_eq!((cleaned.text, cleaned.changes.len()), (bytes, 0));
        }
    }
}

/// A filing of stations, by reference and height.
fn filing(stations: &[(&str, &str)]) -> filings::Filing {
    let mut header = [b' '; RECORD_LENGTH];
    header[..2].copy_from_slice(b" 1");
    header[82..86].copy_from_slice(b"OAUT");
    header[186..203].copy_from_slice(format!("{:6}02012024AUT", stations.len()).as_bytes());
    header[209..212].copy_from_slice(b"1.0");
    let mut bytes = header.to_vec();
    for (reference, height) in stations {
        let mut record = *STATION;
        record[204..].copy_from_slice(format!("AUT2311AB01A{reference}").as_bytes());
        record[71..75].copy_from_slice(height.as_bytes());
        bytes.extend_from_slice(&record);
    }
    filings::Filing::new(bytes).unwrap()
}

#[test]
fn stations_are_matched_by_their_reference() {
    let old = filing(&[("001", "0180"), ("002", "0180"), ("002", "0190"), ("003", "0180")]);
    let new = filing(&[("003", "0180"), ("001", "0181"), ("002", "0190"), ("004", "0180")]);
    let changes = changes::Changes::between(&old, &new);
    assert_eq!(
        changes.lines,
        [
            "AUT2311AB01A002 (twin 1) gone: it was station 2",
            "AUT2311AB01A001 4Z: \"0180\" -> \"0181\"",
            "AUT2311AB01A004 added: it is station 4, as AUT2311AB01A002 (twin 1) was but for 13X",
            "AUT2311AB01A003 moved: it was station 4, it is station 1",
        ]
    );
    assert_eq!((changes.added, changes.gone, changes.changed, changes.same), (1, 1, 1, 2));
}

#[test]
fn other_bytes_for_a_value_are_no_change_beside_a_broken_field() {
    let mut old = filing(&[("001", "0180"), ("001", "0190")]).bytes().to_vec();
    old[219..230].copy_from_slice(b"  938.2    ");
    old[438..449].copy_from_slice(b"  938.2    ");
    old[219 + 91..219 + 96].copy_from_slice(b"360.0");
    let old = filings::Filing::new(old).unwrap();
    let new = filing(&[("001", "0190"), ("001", "0180")]);
    let changes = changes::Changes::between(&old, &new);
    assert_eq!(
        changes.lines,
        [
            "AUT2311AB01A001 (twin 2) 9A: \"360.0\" -> \"120.0\"",
            "AUT2311AB01A001 (twin 1) moved: it was station 2, it is station 1",
        ]
    );
    assert_eq!((changes.changed, changes.respelled, changes.same), (1, 1, 0));
}
