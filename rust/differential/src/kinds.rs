//! The kinds of codes: texts for each kind that a field's code can have, and every one of them with
//! each byte at each place.

use desk::raw;
use peer::{Record, STATION_FIELDS};

use crate::calls::Comparison;
use crate::records;

/// Station S of the paper, which breaks no rule.
const STATION: &Record = include_bytes!("../../desk/station-s.txt");

const BYTE: u8 = 1;
const RANGE: u8 = 2;
const SHAPE: u8 = 3;

/// Fields that break their rule in a station that holds otherwise: code, text and kind.
const EXAMPLES: [(u8, &str, u8); 98] = [
    (1, "  938.2 MHz", BYTE),
    (1, " -938.2    ", BYTE),
    (1, "00000.00000", RANGE),
    (1, "        .0 ", RANGE),
    (1, "      938  ", SHAPE),
    (1, "938200.0   ", SHAPE),
    (1, "  938. 2   ", SHAPE),
    (2, "m", BYTE),
    (2, "H", BYTE),
    (2, " ", RANGE),
    (3, "0", BYTE),
    (3, "9", BYTE),
    (4, "FX", BYTE),
    (4, "fb", BYTE),
    (4, "BF", SHAPE),
    (4, "MB", SHAPE),
    (5, "CX", BYTE),
    (5, "OC", SHAPE),
    (6, "LJ", BYTE),
    (6, "l ", BYTE),
    (6, " L", SHAPE),
    (6, "  ", SHAPE),
    (7, "2", BYTE),
    (8, "0103202x", BYTE),
    (8, "01.03.21", BYTE),
    (8, "30022021", RANGE),
    (8, "01011900", RANGE),
    (8, "00000000", RANGE),
    (8, " 1032021", SHAPE),
    (8, "1032021 ", SHAPE),
    (9, "1010_MUSTER!        ", BYTE),
    (9, "1010_[MUSTER]       ", BYTE),
    (9, "MUSTER_1010         ", SHAPE),
    (9, "1010-MUSTER         ", SHAPE),
    (10, "A1 ", BYTE),
    (10, "aut", BYTE),
    (10, " A ", SHAPE),
    (10, "A T", SHAPE),
    (11, "016e220548N1200", BYTE),
    (11, "016.220548N1200", BYTE),
    (11, "180E000100N0000", RANGE),
    (11, "016E600048N1200", RANGE),
    (11, "999W999999S9999", RANGE),
    (11, "016E2205  N1200", SHAPE),
    (11, "016N220548E1200", SHAPE),
    (11, "               ", SHAPE),
    (12, "  1.5", BYTE),
    (12, "   -1", BYTE),
    (12, "     ", SHAPE),
    (12, "1   0", SHAPE),
    (13, "18.0", BYTE),
    (13, "18m ", BYTE),
    (13, "180 ", SHAPE),
    (13, "- 18", SHAPE),
    (14, "5M00g7W  ", BYTE),
    (14, "5M00G7Z  ", BYTE),
    (14, "5M00G7W N", SHAPE),
    (14, "M500G7W  ", SHAPE),
    (15, " 30,0 ", BYTE),
    (15, "1234.5", SHAPE),
    (15, "- 5.0 ", SHAPE),
    (16, "X", BYTE),
    (17, "36x.0", BYTE),
    (17, "-12.0", BYTE),
    (17, "360.0", RANGE),
    (17, "999.9", RANGE),
    (17, "3600.", SHAPE),
    (17, "36000", SHAPE),
    (18, " 2,0 ", BYTE),
    (18, "-90.1", RANGE),
    (18, "+99.9", RANGE),
    (18, "100.0", SHAPE),
    (19, "HX", BYTE),
    (19, " H", SHAPE),
    (20, "+7.0", BYTE),
    (20, "170.", SHAPE),
    (21, "3.0 ", BYTE),
    (21, "30  ", SHAPE),
    (22, "000nd00", BYTE),
    (22, "00ND000", SHAPE),
    (23, "000N-00", BYTE),
    (23, "0000000", SHAPE),
    (24, "893.2 k    ", BYTE),
    (24, "       0.0 ", RANGE),
    (24, "893.2.     ", SHAPE),
    (25, "K", BYTE),
    (25, " ", RANGE),
    (26, "2                                                _", BYTE),
    (26, "7                                                 ", SHAPE),
    (27, "b", BYTE),
    (28, "2021-3-1", BYTE),
    (28, "29022100", RANGE),
    (28, "1 032021", SHAPE),
    (29, "0103202O", BYTE),
    (29, "31042021", RANGE),
    (29, "       1", SHAPE),
    (30, "AUT2311AB01 001", BYTE),
    (30, "AUT231AAB01A001", SHAPE),
];

/// Gives a record with every byte at every place.
fn changed_bytes(comparison: &mut Comparison, record: &Record) {
    for place in 0..record.len() {
        for byte in 0..=u8::MAX {
            let mut other = *record;
            other[place] = byte;
            comparison.kind(&other);
        }
    }
}

/// Gives each example in a station that holds otherwise, and then with every byte at every place.
pub fn sweep(comparison: &mut Comparison) {
    changed_bytes(comparison, STATION);
    for (code, text, kind) in EXAMPLES {
        let mut record = *STATION;
        records::put(&mut record, &STATION_FIELDS, usize::from(code), text.as_bytes());
        assert_eq!(raw::station_kind(&record), (9, code, kind), "{text:?}");
        comparison.kind(&record);
        let [first, length] = STATION_FIELDS[usize::from(code) - 1];
        for place in first - 1..first - 1 + length {
            for byte in 0..=u8::MAX {
                let mut other = record;
                other[place] = byte;
                comparison.kind(&other);
            }
        }
    }
}
