//! A sheet that somebody else wrote: what is found of it, in words.

use desk::{sheet_length, Refusal, RECORD_LENGTH};

use crate::filings::{quoted, ROW_WIDTH};

/// The part of a sheet that holds the byte at an offset.
pub fn part(stations: usize, offset: usize) -> String {
    let (row, place) = (offset / ROW_WIDTH, offset % ROW_WIDTH);
    if row < stations {
        let words = match place {
            0 => "code",
            1 | 2 => "twin",
            _ => "clash",
        };
        return format!("the {words} of station {}", row + 1);
    }
    let words = match offset - ROW_WIDTH * stations {
        0 | 1 => "distance",
        2 => "width",
        3 => "header's code",
        4 | 5 => "lowest bad row",
        6 | 7 => "number of bad rows",
        _ => "mark",
    };
    format!("the {words} in the trailer")
}

/// Why a filing and its sheet are refused, and what to do.
pub fn why(file: &[u8], sheet: &[u8], refusal: Refusal) -> String {
    if refusal != Refusal::SheetLength {
        return format!("{refusal}; it has {} bytes", file.len());
    }
    let stations = file.len() / RECORD_LENGTH - 1;
    let wanted = sheet_length(stations);
    if sheet.ends_with(b"2A") || sheet.ends_with(b"2B") {
        return format!("the sheet ends in {}, so that it has an older form; ask for one judged again, of {wanted} bytes", quoted(&sheet[sheet.len() - 2..]));
    }
    format!("the sheet has {} bytes, and {stations} stations ask for {wanted}", sheet.len())
}

#[cfg(test)]
mod tests {
    use super::*;

    #[test]
    fn every_byte_has_its_part() {
        let parts: Vec<String> = (0..sheet_length(2)).map(|offset| part(2, offset)).collect();
        assert_eq!(parts[0], "the code of station 1");
        assert_eq!(parts[1..3], ["the twin of station 1", "the twin of station 1"]);
        assert_eq!(parts[3..5], ["the clash of station 1", "the clash of station 1"]);
        assert_eq!(parts[5], "the code of station 2");
        let trailer = [
            "distance",
            "distance",
            "width",
            "header's code",
            "lowest bad row",
            "lowest bad row",
            "number of bad rows",
            "number of bad rows",
            "mark",
            "mark",
        ];
        assert_eq!(parts[10..], trailer.map(|words| format!("the {words} in the trailer")));
    }
}
