//! Sheets that somebody else wrote: each wrong byte is found where it stands, and mended sheets are right.

use desk::{sheet_length, Finding, Refusal};

/// 298 stations, all good, the last one under the reference of station 257.
const FAR_TWIN: &[u8] = include_bytes!("../../../tests/desk/twin_above_255.in");

fn judged(file: &[u8]) -> Vec<u8> {
    let mut sheet = vec![0; sheet_length(file.len() / 219 - 1)];
    desk::judge(file, &mut sheet).expect("the file has a sheet");
    sheet
}

#[test]
fn every_wrong_byte_of_298_stations_is_found() {
    let sheet = judged(FAR_TWIN);
    assert_eq!(desk::verify(FAR_TWIN, &sheet), Ok(Finding::Right));
    for offset in 0..sheet.len() {
        let mut wrong = sheet.clone();
        wrong[offset] ^= 0x80;
        assert_eq!(desk::verify(FAR_TWIN, &wrong), Ok(Finding::WrongAt { offset }));
    }
}

#[test]
fn a_mended_sheet_is_right_and_the_one_before_it_wrong() {
    let (mut file, before) = (FAR_TWIN.to_vec(), judged(FAR_TWIN));
    let (mut sheet, record) = (before.clone(), [b' '; 219]);
    desk::replace(&mut file, &mut sheet, 257, &record).expect("there is a station 257");
    assert_eq!(desk::verify(&file, &sheet), Ok(Finding::Right));
    // Its code is no longer 0.
    assert_eq!(desk::verify(&file, &before), Ok(Finding::WrongAt { offset: 5 * 256 }));
}

#[test]
fn what_judging_refuses_is_refused() {
    let sheet = judged(FAR_TWIN);
    assert_eq!(desk::verify(FAR_TWIN, &sheet[1..]), Err(Refusal::SheetLength));
    assert_eq!(desk::verify(&FAR_TWIN[1..], &sheet), Err(Refusal::FileNotRecords));
    let long = [FAR_TWIN, &FAR_TWIN[..219]].concat();
    assert_eq!(desk::verify(&long, &sheet), Err(Refusal::FileTooLong));
}
