//! Sheets with clashes, of stored files: mended, stored by an older box, and with numbers above 255.

use desk::{sheet_length, Refusal};

const BROKEN: &[u8] = include_bytes!("../../../tests/desk/site_first_broken.in");
const MENDED: &[u8] = include_bytes!("../../../tests/desk/clash_place.in");
const FAR_CLASH: &[u8] = include_bytes!("../../../tests/desk/clash_above_255.in");
const FAR_TWIN: &[u8] = include_bytes!("../../../tests/desk/twin_above_255.in");
const ALL_CLASH: &[u8] = include_bytes!("../../../tests/desk/clash_full.in");

fn judged(file: &[u8]) -> Vec<u8> {
    let mut sheet = vec![0; sheet_length(file.len() / 219 - 1)];
    desk::judge(file, &mut sheet).expect("the file has a sheet");
    sheet
}

#[test]
fn a_clash_appears_when_the_first_station_is_mended() {
    let (mut file, mut sheet) = (BROKEN.to_vec(), judged(BROKEN));
    assert_eq!(sheet[..10], [3, 0, 0, 0, 0, 0, 0, 0, 0, 0]);
    // The second bears the site of the first, so both rows are written.
    assert_eq!(desk::replace(&mut file, &mut sheet, 1, &MENDED[219..438]), Ok(2));
    assert_eq!(sheet[..10], [0, 0, 0, 0, 0, 0, 0, 0, 0, 1]);
    assert_eq!((&file[..], sheet), (MENDED, judged(MENDED)));
}

#[test]
fn rows_that_stand_are_kept_in_a_sheet_of_another_file() {
    // The clash comes from the file: what another sheet says of the first station is not looked at.
    let (mut file, mut sheet) = (MENDED.to_vec(), judged(BROKEN));
    assert_eq!(desk::replace(&mut file, &mut sheet, 2, &MENDED[438..]), Ok(1));
    assert_eq!(sheet[..10], [3, 0, 0, 0, 0, 0, 0, 0, 0, 1]);
}

#[test]
fn sheets_of_older_forms_are_refused() {
    let mut file = BROKEN.to_vec();
    for (width, mark) in [(2, b"2A"), (3, b"2B")] {
        let mut old = vec![0; 2 * width + 10];
        let distance = old.len() as u8;
        old[2 * width + 1..][..2].copy_from_slice(&[distance, width as u8]);
        old[2 * width + 8..].copy_from_slice(mark);
        assert_eq!(desk::judge(&file, &mut old), Err(Refusal::SheetLength));
        assert_eq!(desk::verify(&file, &old), Err(Refusal::SheetLength));
        let answer = desk::replace(&mut file, &mut old, 0, &BROKEN[..219]);
        assert_eq!(answer, Err(Refusal::SheetLength));
    }
    // A header alone has sheets of one length in the last two forms: the mark tells them apart.
    let mut header = BROKEN[..219].to_vec();
    let mut old = [0, 10, 3, 15, 0, 0, 0, 0, b'2', b'B'];
    let answer = desk::replace(&mut header, &mut old, 0, &BROKEN[..219]);
    assert_eq!(answer, Err(Refusal::SheetTrailer));
    assert_eq!(desk::verify(&header, &old), Ok(desk::Finding::WrongAt { offset: 2 }));
}

#[test]
fn numbers_above_255_have_their_high_byte() {
    // Row 298 has twin 257, or clash 257; the lowest bad row is 298, and it is the only one.
    let trailer = [0x05, 0xdc, 5, 0, 1, 42, 0, 1, b'2', b'C'];
    assert_eq!(judged(FAR_TWIN)[1485..], [&[0, 1, 1, 0, 0][..], &trailer].concat());
    assert_eq!(judged(FAR_CLASH)[1485..], [&[0, 0, 0, 1, 1][..], &trailer].concat());
}

#[test]
fn a_full_file_at_one_site() {
    let sheet = judged(ALL_CLASH);
    assert!(sheet[5..1490].chunks(5).all(|row| *row == [0, 0, 0, 0, 1]));
    assert_eq!(sheet[1490..], [0x05, 0xdc, 5, 0, 0, 2, 1, 41, b'2', b'C']);
    assert_eq!(desk::verify(ALL_CLASH, &sheet), Ok(desk::Finding::Right));
}
