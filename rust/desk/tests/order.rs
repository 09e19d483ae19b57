//! Two clerks: what is indifferent from the sheet judged from a list, and why a sheet that was not is left out.

/// The paper's two stations under one reference: the second is the first one's twin.
const FILING: &[u8] = include_bytes!("../../../tests/desk/two_stations.in");

/// The sheet judged from it.
fn judged() -> Vec<u8> {
    let mut sheet = vec![0; desk::sheet_length(2)];
    desk::judge(FILING, &mut sheet).expect("a filing of two stations has a sheet");
    sheet
}

/// What the filing and a sheet become when these records of the filing are put in again, one after the other.
fn after(sheet: &[u8], numbers: &[usize]) -> (Vec<u8>, Vec<u8>) {
    let (mut file, mut sheet) = (FILING.to_vec(), sheet.to_vec());
    for &number in numbers {
        let record = FILING[219 * number..][..219].to_vec();
        desk::replace(&mut file, &mut sheet, number, &record).expect("the number is not above 2");
    }
    (file, sheet)
}

#[test]
fn standing_records_change_no_byte_of_a_judged_sheet() {
    for numbers in [[0, 1, 2], [2, 1, 0], [1, 1, 2]] {
        assert_eq!(after(&judged(), &numbers), (FILING.to_vec(), judged()));
    }
}

#[test]
fn a_sheet_judged_from_another_list_is_left_out() {
    // Of a list in which the two references differ: both rows are good.
    let mut foreign = judged();
    foreign[..10].fill(0);
    // The record that stands is put in, and its row is written for this list: a byte changes, the twin.
    let (file, sheet) = after(&foreign, &[2]);
    assert_eq!(file, FILING);
    assert_eq!(sheet[..10], [0, 0, 0, 0, 0, 0, 0, 1, 0, 0]);
    assert_ne!(sheet[..10], foreign[..10]);
}
