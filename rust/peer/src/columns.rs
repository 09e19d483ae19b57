//! Where the fields of a record stand.

/// The length of a header or station in bytes.
pub const RECORD_LENGTH: usize = 219;

/// A header or a station as it stands in a file.
pub type Record = [u8; RECORD_LENGTH];

/// First column and length of the station's thirty fields, in the order of their codes.
pub const STATION_FIELDS: [[usize; 2]; 30] = [
    [1, 11],   // 1A
    [12, 1],   // unit of 1A
    [13, 1],   // 1Z
    [14, 2],   // 6A
    [16, 2],   // 6B
    [18, 2],   // 6Z
    [20, 1],   // 10Z
    [21, 8],   // 2C
    [29, 20],  // 4A
    [49, 3],   // 4B
    [52, 15],  // 4C
    [67, 5],   // 4D
    [72, 4],   // 4Z
    [76, 9],   // 7A
    [85, 6],   // 8B1
    [91, 1],   // 8B2
    [92, 5],   // 9A
    [97, 5],   // 9B
    [102, 2],  // 9D
    [104, 4],  // 9G
    [108, 4],  // 9Y
    [112, 7],  // 9XH
    [119, 7],  // 9XV
    [126, 11], // 1Y
    [137, 1],  // unit of 1Y
    [138, 50], // 13Z
    [188, 1],  // 13Y
    [189, 8],  // 2W
    [197, 8],  // 2Z
    [205, 15], // 13X
];

/// First column and length of the header's fourteen fields, in the order of their codes.
pub const HEADER_FIELDS: [[usize; 2]; 14] = [
    [1, 2],    // number
    [3, 80],   // content
    [83, 1],   // the letter O
    [84, 3],   // country of origin
    [87, 40],  // e-mail
    [127, 20], // telephone
    [147, 20], // fax
    [167, 20], // person
    [187, 6],  // count
    [193, 8],  // date
    [201, 3],  // country of destination
    [204, 6],  // unique number
    [210, 3],  // version
    [213, 7],  // reserved
];

/// The `N` bytes of the field with this code.
#[inline(always)]
pub(crate) fn part<'a, const N: usize>(
    record: &'a Record,
    fields: &[[usize; 2]],
    code: u8,
) -> &'a [u8; N] {
    let [first, length] = fields[usize::from(code) - 1];
    debug_assert_eq!(length, N);
    record[first - 1..].first_chunk().expect("a field lies within its record")
}

/// The `N` bytes of the field with this code, to be written.
#[inline(always)]
pub(crate) fn part_mut<'a, const N: usize>(
    record: &'a mut Record,
    fields: &[[usize; 2]],
    code: u8,
) -> &'a mut [u8; N] {
    let [first, length] = fields[usize::from(code) - 1];
    debug_assert_eq!(length, N);
    record[first - 1..].first_chunk_mut().expect("a field lies within its record")
}

#[cfg(test)]
mod tests {
    use super::*;

    fn tile(fields: &[[usize; 2]]) -> bool {
        let mut next = 1;
        for &[first, length] in fields {
            if first != next {
                return false;
            }
            next += length;
        }
        next == RECORD_LENGTH + 1
    }

    #[test]
    fn fields_cover_columns_1_to_219_once() {
        assert!(tile(&STATION_FIELDS));
        assert!(tile(&HEADER_FIELDS));
    }
}
