//! The boundary's calls over slices, with the numbers that the library answers.
//!
//! Each function gives the refusal's number first, 0 if the call was done, then the answers
//! behind the library's pointers. These start out as values that no call gives, so that an answer
//! that the library fails to write is seen by those who compare.
//!
//! What all `unsafe` calls rest on is said once in `include/desk.h`: the library keeps to the
//! lengths it is given, keeps no pointer and shares no state between calls.

/// A code that no call gives.
const NO_CODE: u8 = u8::MAX;

/// A count that no call gives.
const NO_COUNT: usize = usize::MAX;

/// A call that judges one record.
type Check = unsafe extern "C" fn(*const u8, usize, *mut u8) -> u8;

/// A call that reads from one slice and writes into another.
type Rewrite = unsafe extern "C" fn(*const u8, usize, *mut u8, usize, *mut u8) -> u8;

/// A call that sets a value that may be blank.
type Setter = unsafe extern "C" fn(*mut u8, usize, u8, i64, *mut u8) -> u8;

extern "C" {
    fn desk_judge(file: *const u8, file_length: usize, sheet: *mut u8, sheet_length: usize) -> u8;
    fn desk_replace(
        file: *mut u8,
        file_length: usize,
        sheet: *mut u8,
        sheet_length: usize,
        number: usize,
        record: *const u8,
        record_length: usize,
        rows: *mut usize,
    ) -> u8;
    fn desk_verify(
        file: *const u8,
        file_length: usize,
        sheet: *const u8,
        sheet_length: usize,
        found: *mut u8,
        offset: *mut usize,
    ) -> u8;
    fn desk_replay(
        file: *mut u8,
        file_length: usize,
        sheet: *mut u8,
        sheet_length: usize,
        trace: *const u8,
        trace_length: usize,
        accepted: *mut usize,
        refused: *mut usize,
        stopped: *mut usize,
    ) -> u8;
    fn desk_operators(
        file: *const u8,
        file_length: usize,
        out: *mut u8,
        out_length: usize,
        count: *mut usize,
    ) -> u8;
    fn desk_show(
        file: *const u8,
        file_length: usize,
        number: usize,
        field: usize,
        offset: *mut usize,
        length: *mut usize,
    ) -> u8;
    fn desk_station_code(record: *const u8, record_length: usize, code: *mut u8) -> u8;
    fn desk_station_kind(
        record: *const u8,
        record_length: usize,
        code: *mut u8,
        kind: *mut u8,
    ) -> u8;
    fn desk_station_second(
        record: *const u8,
        record_length: usize,
        code: *mut u8,
        kind: *mut u8,
    ) -> u8;
    fn desk_header_code(record: *const u8, record_length: usize, code: *mut u8) -> u8;
    fn desk_respell_station(
        record: *const u8,
        record_length: usize,
        out: *mut u8,
        out_length: usize,
        code: *mut u8,
    ) -> u8;
    fn desk_respell_header(
        record: *const u8,
        record_length: usize,
        out: *mut u8,
        out_length: usize,
        code: *mut u8,
    ) -> u8;
    fn desk_set_power(
        record: *mut u8,
        record_length: usize,
        filled: u8,
        tenths: i64,
        code: *mut u8,
    ) -> u8;
    fn desk_set_azimuth(
        record: *mut u8,
        record_length: usize,
        filled: u8,
        tenths: i64,
        code: *mut u8,
    ) -> u8;
    fn desk_set_elevation(
        record: *mut u8,
        record_length: usize,
        filled: u8,
        tenths: i64,
        code: *mut u8,
    ) -> u8;
    fn desk_set_height(
        record: *mut u8,
        record_length: usize,
        filled: u8,
        metres: i64,
        code: *mut u8,
    ) -> u8;
    fn desk_set_ground(record: *mut u8, record_length: usize, metres: i64, code: *mut u8) -> u8;
    fn desk_list_out(
        record: *const u8,
        record_length: usize,
        line: *mut u8,
        line_length: usize,
        length: *mut usize,
        code: *mut u8,
    ) -> u8;
    fn desk_list_in(
        line: *const u8,
        line_length: usize,
        record: *mut u8,
        record_length: usize,
        code: *mut u8,
    ) -> u8;
    fn desk_line_marks(
        line: *const u8,
        line_length: usize,
        semicolons: *mut usize,
        feeds: *mut usize,
        ended: *mut u8,
    ) -> u8;
    fn desk_line_kind(line: *const u8, line_length: usize, code: *mut u8, kind: *mut u8) -> u8;
    fn desk_long_field(
        line: *const u8,
        line_length: usize,
        number: *mut usize,
        length: *mut usize,
        most: *mut usize,
    ) -> u8;
    fn desk_carriage(
        line: *const u8,
        line_length: usize,
        defaults: *const u8,
        defaults_length: usize,
        record: *mut u8,
        record_length: usize,
        code: *mut u8,
    ) -> u8;
    fn desk_carriage_number(name: *const u8, name_length: usize, offset: *mut usize) -> usize;
    fn desk_rules() -> u32;
}

/// `desk_rules`: the number of the rules.
pub fn rules() -> u32 {
    // SAFETY: the call takes nothing.
    unsafe { desk_rules() }
}

/// `desk_judge`: the refusal.
pub fn judge(file: &[u8], sheet: &mut [u8]) -> u8 {
    // SAFETY: both pointers are good for the lengths of their slices; `sheet` is borrowed alone.
    unsafe { desk_judge(file.as_ptr(), file.len(), sheet.as_mut_ptr(), sheet.len()) }
}

/// `desk_replace`: the refusal and the rows written.
pub fn replace(file: &mut [u8], sheet: &mut [u8], number: usize, record: &[u8]) -> (u8, usize) {
    let mut rows = NO_COUNT;
    // SAFETY: the pointers are good for the lengths of their slices; what is written to, `file`,
    // `sheet` and `rows`, is borrowed alone.
    let refusal = unsafe {
        desk_replace(
            file.as_mut_ptr(),
            file.len(),
            sheet.as_mut_ptr(),
            sheet.len(),
            number,
            record.as_ptr(),
            record.len(),
            &mut rows,
        )
    };
    (refusal, rows)
}

/// `desk_verify`: the refusal, what was found and the offset.
pub fn verify(file: &[u8], sheet: &[u8]) -> (u8, u8, usize) {
    let (mut found, mut offset) = (NO_CODE, NO_COUNT);
    // SAFETY: both pointers are good for the lengths of their slices; the answers are places of our
    // own.
    let refusal = unsafe {
        desk_verify(file.as_ptr(), file.len(), sheet.as_ptr(), sheet.len(), &mut found, &mut offset)
    };
    (refusal, found, offset)
}

/// The bytes of a row of `desk_operators`.
pub const OPERATOR_WIDTH: usize = 22;

/// `desk_operators`: the refusal and the number of rows.
pub fn operators(file: &[u8], out: &mut [u8]) -> (u8, usize) {
    let mut count = NO_COUNT;
    // SAFETY: both pointers are good for the lengths of their slices, which do not overlap; the
    // answer is a place of our own.
    let refusal = unsafe {
        desk_operators(file.as_ptr(), file.len(), out.as_mut_ptr(), out.len(), &mut count)
    };
    (refusal, count)
}

/// `desk_replay`: the refusal, the saves accepted and refused, and the one that stopped the run.
pub fn replay(file: &mut [u8], sheet: &mut [u8], trace: &[u8]) -> (u8, usize, usize, usize) {
    let (mut accepted, mut refused, mut stopped) = (NO_COUNT, NO_COUNT, NO_COUNT);
    // SAFETY: the pointers are good for the lengths of their slices; what is written to, `file`,
    // `sheet` and the three numbers, is borrowed alone.
    let refusal = unsafe {
        desk_replay(
            file.as_mut_ptr(),
            file.len(),
            sheet.as_mut_ptr(),
            sheet.len(),
            trace.as_ptr(),
            trace.len(),
            &mut accepted,
            &mut refused,
            &mut stopped,
        )
    };
    (refusal, accepted, refused, stopped)
}

/// `desk_show`: the refusal, the field's offset and its length.
pub fn show(file: &[u8], number: usize, field: usize) -> (u8, usize, usize) {
    let (mut offset, mut length) = (NO_COUNT, NO_COUNT);
    // SAFETY: the pointer is good for the length of its slice; the answers are places of our own.
    let refusal =
        unsafe { desk_show(file.as_ptr(), file.len(), number, field, &mut offset, &mut length) };
    (refusal, offset, length)
}

/// `desk_station_code`: the refusal and the code.
pub fn station_code(record: &[u8]) -> (u8, u8) {
    check(desk_station_code, record)
}

/// `desk_station_kind`: the refusal, the code and the number of its kind.
pub fn station_kind(record: &[u8]) -> (u8, u8, u8) {
    let (mut code, mut kind) = (NO_CODE, NO_CODE);
    // SAFETY: the pointer is good for the length of its slice; the answers are places of our own.
    let refusal = unsafe { desk_station_kind(record.as_ptr(), record.len(), &mut code, &mut kind) };
    (refusal, code, kind)
}

/// `desk_station_second`: the same from the second judge, which walks the table.
pub fn station_second(record: &[u8]) -> (u8, u8, u8) {
    let (mut code, mut kind) = (NO_CODE, NO_CODE);
    // SAFETY: the pointer is good for the length of its slice; the answers are places of our own.
    let refusal =
        unsafe { desk_station_second(record.as_ptr(), record.len(), &mut code, &mut kind) };
    (refusal, code, kind)
}

/// `desk_header_code`: the refusal and the code.
pub fn header_code(record: &[u8]) -> (u8, u8) {
    check(desk_header_code, record)
}

/// `desk_respell_station`: the refusal and the code.
pub fn respell_station(record: &[u8], out: &mut [u8]) -> (u8, u8) {
    rewrite(desk_respell_station, record, out)
}

/// `desk_respell_header`: the refusal and the code.
pub fn respell_header(record: &[u8], out: &mut [u8]) -> (u8, u8) {
    rewrite(desk_respell_header, record, out)
}

/// `desk_set_power`: the refusal and the code.
pub fn set_power(record: &mut [u8], filled: u8, tenths: i64) -> (u8, u8) {
    set(desk_set_power, record, filled, tenths)
}

/// `desk_set_azimuth`: the refusal and the code.
pub fn set_azimuth(record: &mut [u8], filled: u8, tenths: i64) -> (u8, u8) {
    set(desk_set_azimuth, record, filled, tenths)
}

/// `desk_set_elevation`: the refusal and the code.
pub fn set_elevation(record: &mut [u8], filled: u8, tenths: i64) -> (u8, u8) {
    set(desk_set_elevation, record, filled, tenths)
}

/// `desk_set_height`: the refusal and the code.
pub fn set_height(record: &mut [u8], filled: u8, metres: i64) -> (u8, u8) {
    set(desk_set_height, record, filled, metres)
}

/// `desk_set_ground`: the refusal and the code.
pub fn set_ground(record: &mut [u8], metres: i64) -> (u8, u8) {
    let mut code = NO_CODE;
    // SAFETY: the pointer is good for the length of its slice, which is borrowed alone.
    let refusal = unsafe { desk_set_ground(record.as_mut_ptr(), record.len(), metres, &mut code) };
    (refusal, code)
}

/// `desk_list_out`: the refusal, the line's length and the code.
pub fn list_out(record: &[u8], line: &mut [u8]) -> (u8, usize, u8) {
    let (mut length, mut code) = (NO_COUNT, NO_CODE);
    // SAFETY: both pointers are good for the lengths of their slices; `line` and the answers are
    // borrowed alone.
    let refusal = unsafe {
        desk_list_out(
            record.as_ptr(),
            record.len(),
            line.as_mut_ptr(),
            line.len(),
            &mut length,
            &mut code,
        )
    };
    (refusal, length, code)
}

/// `desk_list_in`: the refusal and the code.
pub fn list_in(line: &[u8], record: &mut [u8]) -> (u8, u8) {
    rewrite(desk_list_in, line, record)
}

/// `desk_line_marks`: the refusal, the semicolons, the line feeds and whether the line ends in one.
pub fn line_marks(line: &[u8]) -> (u8, usize, usize, u8) {
    let (mut semicolons, mut feeds, mut ended) = (NO_COUNT, NO_COUNT, NO_CODE);
    // SAFETY: the pointer is good for the length of its slice; the answers are places of our own.
    let refusal = unsafe {
        desk_line_marks(line.as_ptr(), line.len(), &mut semicolons, &mut feeds, &mut ended)
    };
    (refusal, semicolons, feeds, ended)
}

/// `desk_line_kind`: the refusal, the code and the number of its kind.
pub fn line_kind(line: &[u8]) -> (u8, u8, u8) {
    let (mut code, mut kind) = (NO_CODE, NO_CODE);
    // SAFETY: the pointer is good for the length of its slice; the answers are places of our own.
    let refusal = unsafe { desk_line_kind(line.as_ptr(), line.len(), &mut code, &mut kind) };
    (refusal, code, kind)
}

/// `desk_long_field`: the refusal, the field's number, its bytes and its columns.
pub fn long_field(line: &[u8]) -> (u8, usize, usize, usize) {
    let (mut number, mut length, mut most) = (NO_COUNT, NO_COUNT, NO_COUNT);
    // SAFETY: the pointer is good for the length of its slice; the answers are places of our own.
    let refusal =
        unsafe { desk_long_field(line.as_ptr(), line.len(), &mut number, &mut length, &mut most) };
    (refusal, number, length, most)
}

/// `desk_carriage`: the refusal and the code.
pub fn carriage(line: &[u8], defaults: &[u8], record: &mut [u8]) -> (u8, u8) {
    let mut code = NO_CODE;
    // SAFETY: the pointers are good for the lengths of their slices; `record` is borrowed alone.
    let refusal = unsafe {
        desk_carriage(
            line.as_ptr(),
            line.len(),
            defaults.as_ptr(),
            defaults.len(),
            record.as_mut_ptr(),
            record.len(),
            &mut code,
        )
    };
    (refusal, code)
}

/// `desk_carriage_number`: how many digits, and their offset.
pub fn carriage_number(name: &[u8]) -> (usize, usize) {
    let mut offset = NO_COUNT;
    // SAFETY: the pointer is good for the length of its slice; the answer is a place of our own.
    let digits = unsafe { desk_carriage_number(name.as_ptr(), name.len(), &mut offset) };
    (digits, offset)
}

fn check(call: Check, record: &[u8]) -> (u8, u8) {
    let mut code = NO_CODE;
    // SAFETY: the pointer is good for the length of its slice; `code` is a place of our own.
    let refusal = unsafe { call(record.as_ptr(), record.len(), &mut code) };
    (refusal, code)
}

fn rewrite(call: Rewrite, from: &[u8], to: &mut [u8]) -> (u8, u8) {
    let mut code = NO_CODE;
    // SAFETY: both pointers are good for the lengths of their slices; `to` is borrowed alone.
    let refusal = unsafe { call(from.as_ptr(), from.len(), to.as_mut_ptr(), to.len(), &mut code) };
    (refusal, code)
}

fn set(call: Setter, record: &mut [u8], filled: u8, number: i64) -> (u8, u8) {
    let mut code = NO_CODE;
    // SAFETY: the pointer is good for the length of its slice, which is borrowed alone.
    let refusal = unsafe { call(record.as_mut_ptr(), record.len(), filled, number, &mut code) };
    (refusal, code)
}
