//! A safe wrapper over the desk library, whose C boundary `include/desk.h` describes.
//!
//! A filing file is one header and n stations, 0 ≤ n ≤ 298, each a record of 219 bytes. Judging
//! fills a sheet of 5n + 10 bytes; replacing puts a record in and mends the sheet; verifying tells
//! whether a sheet that somebody else wrote is the one judged; replaying runs a day's saves again;
//! showing finds a field; setting
//! changes one value of a station; listing turns a station's record into a line of a semicolon
//! list, or such a line into a record; a carriage's line and defaults make a record too; operators
//! are counted, a row for each. A refused
//! call changes no lent byte.
//!
//! ```
//! // One station, not filled in: its first broken rule is 3, the header's is 1.
//! let file = [b' '; 2 * desk::RECORD_LENGTH];
//! let mut sheet = [0; desk::sheet_length(1)];
//! desk::judge(&file, &mut sheet)?;
//! assert_eq!(sheet, [3, 0, 0, 0, 0, 0, 15, 5, 1, 0, 1, 0, 1, b'2', b'C']);
//! # Ok::<(), desk::Refusal>(())
//! ```

pub mod raw;
mod refusal;

pub use refusal::Refusal;

/// The length of a header or station in bytes.
pub const RECORD_LENGTH: usize = 219;

/// The most stations that a file holds.
pub const MAX_STATIONS: usize = 298;

/// The most bytes that a file has.
pub const MAX_FILE_LENGTH: usize = (MAX_STATIONS + 1) * RECORD_LENGTH;

/// The length of a save in a trace: three digits for the record's number, then the record.
pub const SAVE_LENGTH: usize = 3 + RECORD_LENGTH;

/// The most bytes that a line of a list has, its line feed included.
pub const MAX_LINE_LENGTH: usize = RECORD_LENGTH + 30;

/// The length of the sheet for a file of this many stations.
pub const fn sheet_length(stations: usize) -> usize {
    5 * stations + 10
}

/// The number of the rules that records are judged by, counted up by each change of a rule. Keep it
/// beside a stored sheet, and judge the file again where it is another.
///
/// ```
/// let kept = 1; // judged when 30 February was taken
/// assert!(desk::rules() > kept);
/// ```
pub fn rules() -> u32 {
    raw::rules()
}

/// Judges a file and fills its sheet. Refusals: 1, 2, 3.
///
/// ```
/// let header = [b' '; 219];
/// let mut sheet = [0; 10];
/// desk::judge(&header, &mut sheet)?;
/// assert_eq!(sheet, [0, 10, 5, 1, 0, 0, 0, 0, b'2', b'C']);
/// assert_eq!(desk::judge(&[], &mut sheet), Err(desk::Refusal::FileNotRecords));
/// # Ok::<(), desk::Refusal>(())
/// ```
pub fn judge(file: &[u8], sheet: &mut [u8]) -> Result<(), Refusal> {
    answer(raw::judge(file, sheet), 0, ())
}

/// Puts in record `number`, 0 being the header, mends the sheet and answers the number of rows
/// written. Refusals: 1 to 6.
///
/// ```
/// let mut file = [b' '; 3 * 219];
/// let mut sheet = [0; desk::sheet_length(2)];
/// desk::judge(&file, &mut sheet)?;
/// assert_eq!(sheet[..10], [3, 0, 0, 0, 0, 3, 0, 1, 0, 0]);
/// // The second station bears the old operator and site of the first, so both rows are written.
/// assert_eq!(desk::replace(&mut file, &mut sheet, 1, &[b'1'; 219])?, 2);
/// assert_eq!(sheet[..10], [1, 0, 0, 0, 0, 3, 0, 0, 0, 0]);
/// # Ok::<(), desk::Refusal>(())
/// ```
pub fn replace(
    file: &mut [u8],
    sheet: &mut [u8],
    number: usize,
    record: &[u8],
) -> Result<usize, Refusal> {
    let (refusal, rows) = raw::replace(file, sheet, number, record);
    answer(refusal, 0, rows)
}

/// What verifying finds of a sheet.
#[derive(Clone, Copy, Debug, PartialEq, Eq)]
pub enum Finding {
    /// It is the sheet that the file is judged to.
    Right,
    /// It is not; every byte before the offset, which is counted from 0, is right.
    WrongAt {
        /// Where its first wrong byte stands.
        offset: usize,
    },
}

/// Whether a sheet is the one that the file is judged to. Refusals: 1, 2, 3.
///
/// ```
/// let file = [b' '; 2 * 219];
/// let mut sheet = [0; desk::sheet_length(1)];
/// desk::judge(&file, &mut sheet)?;
/// assert_eq!(desk::verify(&file, &sheet)?, desk::Finding::Right);
/// sheet[0] = 0;
/// assert_eq!(desk::verify(&file, &sheet)?, desk::Finding::WrongAt { offset: 0 });
/// assert_eq!(desk::verify(&file, &sheet[1..]), Err(desk::Refusal::SheetLength));
/// # Ok::<(), desk::Refusal>(())
/// ```
pub fn verify(file: &[u8], sheet: &[u8]) -> Result<Finding, Refusal> {
    let (refusal, found, offset) = raw::verify(file, sheet);
    let finding = if found == 1 { Finding::Right } else { Finding::WrongAt { offset } };
    answer(refusal, 0, finding)
}

/// A row of a page: an operator that has a station with code 0.
#[derive(Clone, Copy, Debug, Default, PartialEq, Eq)]
pub struct Operator {
    /// The operator's code, two digits: places 6 and 7 of 13X.
    pub code: [u8; 2],
    /// How many stations with code 0 it has.
    pub stations: u16,
    /// How many of them have a transmit frequency.
    pub transmitting: u16,
    /// The lowest transmit frequency in hundredths of a hertz; none where there is none.
    pub lowest: Option<u64>,
    /// The highest.
    pub highest: Option<u64>,
}

/// The most operators that a file can have: each is two digits.
pub const MAX_OPERATORS: usize = 100;

/// Puts a row for each operator of a file into the lent rows, ascending by code, and answers how
/// many there are; rows past the last keep what they held. Refusals: 1, 2, 17.
///
/// ```
/// let mut rows = [desk::Operator::default(); desk::MAX_OPERATORS];
/// assert_eq!(desk::operators(&[b' '; 2 * 219], &mut rows)?, 0); // its station breaks a rule
/// let (header, station) = ([b' '; 219], include_bytes!("../station-s.txt"));
/// let file = [&header[..], station].concat();
/// assert_eq!(desk::operators(&file, &mut rows)?, 1);
/// assert_eq!((rows[0].code, rows[0].stations), (*b"11", 1));
/// assert_eq!(rows[0].lowest, Some(93_820_000_000)); // 938.2 MHz
/// assert_eq!(desk::operators(&file, &mut []), Err(desk::Refusal::TooFewRows));
/// # Ok::<(), desk::Refusal>(())
/// ```
pub fn operators(file: &[u8], rows: &mut [Operator]) -> Result<usize, Refusal> {
    let mut bytes = [0; MAX_OPERATORS * raw::OPERATOR_WIDTH];
    let room = rows.len().min(MAX_OPERATORS) * raw::OPERATOR_WIDTH;
    let (refusal, count) = raw::operators(file, &mut bytes[..room]);
    for (row, bytes) in rows.iter_mut().zip(bytes.chunks_exact(raw::OPERATOR_WIDTH)).take(count) {
        *row = Operator {
            code: [bytes[0], bytes[1]],
            stations: number(&bytes[2..4]) as u16,
            transmitting: number(&bytes[4..6]) as u16,
            lowest: frequency(&bytes[6..14]),
            highest: frequency(&bytes[14..]),
        };
    }
    answer(refusal, 0, count)
}

/// The number in bytes, high byte first.
fn number(bytes: &[u8]) -> u64 {
    bytes.iter().fold(0, |v, byte| v << 8 | u64::from(*byte))
}

/// The frequency in bytes; none where they are spaces, which are no frequency's bytes.
fn frequency(bytes: &[u8]) -> Option<u64> {
    (bytes != [b' '; 8]).then(|| number(bytes))
}

/// What a run of saves was: how many were accepted and refused, and which one stopped it.
#[derive(Clone, Copy, Debug, Default, PartialEq, Eq)]
pub struct Replayed {
    /// The saves that were put in.
    pub accepted: usize,
    /// The saves whose number is above n.
    pub refused: usize,
    /// The save that stopped the run, counted from 1; it counts in neither.
    pub stopped: Option<usize>,
}

/// Judges the morning's list into its sheet and runs a trace of saves on both, up to the first whose
/// number is not three digits or that is cut short. A longer trace may be handed over in parts of
/// whole saves. Refusals: 1, 2, 3.
///
/// ```
/// let mut file = [b' '; 2 * desk::RECORD_LENGTH];
/// let mut sheet = [0; desk::sheet_length(1)];
/// let mut trace = [b"001".as_slice(), &[b'1'; 219], b"002", &[b'2'; 219]].concat();
/// trace.extend(b"0");
/// let day = desk::replay(&mut file, &mut sheet, &trace)?;
/// assert_eq!(day, desk::Replayed { accepted: 1, refused: 1, stopped: Some(3) });
/// assert_eq!(file[219..], [b'1'; 219]);
/// assert_eq!(desk::verify(&file, &sheet)?, desk::Finding::Right);
/// # Ok::<(), desk::Refusal>(())
/// ```
pub fn replay(file: &mut [u8], sheet: &mut [u8], trace: &[u8]) -> Result<Replayed, Refusal> {
    let (refusal, accepted, refused, stopped) = raw::replay(file, sheet, trace);
    let stopped = (stopped != 0).then_some(stopped);
    answer(refusal, 0, Replayed { accepted, refused, stopped })
}

/// The piece of the file that holds a field of record `number`, 0 being the header.
/// Refusals: 1, 2, 5, 8.
///
/// ```
/// let mut header = [b' '; 219];
/// header[209..212].copy_from_slice(b"1.0");
/// assert_eq!(desk::show(&header, 0, 13), Ok(&b"1.0"[..]));
/// assert_eq!(desk::show(&header, 1, 13), Err(desk::Refusal::NoSuchRecord));
/// assert_eq!(desk::show(&header, 0, 15), Err(desk::Refusal::NoSuchField));
/// ```
pub fn show(file: &[u8], number: usize, field: usize) -> Result<&[u8], Refusal> {
    let (refusal, offset, length) = raw::show(file, number, field);
    answer(refusal, 0, ())?;
    Ok(&file[offset..][..length])
}

/// Whether a record is a station that breaks no rule. Refusals: 6, 9.
///
/// ```
/// # let station = include_bytes!(concat!(env!("CARGO_MANIFEST_DIR"), "/station-s.txt"));
/// assert_eq!(desk::check_station(station), Ok(()));
/// assert_eq!(desk::check_station(&[b' '; 219]), Err(desk::Refusal::RuleBroken { code: 3 }));
/// assert_eq!(desk::check_station(&[]), Err(desk::Refusal::RecordLength));
/// ```
pub fn check_station(record: &[u8]) -> Result<(), Refusal> {
    let (refusal, code) = raw::station_code(record);
    answer(refusal, code, ())
}

/// What is wrong with the field that a station's code names.
#[derive(Clone, Copy, Debug, PartialEq, Eq)]
pub enum Kind {
    /// A byte that the field admits at no place.
    Byte,
    /// A number, place or date outside its range, or a unit at odds with its frequency.
    Range,
    /// What cannot be read.
    Shape,
    /// A rule between fields, codes 31 to 39.
    Between,
}

/// The kind of the first rule that a station's record breaks, and none where it breaks no rule.
/// Refusal: 6.
///
/// ```
/// # let mut station = *include_bytes!(concat!(env!("CARGO_MANIFEST_DIR"), "/station-s.txt"));
/// assert_eq!(desk::station_kind(&station), Ok(None));
/// station[91..96].copy_from_slice(b"360.0");
/// assert_eq!(desk::station_kind(&station), Ok(Some((17, desk::Kind::Range))));
/// assert_eq!(desk::station_kind(&[]), Err(desk::Refusal::RecordLength));
/// ```
pub fn station_kind(record: &[u8]) -> Result<Option<(u8, Kind)>, Refusal> {
    kind_with(raw::station_kind(record))
}

/// The same from the second judge, which walks the table: it gives the answer of `station_kind` on every record.
/// Refusal: 6.
///
/// ```
/// # let mut station = *include_bytes!(concat!(env!("CARGO_MANIFEST_DIR"), "/station-s.txt"));
/// station[91..96].copy_from_slice(b"360.0");
/// assert_eq!(desk::station_second(&station), desk::station_kind(&station));
/// ```
pub fn station_second(record: &[u8]) -> Result<Option<(u8, Kind)>, Refusal> {
    kind_with(raw::station_second(record))
}

/// The code and the kind that come with refusal 9; none where there is no refusal.
fn kind_with((refusal, code, kind): (u8, u8, u8)) -> Result<Option<(u8, Kind)>, Refusal> {
    let kind = match kind {
        0 => return answer(refusal, code, None),
        1 => Kind::Byte,
        2 => Kind::Range,
        3 => Kind::Shape,
        _ => Kind::Between,
    };
    Ok(Some((code, kind)))
}

/// Whether a record is a header that breaks none of the rules 1 to 14. Refusals: 6, 9.
///
/// ```
/// assert_eq!(desk::check_header(&[b' '; 219]), Err(desk::Refusal::RuleBroken { code: 1 }));
/// ```
pub fn check_header(record: &[u8]) -> Result<(), Refusal> {
    let (refusal, code) = raw::header_code(record);
    answer(refusal, code, ())
}

/// Writes the station of a record into `out` in the one spelling. Refusals: 6, 7, 9.
///
/// ```
/// # let station = include_bytes!(concat!(env!("CARGO_MANIFEST_DIR"), "/station-s.txt"));
/// let mut record = *station;
/// record[..11].copy_from_slice(b"  938.2    ");
/// let mut out = [0; 219];
/// desk::respell_station(&record, &mut out)?;
/// assert_eq!(&out[..11], b"00938.20000");
/// # Ok::<(), desk::Refusal>(())
/// ```
pub fn respell_station(record: &[u8], out: &mut [u8]) -> Result<(), Refusal> {
    let (refusal, code) = raw::respell_station(record, out);
    answer(refusal, code, ())
}

/// Writes the header of a record into `out` in the one spelling; its fax is judged and not kept, and
/// spaces are written for it. Refusals: 6, 7, 9.
///
/// ```
/// let mut header = [b' '; 219];
/// header[..2].copy_from_slice(b" 1");
/// header[82..86].copy_from_slice(b"OAUT");
/// header[146..154].copy_from_slice(b"+43 1 55");
/// header[186..203].copy_from_slice(b"     002012024AUT");
/// header[209..212].copy_from_slice(b"1.0");
/// let mut out = [0; 219];
/// desk::respell_header(&header, &mut out)?;
/// assert_eq!((&out[..2], &out[186..192]), (&b"01"[..], &b"000000"[..]));
/// assert_eq!(out[146..166], [b' '; 20]);
/// # Ok::<(), desk::Refusal>(())
/// ```
pub fn respell_header(record: &[u8], out: &mut [u8]) -> Result<(), Refusal> {
    let (refusal, code) = raw::respell_header(record, out);
    answer(refusal, code, ())
}

/// Sets the power 8B1 of a station, in tenths of dBW, or makes it blank. Refusals: 6, 9.
///
/// ```
/// # let station = include_bytes!(concat!(env!("CARGO_MANIFEST_DIR"), "/station-s.txt"));
/// let mut record = *station;
/// desk::set_power(&mut record, Some(-50))?;
/// assert_eq!(&record[84..90], b"-005.0");
/// desk::set_power(&mut record, None)?;
/// assert_eq!(&record[84..90], b"      ");
/// # Ok::<(), desk::Refusal>(())
/// ```
pub fn set_power(record: &mut [u8], tenths: Option<i64>) -> Result<(), Refusal> {
    let (filled, number) = stated(tenths);
    let (refusal, code) = raw::set_power(record, filled, number);
    answer(refusal, code, ())
}

/// Sets the azimuth 9A of a station, in tenths of a degree, or makes it blank. Refusals: 6, 9.
///
/// ```
/// # let station = include_bytes!(concat!(env!("CARGO_MANIFEST_DIR"), "/station-s.txt"));
/// let mut record = *station;
/// desk::set_azimuth(&mut record, Some(3_599))?;
/// assert_eq!(&record[91..96], b"359.9");
/// let refused = desk::set_azimuth(&mut record, Some(3_600));
/// assert_eq!(refused, Err(desk::Refusal::RuleBroken { code: 17 }));
/// # Ok::<(), desk::Refusal>(())
/// ```
pub fn set_azimuth(record: &mut [u8], tenths: Option<i64>) -> Result<(), Refusal> {
    let (filled, number) = stated(tenths);
    let (refusal, code) = raw::set_azimuth(record, filled, number);
    answer(refusal, code, ())
}

/// Sets the elevation 9B of a station, in tenths of a degree, or makes it blank. Refusals: 6, 9.
///
/// ```
/// # let station = include_bytes!(concat!(env!("CARGO_MANIFEST_DIR"), "/station-s.txt"));
/// let mut record = *station;
/// desk::set_elevation(&mut record, Some(-900))?;
/// assert_eq!(&record[96..101], b"-90.0");
/// # Ok::<(), desk::Refusal>(())
/// ```
pub fn set_elevation(record: &mut [u8], tenths: Option<i64>) -> Result<(), Refusal> {
    let (filled, number) = stated(tenths);
    let (refusal, code) = raw::set_elevation(record, filled, number);
    answer(refusal, code, ())
}

/// Sets the height above sea 4Z of a station, in metres, or makes it blank. Refusals: 6, 9.
///
/// ```
/// # let station = include_bytes!(concat!(env!("CARGO_MANIFEST_DIR"), "/station-s.txt"));
/// let mut record = *station;
/// desk::set_height(&mut record, Some(-5))?;
/// assert_eq!(&record[71..75], b"-005");
/// # Ok::<(), desk::Refusal>(())
/// ```
pub fn set_height(record: &mut [u8], metres: Option<i64>) -> Result<(), Refusal> {
    let (filled, number) = stated(metres);
    let (refusal, code) = raw::set_height(record, filled, number);
    answer(refusal, code, ())
}

/// Sets the height above ground 9Y of a station, in metres. Refusals: 6, 9.
///
/// ```
/// # let station = include_bytes!(concat!(env!("CARGO_MANIFEST_DIR"), "/station-s.txt"));
/// let mut record = *station;
/// desk::set_ground(&mut record, 45)?;
/// assert_eq!(&record[107..111], b"0045");
/// # Ok::<(), desk::Refusal>(())
/// ```
pub fn set_ground(record: &mut [u8], metres: i64) -> Result<(), Refusal> {
    let (refusal, code) = raw::set_ground(record, metres);
    answer(refusal, code, ())
}

/// Writes the station of a record as a semicolon line and answers the line's length; bytes of
/// `line` after it stay. Refusals, in this order: 6, 9, 12.
///
/// ```
/// # let station = include_bytes!(concat!(env!("CARGO_MANIFEST_DIR"), "/station-s.txt"));
/// let mut line = [0; desk::MAX_LINE_LENGTH];
/// let length = desk::list_out(station, &mut line)?;
/// assert!(line[..length].starts_with(b"00938.20000;M;2;FB;CP;L;1;01032021;1010_MUSTER;AUT;"));
/// # Ok::<(), desk::Refusal>(())
/// ```
pub fn list_out(record: &[u8], line: &mut [u8]) -> Result<usize, Refusal> {
    let (refusal, length, code) = raw::list_out(record, line);
    answer(refusal, code, length)
}

/// Writes the station of a semicolon line, its line feed included, into `record` in the one
/// spelling. Refusals, in this order: 7, 10, 11, 9.
///
/// ```
/// # let station = include_bytes!(concat!(env!("CARGO_MANIFEST_DIR"), "/station-s.txt"));
/// let mut line = [0; desk::MAX_LINE_LENGTH];
/// let length = desk::list_out(station, &mut line)?;
/// let mut record = [0; 219];
/// desk::list_in(&line[..length], &mut record)?;
/// assert_eq!(&record, station);
/// # Ok::<(), desk::Refusal>(())
/// ```
pub fn list_in(line: &[u8], record: &mut [u8]) -> Result<(), Refusal> {
    let (refusal, code) = raw::list_in(line, record);
    answer(refusal, code, ())
}

/// The marks of a line.
#[derive(Clone, Copy, Debug, PartialEq, Eq)]
pub struct Marks {
    /// How many semicolons it has; a station's line has 29.
    pub semicolons: usize,
    /// How many line feeds it has; a station's line has one.
    pub feeds: usize,
    /// Whether a line feed is its last byte.
    pub ended: bool,
}

/// The marks of any bytes. A line is refused with 10 exactly if they are not those of a line.
///
/// ```
/// let marks = desk::line_marks(b"00938.2;M;2\n");
/// assert_eq!(marks, desk::Marks { semicolons: 2, feeds: 1, ended: true });
/// ```
pub fn line_marks(line: &[u8]) -> Marks {
    let (_, semicolons, feeds, ended) = raw::line_marks(line);
    Marks { semicolons, feeds, ended: ended == 1 }
}

/// A field of a line that is longer than its columns.
#[derive(Clone, Copy, Debug, PartialEq, Eq)]
pub struct LongField {
    /// The field's number, from 1.
    pub number: usize,
    /// How many bytes it has.
    pub length: usize,
    /// How many it may have.
    pub most: usize,
}

/// The first field of a line that is longer than its columns. A line with its marks is refused
/// with 11 exactly if there is one.
///
/// ```
/// let field = desk::long_field(b"00938.20000;MHz;2;FB\n");
/// assert_eq!(field, Some(desk::LongField { number: 2, length: 3, most: 1 }));
/// assert_eq!(desk::long_field(b";;\n"), None);
/// ```
pub fn long_field(line: &[u8]) -> Option<LongField> {
    let (_, number, length, most) = raw::long_field(line);
    (number > 0).then_some(LongField { number, length, most })
}

/// The kind of the first rule that the station of a line breaks, and none where it breaks no rule.
/// Refusals: 10, 11.
///
/// ```
/// # let station = include_bytes!(concat!(env!("CARGO_MANIFEST_DIR"), "/station-s.txt"));
/// # let mut line = [0; desk::MAX_LINE_LENGTH];
/// let length = desk::list_out(station, &mut line)?;
/// assert_eq!(desk::line_kind(&line[..length]), Ok(None));
/// assert_eq!(desk::line_kind(&[b"x", &line[..length]].concat()), Err(desk::Refusal::FieldTooLong));
/// line[0] = b'x';
/// assert_eq!(desk::line_kind(&line[..length]), Ok(Some((1, desk::Kind::Byte))));
/// # Ok::<(), desk::Refusal>(())
/// ```
pub fn line_kind(line: &[u8]) -> Result<Option<(u8, Kind)>, Refusal> {
    kind_with(raw::line_kind(line))
}

/// Writes the station of a carriage into `record` in the one spelling: the station of `defaults`
/// with the name of the carriage, and with 1A, its unit, 8B1 and 13X as the line gives them. The
/// line is `number;frequency;unit;power;13X` and a line feed. Refusals, in this order: 7, 6 (the
/// defaults), 10, 11, 14, 15, 16, 9.
///
/// ```
/// # let base = include_bytes!(concat!(env!("CARGO_MANIFEST_DIR"), "/station-s.txt"));
/// let mut record = [0; 219];
/// let line = b"318166502860;00456.50000;M;-10.0;AUT26000001001\n";
/// // Those of a base station are no defaults.
/// assert_eq!(desk::carriage(line, base, &mut record), Err(desk::Refusal::NotMobileDefaults));
/// ```
pub fn carriage(line: &[u8], defaults: &[u8], record: &mut [u8]) -> Result<(), Refusal> {
    let (refusal, code) = raw::carriage(line, defaults, record);
    answer(refusal, code, ())
}

/// The vehicle number in a station's name, where it holds one whose last digit is right.
///
/// ```
/// assert_eq!(desk::carriage_number(b"9999_318166502860_R "), Some(&b"318166502860"[..]));
/// assert_eq!(desk::carriage_number(b"9999_318166502861_R "), None);
/// ```
pub fn carriage_number(name: &[u8]) -> Option<&[u8]> {
    let (digits, offset) = raw::carriage_number(name);
    (digits > 0).then(|| &name[offset..offset + digits])
}

/// A value as the library is told of it; with a blank it does not look at the number.
fn stated(value: Option<i64>) -> (u8, i64) {
    value.map_or((0, 0), |number| (1, number))
}

/// The value of a call that was done, or its refusal.
fn answer<T>(refusal: u8, code: u8, value: T) -> Result<T, Refusal> {
    Refusal::from_numbers(refusal, code).map_or(Ok(value), Err)
}
