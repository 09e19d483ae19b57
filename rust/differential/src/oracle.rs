//! The boundary's calls made of the peer, with the numbers that `desk::raw` gives.

use peer::{Header, Kind, Metres, Operator, Refusal, Station, Tenths, RECORD_LENGTH};

/// `desk_judge`.
pub fn judge(file: &[u8], sheet: &mut [u8]) -> u8 {
    numbers(&peer::judge(file, sheet)).0
}

/// `desk_replace`.
pub fn replace(file: &mut [u8], sheet: &mut [u8], number: usize, record: &[u8]) -> (u8, usize) {
    let answer = peer::replace(file, sheet, number, record);
    (numbers(&answer).0, answer.unwrap_or(0))
}

/// `desk_verify`.
pub fn verify(file: &[u8], sheet: &[u8]) -> (u8, u8, usize) {
    let answer = peer::verify(file, sheet);
    let refusal = numbers(&answer).0;
    match answer {
        Ok(None) => (refusal, 1, 0),
        Ok(Some(offset)) => (refusal, 2, offset),
        Err(_) => (refusal, 0, 0),
    }
}

/// The bytes of a row of `desk_operators`.
pub const OPERATOR_WIDTH: usize = 22;

/// `desk_operators`: the code, two counts and two frequencies, each number with its high byte first.
pub fn operators(file: &[u8], out: &mut [u8]) -> (u8, usize) {
    let mut rows = vec![Operator::default(); out.len() / OPERATOR_WIDTH];
    let answer = peer::operators(file, &mut rows);
    let refusal = numbers(&answer).0;
    let count = answer.unwrap_or(0);
    for (row, bytes) in rows[..count].iter().zip(out.chunks_exact_mut(OPERATOR_WIDTH)) {
        let sent = |v: Option<u64>| v.map_or([b' '; 8], u64::to_be_bytes);
        bytes[..2].copy_from_slice(&row.code);
        bytes[2..4].copy_from_slice(&row.stations.to_be_bytes());
        bytes[4..6].copy_from_slice(&row.transmitting.to_be_bytes());
        bytes[6..14].copy_from_slice(&sent(row.lowest));
        bytes[14..].copy_from_slice(&sent(row.highest));
    }
    (refusal, count)
}

/// `desk_replay`.
pub fn replay(file: &mut [u8], sheet: &mut [u8], trace: &[u8]) -> (u8, usize, usize, usize) {
    let answer = peer::replay(file, sheet, trace);
    let refusal = numbers(&answer).0;
    let day = answer.unwrap_or_default();
    (refusal, day.accepted, day.refused, day.stopped)
}

/// `desk_show`.
pub fn show(file: &[u8], number: usize, field: usize) -> (u8, usize, usize) {
    let answer = peer::locate(file, number, field);
    let refusal = numbers(&answer).0;
    let range = answer.unwrap_or(0..0);
    (refusal, range.start, range.len())
}

/// `desk_station_code`.
pub fn station_code(record: &[u8]) -> (u8, u8) {
    numbers(&Station::read(record))
}

/// `desk_station_kind`.
pub fn station_kind(record: &[u8]) -> (u8, u8, u8) {
    let (refusal, code) = station_code(record);
    let kind = record.try_into().map_or(0, |record| kind_number(peer::station_kind(record).1));
    (refusal, code, kind)
}

/// The number of a kind, 0 of none.
fn kind_number(kind: Option<Kind>) -> u8 {
    match kind {
        None => 0,
        Some(Kind::Byte) => 1,
        Some(Kind::Range) => 2,
        Some(Kind::Shape) => 3,
        Some(Kind::Between) => 4,
    }
}

/// `desk_header_code`.
pub fn header_code(record: &[u8]) -> (u8, u8) {
    numbers(&Header::read(record))
}

/// `desk_respell_station`.
pub fn respell_station(record: &[u8], out: &mut [u8]) -> (u8, u8) {
    numbers(&lengths(record, out).and_then(|()| Station::read(record)?.write(out)))
}

/// `desk_respell_header`.
pub fn respell_header(record: &[u8], out: &mut [u8]) -> (u8, u8) {
    numbers(&lengths(record, out).and_then(|()| Header::read(record)?.write(out)))
}

/// `desk_set_power`.
pub fn set_power(record: &mut [u8], filled: u8, tenths: i64) -> (u8, u8) {
    set(record, |station| station.set_power(stated(filled, tenths).map(Tenths)))
}

/// `desk_set_azimuth`.
pub fn set_azimuth(record: &mut [u8], filled: u8, tenths: i64) -> (u8, u8) {
    set(record, |station| station.set_azimuth(stated(filled, tenths).map(Tenths)))
}

/// `desk_set_elevation`.
pub fn set_elevation(record: &mut [u8], filled: u8, tenths: i64) -> (u8, u8) {
    set(record, |station| station.set_elevation(stated(filled, tenths).map(Tenths)))
}

/// `desk_set_height`.
pub fn set_height(record: &mut [u8], filled: u8, metres: i64) -> (u8, u8) {
    set(record, |station| station.set_height(stated(filled, metres).map(Metres)))
}

/// `desk_set_ground`.
pub fn set_ground(record: &mut [u8], metres: i64) -> (u8, u8) {
    set(record, |station| station.set_ground(Metres(metres)))
}

/// `desk_list_out`.
pub fn list_out(record: &[u8], line: &mut [u8]) -> (u8, usize, u8) {
    let answer = Station::read(record).and_then(|station| peer::lists::write_line(&station, line));
    let (refusal, code) = numbers(&answer);
    (refusal, answer.unwrap_or(0), code)
}

/// `desk_list_in`.
pub fn list_in(line: &[u8], record: &mut [u8]) -> (u8, u8) {
    if record.len() != RECORD_LENGTH {
        return numbers::<()>(&Err(Refusal::BufferLength));
    }
    numbers(&peer::lists::read_line(line).and_then(|station| station.write(record)))
}

/// `desk_line_marks`.
pub fn line_marks(line: &[u8]) -> (u8, usize, usize, u8) {
    let (semicolons, feeds, ended) = peer::lists::marks(line);
    let refusal = if (semicolons, feeds, ended) == (29, 1, true) { 0 } else { 10 };
    (refusal, semicolons, feeds, ended.into())
}

/// `desk_long_field`.
pub fn long_field(line: &[u8]) -> (u8, usize, usize, usize) {
    peer::lists::long_field(line)
        .map_or((0, 0, 0, 0), |(number, length, most)| (11, number, length, most))
}

/// `desk_line_kind`.
pub fn line_kind(line: &[u8]) -> (u8, u8, u8) {
    let (refusal, code) = numbers(&peer::lists::read_line(line));
    let kind =
        peer::lists::record_in(line).map_or(0, |record| kind_number(peer::station_kind(&record).1));
    (refusal, code, kind)
}

/// `desk_carriage`.
pub fn carriage(line: &[u8], defaults: &[u8], record: &mut [u8]) -> (u8, u8) {
    if record.len() != RECORD_LENGTH {
        return numbers::<()>(&Err(Refusal::BufferLength));
    }
    let built = peer::carriages::station(line, defaults);
    numbers(&built.and_then(|station| station.write(record)))
}

/// `desk_carriage_number`.
pub fn carriage_number(name: &[u8]) -> (usize, usize) {
    let name = <&[u8; 20]>::try_from(name).ok();
    let range = name.and_then(peer::carriages::number_in).unwrap_or(0..0);
    (range.len(), range.start)
}

/// A value as the boundary states it: blank where `filled` is 0.
fn stated(filled: u8, number: i64) -> Option<i64> {
    (filled != 0).then_some(number)
}

fn set(record: &mut [u8], change: impl FnOnce(Station) -> Result<Station, Refusal>) -> (u8, u8) {
    numbers(&Station::read(record).and_then(change).and_then(|station| station.write(record)))
}

fn lengths(record: &[u8], out: &[u8]) -> Result<(), Refusal> {
    if record.len() != RECORD_LENGTH {
        Err(Refusal::RecordLength)
    } else if out.len() != RECORD_LENGTH {
        Err(Refusal::BufferLength)
    } else {
        Ok(())
    }
}

/// The refusal's number and code, 0 and 0 for none.
fn numbers<T>(answer: &Result<T, Refusal>) -> (u8, u8) {
    match answer {
        Ok(_) => (0, 0),
        Err(refusal) => (refusal.number(), refusal.code()),
    }
}
