//! What was met: how often each call gave each refusal, and each code.

use std::collections::BTreeMap;
use std::fmt;

/// The refusals that each call can give, 0 for none.
const REFUSALS: &[(&str, &[u8])] = &[
    ("judge", &[0, 1, 2, 3]),
    ("replace", &[0, 1, 2, 3, 4, 5, 6]),
    ("verify", &[0, 1, 2, 3]),
    ("replay", &[0, 1, 2, 3]),
    ("operators", &[0, 1, 2, 17]),
    ("show", &[0, 1, 2, 5, 8]),
    ("station_code", &[0, 6, 9]),
    ("station_kind", &[0, 6, 9]),
    ("station_second", &[0, 6, 9]),
    ("header_code", &[0, 6, 9]),
    ("respell_station", &[0, 6, 7, 9]),
    ("respell_header", &[0, 6, 7, 9]),
    ("set_power", &[0, 6, 9]),
    ("set_azimuth", &[0, 6, 9]),
    ("set_elevation", &[0, 6, 9]),
    ("set_height", &[0, 6, 9]),
    ("set_ground", &[0, 6, 9]),
    ("list_out", &[0, 6, 9, 12]),
    ("list_in", &[0, 7, 9, 10, 11]),
    ("line_marks", &[0, 10]),
    ("long_field", &[0, 11]),
    ("line_kind", &[0, 9, 10, 11]),
    ("carriage", &[0, 6, 7, 9, 10, 11, 14, 15, 16]),
    ("carriage_number", &[0, 12]), // how many digits; it has no refusal
];

/// The kinds that a station's code can have: a byte is one for every field, range and shape are
/// for some.
pub fn kinds_of(code: u8) -> &'static [u8] {
    match code {
        0 => &[0],
        1 | 8 | 11 | 17 | 18 | 24 | 28 | 29 => &[1, 2, 3],
        2 | 25 => &[1, 2],
        3 | 7 | 16 | 27 => &[1],
        4..=30 => &[1, 3],
        _ => &[4],
    }
}

/// Counts of answers, by what was asked and what was given.
#[derive(Default)]
pub struct Tally {
    refusals: BTreeMap<(&'static str, u8), u64>,
    station_codes: BTreeMap<u8, u64>,
    kinds: BTreeMap<(u8, u8), u64>,
    line_kinds: BTreeMap<u8, u64>,
    header_codes: BTreeMap<u8, u64>,
    list_out_codes: BTreeMap<u8, u64>,
    list_in_codes: BTreeMap<u8, u64>,
    row_codes: BTreeMap<u8, u64>,
    sheet_header_codes: BTreeMap<u8, u64>,
    rows_written: BTreeMap<usize, u64>,
    twins: u64,
    far_twins: u64,
    clashes: u64,
    far_clashes: u64,
    clashes_of_twins: u64,
    days: [u64; 3],
    pages: BTreeMap<usize, u64>,
}

impl Tally {
    /// Counts a call and its refusal.
    pub fn refusal(&mut self, call: &'static str, refusal: u8) {
        *self.refusals.entry((call, refusal)).or_default() += 1;
    }

    /// Counts a call, its refusal and, where one was looked for, its code.
    pub fn answer(&mut self, call: &'static str, (refusal, code): (u8, u8)) {
        self.refusal(call, refusal);
        let codes = match call {
            "station_code" => &mut self.station_codes,
            "header_code" => &mut self.header_codes,
            "list_out" => &mut self.list_out_codes,
            "list_in" => &mut self.list_in_codes,
            _ => return,
        };
        if refusal == 0 || refusal == 9 {
            *codes.entry(code).or_default() += 1;
        }
    }

    /// Counts the kind of a code.
    pub fn kind(&mut self, (refusal, code, kind): (u8, u8, u8)) {
        self.refusal("station_kind", refusal);
        if refusal == 0 || refusal == 9 {
            *self.kinds.entry((code, kind)).or_default() += 1;
        }
    }

    /// Counts the kind of a line's code.
    pub fn line_kind(&mut self, (refusal, code, kind): (u8, u8, u8)) {
        self.refusal("line_kind", refusal);
        assert_eq!(refusal == 9, code > 0 && kind > 0, "a line's code {code} and kind {kind}");
        *self.line_kinds.entry(kind).or_default() += 1;
    }

    /// Counts the codes, twins and clashes of a judged sheet.
    pub fn sheet(&mut self, sheet: &[u8]) {
        let (rows, trailer) = sheet.split_at(sheet.len() - 10);
        for row in rows.chunks_exact(5) {
            *self.row_codes.entry(row[0]).or_default() += 1;
            let twin = u16::from_be_bytes([row[1], row[2]]);
            self.twins += u64::from(twin != 0);
            self.far_twins += u64::from(twin > 255);
            let clash = u16::from_be_bytes([row[3], row[4]]);
            self.clashes += u64::from(clash != 0);
            self.far_clashes += u64::from(clash > 255);
            self.clashes_of_twins += u64::from(clash != 0 && twin != 0);
        }
        *self.sheet_header_codes.entry(trailer[3]).or_default() += 1;
    }

    /// Counts the rows that a replacement wrote.
    pub fn rows_written(&mut self, rows: usize) {
        *self.rows_written.entry(rows).or_default() += 1;
    }

    /// Counts a day that was run again: the saves accepted and refused, and whether it was stopped.
    pub fn day(&mut self, accepted: usize, refused: usize, stopped: usize) {
        let met = [accepted as u64, refused as u64, u64::from(stopped != 0)];
        self.days.iter_mut().zip(met).for_each(|(sum, met)| *sum += met);
    }

    /// Counts a page of so many operators.
    pub fn page(&mut self, operators: usize) {
        *self.pages.entry(operators).or_default() += 1;
    }

    /// How many calls were compared.
    pub fn calls(&self) -> u64 {
        self.refusals.values().sum()
    }

    /// Fails unless every refusal of every call and every code was met.
    pub fn assert_complete(&self) {
        for &(call, refusals) in REFUSALS {
            for &refusal in refusals {
                assert!(
                    self.refusals.contains_key(&(call, refusal)),
                    "{call} never gave refusal {refusal}"
                );
            }
        }
        assert_met("station_code", &self.station_codes, 39);
        self.assert_kinds();
        assert_met("header_code", &self.header_codes, 14);
        assert_met("list_out", &self.list_out_codes, 39);
        assert_met("list_in", &self.list_in_codes, 39);
        assert_met("line_kind", &self.line_kinds, 4);
        assert_met("row", &self.row_codes, 39);
        assert_met("sheet's header", &self.sheet_header_codes, 15);
        assert!(self.twins > 0, "no twin was met");
        assert!(self.far_twins > 0, "no twin above 255 was met");
        assert!(self.clashes > 0, "no clash was met");
        assert!(self.far_clashes > 0, "no clash above 255 was met");
        assert!(self.clashes_of_twins > 0, "no row with a twin and a clash was met");
        assert!(
            self.days.iter().all(|&met| met > 0),
            "accepted, refused, stopped: {:?}",
            self.days
        );
        for operators in [0, 1, 2, 3, 100] {
            let met = self.pages.contains_key(&operators);
            assert!(met, "no page of {operators} operators was met");
        }
        for rows in 0..=2 {
            assert!(self.rows_written.contains_key(&rows), "no replacement wrote {rows} rows");
        }
        let most = self.rows_written.keys().max().copied().unwrap_or(0);
        assert!(most >= 100, "no replacement wrote many rows");
    }
}

impl Tally {
    /// Fails unless every code came with every kind that it can have, and with no other.
    fn assert_kinds(&self) {
        for code in 0..=39 {
            let met: Vec<u8> =
                (0..=4).filter(|&kind| self.kinds.contains_key(&(code, kind))).collect();
            assert_eq!(met, kinds_of(code), "the kinds of code {code}");
        }
    }
}

fn assert_met(what: &str, codes: &BTreeMap<u8, u64>, last: u8) {
    for code in 0..=last {
        assert!(codes.contains_key(&code), "{what}: code {code} was never given");
    }
}

impl fmt::Display for Tally {
    fn fmt(&self, f: &mut fmt::Formatter<'_>) -> fmt::Result {
        for &(call, _) in REFUSALS {
            write!(f, "{call:16}")?;
            for (&(_, refusal), count) in
                self.refusals.iter().filter(|((name, _), _)| *name == call)
            {
                write!(f, " {refusal}:{count}")?;
            }
            writeln!(f)?;
        }
        write_codes(f, "station codes", &self.station_codes)?;
        write!(f, "{:16}", "codes and kinds")?;
        for ((code, kind), count) in &self.kinds {
            write!(f, " {code}.{kind}:{count}")?;
        }
        writeln!(f)?;
        write_codes(f, "header codes", &self.header_codes)?;
        write_codes(f, "codes, list_out", &self.list_out_codes)?;
        write_codes(f, "codes, list_in", &self.list_in_codes)?;
        write_codes(f, "kinds, lines", &self.line_kinds)?;
        write_codes(f, "codes in rows", &self.row_codes)?;
        write_codes(f, "codes in trailers", &self.sheet_header_codes)?;
        let [accepted, refused, stopped] = self.days;
        writeln!(
            f,
            "{:16} accepted {accepted} refused {refused} stopped {stopped}",
            "saves of days"
        )?;
        let rows = self.rows_written.iter().map(|(rows, count)| *rows as u64 * count).sum::<u64>();
        let (twins, clashes, calls) = (self.twins, self.clashes, self.calls());
        write!(f, "twins {twins}, clashes {clashes}, rows written {rows}, calls {calls}")
    }
}

fn write_codes(f: &mut fmt::Formatter<'_>, what: &str, codes: &BTreeMap<u8, u64>) -> fmt::Result {
    write!(f, "{what:16}")?;
    for (code, count) in codes {
        write!(f, " {code}:{count}")?;
    }
    writeln!(f)
}
