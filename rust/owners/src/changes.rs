//! What differs between two filings, station by station, matched by their reference 13X.

use std::collections::HashMap;

use desk::{Refusal, RECORD_LENGTH};

use crate::filings::{quoted, Filing};
use crate::rules;

/// What differs between an old filing and a new one.
#[derive(Debug, Default, PartialEq, Eq)]
pub struct Changes {
    /// A line for each thing that changed.
    pub lines: Vec<String>,
    /// How many stations are only in the new filing.
    pub added: usize,
    /// How many are only in the old one.
    pub gone: usize,
    /// How many have a field of another value.
    pub changed: usize,
    /// How many have only other bytes for the same values.
    pub respelled: usize,
    /// How many are as they were.
    pub same: usize,
}

impl Changes {
    /// Compares two filings.
    pub fn between(old: &Filing, new: &Filing) -> Changes {
        let mut changes = Changes::default();
        changes.header(old, new);
        let partners = matched(old, new);
        let gone: Vec<usize> =
            (1..=old.stations()).filter(|&station| !partners.contains(&Some(station))).collect();
        for &station in &gone {
            changes.lines.push(format!("{} gone: it was station {station}", name(old, station)));
        }
        changes.gone = gone.len();
        for station in 1..=new.stations() {
            match partners[station - 1] {
                Some(partner) => changes.station(old, partner, new, station),
                None => changes.addition(old, &gone, new, station),
            }
        }
        changes.order(new, &partners);
        changes
    }

    /// The lines and the totals, as they are printed.
    pub fn text(&self) -> String {
        let mut text: String = self.lines.iter().map(|line| format!("{line}\n")).collect();
        text += &format!(
            "added {} gone {} changed {} same {}",
            self.added,
            self.gone,
            self.changed,
            self.same + self.respelled
        );
        if self.respelled > 0 {
            text += &format!(", of which {} with other bytes for the same values", self.respelled);
        }
        text + "\n"
    }

    fn header(&mut self, old: &Filing, new: &Filing) {
        for field in HEADER.changed(old, 0, new, 0) {
            let title = rules::header_title(field);
            self.lines.push(changed("header", title, old.field(0, field), new.field(0, field)));
        }
    }

    /// A station of a new reference; where one that is gone had all else, that is said.
    fn addition(&mut self, old: &Filing, gone: &[usize], new: &Filing, station: usize) {
        let mut line = format!("{} added: it is station {station}", name(new, station));
        let as_before = gone.iter().find(|&&partner| {
            STATION.changed(old, partner, new, station) == [rules::STATION_FIELDS]
        });
        if let Some(&partner) = as_before {
            line += &format!(", as {} was but for 13X", name(old, partner));
        }
        self.added += 1;
        self.lines.push(line);
    }

    fn station(&mut self, old: &Filing, partner: usize, new: &Filing, station: usize) {
        let fields = STATION.changed(old, partner, new, station);
        if old.record(partner) == new.record(station) {
            self.same += 1;
        } else if fields.is_empty() {
            self.respelled += 1;
        } else {
            self.changed += 1;
        }
        let whose = name(new, station);
        for field in fields {
            let (before, after) = (old.field(partner, field), new.field(station, field));
            self.lines.push(changed(&whose, rules::station_name(field), before, after));
        }
    }

    /// Names the stations that have moved against the others: as few as explain the new order.
    fn order(&mut self, new: &Filing, partners: &[Option<usize>]) {
        let kept: Vec<(usize, usize)> = partners
            .iter()
            .enumerate()
            .filter_map(|(index, partner)| Some((index + 1, (*partner)?)))
            .collect();
        let still = longest_rising(&kept);
        for (station, partner) in kept {
            if !still.contains(&partner) {
                let name = name(new, station);
                self.lines.push(format!(
                    "{name} moved: it was station {partner}, it is station {station}"
                ));
            }
        }
    }
}

/// For each new station the old one that it continues. Stations of one reference are matched with
/// one of equal values first, then in their order.
fn matched(old: &Filing, new: &Filing) -> Vec<Option<usize>> {
    let mut waiting: HashMap<&[u8], Vec<usize>> = HashMap::new();
    for station in 1..=old.stations() {
        waiting.entry(old.reference(station)).or_default().push(station);
    }
    let mut partners = vec![None; new.stations()];
    for equal in [true, false] {
        for station in 1..=new.stations() {
            if partners[station - 1].is_some() {
                continue;
            }
            if let Some(twins) = waiting.get_mut(new.reference(station)) {
                let found = twins.iter().position(|&twin| {
                    !equal || STATION.changed(old, twin, new, station).is_empty()
                });
                partners[station - 1] = found.map(|at| twins.remove(at));
            }
        }
    }
    partners
}

/// The old numbers of a longest run of stations whose old and new numbers both rise.
fn longest_rising(kept: &[(usize, usize)]) -> Vec<usize> {
    let mut best: Vec<Vec<usize>> = Vec::new();
    for &(_, partner) in kept {
        let longest =
            best.iter().filter(|run| run.last() < Some(&partner)).max_by_key(|run| run.len());
        let mut run = longest.cloned().unwrap_or_default();
        run.push(partner);
        best.push(run);
    }
    best.into_iter().max_by_key(Vec::len).unwrap_or_default()
}

/// A station's reference, and which of its twins it is.
fn name(filing: &Filing, station: usize) -> String {
    let reference = filing.reference(station);
    let above = (1..station).filter(|&other| filing.reference(other) == reference).count();
    let below = (station + 1..=filing.stations()).any(|other| filing.reference(other) == reference);
    let plain = if reference.iter().all(|&byte| byte.is_ascii_graphic()) {
        reference.escape_ascii().to_string()
    } else {
        quoted(reference)
    };
    if above > 0 || below {
        format!("{plain} (twin {})", above + 1)
    } else {
        plain
    }
}

/// A changed field, as it is printed.
fn changed(whose: &str, field: &str, before: &[u8], after: &[u8]) -> String {
    format!("{whose} {field}: {} -> {}", quoted(before), quoted(after))
}

/// A kind of record: the call that writes it in the one spelling, and how many fields it has.
struct Kind {
    respell: fn(&[u8], &mut [u8]) -> Result<(), Refusal>,
    fields: usize,
}

const STATION: Kind = Kind { respell: desk::respell_station, fields: rules::STATION_FIELDS };
const HEADER: Kind = Kind { respell: desk::respell_header, fields: rules::HEADER_FIELDS };

impl Kind {
    /// A record in the one spelling, where it breaks no rule.
    fn spelled(&self, record: &[u8]) -> Option<Vec<u8>> {
        let mut out = vec![0; RECORD_LENGTH];
        (self.respell)(record, &mut out).ok().map(|()| out)
    }

    /// The fields of two records whose values are not the same. One of them that breaks no rule
    /// tells whether other bytes are another value: with them in its place it is spelled alike or
    /// not. Where both break rules bytes are compared.
    fn changed(&self, old: &Filing, partner: usize, new: &Filing, number: usize) -> Vec<usize> {
        let (before, after) = (old.record(partner), new.record(number));
        let good = [(after, before), (before, after)]
            .into_iter()
            .find_map(|(one, other)| Some((one, other, self.spelled(one)?)));
        let differs = |&field: &usize| {
            let range = range(new, number, field);
            let same_value = good.as_ref().is_some_and(|(one, other, spelling)| {
                let mut mixed = one.to_vec();
                mixed[range.clone()].copy_from_slice(&other[range.clone()]);
                self.spelled(&mixed).as_ref() == Some(spelling)
            });
            before[range.clone()] != after[range] && !same_value
        };
        (1..=self.fields).filter(differs).collect()
    }
}

/// Where a field stands in its record.
fn range(filing: &Filing, number: usize, field: usize) -> std::ops::Range<usize> {
    let (_, offset, length) = desk::raw::show(filing.bytes(), number, field);
    let first = offset - number * RECORD_LENGTH;
    first..first + length
}
