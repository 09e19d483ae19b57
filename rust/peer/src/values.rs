//! The typed values of stations and headers. A value that may be missing is an `Option`.

/// A radius in kilometres (4D).
#[derive(Clone, Copy, Debug, Default, PartialEq, Eq)]
pub struct Kilometres(pub i64);

/// A height in metres above sea (4Z) or ground (9Y).
#[derive(Clone, Copy, Debug, Default, PartialEq, Eq)]
pub struct Metres(pub i64);

/// A power, angle or gain in tenths of dBW, degrees or dB.
#[derive(Clone, Copy, Debug, Default, PartialEq, Eq)]
pub struct Tenths(pub i64);

/// The unit in which a frequency is given.
#[derive(Clone, Copy, Debug, PartialEq, Eq)]
pub enum Unit {
    /// kHz, written k.
    Kilo,
    /// MHz, written M.
    Mega,
    /// GHz, written G.
    Giga,
}

impl Unit {
    /// The unit with this letter.
    pub(crate) fn read(letter: u8) -> Option<Unit> {
        match letter {
            b'k' => Some(Unit::Kilo),
            b'M' => Some(Unit::Mega),
            b'G' => Some(Unit::Giga),
            _ => None,
        }
    }

    /// The unit's letter.
    pub(crate) fn letter(self) -> u8 {
        match self {
            Unit::Kilo => b'k',
            Unit::Mega => b'M',
            Unit::Giga => b'G',
        }
    }
}

/// A frequency as a count of 1/100000 of its unit (1A, 1Y).
#[derive(Clone, Copy, Debug, PartialEq, Eq)]
pub struct Frequency {
    /// Hundred-thousandths of the unit.
    pub count: i64,
    /// The unit that the frequency keeps.
    pub unit: Unit,
}

/// A day in the calendar as the columns give it; months are not looked up for their length.
#[derive(Clone, Copy, Debug, PartialEq, Eq)]
pub struct Date {
    /// 1 to 31.
    pub day: u8,
    /// 1 to 12.
    pub month: u8,
    /// 1901 to 9999.
    pub year: u16,
}

/// A place on earth in seconds of arc, east and north positive (4C).
#[derive(Clone, Copy, Debug, Default, PartialEq, Eq)]
pub struct Place {
    /// Seconds east of Greenwich, at most 648,000 on either side.
    pub east: i64,
    /// Seconds north of the equator, at most 324,000 on either side.
    pub north: i64,
}
