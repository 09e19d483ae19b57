//! Stations: the typed form, its rules, reading, writing and setting.

use crate::columns::{part, part_mut, Record, STATION_FIELDS};
use crate::refusal::Refusal;
use crate::rules::holds;
use crate::values::{Date, Frequency, Kilometres, Metres, Place, Tenths, Unit};
use crate::{reading, rules, spelling};

/// The antenna type that stands where there is no direction.
const NO_DIRECTION: [u8; 7] = *b"000ND00";

/// A station with its numbers, dates and places as values and all else as its bytes.
#[derive(Clone, Copy, Debug, PartialEq, Eq)]
pub struct Station {
    /// 1A and its unit: the frequency transmitted on.
    pub transmit: Option<Frequency>,
    /// 1Z: the frequency's category.
    pub category: u8,
    /// 6A: FB base, FL repeater, ML mobile.
    pub class: [u8; 2],
    /// 6B: the kind of service.
    pub service: [u8; 2],
    /// 6Z: the category of its user.
    pub user: [u8; 2],
    /// 10Z: whether the carrier is continuous.
    pub occupancy: u8,
    /// 2C: the day on which operation starts.
    pub in_use: Option<Date>,
    /// 4A: the name.
    pub name: [u8; 20],
    /// 4B: the country.
    pub country: [u8; 3],
    /// 4C: the place.
    pub place: Place,
    /// 4D: the radius of the area of operation.
    pub radius: Kilometres,
    /// 4Z: the height of the site above sea.
    pub height: Option<Metres>,
    /// 7A: the designation of the emission.
    pub emission: [u8; 9],
    /// 8B1: the power radiated, in dBW.
    pub power: Option<Tenths>,
    /// 8B2: the antenna that the power refers to.
    pub antenna: u8,
    /// 9A: the azimuth of the main direction, in degrees.
    pub azimuth: Option<Tenths>,
    /// 9B: the elevation of the main direction, in degrees.
    pub elevation: Option<Tenths>,
    /// 9D: the polarization.
    pub polarization: [u8; 2],
    /// 9G: the gain, in dB.
    pub gain: Option<Tenths>,
    /// 9Y: the antenna's height above ground.
    pub ground: Metres,
    /// 9XH: the antenna's horizontal type.
    pub horizontal: [u8; 7],
    /// 9XV: the antenna's vertical type.
    pub vertical: [u8; 7],
    /// 1Y and its unit: the frequency received.
    pub receive: Option<Frequency>,
    /// 13Z: remarks, byte for byte.
    pub remarks: [u8; 50],
    /// 13Y: the state of the coordination.
    pub status: u8,
    /// 2W: the day of the request.
    pub requested: Option<Date>,
    /// 2Z: the day on which coordination ended.
    pub completed: Option<Date>,
    /// 13X: the reference, unique within a filing.
    pub reference: [u8; 15],
}

/// The code of the first rule that a record breaks as a station, or 0.
pub fn station_code(record: &Record) -> u8 {
    Station::parse(record).err().unwrap_or(0)
}

impl Station {
    /// The empty station: numbers 0, choices the first listed, all else blank.
    pub const EMPTY: Station = Station {
        transmit: None,
        category: b'1',
        class: *b"FB",
        service: *b"CO",
        user: [b' '; 2],
        occupancy: b'0',
        in_use: None,
        name: [b' '; 20],
        country: [b' '; 3],
        place: Place { east: 0, north: 0 },
        radius: Kilometres(0),
        height: None,
        emission: [b' '; 9],
        power: None,
        antenna: b'E',
        azimuth: None,
        elevation: None,
        polarization: *b"H ",
        gain: None,
        ground: Metres(0),
        horizontal: [b' '; 7],
        vertical: [b' '; 7],
        receive: None,
        remarks: [b' '; 50],
        status: b'F',
        requested: None,
        completed: None,
        reference: [b' '; 15],
    };

    /// Reads a station from a record that breaks no rule; 01 has the empty station stand for a
    /// refused one, which is what `unwrap_or_default` gives.
    pub fn read(record: &[u8]) -> Result<Station, Refusal> {
        let record = record.try_into().map_err(|_| Refusal::RecordLength)?;
        Station::parse(record).map_err(Refusal::RuleBroken)
    }

    /// Writes a station that breaks no rule, in the one spelling.
    pub fn write(&self, out: &mut [u8]) -> Result<(), Refusal> {
        let record = out.try_into().map_err(|_| Refusal::BufferLength)?;
        self.check().map_err(Refusal::RuleBroken)?;
        self.spell(record);
        Ok(())
    }

    /// The code of the first rule that the typed station breaks, or 0.
    pub fn code(&self) -> u8 {
        self.check().err().unwrap_or(0)
    }

    /// This station with another power (8B1), if it then breaks no rule.
    pub fn set_power(self, power: Option<Tenths>) -> Result<Station, Refusal> {
        Station { power, ..self }.checked()
    }

    /// This station with another azimuth (9A), if it then breaks no rule.
    pub fn set_azimuth(self, azimuth: Option<Tenths>) -> Result<Station, Refusal> {
        Station { azimuth, ..self }.checked()
    }

    /// This station with another elevation (9B), if it then breaks no rule.
    pub fn set_elevation(self, elevation: Option<Tenths>) -> Result<Station, Refusal> {
        Station { elevation, ..self }.checked()
    }

    /// This station with another height above sea (4Z), if it then breaks no rule.
    pub fn set_height(self, height: Option<Metres>) -> Result<Station, Refusal> {
        Station { height, ..self }.checked()
    }

    /// This station with another height above ground (9Y), if it then breaks no rule.
    pub fn set_ground(self, ground: Metres) -> Result<Station, Refusal> {
        Station { ground, ..self }.checked()
    }

    fn checked(self) -> Result<Station, Refusal> {
        self.check().map_err(Refusal::RuleBroken)?;
        Ok(self)
    }

    /// Reads the fields in the order of their codes and stops at the first that breaks its rule.
    #[inline]
    fn parse(record: &Record) -> Result<Station, u8> {
        let station = Station {
            transmit: frequency(record, 1)?,
            category: kept(record, 3, rules::category)?,
            class: kept_text(record, 4, rules::class)?,
            service: kept_text(record, 5, rules::service)?,
            user: kept_text(record, 6, rules::user)?,
            occupancy: kept(record, 7, rules::occupancy)?,
            in_use: date(record, 8)?,
            name: kept_text(record, 9, rules::name)?,
            country: kept_text(record, 10, rules::country)?,
            place: reading::place(part(record, &STATION_FIELDS, 11)).ok_or(11)?,
            radius: whole::<5>(record, 12).map(Kilometres)?,
            height: height(record)?,
            emission: kept_text(record, 14, rules::emission)?,
            power: tenths::<6>(
                record,
                15,
                |text| reading::signed_decimal(text, 3, 1),
                rules::power,
            )?,
            antenna: kept(record, 16, rules::antenna)?,
            azimuth: tenths::<5>(record, 17, |text| reading::decimal(text, 3, 1), rules::azimuth)?,
            elevation: tenths::<5>(
                record,
                18,
                |text| reading::signed_decimal(text, 2, 1),
                rules::elevation,
            )?,
            polarization: kept_text(record, 19, rules::polarization)?,
            gain: tenths::<4>(record, 20, |text| reading::decimal(text, 2, 1), rules::gain)?,
            ground: whole::<4>(record, 21).map(Metres)?,
            horizontal: kept_text(record, 22, rules::antenna_type)?,
            vertical: kept_text(record, 23, rules::antenna_type)?,
            receive: frequency(record, 24)?,
            remarks: kept_text(record, 26, rules::remarks)?,
            status: kept(record, 27, rules::status)?,
            requested: date(record, 28)?,
            completed: date(record, 29)?,
            reference: kept_text(record, 30, rules::reference)?,
        };
        station.check_across()?;
        Ok(station)
    }

    /// Rules 1 to 39 over typed values; 2 and 25 hold by the type of a frequency.
    fn check(&self) -> Result<(), u8> {
        holds(1, self.transmit.is_none_or(rules::frequency))?;
        holds(3, rules::category(&self.category))?;
        holds(4, rules::class(&self.class))?;
        holds(5, rules::service(&self.service))?;
        holds(6, rules::user(&self.user))?;
        holds(7, rules::occupancy(&self.occupancy))?;
        holds(8, self.in_use.is_none_or(rules::date))?;
        holds(9, rules::name(&self.name))?;
        holds(10, rules::country(&self.country))?;
        holds(11, rules::place(self.place))?;
        holds(12, rules::radius(self.radius))?;
        holds(13, self.height.is_none_or(rules::height))?;
        holds(14, rules::emission(&self.emission))?;
        holds(15, self.power.is_none_or(rules::power))?;
        holds(16, rules::antenna(&self.antenna))?;
        holds(17, self.azimuth.is_none_or(rules::azimuth))?;
        holds(18, self.elevation.is_none_or(rules::elevation))?;
        holds(19, rules::polarization(&self.polarization))?;
        holds(20, self.gain.is_none_or(rules::gain))?;
        holds(21, rules::ground(self.ground))?;
        holds(22, rules::antenna_type(&self.horizontal))?;
        holds(23, rules::antenna_type(&self.vertical))?;
        holds(24, self.receive.is_none_or(rules::frequency))?;
        holds(26, rules::remarks(&self.remarks))?;
        holds(27, rules::status(&self.status))?;
        holds(28, self.requested.is_none_or(rules::date))?;
        holds(29, self.completed.is_none_or(rules::date))?;
        holds(30, rules::reference(&self.reference))?;
        self.check_across()
    }

    /// Rules 31 to 39, which look at more than one field.
    #[inline(always)]
    fn check_across(&self) -> Result<(), u8> {
        let mobile = self.class[0] == b'M';
        holds(31, self.transmit.is_some() || self.receive.is_some())?;
        holds(32, self.transmit.is_some() || self.power.is_none())?;
        holds(33, mobile || self.radius == Kilometres(0))?;
        holds(34, !mobile || self.azimuth.is_none())?;
        holds(35, self.azimuth.is_some() || self.horizontal == NO_DIRECTION)?;
        holds(36, self.elevation.is_some() || self.vertical == NO_DIRECTION)?;
        holds(37, !mobile || self.height.is_none())?;
        holds(38, self.receive.is_none() || self.gain.is_some())?;
        holds(39, self.class != *b"FL" || names_repeater(&self.name))
    }

    /// Puts each field into its own columns.
    fn spell(&self, record: &mut Record) {
        spell_frequency(record, 1, self.transmit);
        keep(record, 3, [self.category]);
        keep(record, 4, self.class);
        keep(record, 5, self.service);
        keep(record, 6, self.user);
        keep(record, 7, [self.occupancy]);
        spelling::optional(columns::<8>(record, 8), self.in_use, spelling::date);
        keep(record, 9, self.name);
        keep(record, 10, self.country);
        spelling::place(columns(record, 11), self.place);
        spelling::digits(columns::<5>(record, 12), self.radius.0.unsigned_abs());
        spelling::optional(columns::<4>(record, 13), self.height, |out, value| {
            spelling::height(out, value.0)
        });
        keep(record, 14, self.emission);
        spelling::optional(columns::<6>(record, 15), self.power, spell_signed_tenths);
        keep(record, 16, [self.antenna]);
        spelling::optional(columns::<5>(record, 17), self.azimuth, spell_tenths);
        spelling::optional(columns::<5>(record, 18), self.elevation, spell_signed_tenths);
        keep(record, 19, self.polarization);
        spelling::optional(columns::<4>(record, 20), self.gain, spell_tenths);
        spelling::digits(columns::<4>(record, 21), self.ground.0.unsigned_abs());
        keep(record, 22, self.horizontal);
        keep(record, 23, self.vertical);
        spell_frequency(record, 24, self.receive);
        keep(record, 26, self.remarks);
        keep(record, 27, [self.status]);
        spelling::optional(columns::<8>(record, 28), self.requested, spelling::date);
        spelling::optional(columns::<8>(record, 29), self.completed, spelling::date);
        keep(record, 30, self.reference);
    }
}

impl Default for Station {
    fn default() -> Station {
        Station::EMPTY
    }
}

/// Rule 39: the name, trailing spaces off, ends in _R.
fn names_repeater(name: &[u8; 20]) -> bool {
    let end = name.iter().rposition(|&byte| byte != b' ').map_or(0, |last| last + 1);
    name[..end].ends_with(b"_R")
}

/// A field of one byte that is kept as it stands.
#[inline(always)]
fn kept(record: &Record, code: u8, rule: impl FnOnce(&u8) -> bool) -> Result<u8, u8> {
    kept_text(record, code, |[byte]: &[u8; 1]| rule(byte)).map(|[byte]| byte)
}

/// A field that is kept as its bytes.
#[inline(always)]
fn kept_text<const N: usize>(
    record: &Record,
    code: u8,
    rule: impl FnOnce(&[u8; N]) -> bool,
) -> Result<[u8; N], u8> {
    let text = part(record, &STATION_FIELDS, code);
    holds(code, rule(text))?;
    Ok(*text)
}

/// A frequency and its unit, whose code is the next one.
#[inline(always)]
fn frequency(record: &Record, code: u8) -> Result<Option<Frequency>, u8> {
    let count = reading::optional(part::<11>(record, &STATION_FIELDS, code), |text| {
        reading::decimal(text, 5, 5).filter(|&count| count > 0)
    });
    let [letter] = *part(record, &STATION_FIELDS, code + 1);
    match count.ok_or(code)? {
        Some(count) => {
            let unit = Unit::read(letter).ok_or(code + 1)?;
            Ok(Some(Frequency { count, unit }))
        }
        None => holds(code + 1, letter == b' ').map(|()| None),
    }
}

#[inline(always)]
fn date(record: &Record, code: u8) -> Result<Option<Date>, u8> {
    reading::optional(part::<8>(record, &STATION_FIELDS, code), reading::date).ok_or(code)
}

#[inline(always)]
fn whole<const N: usize>(record: &Record, code: u8) -> Result<i64, u8> {
    reading::whole(part::<N>(record, &STATION_FIELDS, code)).ok_or(code)
}

#[inline(always)]
fn height(record: &Record) -> Result<Option<Metres>, u8> {
    let value = reading::optional(part::<4>(record, &STATION_FIELDS, 13), reading::signed_whole);
    value.map(|value| value.map(Metres)).ok_or(13)
}

/// A power, angle or gain within the range that `rule` gives.
#[inline(always)]
fn tenths<const N: usize>(
    record: &Record,
    code: u8,
    read: impl FnOnce(&[u8]) -> Option<i64>,
    rule: impl FnOnce(Tenths) -> bool,
) -> Result<Option<Tenths>, u8> {
    let value = reading::optional(part::<N>(record, &STATION_FIELDS, code), |text| {
        let value = Tenths(read(text)?);
        rule(value).then_some(value)
    });
    value.ok_or(code)
}

#[inline(always)]
fn columns<const N: usize>(record: &mut Record, code: u8) -> &mut [u8; N] {
    part_mut(record, &STATION_FIELDS, code)
}

#[inline(always)]
fn keep<const N: usize>(record: &mut Record, code: u8, text: [u8; N]) {
    *columns(record, code) = text;
}

fn spell_frequency(record: &mut Record, code: u8, value: Option<Frequency>) {
    spelling::optional(columns::<11>(record, code), value, |out, value| {
        spelling::decimal(out, 5, value.count.unsigned_abs())
    });
    keep(record, code + 1, [value.map_or(b' ', |value| value.unit.letter())]);
}

fn spell_tenths(out: &mut [u8], value: Tenths) {
    spelling::decimal(out, 1, value.0.unsigned_abs());
}

fn spell_signed_tenths(out: &mut [u8], value: Tenths) {
    spelling::signed_decimal(out, 1, value.0);
}
