//! The worked figures of 01, and what it calls easy to get wrong.

use peer::*;

/// Station S of 01.
fn station_s() -> Station {
    Station {
        transmit: Some(Frequency { count: 93_820_000, unit: Unit::Mega }),
        category: b'2',
        class: *b"FB",
        service: *b"CP",
        user: *b"L ",
        occupancy: b'1',
        in_use: Some(Date { day: 1, month: 3, year: 2021 }),
        name: *b"1010_MUSTER         ",
        country: *b"AUT",
        place: Place { east: 58_925, north: 173_520 },
        radius: Kilometres(0),
        height: Some(Metres(180)),
        emission: *b"5M00G7W  ",
        power: Some(Tenths(300)),
        antenna: b'E',
        azimuth: Some(Tenths(1200)),
        elevation: Some(Tenths(-20)),
        polarization: *b"V ",
        gain: Some(Tenths(170)),
        ground: Metres(30),
        horizontal: *b"000ND00",
        vertical: *b"000ND00",
        receive: Some(Frequency { count: 89_320_000, unit: Unit::Mega }),
        remarks: [b' '; 50],
        status: b'B',
        requested: None,
        completed: None,
        reference: *b"AUT2311AB01A001",
    }
}

/// Station S as a record in the one spelling.
const S: &[u8; 219] = b"00938.20000M2FBCPL 1010320211010_MUSTER         AUT016E220548N1200\
    0000001805M00G7W   030.0E120.0-02.0V 17.00030000ND00000ND0000893.20000M                                                  \
    B                AUT2311AB01A001";

/// A valid header whose count is `count`.
fn header(count: i64) -> Record {
    let header = Header {
        number: 1,
        kind: b'O',
        origin: *b"AUT",
        count,
        date: Some(Date { day: 2, month: 1, year: 2024 }),
        destination: *b"AUT",
        version: *b"1.0",
        ..Header::EMPTY
    };
    let mut record = [0; 219];
    header.write(&mut record).unwrap();
    record
}

/// S with the bytes of one field replaced.
fn s_with(code: usize, text: &[u8]) -> Record {
    with(S, &STATION_FIELDS, code, text)
}

fn with(record: &Record, fields: &[[usize; 2]], code: usize, text: &[u8]) -> Record {
    let [first, length] = fields[code - 1];
    assert_eq!(text.len(), length, "field {code} takes {length} bytes");
    let mut record = *record;
    record[first - 1..first - 1 + length].copy_from_slice(text);
    record
}

fn code_with(code: usize, text: &str) -> u8 {
    station_code(&s_with(code, text.as_bytes()))
}

fn read_with(code: usize, text: &str) -> Station {
    Station::read(&s_with(code, text.as_bytes())).unwrap()
}

fn file(header: Record, stations: &[Record]) -> Vec<u8> {
    let mut file = header.to_vec();
    file.extend(stations.as_flattened());
    file
}

fn judged(file: &[u8]) -> Vec<u8> {
    let mut sheet = vec![0; sheet_length(file.len() / 219 - 1)];
    judge(file, &mut sheet).unwrap();
    sheet
}

#[test]
fn station_s_is_read_and_written() {
    assert_eq!(station_code(S), 0);
    assert_eq!(Station::read(S), Ok(station_s()));
    let mut out = [0; 219];
    station_s().write(&mut out).unwrap();
    assert_eq!(&out, S);
}

#[test]
fn powers() {
    assert_eq!(read_with(15, "  -5.0").power, Some(Tenths(-50)));
    assert_eq!(read_with(15, "-005.0").power, Some(Tenths(-50)));
    assert_eq!(read_with(15, " -.5  ").power, Some(Tenths(-5)));
    assert_eq!(read_with(15, "  -0.0").power, Some(Tenths(0)));
    assert_eq!(read_with(15, " +.5  ").power, Some(Tenths(5)));
    for refused in ["- 5.0 ", "1234.5", "  5.  ", "    5 ", "   .  ", "5.00  ", "--5.0 ", "5.0 1 "]
    {
        assert_eq!(code_with(15, refused), 15, "{refused:?}");
    }
}

#[test]
fn a_blank_power_is_not_zero() {
    assert_eq!(read_with(15, "      ").power, None);
    assert_ne!(read_with(15, "      "), read_with(15, "   0.0"));
    let mut blank = [0; 219];
    read_with(15, "      ").write(&mut blank).unwrap();
    assert_eq!(&blank[84..90], b"      ");
}

#[test]
fn frequencies() {
    let frequency = |text| read_with(1, text).transmit.unwrap().count;
    assert_eq!(frequency("  938.2    "), 93_820_000);
    assert_eq!(frequency("99999.99999"), 9_999_999_999);
    assert_eq!(frequency("     .00001"), 1);
    for refused in ["        0.0", "+938.2     ", "1.234567   ", "123456.1   ", "938        "] {
        assert_eq!(code_with(1, refused), 1, "{refused:?}");
    }
    assert_eq!(code_with(2, " "), 2);
    assert_eq!(code_with(2, "K"), 2);
    assert_eq!(code_with(1, "           "), 2);
}

#[test]
fn places() {
    let place = |text| {
        let Place { east, north } = read_with(11, text).place;
        (east, north)
    };
    assert_eq!(place("016E22 548N12 0"), (58_925, 173_520));
    assert_eq!(place("180E000000N0000"), (648_000, 0));
    assert_eq!(code_with(11, "180E000100N0000"), 11);
    assert_eq!(place("180W000090S0000"), (-648_000, -324_000));
    assert_eq!(code_with(11, "180E000090S0001"), 11);
    assert_eq!(place("016W22 548S12 0"), (-58_925, -173_520));
    for refused in ["016E6000 8N12 0", "016E2260 8N12 0", "016E5 00 8N12 0", "   E22 548N12 0"] {
        assert_eq!(code_with(11, refused), 11, "{refused:?}");
    }
}

#[test]
fn southern_and_western_seconds_are_written_back() {
    let mut out = [0; 219];
    read_with(11, "016W22 548S12 1").write(&mut out).unwrap();
    assert_eq!(&out[51..66], b"016W220548S1201");
    read_with(11, "  0W 0 0 0S 0 0").write(&mut out).unwrap();
    assert_eq!(&out[51..66], b"000E000000N0000");
}

#[test]
fn angles() {
    assert_eq!(read_with(17, "359.9").azimuth, Some(Tenths(3599)));
    assert_eq!(code_with(17, "360.0"), 17);
    assert_eq!(code_with(17, "-00.0"), 17);
    assert_eq!(code_with(18, "-90.1"), 18);
    assert_eq!(code_with(18, "090.0"), 18);
    assert_eq!(read_with(18, "-90.0").elevation, Some(Tenths(-900)));
}

#[test]
fn dates() {
    assert_eq!(code_with(8, "01011900"), 8);
    assert_eq!(code_with(8, "01011901"), 0);
    assert_eq!(code_with(8, "        "), 0);
    assert_eq!(code_with(28, " 1012001"), 28);
    assert_eq!(code_with(29, "32012001"), 29);
    assert_eq!(code_with(29, "31132001"), 29);
}

#[test]
fn real_days() {
    for taken in ["29021904", "29022000", "29022024", "28022023", "30042024", "31129999"] {
        assert_eq!(code_with(8, taken), 0, "{taken}");
    }
    let februaries = ["29021901", "29022023", "29022100", "29021900", "30022024", "30022023"];
    let others = ["31042024", "31062024", "31092024", "31112024"];
    let outside = ["01002024", "01132024", "00012024", "32012024"];
    for refused in [&februaries[..], &others, &outside].concat() {
        for field in [8, 28, 29] {
            assert_eq!(code_with(field, refused), field as u8, "{refused}");
        }
    }
    let code = |date| Station { in_use: Some(date), ..read_with(8, "        ") }.code();
    assert_eq!(code(Date { day: 29, month: 2, year: 2024 }), 0);
    assert_eq!(code(Date { day: 29, month: 2, year: 2100 }), 8);
}

#[test]
fn heights() {
    let height = |text| read_with(13, text).height;
    assert_eq!(height("    "), None);
    assert_eq!(height("+180"), Some(Metres(180)));
    assert_eq!(height("  -5"), Some(Metres(-5)));
    assert_eq!(height("  -0"), Some(Metres(0)));
    assert_eq!(height("-999"), Some(Metres(-999)));
    for refused in [" -5 ", "- 5 ", "-  5", "180 ", "   -", "+-18"] {
        assert_eq!(code_with(13, refused), 13, "{refused:?}");
    }
    let mut out = [0; 219];
    read_with(13, "  -5").write(&mut out).unwrap();
    assert_eq!(&out[71..75], b"-005");
}

#[test]
fn text_does_not_span_from_upper_to_lower_case() {
    for byte in 0..=255 {
        let mut name = *b"1010_MUSTER         ";
        name[7] = byte;
        let text = byte.is_ascii_alphanumeric() || b"+-/*.(),= ".contains(&byte);
        let expected = if text || byte == b'_' { 0 } else { 9 };
        assert_eq!(station_code(&s_with(9, &name)), expected, "{byte}");
        let mut content = [b' '; 80];
        content[0] = b'A';
        content[79] = byte;
        let record = with(&header(0), &HEADER_FIELDS, 2, &content);
        assert_eq!(header_code(&record), if text { 0 } else { 2 }, "{byte}");
        let mut email = [b' '; 40];
        email[0] = b'a';
        email[20] = byte;
        let record = with(&header(0), &HEADER_FIELDS, 5, &email);
        let allowed = text || byte == b'@' || byte == b'_';
        assert_eq!(header_code(&record), if allowed { 0 } else { 5 }, "{byte}");
    }
}

#[test]
fn short_texts() {
    let cases: [(usize, &[&str], &[&str]); 10] = [
        (3, &["1", "8"], &["0", "9", " "]),
        (4, &["FB"], &["MB", "F ", "fb", "BF"]),
        (5, &["CO", "CP", "CR", "CV", "OT"], &["CA", "TO", "  "]),
        (6, &["L ", "HH", "XP"], &["J ", "AJ", "  ", " L", "a ", "A1"]),
        (7, &["0", "1"], &["2", " "]),
        (10, &["D  ", "CH ", "AUT"], &["A T", " D ", "   ", "  D", "aut"]),
        (16, &["E", "I"], &["O", " "]),
        (19, &["H ", "V ", "SR", "SL", "CR", "CL", "D ", "M "], &[" H", "HV", "S ", "  "]),
        (22, &["000ND00", "123AB45"], &["00 ND00", "000nd00", "000N000", "       "]),
        (27, &["F", "B"], &["P", " "]),
    ];
    for (code, taken, refused) in cases {
        for text in taken {
            assert_eq!(code_with(code, text), 0, "{code} {text:?}");
        }
        for text in refused {
            assert_eq!(usize::from(code_with(code, text)), code, "{code} {text:?}");
        }
    }
}

#[test]
fn emissions() {
    for taken in ["5M00G7W  ", "H123N0N  ", "25K0G7WWX", "16K0F3EJN", "1G00X9XA ", "999HV8D  "] {
        assert_eq!(code_with(14, taken), 0, "{taken:?}");
    }
    for refused in [
        "0M00G7W  ",
        "M500G7W  ",
        "K500G7W  ",
        "5000G7W  ",
        "5MM0G7W  ",
        "5M00E7W  ",
        "5M00G4W  ",
        "5M00G7G  ",
        "5M00G7WI ",
        "5M00G7W X",
        "5M00G7WAA",
        "5m00G7W  ",
        "5M 0G7W  ",
    ] {
        assert_eq!(code_with(14, refused), 14, "{refused:?}");
    }
}

#[test]
fn remarks() {
    let code = |generation: &str, cell: &str, class: &str, text: &str| {
        let remarks = format!("{generation:1}{cell:>9}{class:3}{text:37}");
        code_with(26, &remarks)
    };
    assert_eq!(code("", "", "", ""), 0);
    assert_eq!(code("4", "1E1850B", " 2O", "Stadtplatz 1357911"), 0);
    assert_eq!(code("5", "C712E6E18", "", ""), 0);
    assert_eq!(code("2", "", " 0I", ""), 0);
    assert_eq!(code("3", "0", "10O", " a,(=)"), 0);
    assert_eq!(code("4", "1E1850B", " 20", "Stadtplatz 1357911"), 26);
    for generation in ["1", "6", " ", "O"] {
        assert_eq!(code(generation, "C712E6E18", "", ""), 26, "{generation:?}");
    }
    for cell in ["C712e6E18", "C712 6E18", "C712E6E1 ", "G"] {
        assert_eq!(code("2", cell, "", ""), 26, "{cell:?}");
    }
    for class in ["  I", " 0 ", "10 ", "00I", "20I", "0 I", " 1O", "10o"] {
        assert_eq!(code("2", "", class, ""), 26, "{class:?}");
    }
    assert_eq!(code("2", "", "", "a_b"), 26);
}

#[test]
fn references() {
    for taken in ["AUT2311AB01A001", "AUT0000-----999"] {
        assert_eq!(code_with(30, taken), 0);
    }
    for refused in ["AUT2311AB 1A001", "DEU2311AB01A001", "AUT2311ab01A001", "AUT2311AB01A0 1"] {
        assert_eq!(code_with(30, refused), 30, "{refused:?}");
    }
}

#[test]
fn rules_across_fields() {
    let code = |edit: &dyn Fn(&mut Station)| {
        let mut station = station_s();
        edit(&mut station);
        let code = station.code();
        assert_eq!(station.write(&mut [0; 219]).err().map_or(0, Refusal::code), code);
        code
    };
    assert_eq!(code(&|s| (s.transmit, s.receive) = (None, None)), 31);
    assert_eq!(code(&|s| s.transmit = None), 32);
    assert_eq!(code(&|s| (s.transmit, s.power) = (None, None)), 0);
    assert_eq!(code(&|s| s.radius = Kilometres(1)), 33);
    assert_eq!(code(&|s| s.class = *b"ML"), 34);
    assert_eq!(code(&|s| (s.azimuth, s.horizontal) = (None, *b"001ND00")), 35);
    assert_eq!(code(&|s| (s.elevation, s.vertical) = (None, *b"000ND01")), 36);
    assert_eq!(code(&|s| (s.class, s.azimuth) = (*b"ML", None)), 37);
    assert_eq!(code(&|s| (s.class, s.azimuth, s.height) = (*b"ML", None, None)), 0);
    assert_eq!(code(&|s| s.gain = None), 38);
    assert_eq!(code(&|s| (s.gain, s.receive) = (None, None)), 0);
    assert_eq!(code(&|s| s.class = *b"FL"), 39);
    assert_eq!(code(&|s| (s.class, s.name) = (*b"FL", *b"1010_R              ")), 0);
    assert_eq!(code(&|s| (s.class, s.name) = (*b"FL", *b"1010_R x            ")), 39);
    assert_eq!(code(&|s| (s.class, s.name) = (*b"FL", *b"9999_318166502860_R ")), 0);
}

#[test]
fn typed_values_that_columns_cannot_spell() {
    let unit = Unit::Giga;
    let code = |edit: &dyn Fn(&mut Station)| {
        let mut station = station_s();
        edit(&mut station);
        station.code()
    };
    assert_eq!(code(&|s| s.transmit = Some(Frequency { count: 0, unit })), 1);
    assert_eq!(code(&|s| s.transmit = Some(Frequency { count: 10_000_000_000, unit })), 1);
    assert_eq!(code(&|s| s.in_use = Some(Date { day: 0, month: 1, year: 2000 })), 8);
    assert_eq!(code(&|s| s.place.east = -648_001), 11);
    assert_eq!(code(&|s| s.place.north = 324_001), 11);
    assert_eq!(code(&|s| s.radius = Kilometres(100_000)), 12);
    assert_eq!(code(&|s| s.height = Some(Metres(-1000))), 13);
    assert_eq!(code(&|s| s.height = Some(Metres(10_000))), 13);
    assert_eq!(code(&|s| s.power = Some(Tenths(i64::MIN))), 15);
    assert_eq!(code(&|s| s.gain = Some(Tenths(-1))), 20);
    assert_eq!(code(&|s| s.ground = Metres(10_000)), 21);
    assert_eq!(code(&|s| s.receive = Some(Frequency { count: -1, unit })), 24);
}

#[test]
fn setting_changes_one_value() {
    let s = station_s();
    assert_eq!(s.set_power(None), Ok(Station { power: None, ..s }));
    assert_eq!(s.set_power(Some(Tenths(9999))), Ok(Station { power: Some(Tenths(9999)), ..s }));
    assert_eq!(s.set_power(Some(Tenths(10_000))), Err(Refusal::RuleBroken(15)));
    assert_eq!(s.set_azimuth(Some(Tenths(3600))), Err(Refusal::RuleBroken(17)));
    assert_eq!(s.set_azimuth(None), Ok(Station { azimuth: None, ..s }));
    assert_eq!(s.set_elevation(Some(Tenths(-901))), Err(Refusal::RuleBroken(18)));
    assert_eq!(s.set_height(Some(Metres(-999))), Ok(Station { height: Some(Metres(-999)), ..s }));
    assert_eq!(s.set_ground(Metres(-1)), Err(Refusal::RuleBroken(21)));
    let broken = Station { ground: Metres(-1), ..s };
    assert_eq!(broken.set_power(None), Err(Refusal::RuleBroken(21)));
    assert_eq!(broken.set_ground(Metres(30)), Ok(s));
}

#[test]
fn reading_and_writing_refuse_in_order() {
    assert_eq!(Station::read(&S[1..]), Err(Refusal::RecordLength));
    assert_eq!(Header::read(&[]), Err(Refusal::RecordLength));
    let mut short = [7; 218];
    assert_eq!(Station::EMPTY.write(&mut short), Err(Refusal::BufferLength));
    let mut out = [7; 219];
    assert_eq!(Station::EMPTY.write(&mut out), Err(Refusal::RuleBroken(6)));
    assert_eq!(Header::EMPTY.write(&mut out), Err(Refusal::RuleBroken(3)));
    assert_eq!((short, out), ([7; 218], [7; 219]));
}

#[test]
fn refused_readings_stand_for_the_empty_record() {
    let empty = Station::read(&[]).unwrap_or_default();
    assert_eq!((empty.category, &empty.class, &empty.service), (b'1', b"FB", b"CO"));
    assert_eq!((empty.occupancy, empty.antenna, empty.status), (b'0', b'E', b'F'));
    assert_eq!((&empty.polarization, empty.power, empty.ground), (b"H ", None, Metres(0)));
    assert_eq!(Header::read(&[b' '; 219]).unwrap_or_default(), Header::EMPTY);
}

#[test]
fn the_fax_is_judged_and_dropped() {
    let blank = header(2);
    let mut filled = blank;
    filled[146..166].copy_from_slice(b"+43 1 5550199       ");
    assert_eq!(Header::read(&filled), Header::read(&blank));
    let mut out = [7; 219];
    assert_eq!(Header::read(&filled).and_then(|header| header.write(&mut out)), Ok(()));
    assert_eq!(out, blank);
    filled[146] = b'@';
    assert_eq!(Header::read(&filled), Err(Refusal::RuleBroken(7)));
}

#[test]
fn header_codes() {
    let header = header(2);
    let code = |field, text: &[u8]| header_code(&with(&header, &HEADER_FIELDS, field, text));
    assert_eq!(header_code(&header), 0);
    assert_eq!(code(1, b"  "), 1);
    assert_eq!(code(1, b"1 "), 1);
    assert_eq!(code(1, b" 1"), 0);
    assert_eq!(code(3, b"0"), 3);
    assert_eq!(code(4, b"DEU"), 4);
    assert_eq!(code(6, b" 1                  "), 6);
    assert_eq!(code(7, b"a@b                 "), 7);
    assert_eq!(code(8, b"a_b                 "), 8);
    assert_eq!(code(9, b"      "), 9);
    assert_eq!(code(9, b"     9"), 0);
    assert_eq!(code(10, b"        "), 10);
    assert_eq!(code(11, b"aut"), 11);
    assert_eq!(code(12, b"12    "), 12);
    assert_eq!(code(12, b"    12"), 0);
    assert_eq!(code(13, b"1,0"), 13);
    assert_eq!(code(14, b"      x"), 14);
}

#[test]
fn two_equal_stations() {
    let mut file = file(header(2), &[*S, *S]);
    let mut sheet = judged(&file);
    assert_eq!(sheet, [0, 0, 0, 0, 0, 0, 0, 1, 0, 0, 0, 0x14, 5, 0, 0, 2, 0, 1, 0x32, 0x43]);
    let renamed = s_with(30, b"AUT2311AB01A002");
    assert_eq!(replace(&mut file, &mut sheet, 1, &renamed), Ok(2));
    assert_eq!(sheet, [0, 0, 0, 0, 0, 0, 0, 0, 0, 0, 0, 0x14, 5, 0, 0, 0, 0, 0, 0x32, 0x43]);
    assert_eq!(sheet, judged(&file));
}

#[test]
fn a_header_alone() {
    assert_eq!(judged(&header(0)), [0, 10, 5, 0, 0, 0, 0, 0, b'2', b'C']);
    assert_eq!(judged(&header(1)), [0, 10, 5, 15, 0, 0, 0, 0, b'2', b'C']);
}

#[test]
fn a_full_file() {
    let full = file(header(298), &[*S; 298]);
    let sheet = judged(&full);
    assert_eq!(&sheet[1485..], [0, 0, 1, 0, 0, 0x05, 0xdc, 5, 0, 0, 2, 1, 41, b'2', b'C']);
    let long = [full, S.to_vec()].concat();
    assert_eq!(judge(&long, &mut [0; 1505]), Err(Refusal::FileTooLong));
}

#[test]
fn numbers_of_two_bytes() {
    let mut stations: Vec<Record> =
        (1..=298).map(|k| s_with(30, format!("AUT2311A{k:03}B001").as_bytes())).collect();
    stations[297] = stations[256];
    let sheet = judged(&file(header(298), &stations));
    assert_eq!(&sheet[1485..], [0, 1, 1, 0, 0, 0x05, 0xdc, 5, 0, 1, 42, 0, 1, b'2', b'C']);
    let mut moved = s_with(30, b"AUT2311A257B009");
    moved[107..111].copy_from_slice(b"  31");
    stations[297] = moved;
    let sheet = judged(&file(header(298), &stations));
    assert_eq!(&sheet[1485..], [0, 0, 0, 1, 1, 0x05, 0xdc, 5, 0, 1, 42, 0, 1, b'2', b'C']);
}

/// The clash in each row of the sheet of these stations.
fn clashes(stations: &[Record]) -> Vec<u16> {
    let sheet = judged(&file(header(stations.len() as i64), stations));
    let rows = sheet[..5 * stations.len()].chunks(5);
    rows.map(|row| u16::from_be_bytes([row[3], row[4]])).collect()
}

/// Station S under another number of the same site, with other texts for 4C and 9Y.
fn at_site(number: usize, place: &[u8; 15], ground: &[u8; 4]) -> Record {
    let mut record = s_with(30, format!("AUT2311AB01A{number:03}").as_bytes());
    record[51..66].copy_from_slice(place);
    record[107..111].copy_from_slice(ground);
    record
}

#[test]
fn one_site_one_place() {
    let here = b"016E220548N1200";
    let there = b"016E220648N1200";
    let (a, b) = (at_site(1, here, b"  30"), at_site(2, there, b"  30"));
    assert_eq!(clashes(&[a, at_site(2, here, b"0030")]), [0, 0]);
    assert_eq!(clashes(&[a, at_site(2, b" 16E22 548N12 0", b"  30")]), [0, 0]);
    assert_eq!(clashes(&[a, at_site(2, here, b"  31")]), [0, 1]);
    assert_eq!(clashes(&[a, b]), [0, 1]);
    // The third stands where the first does, so that it clashes with the second.
    assert_eq!(clashes(&[a, b, at_site(3, here, b"  30")]), [0, 1, 2]);
    assert_eq!(clashes(&[a, b, at_site(3, there, b"  31")]), [0, 1, 1]);
    // The letter of zero seconds says nothing; 180 degrees are two places.
    let zero = |letter| {
        at_site(
            1,
            &[
                b'0', b'0', b'0', letter, b'0', b'0', b'0', b'0', b'0', b'0', b'N', b'0', b'0',
                b'0', b'0',
            ],
            b"  30",
        )
    };
    assert_eq!(clashes(&[zero(b'E'), zero(b'W')]), [0, 0]);
    assert_eq!(
        clashes(&[
            at_site(1, b"180E000000N0000", b"  30"),
            at_site(2, b"180W000000N0000", b"  30")
        ]),
        [0, 1]
    );
    // Another operator, or another letter of the site, is another site; the place after it is not looked at.
    let mut other = b;
    other[209] = b'2';
    assert_eq!(clashes(&[a, other]), [0, 0]);
    let mut other = b;
    other[214] = b'2';
    assert_eq!(clashes(&[a, other]), [0, 0]);
    let mut other = b;
    other[215] = b'Z';
    assert_eq!(clashes(&[a, other]), [0, 1]);
}

#[test]
fn stations_that_break_a_rule_do_not_clash() {
    let (a, b) = (*S, at_site(2, b"016E220648N1200", b"  30"));
    let mut broken = a;
    broken[12] = b'9';
    assert_eq!(clashes(&[broken, b]), [0, 0]);
    assert_eq!(clashes(&[b, broken]), [0, 0]);
    assert_eq!(clashes(&[broken, a, b]), [0, 0, 2]);
    // Mended, the first one clashes with the later: two rows are written.
    let mut list = file(header(3), &[broken, b, s_with(30, b"AUT2311AB02A003")]);
    let mut sheet = judged(&list);
    assert_eq!(sheet[..15], [3, 0, 0, 0, 0, 0, 0, 0, 0, 0, 0, 0, 0, 0, 0]);
    assert_eq!(replace(&mut list, &mut sheet, 1, &a), Ok(2));
    assert_eq!(sheet[..15], [0, 0, 0, 0, 0, 0, 0, 0, 0, 1, 0, 0, 0, 0, 0]);
    assert_eq!(sheet, judged(&list));
}

#[test]
fn a_full_file_at_one_site() {
    let places: Vec<Record> = (1..=298)
        .map(|k| at_site(k, b"016E220548N1200", format!("{k:4}").as_bytes().try_into().unwrap()))
        .collect();
    let found = clashes(&places);
    assert_eq!(found[0], 0);
    assert!(found[1..].iter().all(|clash| *clash == 1));
}

#[test]
fn verifying() {
    let two = file(header(2), &[*S, *S]);
    let mut sheet = judged(&two);
    assert_eq!(verify(&two, &sheet), Ok(None));
    sheet[19] = b'A';
    assert_eq!(verify(&two, &sheet), Ok(Some(19)));
    sheet[0] = 1;
    assert_eq!(verify(&two, &sheet), Ok(Some(0)));
    assert_eq!(verify(&two, &sheet[..19]), Err(Refusal::SheetLength));
    assert_eq!(verify(&two[1..], &sheet), Err(Refusal::FileNotRecords));
    assert_eq!(verify(&[b' '; MAX_FILE_LENGTH + 1], &[]), Err(Refusal::FileTooLong));
}

#[test]
fn replacing_the_header_writes_no_row() {
    let mut file = file(header(2), &[*S, *S]);
    let mut sheet = judged(&file);
    assert_eq!(replace(&mut file, &mut sheet, 0, &header(3)), Ok(0));
    assert_eq!(sheet, [0, 0, 0, 0, 0, 0, 0, 1, 0, 0, 0, 0x14, 5, 15, 0, 2, 0, 1, 0x32, 0x43]);
}

#[test]
fn rows_with_the_old_or_new_site_are_written_even_where_they_are_equal() {
    // Numbers 1, 2 and 4 share a site, number 3 has one of its own.
    let stations = [*S, s_with(30, b"AUT2311AB01A002"), s_with(30, b"AUT2311AB02A003"), *S];
    let mut file = file(header(4), &stations);
    let mut sheet = judged(&file);
    sheet[..20].fill(9);
    assert_eq!(replace(&mut file, &mut sheet, 2, S), Ok(2));
    assert_eq!(&sheet[..10], [9, 9, 9, 9, 9, 0, 0, 1, 0, 0]);
    assert_eq!(&sheet[10..20], [9, 9, 9, 9, 9, 0, 0, 1, 0, 0]);
    assert_eq!(&sheet[24..28], [0, 1, 0, 4]);
}

#[test]
fn broken_records_are_put_in() {
    let mut file = file(header(1), &[*S]);
    let mut sheet = judged(&file);
    assert_eq!(replace(&mut file, &mut sheet, 1, &[b' '; 219]), Ok(1));
    assert_eq!(sheet, [3, 0, 0, 0, 0, 0, 15, 5, 0, 0, 1, 0, 1, b'2', b'C']);
}

#[test]
fn replacing_refuses_in_order() {
    let good = file(header(1), &[*S]);
    let sheet = judged(&good);
    let refused = |file: &[u8], sheet: &[u8], number, record: &[u8]| {
        let (mut lent_file, mut lent_sheet) = (file.to_vec(), sheet.to_vec());
        let answer = replace(&mut lent_file, &mut lent_sheet, number, record);
        assert_eq!((lent_file.as_slice(), lent_sheet.as_slice()), (file, sheet));
        answer.unwrap_err().number()
    };
    assert_eq!(refused(&[0; 65_482], &[], 9, &[]), 1);
    assert_eq!(refused(&good[1..], &[], 9, &[]), 2);
    assert_eq!(refused(&[], &[], 9, &[]), 2);
    assert_eq!(refused(&good, &sheet[1..], 9, &[]), 3);
    for byte in [5, 6, 7, 13, 14] {
        let mut damaged = sheet.clone();
        damaged[byte] ^= 1;
        assert_eq!(refused(&good, &damaged, 9, &[]), 4);
    }
    assert_eq!(refused(&good, &sheet, 2, &[]), 5);
    assert_eq!(refused(&good, &sheet, 1, &S[1..]), 6);
}

#[test]
fn showing() {
    let file = file(header(1), &[*S]);
    assert_eq!(show(&file, 0, 13), Ok(&b"1.0"[..]));
    assert_eq!(show(&file, 1, 2), Ok(&b"M"[..]));
    assert_eq!(show(&file, 1, 30), Ok(&b"AUT2311AB01A001"[..]));
    assert_eq!(locate(&file, 1, 30), Ok(219 + 204..438));
    assert_eq!(show(&file, 2, 99), Err(Refusal::NoSuchRecord));
    assert_eq!(show(&file, 0, 15), Err(Refusal::NoSuchField));
    assert_eq!(show(&file, 1, 0), Err(Refusal::NoSuchField));
    assert_eq!(show(&file, 1, 31), Err(Refusal::NoSuchField));
    assert_eq!(show(&file[1..], 1, 1), Err(Refusal::FileNotRecords));
}

/// Station S as a semicolon line; 13Z stays 50 spaces.
const LINE: &[u8] = b"00938.20000;M;2;FB;CP;L;1;01032021;1010_MUSTER;AUT;016E220548N1200;\
    00000;0180;5M00G7W;030.0;E;120.0;-02.0;V;17.0;0030;000ND00;000ND00;00893.20000;M;                                                  \
    ;B;;;AUT2311AB01A001\n";

#[test]
fn lines_go_out_and_come_back() {
    let mut line = [b'#'; 300];
    assert_eq!(lists::write_line(&station_s(), &mut line), Ok(LINE.len()));
    assert_eq!(&line[..LINE.len()], LINE);
    assert!(line[LINE.len()..].iter().all(|&byte| byte == b'#'));
    assert_eq!(lists::read_line(LINE), Ok(station_s()));
    let short = &mut [b'#'; 300][..LINE.len() - 1];
    assert_eq!(lists::write_line(&station_s(), short), Err(Refusal::BufferTooShort));
    assert_eq!(lists::write_line(&Station::EMPTY, &mut []), Err(Refusal::RuleBroken(6)));
}

#[test]
fn lines_are_refused_in_order() {
    let edited = |from: &str, to: &str| {
        let line = std::str::from_utf8(LINE).unwrap().replacen(from, to, 1);
        lists::read_line(line.as_bytes())
    };
    assert_eq!(edited("\n", ""), Err(Refusal::NotALine));
    assert_eq!(edited("\n", "\n\n"), Err(Refusal::NotALine));
    assert_eq!(edited(";FB", "FB"), Err(Refusal::NotALine));
    assert_eq!(edited(";FB", ";;FB"), Err(Refusal::NotALine));
    assert_eq!(edited(";FB;", ";FB ;"), Err(Refusal::FieldTooLong));
    assert_eq!(edited(";FB;", ";F;"), Err(Refusal::RuleBroken(4)));
    assert_eq!(edited("00938.20000;", "938.2;"), Ok(station_s()));
    assert_eq!(edited(";0180;", ";180;"), Ok(station_s()));
    assert_eq!(edited(&" ".repeat(50), ""), Ok(station_s()));
    assert_eq!(lists::read_line(b""), Err(Refusal::NotALine));
}
