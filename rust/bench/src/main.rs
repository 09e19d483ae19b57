//! How fast the desk library is, measured against the peer: one run, one table.

#![forbid(unsafe_code)]

mod samples;
mod timing;

use std::hint::black_box;

use desk::{raw, MAX_LINE_LENGTH};
use peer::{lists, sheet_length, Record, Station};
use timing::{compare, Times};

/// The sizes of file at which growth is measured.
const SIZES: [usize; 4] = [10, 50, 250, 298];

/// What the output says before its table.
const STATE: &str = "\
One thread; every buffer is lent, stays in memory and was used before, so caches are warm.
Records: 64 different stations in turn, and as many headers; respelling writes into one buffer of 219 bytes, listing
into one of 249. Lines: those of the same stations in turn, filed into one buffer of 219 bytes.
Judging: files whose 13X share their first nine bytes, or where it is said their last six, and
all differ, in their sites too, so that no search for a twin or a clash ends early; two files in turn,
one sheet. At one site: 13X that differ in their last three digits alone. Verifying: the same files, each with the sheet that it is judged to.
Replacing: one file and its own sheet, changed by every call. One row: each station in turn gets
a 13X that no other has. A day: 10,000 such saves in one call, which judges first. n rows: all stations share one 13X, or the
second half where it is said; the first of those that do leaves it and comes back to it by turns.
";

/// What is measured at one size of file.
struct Size {
    n: usize,
    judge: Times,
    verify: Times,
    operators: Times,
    one_pass: f64,
    replace_one: Times,
    replace_all: Times,
}

fn main() {
    let (repetitions, least) = (timing::REPETITIONS, timing::AT_LEAST.as_micros());
    println!("Nanoseconds for one call: the median of {repetitions} repetitions of at least {least} µs each,");
    println!("the two sides by turns.\n{STATE}");
    println!("{:45} {:>12} {:>12} {:>15}", "call", "verified", "peer", "verified : peer");
    let sizes = SIZES.map(measured);
    let [small, .., full] = &sizes;
    row("station code, own spelling", station_code(&samples::stations()));
    row("station code, loose spellings", station_code(&samples::loose_stations()));
    row("station code, one field broken", station_code(&samples::broken_stations()));
    row("second judge, stations that hold", station_second(&samples::stations()));
    row("second judge, one field broken", station_second(&samples::broken_stations()));
    row("judge, n = 298", full.judge);
    row("verify a sheet that is right, n = 298", full.verify);
    row("operators, n = 298, 100 of them", full.operators);
    row("replace that writes one row, n = 298", full.replace_one);
    row("replace that writes 298 rows, n = 298", full.replace_all);
    row("replace that writes half the rows, n = 250", replace_half(250));
    row("run a day of 10,000 saves, n = 298", day(298));
    row("header code, headers that hold", header_code());
    row("respell a station", respell());
    row("list a station (record to line)", list_out());
    row("file a line (line to record)", list_in());
    println!("growth (factors since n = 10: verified, peer)");
    for Size { n, judge, .. } in &sizes {
        grown(&format!("judge, n = {n}"), *judge, small.judge);
    }
    for Size { n, replace_one, .. } in &sizes {
        grown(&format!("replace, one row, n = {n}"), *replace_one, small.replace_one);
    }
    for Size { n, replace_all, .. } in &sizes {
        grown(&format!("replace, n rows, n = {n}"), *replace_all, small.replace_all);
    }
    println!("13X that share their last six bytes");
    for n in [50, 298] {
        row(&format!("  judge, n = {n}"), judge(n, samples::far_reference));
        row(&format!("  replace, one row, n = {n}"), replace_one(n, samples::far_reference));
    }
    println!("all stations at one site");
    for n in [50, 298] {
        row(
            &format!("  judge, at one place, n = {n}"),
            judge_files(n, [0, 300].map(|first| samples::one_place(n, first))),
        );
        row(&format!("  judge, at 64 places, n = {n}"), judge(n, samples::crowded_reference));
    }
    println!("verify : judge, verified alone; each sheet is right");
    for Size { n, judge, verify, .. } in &sizes {
        println!("  n = {n:<4} {:38.2}", verify.verified / judge.verified);
    }
    println!("operators : codes of all stations, verified alone, by turns; a hundred operators, or as many as stations");
    for Size { n, one_pass, .. } in &sizes {
        println!("  n = {n:<4} {one_pass:38.2}");
    }
    println!("judge : replace at n = 298, verified alone");
    println!("  one row written {:30.1}", full.judge.verified / full.replace_one.verified);
    println!("  298 rows written {:29.1}", full.judge.verified / full.replace_all.verified);
}

fn measured(n: usize) -> Size {
    let near = samples::near_reference;
    Size {
        n,
        judge: judge(n, near),
        verify: verify(n, near),
        operators: operators(n),
        one_pass: one_pass(n),
        replace_one: replace_one(n, near),
        replace_all: replace_all(n),
    }
}

fn row(name: &str, times: Times) {
    let Times { verified, peer } = times;
    println!("{name:45} {verified:12.1} {peer:12.1} {:15.2}", verified / peer);
}

/// A row that tells as well by how much each side has grown since the smallest file.
fn grown(name: &str, times: Times, small: Times) {
    let (verified, peer) = (times.verified / small.verified, times.peer / small.peer);
    row(&format!("  {name:27} x{verified:<6.1} x{peer:<6.1}"), times);
}

fn station_code(stations: &[Record]) -> Times {
    for station in stations {
        assert_eq!(raw::station_code(station).1, peer::station_code(station));
    }
    let mut ours = stations.iter().cycle();
    let mut theirs = stations.iter().cycle();
    compare(
        || _ = black_box(raw::station_code(black_box(ours.next().expect("a cycle")))),
        || _ = black_box(peer::station_code(black_box(theirs.next().expect("a cycle")))),
    )
}

/// The code of stations and its kind, by the second judge.
fn station_second(stations: &[Record]) -> Times {
    for station in stations {
        assert_eq!(raw::station_second(station), raw::station_kind(station));
    }
    let mut ours = stations.iter().cycle();
    let mut theirs = stations.iter().cycle();
    compare(
        || _ = black_box(raw::station_second(black_box(ours.next().expect("a cycle")))),
        || _ = black_box(peer::station_kind(black_box(theirs.next().expect("a cycle")))),
    )
}

fn header_code() -> Times {
    let headers = samples::headers();
    for header in &headers {
        assert_eq!((raw::header_code(header), peer::header_code(header)), ((0, 0), 0));
    }
    let mut ours = headers.iter().cycle();
    let mut theirs = headers.iter().cycle();
    compare(
        || _ = black_box(raw::header_code(black_box(ours.next().expect("a cycle")))),
        || _ = black_box(peer::header_code(black_box(theirs.next().expect("a cycle")))),
    )
}

fn respell() -> Times {
    let stations = samples::stations();
    let mut ours = stations.iter().cycle();
    let mut theirs = stations.iter().cycle();
    let (mut our_out, mut their_out) = ([0; 219], [0; 219]);
    compare(
        || {
            let record = black_box(ours.next().expect("a cycle"));
            assert_eq!(raw::respell_station(record, black_box(&mut our_out)), (0, 0));
        },
        || {
            let record = black_box(theirs.next().expect("a cycle"));
            let written =
                Station::read(record).and_then(|station| station.write(black_box(&mut their_out)));
            assert_eq!(written, Ok(()));
        },
    )
}

fn list_out() -> Times {
    let stations = samples::stations();
    let (mut our_line, mut their_line) = ([0; MAX_LINE_LENGTH], [0; MAX_LINE_LENGTH]);
    let peer_out = |record: &Record, line: &mut [u8]| {
        Station::read(record).and_then(|station| lists::write_line(&station, line))
    };
    for station in &stations {
        let (refusal, length, code) = raw::list_out(station, &mut our_line);
        assert_eq!((refusal, code), (0, 0));
        assert_eq!(Ok(length), peer_out(station, &mut their_line));
        assert_eq!(our_line, their_line);
    }
    let mut ours = stations.iter().cycle();
    let mut theirs = stations.iter().cycle();
    compare(
        || {
            let record = black_box(ours.next().expect("a cycle"));
            let answer = black_box(raw::list_out(record, black_box(&mut our_line)));
            assert_eq!(answer.0, 0);
        },
        || {
            let record = black_box(theirs.next().expect("a cycle"));
            let answer = black_box(peer_out(record, black_box(&mut their_line)));
            assert!(answer.is_ok());
        },
    )
}

fn list_in() -> Times {
    let lines = samples::lines();
    let (mut our_record, mut their_record) = ([0; 219], [0; 219]);
    let peer_in = |line: &[u8], record: &mut [u8]| {
        lists::read_line(line).and_then(|station| station.write(record))
    };
    for line in &lines {
        assert_eq!(raw::list_in(line, &mut our_record), (0, 0));
        assert_eq!(peer_in(line, &mut their_record), Ok(()));
        assert_eq!(our_record, their_record);
    }
    let mut ours = lines.iter().cycle();
    let mut theirs = lines.iter().cycle();
    compare(
        || {
            let line = black_box(ours.next().expect("a cycle"));
            assert_eq!(raw::list_in(line, black_box(&mut our_record)), (0, 0));
        },
        || {
            let line = black_box(theirs.next().expect("a cycle"));
            assert_eq!(peer_in(line, black_box(&mut their_record)), Ok(()));
        },
    )
}

fn judge(n: usize, reference: fn(usize) -> [u8; 15]) -> Times {
    let file_from = |first| samples::file(n, |index| reference(first + index));
    judge_files(n, [file_from(0), file_from(300)])
}

fn judge_files(n: usize, files: [Vec<u8>; 2]) -> Times {
    let (mut our_sheet, mut their_sheet) = (vec![0; sheet_length(n)], vec![0; sheet_length(n)]);
    let mut ours = files.iter().cycle();
    let mut theirs = files.iter().cycle();
    let times = compare(
        || {
            let file = black_box(ours.next().expect("a cycle"));
            assert_eq!(raw::judge(file, black_box(&mut our_sheet)), 0);
        },
        || {
            let file = black_box(theirs.next().expect("a cycle"));
            assert_eq!(peer::judge(file, black_box(&mut their_sheet)), Ok(()));
        },
    );
    assert_eq!(our_sheet, their_sheet);
    times
}

/// The sheets are those judged from the files, so that each is compared to its end.
fn verify(n: usize, reference: fn(usize) -> [u8; 15]) -> Times {
    let sides = [0, 300].map(|first| {
        let file = samples::file(n, |index| reference(first + index));
        let mut sheet = vec![0; sheet_length(n)];
        assert_eq!(raw::judge(&file, &mut sheet), 0);
        (file, sheet)
    });
    let mut ours = sides.iter().cycle();
    let mut theirs = sides.iter().cycle();
    compare(
        || {
            let (file, sheet) = black_box(ours.next().expect("a cycle"));
            assert_eq!(raw::verify(file, sheet), (0, 1, 0));
        },
        || {
            let (file, sheet) = black_box(theirs.next().expect("a cycle"));
            assert_eq!(peer::verify(file, sheet), Ok(None));
        },
    )
}

/// A day of 10,000 saves: each station in turn gets a 13X of its own, and comes back to its first.
fn day(n: usize) -> Times {
    let samples = samples::stations();
    let morning = samples::file(n, samples::near_reference);
    let save = |step: usize| {
        let other = if (step / n).is_multiple_of(2) { 300 } else { 0 };
        let reference = samples::near_reference(step % n + other);
        let record = samples::referenced(&samples[step % samples::STATIONS], reference);
        [format!("{:03}", step % n + 1).as_bytes(), &record].concat()
    };
    let trace: Vec<u8> = (0..10_000).flat_map(save).collect();
    let (mut our_file, mut our_sheet) = (morning.clone(), vec![0; sheet_length(n)]);
    let (mut their_file, mut their_sheet) = (morning.clone(), vec![0; sheet_length(n)]);
    let times = compare(
        || {
            let answer = raw::replay(black_box(&mut our_file), &mut our_sheet, black_box(&trace));
            assert_eq!(answer, (0, 10_000, 0, 0));
        },
        || {
            let answer =
                peer::replay(black_box(&mut their_file), &mut their_sheet, black_box(&trace));
            assert_eq!(answer.map(|day| day.accepted), Ok(10_000));
        },
    );
    assert_eq!((our_file, our_sheet), (their_file, their_sheet));
    times
}

/// How much longer the page of a file takes than the codes of all its stations, which it needs.
fn one_pass(n: usize) -> f64 {
    let files = operated(n);
    let found = n.min(100);
    let mut pages = files.iter().cycle();
    let mut codes = files.iter().cycle();
    let mut rows = [0; 100 * raw::OPERATOR_WIDTH];
    let Times { verified: page, peer: all_codes } = compare(
        || {
            let file = black_box(pages.next().expect("a cycle"));
            assert_eq!(raw::operators(file, black_box(&mut rows)), (0, found));
        },
        || {
            for record in black_box(codes.next().expect("a cycle")).chunks_exact(219).skip(1) {
                assert_eq!(raw::station_code(record), (0, 0));
            }
        },
    );
    page / all_codes
}

/// The page of a file whose operators differ as far as there are enough.
fn operators(n: usize) -> Times {
    let files = operated(n);
    let found = n.min(100);
    let mut ours = files.iter().cycle();
    let mut theirs = files.iter().cycle();
    let (mut our_rows, mut their_rows) =
        ([0; 100 * raw::OPERATOR_WIDTH], [peer::Operator::default(); 100]);
    compare(
        || {
            let file = black_box(ours.next().expect("a cycle"));
            assert_eq!(raw::operators(file, black_box(&mut our_rows)), (0, found));
        },
        || {
            let file = black_box(theirs.next().expect("a cycle"));
            assert_eq!(peer::operators(file, black_box(&mut their_rows)), Ok(found));
        },
    )
}

/// Two files whose stations have a hundred operators in turn.
fn operated(n: usize) -> [Vec<u8>; 2] {
    [0, 37].map(|first| {
        samples::file(n, |index| {
            let mut reference = samples::near_reference(index);
            reference[5..7].copy_from_slice(format!("{:02}", (first + index) % 100).as_bytes());
            reference
        })
    })
}

/// Each station in turn gets a 13X of its own.
fn replace_one(n: usize, reference: fn(usize) -> [u8; 15]) -> Times {
    let samples = samples::stations();
    let file = samples::file(n, reference);
    let record = |step: usize| {
        let other = if step < n { 300 } else { 0 };
        let reference = reference(step % n + other);
        (step % n + 1, samples::referenced(&samples[step % samples::STATIONS], reference))
    };
    replacements(file, (0..2 * n).map(record).collect(), 1)
}

/// The first station leaves the 13X that all others share, and comes back to it.
fn replace_all(n: usize) -> Times {
    let samples = samples::stations();
    let file = samples::file(n, |_| samples::near_reference(0));
    let record = |step: usize| {
        let reference = samples::near_reference((step + 1) % 2);
        (1, samples::referenced(&samples[step % samples::STATIONS], reference))
    };
    replacements(file, (0..samples::STATIONS).map(record).collect(), n)
}

/// The stations of the second half share one 13X; the first of them leaves it, and comes back to it.
fn replace_half(n: usize) -> Times {
    let samples = samples::stations();
    let first = n / 2;
    let file = samples::file(n, |index| {
        samples::near_reference(if index + 1 < first { index + 1 } else { 0 })
    });
    let record = |step: usize| {
        let reference = samples::near_reference((step + 1) % 2 * 300);
        (first, samples::referenced(&samples[step % samples::STATIONS], reference))
    };
    replacements(file, (0..samples::STATIONS).map(record).collect(), n + 1 - first)
}

/// Makes the same replacements over and over, each of which writes `rows` rows.
fn replacements(file: Vec<u8>, records: Vec<(usize, Record)>, rows: usize) -> Times {
    let n = file.len() / 219 - 1;
    let mut sheet = vec![0; sheet_length(n)];
    peer::judge(&file, &mut sheet).expect("the file is whole");
    let (mut our_file, mut our_sheet) = (file.clone(), sheet.clone());
    let (mut their_file, mut their_sheet) = (file, sheet);
    let mut ours = records.iter().cycle();
    let mut theirs = records.iter().cycle();
    compare(
        || {
            let (number, record) = black_box(ours.next().expect("a cycle"));
            let answer = raw::replace(black_box(&mut our_file), &mut our_sheet, *number, record);
            assert_eq!(answer, (0, rows));
        },
        || {
            let (number, record) = black_box(theirs.next().expect("a cycle"));
            let answer =
                peer::replace(black_box(&mut their_file), &mut their_sheet, *number, record);
            assert_eq!(answer, Ok(rows));
        },
    )
}
