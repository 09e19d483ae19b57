//! A list as a spreadsheet saves it, cleaned of what loses nothing: byte order mark, carriage
//! returns, quotation marks around cells, a `sep=` line, the row of titles, empty rows at the end.
//! What can be read in two ways is refused.

use crate::lists::lines;
use crate::rules;
use crate::status::{Outcome, Trouble};

/// What spreadsheets put before UTF-8 text.
pub const BYTE_ORDER_MARK: &[u8] = b"\xef\xbb\xbf";

/// A cleaned list, and what was changed.
#[derive(Debug, PartialEq, Eq)]
pub struct Cleaned {
    /// The list.
    pub text: Vec<u8>,
    /// Each change, by its line in the list as it came.
    pub changes: Vec<String>,
}

/// A line on its way: its number, its bytes without the line feed, and whether it had one.
struct Row {
    number: usize,
    bytes: Vec<u8>,
    ended: bool,
}

/// Cleans a list.
pub fn clean(text: &[u8]) -> Outcome<Cleaned> {
    let mut changes = Vec::new();
    if text.starts_with(b"\xff\xfe") || text.starts_with(b"\xfe\xff") {
        return refuse(1, "the list is UTF-16 text; save it as CSV in UTF-8");
    }
    let rest = text.strip_prefix(BYTE_ORDER_MARK).unwrap_or(text);
    if rest.len() < text.len() {
        changes.push("line 1: byte order mark taken off".to_string());
    }
    let mut rows = Vec::new();
    for (index, line) in lines(rest).enumerate() {
        rows.push(clean_row(index + 1, line, &mut changes)?);
    }
    take_first(&mut rows, &mut changes, is_separator_line, "the line sep=; taken out");
    take_first(&mut rows, &mut changes, is_titles, "the row of titles taken out");
    for row in &rows {
        if is_separator_line(&row.bytes) || is_titles(&row.bytes) {
            return refuse(row.number, "a row of titles or a sep= line stands below the first row, as where rows were sorted with it; take it out");
        }
        if row.bytes.get(..4).is_some_and(|front| front.eq_ignore_ascii_case(b"sep=")) {
            return refuse(
                row.number,
                "a separator other than the semicolon is named; save the list with semicolons",
            );
        }
    }
    take_last(&mut rows, &mut changes);
    let end = |row: &Row| if row.ended { &b"\n"[..] } else { b"" };
    let text = rows.iter().flat_map(|row| [&row.bytes, end(row)].concat()).collect();
    Ok(Cleaned { text, changes })
}

/// A row without its carriage return and the quotation marks around its cells.
fn clean_row(number: usize, line: &[u8], changes: &mut Vec<String>) -> Outcome<Row> {
    let feed = line.strip_suffix(b"\n");
    let content = feed.unwrap_or(line);
    let bare =
        if feed.is_some() { content.strip_suffix(b"\r").unwrap_or(content) } else { content };
    if bare.contains(&b'\r') {
        return refuse(number, "a carriage return stands elsewhere than before the line feed");
    }
    let (bytes, unquoted) = unquote(number, bare)?;
    if bytes.starts_with(BYTE_ORDER_MARK) {
        return refuse(
            number,
            "a byte order mark stands inside the list, as where two lists were put together",
        );
    }
    let mut done = Vec::new();
    if bare.len() < content.len() {
        done.push("carriage return taken off".to_string());
    }
    if unquoted > 0 {
        done.push(format!("quotation marks taken off {unquoted} cells"));
    }
    if !done.is_empty() {
        changes.push(format!("line {number}: {}", done.join(", ")));
    }
    Ok(Row { number, bytes, ended: feed.is_some() })
}

/// The cells of a row without the quotation marks around them, and how many had them.
fn unquote(number: usize, mut row: &[u8]) -> Outcome<(Vec<u8>, usize)> {
    if row.contains(&b'"') && is_separated_by(b',', row) {
        return refuse(number, "commas stand between the cells; save the list with semicolons");
    }
    let (mut bytes, mut unquoted) = (Vec::new(), 0);
    loop {
        let cell = if let Some(inside) = row.strip_prefix(b"\"") {
            unquoted += 1;
            let Some(end) = inside.iter().position(|&byte| byte == b'"') else {
                return refuse(number, "a quotation mark is not closed on its line");
            };
            let (cell, behind) = inside.split_at(end);
            row = &behind[1..];
            if row.starts_with(b"\"") {
                return refuse(
                    number,
                    "a quotation mark stands inside a cell, and no field admits one",
                );
            }
            if cell.contains(&b';') {
                return refuse(number, "a semicolon stands inside a cell, and no field admits one");
            }
            if !row.is_empty() && !row.starts_with(b";") {
                return refuse(
                    number,
                    "behind a quoted cell stands something other than a semicolon",
                );
            }
            cell
        } else {
            let end = row.iter().position(|&byte| byte == b';').unwrap_or(row.len());
            let (cell, behind) = row.split_at(end);
            row = behind;
            if cell.contains(&b'"') {
                return refuse(
                    number,
                    "a quotation mark stands inside a cell, and no field admits one",
                );
            }
            cell
        };
        bytes.extend_from_slice(cell);
        match row.split_first() {
            None => return Ok((bytes, unquoted)),
            Some((_, next)) => {
                bytes.push(b';');
                row = next;
            }
        }
    }
}

/// Takes out the first row where it is the one that is looked for.
fn take_first(rows: &mut Vec<Row>, changes: &mut Vec<String>, is: fn(&[u8]) -> bool, what: &str) {
    if rows.first().is_some_and(|row| is(&row.bytes)) {
        let row = rows.remove(0);
        changes.push(format!("line {}: {what}", row.number));
    }
}

/// Takes out the empty rows at the end.
fn take_last(rows: &mut Vec<Row>, changes: &mut Vec<String>) {
    let kept = rows.iter().rposition(|row| !is_empty(&row.bytes)).map_or(0, |last| last + 1);
    for row in rows.drain(kept..) {
        changes.push(format!("line {}: empty row taken out", row.number));
    }
}

/// The line by which a spreadsheet is told that semicolons stand between cells.
pub fn is_separator_line(row: &[u8]) -> bool {
    row.eq_ignore_ascii_case(b"sep=;")
}

/// The row that `list_out --titles` puts above a list.
pub fn is_titles(row: &[u8]) -> bool {
    rules::titles().strip_suffix('\n').map(str::as_bytes) == Some(row)
}

/// Whether another byte stands where semicolons have to.
pub fn is_separated_by(separator: u8, row: &[u8]) -> bool {
    let count = |wanted: u8| row.iter().filter(|&&byte| byte == wanted).count();
    count(separator) >= 20 && count(b';') < 20
}

/// A row in which no cell holds anything.
pub fn is_empty(row: &[u8]) -> bool {
    row.iter().all(|&byte| byte == b';')
}

fn refuse<T>(line: usize, why: &str) -> Outcome<T> {
    Err(Trouble::Refused(format!("line {line}: {why}")))
}
