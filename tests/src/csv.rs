//! Another reader of order files, written from RFC 4180 and the request alone: the table of a text
//! or its first fault, the parts by row and column, the content of a part. Each twice:
//!
//! - [`read_by_definition`], [`content_by_definition`]: word by word as they are defined, from all
//!   that the [`grammar`] allows, for short texts;
//! - [`read`], [`content`]: in one pass, for texts of any length.

use crate::grammar;
use std::ops::Range;

/// The most fields of a row.
pub const MOST_FIELDS: usize = 32;

/// The places of the fields, row by row.
pub type Table = Vec<Vec<Range<usize>>>;

/// Why a text is refused, and where. Of two faults the lesser is the one at the earlier place, and
/// at one place the one of the lower number.
#[derive(Clone, Copy, Debug, PartialEq, Eq, PartialOrd, Ord)]
pub struct Fault {
    pub place: usize,
    pub number: u64,
}

/// A line of no bytes, which is no row.
fn is_blank(line: &[Range<usize>]) -> bool {
    matches!(line, [field] if field.is_empty())
}

/// The least of all faults that the text has by their definitions, or else its table.
///
/// A place is looked at with what stands before it: a row that ends there, or its 32nd separating
/// comma, is there exactly where the text before the place has a division with that last line.
pub fn read_by_definition(text: &[u8]) -> Result<Table, Fault> {
    let begins = grammar::begins(text);
    let divisions = grammar::divisions(text);
    let mut faults = Vec::new();
    for place in 0..=text.len() {
        let byte = text.get(place).copied();
        let no_longer_begins = match byte {
            Some(_) => begins[place] && !begins[place + 1],
            None => begins[place] && divisions[place].is_empty(),
        };
        if no_longer_begins {
            faults.push(Fault { place, number: 11 });
        }
        assert!(divisions[place].len() <= 1, "two divisions of {text:?}");
        for division in &divisions[place] {
            let first = division.iter().find(|line| !is_blank(line));
            let last = division.last().expect("a text has a line");
            let differs = !is_blank(last) && first.map(Vec::len) != Some(last.len());
            if differs && matches!(byte, None | Some(b'\r')) {
                faults.push(Fault { place, number: 12 });
            }
            if last.len() == MOST_FIELDS && byte == Some(b',') {
                faults.push(Fault { place, number: 13 });
            }
        }
    }
    if let Some(&least) = faults.iter().min() {
        return Err(least);
    }
    let division = divisions[text.len()].first();
    let lines = division
        .expect("a text without fault has a division")
        .iter();
    Ok(lines.filter(|line| !is_blank(line)).cloned().collect())
}

/// The table of a text, or its first fault.
pub fn read(text: &[u8]) -> Result<Table, Fault> {
    let refused = |place, number| Err(Fault { place, number });
    let mut table: Table = Vec::new();
    let mut at = 0;
    loop {
        let line = at;
        let mut row = Vec::new();
        loop {
            let end = field_end(text, at)?;
            row.push(at..end);
            at = end;
            if text.get(at) != Some(&b',') {
                break;
            }
            if row.len() == MOST_FIELDS {
                return refused(at, 13);
            }
            at += 1;
        }
        // Behind the last field of a line stands its end, and else nothing that may.
        if !matches!(text.get(at), None | Some(b'\r')) {
            return refused(at, 11);
        }
        if at > line {
            if matches!(table.first(), Some(first) if first.len() != row.len()) {
                return refused(at, 12);
            }
            table.push(row);
        }
        if at == text.len() {
            return Ok(table);
        }
        if text.get(at + 1) != Some(&b'\n') {
            return refused(at + 1, 11);
        }
        at += 2;
    }
}

/// Whether a byte is text that needs no quotes.
fn is_text(byte: u8) -> bool {
    byte >= b' ' && byte != b'"' && byte != b',' && byte != 127
}

/// The place behind the field that begins here.
fn field_end(text: &[u8], start: usize) -> Result<usize, Fault> {
    let mut at = start;
    if text.get(at) != Some(&b'"') {
        while at < text.len() && is_text(text[at]) {
            at += 1;
        }
        return Ok(at);
    }
    at += 1;
    while at < text.len() {
        match text[at] {
            b'"' if text.get(at + 1) == Some(&b'"') => at += 2,
            b'"' => return Ok(at + 1),
            b',' | b'\r' | b'\n' => at += 1,
            byte if is_text(byte) => at += 1,
            _ => break,
        }
    }
    let place = at;
    Err(Fault { place, number: 11 })
}

/// The part of a row and a column, counted from 0: empty, at place 0, where there is none or the
/// text is refused.
pub fn part(table: &Result<Table, Fault>, row: usize, column: usize) -> Range<usize> {
    let row = table.as_ref().ok().and_then(|table| table.get(row));
    row.and_then(|row| row.get(column)).cloned().unwrap_or(0..0)
}

/// The content of a part by the grammar, or none where it is no field.
pub fn content_by_definition(part: &[u8]) -> Option<Vec<u8>> {
    let mut contents = grammar::contents(part);
    assert!(contents.len() <= 1, "two contents of {part:?}");
    contents.pop()
}

/// The content of a part, or none where it is no field.
pub fn content(part: &[u8]) -> Option<Vec<u8>> {
    match field_end(part, 0) {
        Ok(end) if end == part.len() => {}
        _ => return None,
    }
    if !part.starts_with(b"\"") {
        return Some(part.to_vec());
    }
    let mut content = Vec::new();
    let mut inside = part[1..part.len() - 1].iter();
    while let Some(&byte) = inside.next() {
        content.push(byte);
        if byte == b'"' {
            inside.next();
        }
    }
    Some(content)
}
