//! Random exports of a belt log from a seed.
//!
//! Accepted exports are made as a [`Log`] and then written out by [`export_of`]; damaged ones begin
//! as accepted ones. A fault is a change of text and may meet another one, so what it leads to is
//! for the model to say.

// All faults of a row have one type, also those that change no count of bytes.
#![allow(clippy::ptr_arg)]

use super::damage::{change_byte, BAD_NUMBERS};
use super::{length_near, message, Rng};
use crate::log::{lines, read, LENT};
use crate::model::{MOST_KEYS, MOST_MESSAGES};

/// What an accepted export says.
#[derive(Debug, Clone, PartialEq, Eq)]
pub struct Log {
    /// The first row, rising.
    pub keys: Vec<usize>,
    /// The further rows, one place per key of the first; `None` for an empty field.
    pub messages: Vec<Vec<Option<i32>>>,
}

/// Writes a log out as an export.
pub fn export_of(log: &Log) -> Vec<u8> {
    let keys: Vec<String> = log.keys.iter().map(usize::to_string).collect();
    let mut export = keys.join(",") + "\r\n";
    for message in &log.messages {
        let field = |entry: &Option<i32>| entry.map_or(String::new(), |value| value.to_string());
        let fields: Vec<String> = message.iter().map(field).collect();
        export += &(fields.join(",") + "\r\n");
    }
    export.into_bytes()
}

/// A random export that the model accepts.
pub fn accepted(rng: &mut Rng) -> Vec<u8> {
    export_of(&accepted_log(rng))
}

/// A random log: of a few rows or many, often of none or as many as there may be.
pub fn accepted_log(rng: &mut Rng) -> Log {
    let messages = match rng.below(8) {
        0 => 0,
        1..=4 => rng.between(1, 5),
        5 | 6 => rng.between(6, MOST_MESSAGES),
        _ => MOST_MESSAGES,
    };
    if rng.chance(1, 32) {
        return fullest(messages);
    }
    log_of(rng, messages)
}

/// Every key, and every number as long as it can be.
fn fullest(messages: usize) -> Log {
    Log {
        keys: (0..MOST_KEYS).collect(),
        messages: vec![vec![Some(i32::MIN); MOST_KEYS]; messages],
    }
}

fn log_of(rng: &mut Rng, messages: usize) -> Log {
    let keys = keys(rng);
    let messages = (0..messages).map(|_| message(rng, keys.len())).collect();
    Log { keys, messages }
}

/// Some keys of the eight, rising: few, many or all.
fn keys(rng: &mut Rng) -> Vec<usize> {
    let mut keys: Vec<usize> = (0..MOST_KEYS).collect();
    for _ in rng.between(1, MOST_KEYS)..MOST_KEYS {
        keys.remove(rng.below(keys.len()));
    }
    keys
}

/// A length for the output memory, often near that of the lines.
pub fn memory_length(rng: &mut Rng, export: &[u8]) -> usize {
    let length = match read(export) {
        Ok(messages) => lines(&messages).len(),
        Err(_) => rng.below(100),
    };
    length_near(rng, length, LENT)
}

// Faults.

type Row = Vec<u8>;
/// A change of one row, which does not hold its end.
type RowFault = fn(&mut Rng, &mut Row);
/// A change of the bytes of an export.
type ByteFault = fn(&mut Rng, &mut Vec<u8>);

/// Meant for 41.
const SHAPES: &[RowFault] = &[
    stray_byte,
    stray_byte,
    quoted_field,
    more_fields,
    fewer_fields,
    no_fields,
];
/// Meant for 42.
const NUMBERS: &[RowFault] = &[
    bad_number,
    bad_number,
    bad_byte,
    same_number,
    swapped_numbers,
];
/// Meant for 41 too, and for what a program that saves exports may do to one.
const BYTES: &[ByteFault] = &[
    cut_off,
    cut_off,
    other_ends,
    half_an_end,
    more_behind,
    byte_order_mark,
    quoted_all,
    nothing,
    change_byte,
    change_byte,
];

/// An accepted export with one fault or some, so that every refusal occurs often: two in one row,
/// in two rows, or anywhere. A few of the changes do no harm.
pub fn damaged(rng: &mut Rng) -> Vec<u8> {
    let messages = rng.between(0, 4);
    let mut rows = rows_of(&export_of(&log_of(rng, messages)));
    let (place, other) = (rng.below(rows.len()), rng.below(rows.len()));
    let kind = rng.below(8);
    match kind {
        0 | 1 => spoil(rng, &mut rows[place], SHAPES),
        2 | 3 => spoil(rng, &mut rows[place], NUMBERS),
        4 => {
            spoil(rng, &mut rows[place], NUMBERS);
            spoil(rng, &mut rows[place], SHAPES);
        }
        5 => {
            spoil(rng, &mut rows[place], NUMBERS);
            spoil(rng, &mut rows[other], SHAPES);
        }
        6 => too_many_rows(rng, &mut rows),
        _ => {}
    }
    let mut export = joined(&rows);
    if kind == 7 || rng.chance(1, 4) {
        rng.pick(BYTES)(rng, &mut export);
    }
    export
}

fn spoil(rng: &mut Rng, row: &mut Row, faults: &[RowFault]) {
    rng.pick(faults)(rng, row);
}

/// The rows of an export; of one with bare line feeds, what these divide.
fn rows_of(export: &[u8]) -> Vec<Row> {
    let without_end = |row: &[u8]| row.strip_suffix(b"\r").unwrap_or(row).to_vec();
    let mut rows: Vec<Row> = export
        .split(|&byte| byte == b'\n')
        .map(without_end)
        .collect();
    if rows.last().is_some_and(Row::is_empty) {
        rows.pop();
    }
    rows
}

fn joined(rows: &[Row]) -> Vec<u8> {
    let ended = |row: &Row| [row.as_slice(), b"\r\n"].concat();
    rows.iter().flat_map(ended).collect()
}

/// Changes the fields of a row.
fn with_fields(row: &mut Row, change: impl FnOnce(&mut Vec<Vec<u8>>)) {
    let mut fields: Vec<Vec<u8>> = row.split(|&byte| byte == b',').map(Vec::from).collect();
    change(&mut fields);
    *row = fields.join(&b',');
}

/// 33 rows, 34 or more, by rows of empty fields; one of the last is at times no good row.
fn too_many_rows(rng: &mut Rng, rows: &mut Vec<Row>) {
    let commas = rows[0].iter().filter(|&&byte| byte == b',').count();
    let count = rng.pick(&[33, 34, 34, 34, 35, 60]);
    rows.resize(count, vec![b','; commas]);
    let place = rng.between(31, count - 1);
    match rng.below(4) {
        0 => spoil(rng, &mut rows[place], SHAPES),
        1 => spoil(rng, &mut rows[place], NUMBERS),
        _ => {}
    }
}

/// A bare carriage return or line feed, both in the wrong order, or quote marks, anywhere.
fn stray_byte(rng: &mut Rng, row: &mut Row) {
    let stray: &[u8] = rng.pick(&[b"\r".as_slice(), b"\n", b"\n\r", b"\"", b"\"\""]);
    let anywhere = rng.below(row.len() + 1);
    let place = rng.pick(&[0, row.len(), anywhere]);
    row.splice(place..place, stray.iter().copied());
}

fn quoted_field(rng: &mut Rng, row: &mut Row) {
    with_fields(row, |fields| {
        let place = rng.below(fields.len());
        fields[place] = [b"\"", fields[place].as_slice(), b"\""].concat();
    });
}

fn more_fields(rng: &mut Rng, row: &mut Row) {
    let more: &[u8] = rng.pick(&[b",".as_slice(), b",1", b",x", b",,,,,,,,,"]);
    row.extend(more);
}

fn fewer_fields(rng: &mut Rng, row: &mut Row) {
    with_fields(row, |fields| {
        fields.remove(rng.below(fields.len()));
    });
}

fn no_fields(_: &mut Rng, row: &mut Row) {
    row.clear();
}

/// A bad number in place of one, or a number at an end of some range.
fn bad_number(rng: &mut Rng, row: &mut Row) {
    const MORE: [&str; 8] = [
        "7",
        "-8",
        "10",
        " 1",
        "1\t",
        "1e3",
        "2147483646",
        "-2147483647",
    ];
    let number = if rng.chance(1, 4) {
        rng.pick(&MORE)
    } else {
        rng.pick(&BAD_NUMBERS)
    };
    with_fields(row, |fields| {
        let place = rng.below(fields.len());
        fields[place] = Row::from(number);
    });
}

/// A byte that belongs to no number, or makes another one, anywhere.
fn bad_byte(rng: &mut Rng, row: &mut Row) {
    let byte = rng.pick(b"\0\t\x0b\x0c\x1a +-./0:;x\x7f\x80\xa0\xef\xff");
    row.insert(rng.below(row.len() + 1), byte);
}

/// A number that stands in the row twice: in the first row, a key that does not rise.
fn same_number(rng: &mut Rng, row: &mut Row) {
    with_fields(row, |fields| {
        let place = rng.below(fields.len());
        fields[place] = fields[place.saturating_sub(1)].clone();
    });
}

fn swapped_numbers(rng: &mut Rng, row: &mut Row) {
    with_fields(row, |fields| {
        let (place, other) = (rng.below(fields.len()), rng.below(fields.len()));
        fields.swap(place, other);
    });
}

/// The export ends early, often within the end of its last row.
fn cut_off(rng: &mut Rng, export: &mut Vec<u8>) {
    let any = rng.below(export.len() + 1);
    let fewer = rng.pick(&[1, 2, 3, any]);
    export.truncate(export.len().saturating_sub(fewer));
}

/// Rows that end in another way, as other programs save them.
fn other_ends(rng: &mut Rng, export: &mut Vec<u8>) {
    let end: &[u8] = rng.pick(&[b"\n".as_slice(), b"\r", b"\n\r", b"\r\r\n", b""]);
    let rows = rows_of(export);
    *export = rows.join(end);
    export.extend(end);
}

/// One end of a row loses one of its two bytes.
fn half_an_end(rng: &mut Rng, export: &mut Vec<u8>) {
    let is_end = |&place: &usize| matches!(export[place], b'\r' | b'\n');
    let places: Vec<usize> = (0..export.len()).filter(is_end).collect();
    if !places.is_empty() {
        export.remove(rng.pick(&places));
    }
}

fn more_behind(rng: &mut Rng, export: &mut Vec<u8>) {
    let more: &[u8] = rng.pick(&[
        b"1".as_slice(),
        b"\r",
        b"\n",
        b"\r\n",
        b"\0",
        b"\x1a",
        b",\r\n",
    ]);
    export.extend(more);
}

fn byte_order_mark(_: &mut Rng, export: &mut Vec<u8>) {
    export.splice(..0, *b"\xef\xbb\xbf");
}

/// Every row in quote marks.
fn quoted_all(_: &mut Rng, export: &mut Vec<u8>) {
    let quoted = |row: &Row| [b"\"", row.as_slice(), b"\"\r\n"].concat();
    *export = rows_of(export).iter().flat_map(quoted).collect();
}

fn nothing(_: &mut Rng, export: &mut Vec<u8>) {
    export.clear();
}

// Noise.

/// Bytes that are no work of a logger: random bytes, random text of the bytes that matter, or rows
/// of fragments behind a first row that is right.
pub fn noise(rng: &mut Rng) -> Vec<u8> {
    match rng.below(8) {
        0 => (0..rng.below(60)).map(|_| rng.draw() as u8).collect(),
        1 | 2 => (0..rng.below(12))
            .map(|_| rng.pick(b"0017-,,\r\r\n\n\" x"))
            .collect(),
        _ => random_rows(rng),
    }
}

/// Rows that mostly have as many fields as the first, and mostly their end.
fn random_rows(rng: &mut Rng) -> Vec<u8> {
    let (first, count) = rng.pick(&[("0\r\n", 1), ("3\r\n", 1), ("0,7\r\n", 2)]);
    let mut export = Vec::from(first);
    for _ in 0..rng.below(6) {
        let count = match rng.below(12) {
            0 => rng.below(4),
            _ => count,
        };
        let fields: Vec<&[u8]> = (0..count).map(|_| random_field(rng)).collect();
        export.extend(fields.join(&b','));
        export.extend(match rng.below(24) {
            0 => rng.pick(&[b"\n".as_slice(), b"\r", b"\n\r", b""]),
            _ => b"\r\n",
        });
    }
    export
}

fn random_field(rng: &mut Rng) -> &'static [u8] {
    const GOOD: [&[u8]; 7] = [b"", b"0", b"1", b"-5", b"23", b"2147483647", b"-2147483648"];
    const BAD: [&[u8]; 9] = [
        b"2147483648",
        b"-0",
        b"07",
        b"+1",
        b" ",
        b"\"",
        b"\r",
        b"\n",
        b"\xc8",
    ];
    if rng.chance(1, 12) {
        rng.pick(&BAD)
    } else {
        rng.pick(&GOOD)
    }
}
