//! The reference model of Note 1 of document 02, "Messages out of the belt log": an export of a
//! logger becomes the `msg` lines of a sheet.
//!
//! Words between quotation marks are the note's own. A comment that begins with "Reading:" names
//! the reading taken where the text leaves a choice, or seems to leave one.

use crate::model::{numbers_line, small, value, write_numbers, MOST_KEYS, MOST_MESSAGES};

/// The answer memory: "the number, the row ..., and the bytes written".
pub const ANSWER_BYTES: usize = 12;
/// The bytes that `beltlog` lends. No export needs more: 32 lines of `msg=`, of eight keys with a
/// colon and 11 characters each, of seven commas and of a line feed.
pub const LENT: usize = 32 * (4 + 8 * 13 + 7 + 1);

/// Why an export is refused: 8, 41 or 42, and "the row from 1".
#[derive(Debug, Clone, Copy, PartialEq, Eq)]
pub struct Refusal {
    pub number: u32,
    pub row: u32,
}

/// The entries of one message, each a key and a value, in the order of the first row.
pub type Message = Vec<(usize, i32)>;

/// Reads an export. "Rows go from the top; within a row 8 comes first"; then 41, and "42, after 41
/// in that row".
pub fn read(export: &[u8]) -> Result<Vec<Message>, Refusal> {
    // 41: "an empty export (row 1)".
    if export.is_empty() {
        return Err(Refusal { number: 41, row: 1 });
    }
    let mut keys = Vec::new();
    let mut messages = Vec::new();
    for (place, row) in (1..).zip(rows(export)) {
        let refused = |number| Refusal { number, row: place };
        // "a 33rd message gets 8". Reading: whatever is in it, and even if it is unfinished.
        if messages.len() == MOST_MESSAGES {
            return Err(refused(8));
        }
        if !is_whole(&row) {
            return Err(refused(41));
        }
        let fields = fields(row.text);
        // "The first row holds key numbers ...; each further row is a message".
        if place == 1 {
            keys = key_numbers(&fields).map_err(refused)?;
        } else {
            messages.push(message(&fields, &keys).map_err(refused)?);
        }
    }
    Ok(messages)
}

/// One row of an export.
struct Row<'a> {
    /// Its bytes, without the carriage return and line feed that end it.
    text: &'a [u8],
    /// Whether these two are there.
    ended: bool,
}

/// "Rows end with carriage return and line feed, the last one too." Reading: nothing else divides
/// rows, and there is a row behind the last such pair only if a byte stands there.
fn rows(export: &[u8]) -> Vec<Row<'_>> {
    let mut rows = Vec::new();
    let (mut start, mut place) = (0, 0);
    while place < export.len() {
        if export[place..].starts_with(b"\r\n") {
            let text = &export[start..place];
            rows.push(Row { text, ended: true });
            place += 2;
            start = place;
        } else {
            place += 1;
        }
    }
    if start < export.len() {
        let text = &export[start..];
        rows.push(Row { text, ended: false });
    }
    rows
}

/// Whether there is neither "a quote mark, a bare carriage return or line feed", nor "an unfinished
/// last row". Every pair that ends a row has been taken out, so what is left of these two is bare.
fn is_whole(row: &Row) -> bool {
    let stray = |byte: &u8| matches!(byte, b'"' | b'\r' | b'\n');
    row.ended && !row.text.iter().any(stray)
}

/// "comma-separated text". Reading: every comma divides, so a row has one field more than it has
/// commas, and an empty row has one empty field.
fn fields(text: &[u8]) -> Vec<&[u8]> {
    text.split(|&byte| byte == b',').collect()
}

/// "The first row holds key numbers 0 to 7, rising". Reading: an empty field there is no number.
fn key_numbers(fields: &[&[u8]]) -> Result<Vec<usize>, u32> {
    let mut keys: Vec<usize> = Vec::new();
    for field in fields {
        // "Numbers follow the sheet's rule".
        let key = small(field, 0, MOST_KEYS - 1).map_err(|_| 42u32)?;
        // 42: "a key that doesn't rise".
        if keys.last().is_some_and(|&before| key <= before) {
            return Err(42);
        }
        keys.push(key);
    }
    Ok(keys)
}

/// The message of a further row.
fn message(fields: &[&[u8]], keys: &[usize]) -> Result<Message, u32> {
    // 41: "another count of fields than the first row". The first row has a field for each key.
    if fields.len() != keys.len() {
        return Err(41);
    }
    let mut message = Message::new();
    for (&key, field) in keys.iter().zip(fields) {
        // "an empty field is an absent entry".
        if !field.is_empty() {
            let value = value(field).map_err(|_| 42u32)?;
            message.push((key, value));
        }
    }
    Ok(message)
}

/// "We want `msg` lines out": one for each message, as document 01 has them.
pub fn lines(messages: &[Message]) -> Vec<u8> {
    let part = |&(key, value): &(usize, i32)| format!("{key}:{value}");
    let line = |message: &Message| {
        let parts: Vec<String> = message.iter().map(part).collect();
        format!("msg={}\n", parts.join(","))
    };
    let text: String = messages.iter().map(line).collect();
    text.into_bytes()
}

/// Reads an export and writes its lines. Three numbers: "the number, the row from 1 (0 on success
/// and for 43), and the bytes written; a refusal writes nothing".
pub fn csv(export: &[u8], output: &mut [u8]) -> [u32; 3] {
    let text = match read(export) {
        Ok(messages) => lines(&messages),
        Err(refusal) => return [refusal.number, refusal.row, 0],
    };
    // "43, last, where the lent memory is too short". Reading: exactly enough is enough.
    if text.len() > output.len() {
        return [43, 0, 0];
    }
    output[..text.len()].copy_from_slice(&text);
    [0, 0, text.len() as u32]
}

/// What a C program calls. As in document 01, an answer memory of another length gets 10, "returned
/// before anything else, nothing written".
pub fn c_entry(export: &[u8], output: &mut [u8], answer: &mut [u8]) -> u32 {
    if answer.len() != ANSWER_BYTES {
        return 10;
    }
    let numbers = csv(export, output);
    write_numbers(answer, &numbers);
    numbers[0]
}

/// The line that `beltlog` prints on standard error: `answer=` and the three numbers.
pub fn answer_line(numbers: [u32; 3]) -> Vec<u8> {
    numbers_line("answer", &numbers)
}
