//! The `msg` lines of an export as a straightforward Rust program: safe, idiomatic, not tuned. It
//! answers what Note 1 of document 02 demands.

use crate::plain::{small, value};

const MOST_KEYS: usize = 8;
const MOST_MESSAGES: usize = 32;
/// The bytes of the longest line: `msg=`, eight entries of 13 bytes, seven commas, a line feed.
const MOST_LINE: usize = 116;

/// Why an export is refused: the number, and the row.
type Refusal = (u32, u32);

/// Makes the lines of an export: the number, the row and the bytes written.
pub fn csv(export: &[u8], output: &mut [u8]) -> [u32; 3] {
    let text = match lines(export) {
        Ok(text) => text,
        Err((number, row)) => return [number, row, 0],
    };
    match output.get_mut(..text.len()) {
        Some(place) => {
            place.copy_from_slice(&text);
            [0, 0, text.len() as u32]
        }
        None => [43, 0, 0],
    }
}

fn lines(export: &[u8]) -> Result<Vec<u8>, Refusal> {
    let (first, mut rest) = next_row(export).ok_or((41, 1))?;
    let keys = keys(first).ok_or((42, 1))?;
    let mut text = Vec::with_capacity(MOST_MESSAGES * MOST_LINE);
    let mut row = 2;
    while !rest.is_empty() {
        if row > MOST_MESSAGES as u32 + 1 {
            return Err((8, row));
        }
        let (fields, behind) = next_row(rest).ok_or((41, row))?;
        if fields.split(|&byte| byte == b',').count() != keys.len() {
            return Err((41, row));
        }
        write_line(&mut text, &keys, fields).ok_or((42, row))?;
        rest = behind;
        row += 1;
    }
    Ok(text)
}

/// The next row, and what stands behind its end. The first byte that no field may hold ends it.
fn next_row(rest: &[u8]) -> Option<(&[u8], &[u8])> {
    let stray = |&byte: &u8| matches!(byte, b'\r' | b'\n' | b'"');
    let end = rest.iter().position(stray)?;
    let behind = rest[end..].strip_prefix(b"\r\n")?;
    Some((&rest[..end], behind))
}

fn keys(first: &[u8]) -> Option<Vec<usize>> {
    let mut keys = Vec::with_capacity(MOST_KEYS);
    let mut lowest = 0;
    for field in first.split(|&byte| byte == b',') {
        let key = small(field, lowest, MOST_KEYS - 1)?;
        keys.push(key);
        lowest = key + 1;
    }
    Some(keys)
}

fn write_line(text: &mut Vec<u8>, keys: &[usize], fields: &[u8]) -> Option<()> {
    text.extend_from_slice(b"msg=");
    let mut first = true;
    for (&key, field) in keys.iter().zip(fields.split(|&byte| byte == b',')) {
        if field.is_empty() {
            continue;
        }
        value(field)?;
        if !first {
            text.push(b',');
        }
        first = false;
        text.extend_from_slice(&[b'0' + key as u8, b':']);
        // A number has one form only, so the field is how the line has it too.
        text.extend_from_slice(field);
    }
    text.push(b'\n');
    Some(())
}

#[cfg(test)]
mod tests {
    use reference::corners::log::corners;
    use reference::generate::log::{accepted, damaged, memory_length, noise};
    use reference::generate::Rng;
    use reference::log::csv;

    fn check(export: &[u8], lent: usize) {
        let (mut output, mut wanted) = (vec![b'~'; lent], vec![b'~'; lent]);
        let (found, numbers) = (super::csv(export, &mut output), csv(export, &mut wanted));
        let start = export[..export.len().min(200)].escape_ascii();
        assert_eq!(found, numbers, "{start}");
        assert!(output == wanted, "{start}");
    }

    #[test]
    fn it_answers_what_the_reference_answers() {
        for corner in corners() {
            check(&corner.export, corner.lent);
        }
        let mut rng = Rng::new(1);
        for place in 0..20_000 {
            let export = match place % 4 {
                0 => noise(&mut rng),
                1 | 2 => damaged(&mut rng),
                _ => accepted(&mut rng),
            };
            check(&export, memory_length(&mut rng, &export));
        }
    }
}
