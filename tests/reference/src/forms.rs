//! The reference model of Note 9 of document 02, "Old sheets to new and back": a sheet of form 1 becomes one of
//! form 2, and such a sheet becomes the first one again.
//!
//! All is said on the text, line by line. Reading says whether a sheet is accepted, and nothing else is taken
//! from it: no number is read and written again.
//!
//! Words between quotation marks are the note's own. A comment that begins with "Reading:" names the reading
//! taken where the text leaves a choice, or seems to leave one.

use crate::model::{lines, numbers_line, read, write_numbers, Form, Refusal};

/// The answer memory: "The answer is formed as in Note 5", which has "number, line (0 on success) and bytes".
pub const ANSWER_BYTES: usize = 12;

/// Turns a sheet into one of the form asked for, and writes it. "The answer is formed as in Note 5": "number,
/// line (0 on success) and bytes; a refusal writes nothing".
pub fn convert(sheet: &[u8], form: Form, output: &mut [u8]) -> [u32; 3] {
    let text = match turned(sheet, form) {
        Ok(text) => text,
        Err(refusal) => return [refusal.number, refusal.line, 0],
    };
    // "49, last, for too little lent memory". Reading: exactly enough is enough.
    if text.len() > output.len() {
        return [49, 0, 0];
    }
    output[..text.len()].copy_from_slice(&text);
    [0, 0, text.len() as u32]
}

/// The text of the form asked for, whatever memory there is for it; or why there is none.
pub fn turned(sheet: &[u8], form: Form) -> Result<Vec<u8>, Refusal> {
    // "sheets refuse as on reading". Reading: a sheet of either form, by the rules of its own form, whichever
    // is asked for.
    read(sheet)?;
    // "All three name line 0."
    let refused = |number| Err(Refusal { number, line: 0 });
    // "48, after reading, if the sheet already has the form asked for".
    if has_form(sheet, form) {
        return refused(48);
    }
    // "47, next and going back only, if the sheet names owner B or has a turn B".
    if form == Form::One && (names_owner_b(sheet) || has_turn_b(sheet)) {
        return refused(47);
    }
    let turned_line = match form {
        Form::One => old_line,
        Form::Two => new_line,
    };
    let ended = |line: &[u8]| [&turned_line(line), b"\n".as_slice()].concat();
    Ok(lines(sheet).into_iter().flat_map(ended).collect())
}

/// Whether the first line says this form.
pub fn has_form(sheet: &[u8], form: Form) -> bool {
    let first_line = format!("sheet={}\n", form.number());
    sheet.starts_with(first_line.as_bytes())
}

/// "names owner B": a secret line does. Reading: whether or not a message has an entry at its key.
pub fn names_owner_b(sheet: &[u8]) -> bool {
    let names = |line: &&[u8]| line.starts_with(b"secret=") && line.ends_with(b":B");
    lines(sheet).iter().any(names)
}

/// "has a turn B". Reading: wherever among the letters, and whether or not the run comes so far.
pub fn has_turn_b(sheet: &[u8]) -> bool {
    let has = |line: &&[u8]| line.starts_with(b"turns=") && line.contains(&b'B');
    lines(sheet).iter().any(has)
}

/// A line of an accepted sheet of form 1 as form 2 has it: "`sheet=2` with owner A and H turned to A". Reading:
/// every other line keeps its bytes.
fn new_line(line: &[u8]) -> Vec<u8> {
    if line.starts_with(b"sheet=") {
        b"sheet=2".to_vec()
    } else if line.starts_with(b"secret=") {
        [line, b":A"].concat()
    } else if line.starts_with(b"turns=") {
        with_letters(line, b'H', b'A')
    } else {
        line.to_vec()
    }
}

/// The reverse: "turn it back to the first bytes". The sheet is of form 2, and has nothing of B's.
fn old_line(line: &[u8]) -> Vec<u8> {
    if line.starts_with(b"sheet=") {
        b"sheet=1".to_vec()
    } else if line.starts_with(b"secret=") {
        let first = line.strip_suffix(b":A");
        first.expect("A owns every secret").to_vec()
    } else if line.starts_with(b"turns=") {
        with_letters(line, b'A', b'H')
    } else {
        line.to_vec()
    }
}

/// The line of turns with one letter in place of another. Its name has no capital letter.
fn with_letters(turns: &[u8], old: u8, new: u8) -> Vec<u8> {
    let letter = |&byte: &u8| if byte == old { new } else { byte };
    turns.iter().map(letter).collect()
}

/// What a C program calls to turn a sheet of form 1 into one of form 2.
pub fn to_sheet2_entry(sheet: &[u8], output: &mut [u8], answer: &mut [u8]) -> u32 {
    entry(sheet, Form::Two, output, answer)
}

/// What it calls to turn one back.
pub fn to_sheet1_entry(sheet: &[u8], output: &mut [u8], answer: &mut [u8]) -> u32 {
    entry(sheet, Form::One, output, answer)
}

/// As in document 01, an answer memory of another length gets 10, "returned before anything else, nothing
/// written".
fn entry(sheet: &[u8], form: Form, output: &mut [u8], answer: &mut [u8]) -> u32 {
    if answer.len() != ANSWER_BYTES {
        return 10;
    }
    let numbers = convert(sheet, form, output);
    write_numbers(answer, &numbers);
    numbers[0]
}

/// A line for tests: `answer=` and the three numbers.
pub fn answer_line(numbers: [u32; 3]) -> Vec<u8> {
    numbers_line("answer", &numbers)
}
