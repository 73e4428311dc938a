//! One call of the archive against one of the model.

use crate::lent::Lent;
use reference::generate::Rng;
use reference::record::{listing, unpack};
use std::fmt;

/// A function on three lent memories: bytes that it only reads, the output memory and the answer
/// memory. The number beside the first is the K of `pavebox_blocks`, or says which of two entries is
/// called; others have none.
type Call = fn(&[u8], u32, &mut [u8], &mut [u8]) -> u32;

/// A function of the archive, and the model's.
pub struct Entry {
    pub archive: Call,
    pub model: Call,
    /// What it reads.
    pub input: &'static str,
    /// What the number beside that is, if there is one.
    pub number: &'static str,
    pub record: Record,
}

/// Which memory of a call is the record of a screen. It begins at a multiple of 4.
#[derive(Clone, Copy, PartialEq, Eq)]
pub enum Record {
    None,
    Input,
    Output,
}

impl Record {
    /// The steps by which this memory of a call may be moved.
    fn step(self, memory: Record) -> usize {
        if self == memory {
            4
        } else {
            1
        }
    }
}

/// The three memories of a call, before it.
pub struct Case {
    entry: &'static Entry,
    input: Lent,
    /// The number that is given, if the entry is given one.
    number: Option<u32>,
    output: Lent,
    answer: Lent,
}

impl Case {
    /// Bytes to be read, with arbitrary bytes in an output memory and an answer memory of these
    /// lengths.
    pub fn new(
        entry: &'static Entry,
        rng: &mut Rng,
        input: &[u8],
        lent: usize,
        answer_length: usize,
    ) -> Case {
        Case {
            entry,
            input: Lent::holding(rng, input, entry.record.step(Record::Input)),
            number: None,
            output: Lent::filled(rng, lent, entry.record.step(Record::Output)),
            answer: Lent::filled(rng, answer_length, 1),
        }
    }

    /// The same with this number.
    pub fn with_number(self, number: Option<u32>) -> Case {
        Case { number, ..self }
    }

    /// The same memories with other bytes to be read.
    pub fn with_input(&self, input: &[u8]) -> Case {
        Case {
            entry: self.entry,
            input: Lent::holding(
                &mut Rng::new(0),
                input,
                self.entry.record.step(Record::Input),
            ),
            number: self.number,
            output: self.output.clone(),
            answer: self.answer.clone(),
        }
    }

    /// The same with these bytes in the output memory, as many as it has.
    pub fn with_output(mut self, bytes: &[u8]) -> Case {
        self.output.bytes_mut().copy_from_slice(bytes);
        self
    }

    pub fn input(&self) -> &[u8] {
        self.input.bytes()
    }

    /// The output memory before the call.
    pub fn output(&self) -> &[u8] {
        self.output.bytes()
    }

    /// Calls a function on these bytes, which may be a copy of the case's own, and its number.
    fn call(&self, call: Call, input: &Lent, output: &mut Lent, answer: &mut Lent) -> u32 {
        let number = self.number.unwrap_or(0);
        call(
            input.bytes(),
            number,
            output.bytes_mut(),
            answer.bytes_mut(),
        )
    }

    pub fn differs(&self, message: String) -> Difference {
        let name = self.entry.input;
        let beside = |number: u32| format!("{} {number}, ", self.entry.number);
        let number = self.number.map(beside).unwrap_or_default();
        let input = match self.entry.record {
            Record::Input => shown_record(self.input()),
            _ => format!("\"{}\"", shown(self.input())),
        };
        Difference {
            message,
            input: format!("{number}{name} {input}"),
            lent: self.output.bytes().len(),
            answer_length: self.answer.bytes().len(),
        }
    }
}

/// Bytes for a reader: all of them, or of very many the first and the last.
fn shown(bytes: &[u8]) -> String {
    const MOST: usize = 100_000;
    const ENDS: usize = 200;
    if bytes.len() <= MOST {
        return bytes.escape_ascii().to_string();
    }
    let (first, last) = (&bytes[..ENDS], &bytes[bytes.len() - ENDS..]);
    let between = bytes.len() - 2 * ENDS;
    let (first, last) = (first.escape_ascii(), last.escape_ascii());
    format!("{first}\" ({between} bytes not shown) \"{last}")
}

/// A record for a reader: the counts, and what they cover.
fn shown_record(bytes: &[u8]) -> String {
    let record = unpack(bytes);
    let entries = record.messages().iter().map(|message| message.entry_count);
    format!(
        "of {} secrets, {} commands, {} messages with {:?} entries, {} letters\n{}",
        record.secret_count,
        record.command_count,
        record.message_count,
        entries.collect::<Vec<u32>>(),
        record.letter_count,
        listing(&record)
    )
}

/// What a call leaves.
pub struct Left {
    pub returned: u32,
    output: Lent,
    answer: Lent,
}

impl Left {
    pub fn output(&self) -> &[u8] {
        self.output.bytes()
    }

    pub fn answer(&self) -> &[u8] {
        self.answer.bytes()
    }

    /// The lines at the start of the output memory, as many bytes as the answer says.
    pub fn lines(&self, written: u32) -> &[u8] {
        let lines = self.output().get(..written as usize);
        lines.unwrap_or(b"(too much)")
    }
}

/// A difference that was found, with the case it was found in.
pub struct Difference {
    message: String,
    input: String,
    lent: usize,
    answer_length: usize,
}

impl fmt::Display for Difference {
    fn fmt(&self, text: &mut fmt::Formatter) -> fmt::Result {
        writeln!(text, "DIFFERENCE: {}", self.message)?;
        let (lent, length) = (self.lent, self.answer_length);
        writeln!(text, "output memory {lent} bytes, answer memory {length}")?;
        write!(text, "{}", self.input)
    }
}

/// Calls both and compares all that they leave.
pub fn compare(case: &Case) -> Result<Left, Difference> {
    let left = call_archive(case)?;
    compare_with_model(case, &left)?;
    Ok(left)
}

/// Calls the model, and compares all that it leaves with what the archive has left.
pub fn compare_with_model(case: &Case, left: &Left) -> Result<(), Difference> {
    let (mut output, mut answer) = (case.output.clone(), case.answer.clone());
    let returned = case.call(case.entry.model, &case.input, &mut output, &mut answer);
    if left.returned != returned {
        let found = left.returned;
        return Err(case.differs(format!("the archive returns {found}, the model {returned}")));
    }
    if left.answer() != answer.bytes() {
        let (found, wanted) = (left.answer(), answer.bytes());
        return Err(case.differs(format!(
            "the archive answers {found:?}, the model {wanted:?}"
        )));
    }
    compare_output(case, left, output.bytes(), "the model's")
}

/// Compares the output memory, byte for byte, with the one that is wanted, and says whose that is.
pub fn compare_output(
    case: &Case,
    left: &Left,
    wanted: &[u8],
    whose: &str,
) -> Result<(), Difference> {
    match first_difference(left.output(), wanted) {
        None => Ok(()),
        Some((place, found, wanted)) => Err(case.differs(format!(
            "byte {place} of the output memory is {found}, of {whose} {wanted}"
        ))),
    }
}

/// Calls the archive, and checks all that needs no model: the guards, and the bytes that it reads.
pub fn call_archive(case: &Case) -> Result<Left, Difference> {
    let input = case.input.clone();
    let (mut output, mut answer) = (case.output.clone(), case.answer.clone());
    let returned = case.call(case.entry.archive, &input, &mut output, &mut answer);
    let name = case.entry.input;
    if input.bytes() != case.input() {
        return Err(case.differs(format!("the archive has changed the {name}")));
    }
    let guarded = [(name, &input), ("output", &output), ("answer", &answer)];
    for (name, memory) in guarded {
        if !memory.guards_hold() {
            return Err(case.differs(format!("a byte beside the {name} memory has changed")));
        }
    }
    Ok(Left {
        returned,
        output,
        answer,
    })
}

/// The first place where two memories of the same length differ, and both bytes.
fn first_difference(found: &[u8], wanted: &[u8]) -> Option<(usize, u8, u8)> {
    if found == wanted {
        return None;
    }
    let place = found.iter().zip(wanted).position(|(a, b)| a != b)?;
    Some((place, found[place], wanted[place]))
}
