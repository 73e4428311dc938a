//! The records of the comparison, and their sheets: the same 50 of each form every time.

use crate::sheets::Group;
use pavebox::{Job, JOB_BYTES};
use reference::generate::Rng;
use reference::model::{Form, MOST_COMMANDS, MOST_KEYS, MOST_MESSAGES, MOST_TURNS, VARIABLES};
use reference::record::{pack, text, Coded, Entry, Operand, Record, Secret, EMPTY, WORDS};

const SEED: u64 = 2026;
const COUNT: usize = 50;

/// Full records: every key, and each of them secret, as many commands, messages, entries and letters as
/// there may be. The bytes are those of the sheets that they are saved as.
pub fn saved(form: Form) -> Group {
    let mut saved = Group::of_form(form, "saved");
    for record in records(form) {
        saved.bytes += text(&record).len();
        saved.texts.push(pack(&record));
    }
    saved
}

/// The sheets of the same records.
pub fn opened(form: Form) -> Group {
    let mut opened = Group::of_form(form, "opened");
    for record in records(form) {
        opened.add(text(&record), 0);
    }
    opened
}

/// The record in these bytes. Memory of so many bytes begins at a multiple of 16.
pub fn record_in(bytes: &[u8]) -> &Job {
    Job::in_bytes(bytes).expect("the memory of a record is aligned")
}

/// The record at the start of these bytes, to be changed.
pub fn record_in_mut(bytes: &mut [u8]) -> &mut Job {
    Job::in_bytes_mut(&mut bytes[..JOB_BYTES]).expect("the memory of a record is aligned")
}

fn records(form: Form) -> Vec<Record> {
    let mut rng = Rng::new(SEED);
    (0..COUNT).map(|_| full(form, &mut rng)).collect()
}

fn full(form: Form, rng: &mut Rng) -> Record {
    let mut record = EMPTY;
    record.form = form.number() as u32;
    record.keys = MOST_KEYS as u32;
    record.secret_count = record.keys;
    for (key, secret) in (0..record.keys).zip(&mut record.secrets) {
        let dummy = number(rng);
        let owner = match form {
            Form::One => 0,
            Form::Two => rng.pick(b"AB").into(),
        };
        *secret = Secret { key, dummy, owner };
    }
    record.command_count = MOST_COMMANDS as u32;
    for place in &mut record.commands[..MOST_COMMANDS] {
        *place = command(rng);
    }
    record.message_count = MOST_MESSAGES as u32;
    for message in &mut record.messages {
        message.entry_count = record.keys;
        for (key, entry) in (0..record.keys).zip(&mut message.entries) {
            let value = number(rng);
            *entry = Entry { key, value };
        }
    }
    record.letter_count = MOST_TURNS as u32;
    let letters: &[u8] = match form {
        Form::One => b"LH",
        Form::Two => b"LAB",
    };
    for letter in &mut record.letters {
        *letter = rng.pick(letters);
    }
    record
}

/// Any word, each as often as the others, and any operands.
fn command(rng: &mut Rng) -> Coded {
    let word = rng.below(WORDS.len());
    let mut command = Coded {
        word: word as u32,
        ..Coded::default()
    };
    for operand in WORDS[word].1 {
        match operand {
            Operand::V => command.v = rng.below(VARIABLES) as u32,
            Operand::W => command.w = rng.below(VARIABLES) as u32,
            Operand::K => command.k = rng.below(MOST_KEYS) as u32,
            Operand::T => command.t = rng.between(0, MOST_COMMANDS) as u32,
            Operand::N => command.n = number(rng),
        }
    }
    command
}

/// A number of one to ten digits, each count as often as the others, half of them with a sign.
fn number(rng: &mut Rng) -> i32 {
    let digits = rng.between(1, 10) as u32;
    let lowest = 10_usize.pow(digits - 1);
    let highest = (10 * lowest - 1).min(i32::MAX as usize);
    let number = rng.between(lowest, highest) as i32;
    if rng.chance(1, 2) {
        -number
    } else {
        number
    }
}

#[cfg(test)]
mod tests {
    use reference::model::Form;
    use reference::record::{faults, unpack, write, RECORD_BYTES};

    #[test]
    fn all_are_full_and_have_the_sheets_that_are_opened() {
        for form in Form::ALL {
            let (saved, opened) = (super::saved(form), super::opened(form));
            assert_eq!((saved.texts.len(), opened.texts.len()), (50, 50));
            assert_eq!(saved.bytes, opened.bytes);
            for (record, sheet) in saved.texts.iter().zip(&opened.texts) {
                check(form, record, sheet);
            }
        }
    }

    fn check(form: Form, record: &[u8], sheet: &[u8]) {
        assert_eq!(record.len(), RECORD_BYTES);
        let record = unpack(record);
        assert!(faults(&record).is_empty());
        assert_eq!(record.form, form.number() as u32);
        let counts = [record.keys, record.secret_count, record.command_count];
        assert_eq!(counts, [8, 8, 64]);
        assert_eq!([record.message_count, record.letter_count], [32, 1_024]);
        assert!(record.messages.iter().all(|m| m.entry_count == 8));
        let mut output = vec![0; sheet.len()];
        assert_eq!(write(&record, &mut output), [0, sheet.len() as u32]);
        assert!(output == *sheet);
    }
}
