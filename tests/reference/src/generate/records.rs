//! Random records of a screen from a seed.
//!
//! Passing records are made number by number, and in what their counts do not cover anything stands;
//! damaged ones begin as passing ones. A fault is a change of one number, or of two keys. It may do no
//! harm, so what it leads to is for the model to say. A function whose name ends with `by` is given the form
//! of the record; the one without makes records of form 1.

use super::{length_near, up_to, value, Rng};
use crate::model::{Form, MOST_COMMANDS, MOST_KEYS, MOST_MESSAGES, MOST_TURNS, VARIABLES};
use crate::record::{
    coded, faults, text, unpack, Coded, Entry, Message, Operand, Record, Secret, EMPTY, LONGEST,
    LONGEST_OF_FORM_1, OPERANDS, RECORD_BYTES, WORDS,
};

/// The counts of a passing record.
struct Size {
    keys: usize,
    commands: usize,
    messages: usize,
    letters: usize,
}

const LARGEST: Size = Size {
    keys: MOST_KEYS,
    commands: MOST_COMMANDS,
    messages: MOST_MESSAGES,
    letters: MOST_TURNS,
};

impl Size {
    fn of(rng: &mut Rng) -> Size {
        match rng.below(8) {
            // As small as can be.
            0 => Size {
                keys: 1,
                commands: 1,
                messages: 0,
                letters: 1,
            },
            1..=3 => Size {
                keys: rng.between(1, 4),
                commands: rng.between(1, 6),
                messages: rng.below(4),
                letters: rng.between(1, 20),
            },
            4..=6 => Size {
                keys: rng.between(1, MOST_KEYS),
                commands: rng.between(1, MOST_COMMANDS),
                messages: rng.between(0, MOST_MESSAGES),
                letters: rng.between(1, MOST_TURNS),
            },
            _ => Size {
                keys: up_to(rng, 7, MOST_KEYS),
                commands: up_to(rng, 63, MOST_COMMANDS),
                messages: up_to(rng, 31, MOST_MESSAGES),
                letters: up_to(rng, 1_023, MOST_TURNS),
            },
        }
    }
}

/// What the screen's memory holds before a record is put there: anything, nothing, or an older record.
pub fn old(rng: &mut Rng) -> Record {
    old_by(Form::One, rng)
}

pub fn old_by(form: Form, rng: &mut Rng) -> Record {
    match rng.below(8) {
        0 => EMPTY,
        1 | 2 => {
            let older = random_bytes(rng);
            passing_over(form, rng, older)
        }
        _ => random_bytes(rng),
    }
}

fn random_bytes(rng: &mut Rng) -> Record {
    let bytes: Vec<u8> = (0..RECORD_BYTES / 8)
        .flat_map(|_| rng.draw().to_le_bytes())
        .collect();
    unpack(&bytes)
}

/// A random record that passes.
pub fn passing(rng: &mut Rng) -> Record {
    passing_by(Form::One, rng)
}

pub fn passing_by(form: Form, rng: &mut Rng) -> Record {
    let old = old_by(form, rng);
    passing_over(form, rng, old)
}

/// The letters of turns.
fn letters_of(form: Form) -> &'static [u8] {
    match form {
        Form::One => b"LH",
        Form::Two => b"LAB",
    }
}

/// The number of an owner.
fn owner_by(form: Form, rng: &mut Rng) -> u32 {
    match form {
        Form::One => 0,
        Form::Two => rng.pick(b"AB").into(),
    }
}

fn passing_over(form: Form, rng: &mut Rng, mut record: Record) -> Record {
    let longest = rng.chance(1, 40);
    let size = if longest { LARGEST } else { Size::of(rng) };
    let full = longest || rng.chance(1, 12);
    record.form = form.number() as u32;
    record.keys = size.keys as u32;
    // A full record has the longest text that these counts allow.
    let number = |rng: &mut Rng| if full { i32::MIN } else { value(rng) };
    let keys = |rng: &mut Rng| -> Vec<u32> {
        let wanted = if full { 1 } else { rng.between(1, 3) };
        let mut keys: Vec<u32> = (0..size.keys as u32).collect();
        keys.retain(|_| wanted == 1 || rng.chance(1, wanted));
        keys
    };
    let secrets = keys(rng);
    record.secret_count = secrets.len() as u32;
    for (place, key) in record.secrets.iter_mut().zip(secrets) {
        let dummy = number(rng);
        let owner = owner_by(form, rng);
        *place = Secret { key, dummy, owner };
    }
    set_commands(rng, &mut record, size.commands, full);
    record.message_count = size.messages as u32;
    for message in &mut record.messages[..size.messages] {
        let keys = match rng.below(10) {
            0 if !full => Vec::new(),
            _ => keys(rng),
        };
        message.entry_count = keys.len() as u32;
        for (place, key) in message.entries.iter_mut().zip(keys) {
            let value = number(rng);
            *place = Entry { key, value };
        }
    }
    record.letter_count = size.letters as u32;
    for letter in &mut record.letters[..size.letters] {
        *letter = rng.pick(letters_of(form));
    }
    record
}

/// So many commands, which may be too many.
fn set_commands(rng: &mut Rng, record: &mut Record, count: usize, full: bool) {
    record.command_count = count as u32;
    for place in &mut record.commands[..count] {
        *place = match full {
            true => coded(0, 7, 0, 0, 0, i32::MIN),
            false => command(rng, record.keys, count as u32),
        };
    }
}

/// A command that may stand among so many.
fn command(rng: &mut Rng, keys: u32, count: u32) -> Coded {
    let word = rng.below(WORDS.len());
    let mut command = coded(word as u32, 0, 0, 0, 0, 0);
    for &operand in WORDS[word].1 {
        let number = match operand {
            Operand::V | Operand::W => at_most(rng, VARIABLES as u32 - 1),
            Operand::K => at_most(rng, keys - 1),
            Operand::T => at_most(rng, count),
            Operand::N => value(rng) as u32,
        };
        set(&mut command, operand, number);
    }
    command
}

/// The limit itself in a quarter of the cases, else anything up to it.
fn at_most(rng: &mut Rng, limit: u32) -> u32 {
    match rng.below(4) {
        0 => limit,
        _ => rng.between(0, limit as usize) as u32,
    }
}

fn set(command: &mut Coded, operand: Operand, number: u32) {
    match operand {
        Operand::V => command.v = number,
        Operand::W => command.w = number,
        Operand::K => command.k = number,
        Operand::T => command.t = number,
        Operand::N => command.n = number as i32,
    }
}

/// Bytes for the output memory: often near the length of the record's text. Of a record that is refused
/// it is any length, none at times: 54 comes before 55.
pub fn memory_length(rng: &mut Rng, record: &Record) -> usize {
    let longest = match record.form {
        1 => LONGEST_OF_FORM_1,
        _ => LONGEST,
    };
    let needed = match faults(record).is_empty() || rng.chance(1, 2) {
        true => text(record).len().min(longest),
        false => rng.below(100),
    };
    length_near(rng, needed, longest)
}

// Faults.

type Change = fn(&mut Rng, &mut Record);

/// One for each kind of fault, and two that do no harm.
const CHANGES: &[Change] = &[
    form,
    keys,
    secret_count,
    secret_key,
    secret_order,
    owner,
    command_count,
    word,
    variable,
    command_key,
    target,
    lacking,
    lacking,
    message_count,
    entry_count,
    entry_key,
    entry_order,
    letter_count,
    letter,
    letter,
    fewer,
    beyond_counts,
];

/// Those of what form 2 has of its own.
const CHANGES_OF_FORM_2: &[Change] = &[form_of_two, owner_of_two, owner_of_two, letter_of_two];

fn change(form: Form, rng: &mut Rng, record: &mut Record) {
    let changes = match form {
        Form::Two if rng.chance(1, 4) => CHANGES_OF_FORM_2,
        _ => CHANGES,
    };
    rng.pick(changes)(rng, record);
}

/// A passing record with one change.
pub fn damaged(rng: &mut Rng) -> Record {
    damaged_by(Form::One, rng)
}

pub fn damaged_by(form: Form, rng: &mut Rng) -> Record {
    let mut record = passing_by(form, rng);
    change(form, rng, &mut record);
    record
}

/// The same with one change more, or some.
pub fn damaged_again(rng: &mut Rng) -> Record {
    damaged_again_by(Form::One, rng)
}

pub fn damaged_again_by(form: Form, rng: &mut Rng) -> Record {
    let mut record = damaged_by(form, rng);
    for _ in 0..rng.between(1, 3) {
        change(form, rng, &mut record);
    }
    record
}

/// A passing record of either form with one number of the other: the form's, an owner's or a
/// letter. At times it does no harm.
pub fn crossed(rng: &mut Rng) -> Record {
    let (form, other) = rng.pick(&[(Form::One, Form::Two), (Form::Two, Form::One)]);
    let mut record = passing_by(form, rng);
    match rng.below(3) {
        0 => record.form = other.number() as u32,
        1 => {
            if let Some(secret) = any_secret(rng, &mut record) {
                secret.owner = owner_by(other, rng);
            }
        }
        _ => {
            if let Some(letter) = any(rng, &mut record.letters, record.letter_count) {
                *letter = rng.pick(letters_of(other));
            }
        }
    }
    record
}

/// No work of a planner: random bytes, with counts that look right or without, or small numbers
/// everywhere, which pass at times.
pub fn arbitrary(rng: &mut Rng) -> Record {
    arbitrary_by(Form::One, rng)
}

pub fn arbitrary_by(form: Form, rng: &mut Rng) -> Record {
    match rng.below(6) {
        0 => random_bytes(rng),
        1 | 2 => {
            let mut record = random_bytes(rng);
            record.form = form.number() as u32;
            record.keys = rng.between(1, 9) as u32;
            record.secret_count = rng.below(3) as u32;
            record.command_count = rng.between(1, 3) as u32;
            record.message_count = rng.below(3) as u32;
            record.letter_count = rng.between(1, 9) as u32;
            record
        }
        _ => small_numbers(form, rng),
    }
}

fn small_numbers(form: Form, rng: &mut Rng) -> Record {
    let mut record = EMPTY;
    let most = rng.between(1, 2);
    let mut small = || rng.below(most + 1) as u32;
    record.form = form.number() as u32;
    record.keys = 1 + small();
    record.secret_count = small();
    for secret in &mut record.secrets {
        secret.key = small();
        secret.dummy = small() as i32;
        secret.owner = match form {
            Form::One => 0,
            Form::Two => u32::from(b'A') + small(),
        };
    }
    record.command_count = 1 + small();
    for command in &mut record.commands[..4] {
        let word = 12 * small().min(1) + small();
        *command = coded(word, small(), 0, 0, 0, small() as i32);
        if (12..=14).contains(&word) {
            *command = coded(word, 0, 0, 0, 0, small() as i32 / 2);
        }
    }
    record.message_count = small();
    for message in &mut record.messages[..3] {
        message.entry_count = small();
        for entry in &mut message.entries {
            entry.key = small();
        }
    }
    record.letter_count = 1 + small();
    record.letters.fill(letters_of(form)[1]);
    record
}

/// A number above a limit: just above, one whose low bits are within it, or far above.
fn above(rng: &mut Rng, limit: u32) -> u32 {
    let within = rng.between(0, limit as usize) as u32;
    match rng.below(10) {
        0..=3 => limit + 1,
        4 => limit + rng.between(1, 20) as u32,
        5 => {
            let high = rng.pick(&[1 << 8, 1 << 16, 1 << 24, 1 << 31]);
            within.saturating_add(high.max(limit + 1))
        }
        6 => u32::MAX - within,
        7 => u32::MAX,
        8 => 1 << 31,
        _ => (rng.draw() as u32).max(limit + 1),
    }
}

/// One of the places that a count covers, if it covers any.
fn any<'a, T>(rng: &mut Rng, places: &'a mut [T], count: u32) -> Option<&'a mut T> {
    let count = places.len().min(count as usize);
    (count > 0).then(|| &mut places[rng.below(count)])
}

fn any_secret<'a>(rng: &mut Rng, record: &'a mut Record) -> Option<&'a mut Secret> {
    any(rng, &mut record.secrets, record.secret_count)
}

fn any_message<'a>(rng: &mut Rng, record: &'a mut Record) -> Option<&'a mut Message> {
    any(rng, &mut record.messages, record.message_count)
}

fn form(rng: &mut Rng, record: &mut Record) {
    record.form = match rng.below(4) {
        0 => 0,
        1 => 2,
        _ => above(rng, 1),
    };
}

/// The other form, or none.
fn form_of_two(rng: &mut Rng, record: &mut Record) {
    record.form = match rng.below(4) {
        0 => 0,
        1 => 1,
        _ => above(rng, 2),
    };
}

/// A K beyond its limits, or another one, which may lie below a key that stands somewhere.
fn keys(rng: &mut Rng, record: &mut Record) {
    record.keys = match rng.below(4) {
        0 => 0,
        1 => rng.between(1, MOST_KEYS) as u32,
        _ => above(rng, MOST_KEYS as u32),
    };
}

fn secret_count(rng: &mut Rng, record: &mut Record) {
    let limit = rng.pick(&[
        record.secret_count,
        record.keys,
        record.secrets.len() as u32,
    ]);
    record.secret_count = above(rng, limit.min(u32::MAX - 21));
}

fn secret_key(rng: &mut Rng, record: &mut Record) {
    let limit = record.keys.saturating_sub(1).min(20);
    // The last one still rises.
    let count = record.secret_count as usize;
    if let Some(last) = count
        .checked_sub(1)
        .and_then(|last| record.secrets.get_mut(last))
    {
        last.key = above(rng, limit);
    }
}

fn secret_order(rng: &mut Rng, record: &mut Record) {
    let count = record.secrets.len().min(record.secret_count as usize);
    if count > 1 {
        let place = rng.between(1, count - 1);
        let [first, second] = [record.secrets[place - 1].key, record.secrets[place].key];
        match rng.below(3) {
            0 => record.secrets[place].key = first,
            1 => record.secrets[place - 1].key = second,
            _ => {
                record.secrets[place].key = first;
                record.secrets[place - 1].key = second;
            }
        }
    }
}

fn owner(rng: &mut Rng, record: &mut Record) {
    if let Some(secret) = any_secret(rng, record) {
        secret.owner = match rng.below(3) {
            0 => u32::from(rng.pick(b"ABLH")),
            _ => above(rng, 0),
        };
    }
}

/// An owner that is none: that of form 1, another letter or a letter of turns, a number whose low bits are
/// an owner's, or one just beside.
fn owner_of_two(rng: &mut Rng, record: &mut Record) {
    if let Some(secret) = any_secret(rng, record) {
        secret.owner = match rng.below(6) {
            0 | 1 => 0,
            2 => u32::from(rng.pick(b"HLCab@")),
            3 => rng.pick(&[1, 2, 64, 67, 255]),
            4 => u32::from(rng.pick(b"AB")) + rng.pick(&[1 << 8, 1 << 16, 1 << 31]),
            _ => above(rng, 66),
        };
    }
}

/// None, more than the limit with good commands in the further places too, or above all places.
fn command_count(rng: &mut Rng, record: &mut Record) {
    match rng.below(4) {
        0 => record.command_count = 0,
        1 | 2 => {
            let most = rng.pick(&[MOST_COMMANDS + 1, record.commands.len()]);
            let count = rng.between(MOST_COMMANDS + 1, most);
            record.keys = record.keys.clamp(1, MOST_KEYS as u32);
            set_commands(rng, record, count, false);
        }
        _ => record.command_count = above(rng, record.commands.len() as u32),
    }
}

fn word(rng: &mut Rng, record: &mut Record) {
    if let Some(command) = any(rng, &mut record.commands, record.command_count) {
        // A word without operands is wrong by its number alone.
        *command = coded(above(rng, WORDS.len() as u32 - 1), 0, 0, 0, 0, 0);
    }
}

/// One command whose word has an operand of these gets a number above the limit there.
fn spoil(rng: &mut Rng, record: &mut Record, operands: &[Operand], limit: u32) {
    let operand = rng.pick(operands);
    let has = |command: &Coded| command.row().is_some_and(|(_, has)| has.contains(&operand));
    let count = record.commands.len().min(record.command_count as usize);
    let places: Vec<usize> = (0..count).filter(|&p| has(&record.commands[p])).collect();
    if !places.is_empty() {
        let number = above(rng, limit.min(u32::MAX - 21));
        set(&mut record.commands[rng.pick(&places)], operand, number);
    }
}

fn variable(rng: &mut Rng, record: &mut Record) {
    spoil(rng, record, &[Operand::V, Operand::W], VARIABLES as u32 - 1);
}

fn command_key(rng: &mut Rng, record: &mut Record) {
    spoil(rng, record, &[Operand::K], record.keys.saturating_sub(1));
}

fn target(rng: &mut Rng, record: &mut Record) {
    spoil(rng, record, &[Operand::T], record.command_count);
}

fn lacking(rng: &mut Rng, record: &mut Record) {
    if let Some(command) = any(rng, &mut record.commands, record.command_count) {
        let has = command.row().map_or(&[][..], |(_, operands)| *operands);
        let lacking: Vec<Operand> = OPERANDS.into_iter().filter(|o| !has.contains(o)).collect();
        let number = above(rng, 0);
        set(command, rng.pick(&lacking), number);
    }
}

fn message_count(rng: &mut Rng, record: &mut Record) {
    record.message_count = above(rng, MOST_MESSAGES as u32);
}

fn entry_count(rng: &mut Rng, record: &mut Record) {
    let keys = record.keys.min(20);
    if let Some(message) = any_message(rng, record) {
        let limit = rng.pick(&[keys, message.entries.len() as u32]);
        message.entry_count = above(rng, limit);
    }
}

fn entry_key(rng: &mut Rng, record: &mut Record) {
    let limit = record.keys.saturating_sub(1).min(20);
    if let Some(message) = any_message(rng, record) {
        let count = message.entry_count as usize;
        if let Some(last) = count
            .checked_sub(1)
            .and_then(|last| message.entries.get_mut(last))
        {
            last.key = above(rng, limit);
        }
    }
}

fn entry_order(rng: &mut Rng, record: &mut Record) {
    if let Some(message) = any_message(rng, record) {
        let count = message.entries.len().min(message.entry_count as usize);
        if count > 1 {
            let place = rng.between(1, count - 1);
            let [first, second] = [message.entries[place - 1].key, message.entries[place].key];
            match rng.below(3) {
                0 => message.entries[place].key = first,
                1 => message.entries[place - 1].key = second,
                _ => {
                    message.entries[place].key = first;
                    message.entries[place - 1].key = second;
                }
            }
        }
    }
}

fn letter_count(rng: &mut Rng, record: &mut Record) {
    record.letter_count = match rng.below(4) {
        0 => 0,
        _ => above(rng, MOST_TURNS as u32),
    };
}

fn letter(rng: &mut Rng, record: &mut Record) {
    if let Some(letter) = any(rng, &mut record.letters, record.letter_count) {
        *letter = match rng.below(3) {
            0 => rng.pick(b"ABGIKMlh\0\n \x7f\xc8\xcc\xff"),
            _ => rng.draw() as u8,
        };
    }
}

/// A letter of form 1, or one beside those of form 2.
fn letter_of_two(rng: &mut Rng, record: &mut Record) {
    if let Some(letter) = any(rng, &mut record.letters, record.letter_count) {
        *letter = rng.pick(b"HHH@CKMablh\0");
    }
}

/// One count less by one: a place more is not covered. Of commands, a target may lie beyond then.
fn fewer(rng: &mut Rng, record: &mut Record) {
    let message = &mut record.messages[0].entry_count;
    let counts = [
        &mut record.secret_count,
        &mut record.command_count,
        &mut record.message_count,
        &mut record.letter_count,
        message,
    ];
    let place = rng.below(counts.len());
    for (at, count) in counts.into_iter().enumerate() {
        if at == place {
            *count = count.saturating_sub(1);
        }
    }
}

/// What stands directly behind the places that a count covers becomes as wrong as it can be.
fn beyond_counts(_: &mut Rng, record: &mut Record) {
    let max = u32::MAX;
    if let Some(secret) = record.secrets.get_mut(record.secret_count as usize) {
        *secret = Secret {
            key: max,
            dummy: -1,
            owner: max,
        };
    }
    if let Some(command) = record.commands.get_mut(record.command_count as usize) {
        *command = coded(max, max, max, max, max, -1);
    }
    if let Some(message) = record.messages.get_mut(record.message_count as usize) {
        message.entry_count = max;
    }
    for message in &mut record.messages {
        if let Some(entry) = message.entries.get_mut(message.entry_count as usize) {
            *entry = Entry { key: 0, value: -1 };
        }
    }
    if let Some(letter) = record.letters.get_mut(record.letter_count as usize) {
        *letter = 0;
    }
}
