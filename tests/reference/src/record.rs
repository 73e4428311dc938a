//! The reference model of Note 7 of document 02, "Save the sheet from the screen": a record of plain
//! numbers becomes a sheet, and a sheet a record. Note 8: "The writer of Note 7 takes both forms, each with
//! its own letters and limits."
//!
//! Words between quotation marks are the note's own. A comment that begins with "Reading:" names
//! the reading taken where the text leaves a choice, or seems to leave one.

use crate::model;
use crate::model::{
    numbers_line, read, write_numbers, Command, Form, Job, Limits, Owner, VARIABLES,
};
use std::collections::BTreeSet;

/// Both answer memories: "number and bytes" of a record that is written, number and line of a sheet
/// that is read.
pub const ANSWER_BYTES: usize = 8;
/// No sheet of a record of form 1 is longer.
pub const LONGEST_OF_FORM_1: usize = 6_270;
/// No sheet of any record is longer: of form 2 each of the eight secret lines has a colon and an owner more.
pub const LONGEST: usize = LONGEST_OF_FORM_1 + 8 * 2;
/// The bytes of a record.
pub const RECORD_BYTES: usize = 11_608;

// The places of a record. Reading: there are as many as any later note allows, so that the record
// never changes.
const SECRETS: usize = 16;
const COMMANDS: usize = 256;
const MESSAGES: usize = 32;
const ENTRIES: usize = 16;
const LETTERS: usize = 1_024;

/// What "the planner's screen holds". Reading: plain numbers, with the key beside each dummy and value;
/// else no letter could be wrong, and no keys could fail to rise.
#[derive(Debug, Clone, PartialEq, Eq)]
pub struct Record {
    pub form: u32,
    pub keys: u32,
    pub secret_count: u32,
    pub secrets: [Secret; SECRETS],
    pub command_count: u32,
    pub commands: [Coded; COMMANDS],
    pub message_count: u32,
    pub messages: [Message; MESSAGES],
    pub letter_count: u32,
    pub letters: [u8; LETTERS],
}

#[derive(Debug, Clone, Copy, PartialEq, Eq, Default)]
pub struct Secret {
    pub key: u32,
    pub dummy: i32,
    pub owner: u32,
}

/// A command as numbers. The word is its place in document 01's table, from 0.
#[derive(Debug, Clone, Copy, PartialEq, Eq, Default)]
pub struct Coded {
    pub word: u32,
    pub v: u32,
    pub w: u32,
    pub k: u32,
    pub t: u32,
    pub n: i32,
}

#[derive(Debug, Clone, Copy, PartialEq, Eq, Default)]
pub struct Message {
    pub entry_count: u32,
    pub entries: [Entry; ENTRIES],
}

#[derive(Debug, Clone, Copy, PartialEq, Eq, Default)]
pub struct Entry {
    pub key: u32,
    pub value: i32,
}

/// Every number 0.
pub const EMPTY: Record = Record {
    form: 0,
    keys: 0,
    secret_count: 0,
    secrets: [Secret {
        key: 0,
        dummy: 0,
        owner: 0,
    }; SECRETS],
    command_count: 0,
    commands: [coded(0, 0, 0, 0, 0, 0); COMMANDS],
    message_count: 0,
    messages: [Message {
        entry_count: 0,
        entries: [Entry { key: 0, value: 0 }; ENTRIES],
    }; MESSAGES],
    letter_count: 0,
    letters: [0; LETTERS],
};

pub const fn coded(word: u32, v: u32, w: u32, k: u32, t: u32, n: i32) -> Coded {
    Coded {
        word,
        v,
        w,
        k,
        t,
        n,
    }
}

/// The places that a count covers. Reading: a count above the places covers none, so that it is refused
/// before any place is looked at.
fn covered<T>(places: &[T], count: u32) -> &[T] {
    places.get(..count as usize).unwrap_or(&[])
}

impl Record {
    pub fn secrets(&self) -> &[Secret] {
        covered(&self.secrets, self.secret_count)
    }

    pub fn commands(&self) -> &[Coded] {
        covered(&self.commands, self.command_count)
    }

    pub fn messages(&self) -> &[Message] {
        covered(&self.messages, self.message_count)
    }

    pub fn letters(&self) -> &[u8] {
        covered(&self.letters, self.letter_count)
    }
}

impl Message {
    pub fn entries(&self) -> &[Entry] {
        covered(&self.entries, self.entry_count)
    }
}

// ---------------------------------------------------------------------------------------------
// The bytes of a record
// ---------------------------------------------------------------------------------------------

/// The record as a C program has it: numbers of 32 bits, low byte first, and a byte for each letter.
pub fn pack(record: &Record) -> Vec<u8> {
    let mut numbers = vec![record.form, record.keys, record.secret_count];
    for secret in &record.secrets {
        numbers.extend([secret.key, secret.dummy as u32, secret.owner]);
    }
    numbers.push(record.command_count);
    for &Coded {
        word,
        v,
        w,
        k,
        t,
        n,
    } in &record.commands
    {
        numbers.extend([word, v, w, k, t, n as u32]);
    }
    numbers.push(record.message_count);
    for message in &record.messages {
        numbers.push(message.entry_count);
        for entry in &message.entries {
            numbers.extend([entry.key, entry.value as u32]);
        }
    }
    numbers.push(record.letter_count);
    let mut bytes: Vec<u8> = numbers.into_iter().flat_map(u32::to_le_bytes).collect();
    bytes.extend_from_slice(&record.letters);
    bytes
}

/// The record that these bytes are, [`RECORD_BYTES`] of them.
pub fn unpack(bytes: &[u8]) -> Record {
    assert_eq!(bytes.len(), RECORD_BYTES);
    let mut record = EMPTY;
    let mut numbers = bytes
        .chunks_exact(4)
        .map(|four| u32::from_le_bytes([four[0], four[1], four[2], four[3]]));
    let mut next = || numbers.next().expect("there are enough bytes");
    record.form = next();
    record.keys = next();
    record.secret_count = next();
    for secret in &mut record.secrets {
        *secret = Secret {
            key: next(),
            dummy: next() as i32,
            owner: next(),
        };
    }
    record.command_count = next();
    for command in &mut record.commands {
        *command = coded(next(), next(), next(), next(), next(), next() as i32);
    }
    record.message_count = next();
    for message in &mut record.messages {
        message.entry_count = next();
        for entry in &mut message.entries {
            *entry = Entry {
                key: next(),
                value: next() as i32,
            };
        }
    }
    record.letter_count = next();
    record
        .letters
        .copy_from_slice(&bytes[RECORD_BYTES - LETTERS..]);
    record
}

// ---------------------------------------------------------------------------------------------
// Which records are a job
// ---------------------------------------------------------------------------------------------

/// A number of a command beside its word.
#[derive(Debug, Clone, Copy, PartialEq, Eq)]
pub enum Operand {
    V,
    W,
    K,
    T,
    N,
}

use Operand::{K, N, T, V, W};

pub const OPERANDS: [Operand; 5] = [V, W, K, T, N];

/// Document 01's table: each word, and its operands in their order.
pub const WORDS: [(&str, &[Operand]); 15] = [
    ("set", &[V, N]),
    ("add", &[V, W]),
    ("sub", &[V, W]),
    ("mul", &[V, W]),
    ("div", &[V, W]),
    ("read", &[V, K]),
    ("has", &[V, K]),
    ("put", &[K, V]),
    ("drop", &[K]),
    ("ifneg", &[V, T]),
    ("ifzero", &[V, T]),
    ("jump", &[T]),
    ("receive", &[]),
    ("send", &[]),
    ("stop", &[]),
];

impl Coded {
    pub fn operand(&self, operand: Operand) -> i64 {
        match operand {
            V => self.v.into(),
            W => self.w.into(),
            K => self.k.into(),
            T => self.t.into(),
            N => self.n.into(),
        }
    }

    /// The word and its operands, if there is such a word.
    pub fn row(&self) -> Option<&'static (&'static str, &'static [Operand])> {
        WORDS.get(self.word as usize)
    }
}

/// The owner that this number is in a record of this form. Reading: of form 1 a secret has no owner's name,
/// and the number is 0; of form 2 it is the byte of the owner's letter.
pub fn owner_of(form: Form, number: u32) -> Option<Owner> {
    let owners = form.owners().iter().copied();
    let mut named = owners.map(|owner| (owner, owner_number(owner)));
    let found = named.find(|&(_, named)| named == number);
    found.map(|(owner, _)| owner)
}

fn owner_number(owner: Owner) -> u32 {
    match owner {
        Owner::H => 0,
        Owner::A | Owner::B => owner.letter().into(),
    }
}

/// Why a record gets 54: "a number or count in the record is outside its limits in document 01, a turn
/// letter is neither `L` nor `H`, keys don't rise, or a target exceeds the count of commands"; by Note 8
/// each form "with its own letters and limits".
#[derive(Debug, Clone, Copy, PartialEq, Eq, PartialOrd, Ord)]
pub enum Fault {
    Form,
    Keys,
    SecretCount,
    SecretKey,
    SecretOrder,
    Owner,
    CommandCount,
    Word,
    Variable,
    CommandKey,
    Target,
    /// Reading: an operand that the word lacks has the limit 0; else it would not come back when the
    /// written sheet is read.
    Lacking,
    MessageCount,
    EntryCount,
    EntryKey,
    EntryOrder,
    LetterCount,
    Letter,
}

/// Every kind of fault of a record, in what its counts cover.
pub fn faults(record: &Record) -> BTreeSet<Fault> {
    let mut found = Found(BTreeSet::new());
    let form = form_of(record);
    found.test(form.is_some(), Fault::Form);
    let limits = limits_of(form);
    found.test(within(record.keys, 1, limits.keys), Fault::Keys);
    found.test_secrets(record, form);
    let count = record.command_count;
    found.test(within(count, 1, limits.commands), Fault::CommandCount);
    for command in record.commands() {
        found.test_command(command, record);
    }
    let count = record.message_count;
    found.test(within(count, 0, limits.messages), Fault::MessageCount);
    for message in record.messages() {
        found.test_message(message, record.keys);
    }
    let count = record.letter_count;
    found.test(within(count, 1, limits.turns), Fault::LetterCount);
    for &letter in record.letters() {
        let stands = form.is_none_or(|form| form.level(letter).is_some());
        found.test(stands, Fault::Letter);
    }
    found.0
}

/// The form of a record, if its number is that of one.
pub fn form_of(record: &Record) -> Option<Form> {
    Form::of(record.form as usize)
}

/// The limits of a form. Without a form a record is refused whatever else it holds, and by those of form 2.
fn limits_of(form: Option<Form>) -> Limits {
    form.unwrap_or(Form::Two).limits()
}

fn within(count: u32, lowest: usize, highest: usize) -> bool {
    (lowest as u64..=highest as u64).contains(&count.into())
}

/// The faults that were found.
struct Found(BTreeSet<Fault>);

impl Found {
    fn test(&mut self, holds: bool, fault: Fault) {
        if !holds {
            self.0.insert(fault);
        }
    }

    /// Reading: a secret line has a key of its own, so there are at most K.
    fn test_secrets(&mut self, record: &Record, form: Option<Form>) {
        let (count, keys) = (record.secret_count, record.keys);
        let fits = count <= keys && within(count, 0, SECRETS);
        self.test(fits, Fault::SecretCount);
        for secret in record.secrets() {
            self.test(secret.key < keys, Fault::SecretKey);
            let owned = form.is_none_or(|form| owner_of(form, secret.owner).is_some());
            self.test(owned, Fault::Owner);
        }
        let rises = |two: &[Secret]| two[0].key < two[1].key;
        self.test(record.secrets().windows(2).all(rises), Fault::SecretOrder);
    }

    fn test_command(&mut self, command: &Coded, record: &Record) {
        let Some((_, operands)) = command.row() else {
            self.test(false, Fault::Word);
            return;
        };
        for operand in OPERANDS {
            let (limit, fault) = match operand {
                _ if !operands.contains(&operand) => {
                    self.test(command.operand(operand) == 0, Fault::Lacking);
                    continue;
                }
                V | W => (VARIABLES as i64 - 1, Fault::Variable),
                K => (i64::from(record.keys) - 1, Fault::CommandKey),
                // Reading: also where reading would say 4, above 64.
                T => (record.command_count.into(), Fault::Target),
                N => continue,
            };
            self.test(command.operand(operand) <= limit, fault);
        }
    }

    fn test_message(&mut self, message: &Message, keys: u32) {
        let count = message.entry_count;
        let fits = count <= keys && within(count, 0, ENTRIES);
        self.test(fits, Fault::EntryCount);
        for entry in message.entries() {
            self.test(entry.key < keys, Fault::EntryKey);
        }
        let rises = |two: &[Entry]| two[0].key < two[1].key;
        self.test(message.entries().windows(2).all(rises), Fault::EntryOrder);
    }
}

// ---------------------------------------------------------------------------------------------
// Writing and reading
// ---------------------------------------------------------------------------------------------

/// The text of a record, line by line. Of one with faults it is no sheet of that record.
pub fn text(record: &Record) -> Vec<u8> {
    let mut text = format!("sheet={}\nkeys={}\n", record.form, record.keys);
    for &Secret { key, dummy, owner } in record.secrets() {
        text += &format!("secret={key}:{dummy}");
        if record.form == 2 {
            text += &format!(":{}", char::from_u32(owner).unwrap_or('?'));
        }
        text += "\n";
    }
    for command in record.commands() {
        let (word, operands) = command.row().unwrap_or(&("?", &[]));
        text += &format!("do={word}");
        for &operand in *operands {
            text += &format!(" {}", command.operand(operand));
        }
        text += "\n";
    }
    for message in record.messages() {
        let part = |entry: &Entry| format!("{}:{}", entry.key, entry.value);
        let parts: Vec<String> = message.entries().iter().map(part).collect();
        text += &format!("msg={}\n", parts.join(","));
    }
    [text.as_bytes(), b"turns=", record.letters(), b"\n"].concat()
}

/// Writes a record as a sheet. "The answer is number and bytes; a refusal writes nothing." First 54,
/// then "55, after it, if the lent memory is too short". Reading: exactly enough is enough.
pub fn write(record: &Record, output: &mut [u8]) -> [u32; 2] {
    if !faults(record).is_empty() {
        return [54, 0];
    }
    let text = text(record);
    if text.len() > output.len() {
        return [55, 0];
    }
    output[..text.len()].copy_from_slice(&text);
    [0, text.len() as u32]
}

/// Reads a sheet into a record: number and line as a run gives them. A refusal leaves the record as it was.
pub fn open(sheet: &[u8], record: &mut Record) -> [u32; 2] {
    match read(sheet) {
        Ok(job) => {
            *record = laid_over(&record_of(&job), record);
            [0, 0]
        }
        Err(refusal) => [refusal.number, refusal.line],
    }
}

/// The old record with all that the counts of the new one cover taken from there. What they do not cover
/// keeps its bytes.
pub fn laid_over(new: &Record, old: &Record) -> Record {
    let mut record = old.clone();
    record.form = new.form;
    record.keys = new.keys;
    record.secret_count = new.secret_count;
    record.secrets[..new.secrets().len()].copy_from_slice(new.secrets());
    record.command_count = new.command_count;
    record.commands[..new.commands().len()].copy_from_slice(new.commands());
    record.message_count = new.message_count;
    for (message, new) in record.messages.iter_mut().zip(new.messages()) {
        message.entry_count = new.entry_count;
        message.entries[..new.entries().len()].copy_from_slice(new.entries());
    }
    record.letter_count = new.letter_count;
    record.letters[..new.letters().len()].copy_from_slice(new.letters());
    record
}

/// What an accepted sheet says, as a record. Every place that its counts do not cover is 0.
pub fn record_of(job: &Job) -> Record {
    let mut record = EMPTY;
    record.form = job.form.number() as u32;
    record.keys = job.keys as u32;
    for (key, secret) in (0..).zip(&job.secrets) {
        if let &Some(model::Secret { dummy, owner }) = secret {
            let owner = owner_number(owner);
            record.secrets[record.secret_count as usize] = Secret { key, dummy, owner };
            record.secret_count += 1;
        }
    }
    record.command_count = job.commands.len() as u32;
    for (place, &command) in record.commands.iter_mut().zip(&job.commands) {
        *place = coded_of(command);
    }
    record.message_count = job.messages.len() as u32;
    for (message, entries) in record.messages.iter_mut().zip(&job.messages) {
        for (key, value) in (0..).zip(entries) {
            if let &Some(value) = value {
                message.entries[message.entry_count as usize] = Entry { key, value };
                message.entry_count += 1;
            }
        }
    }
    record.letter_count = job.turns.len() as u32;
    for (letter, level) in record.letters.iter_mut().zip(&job.turns) {
        *letter = level.letter();
    }
    record
}

/// The command as numbers; its word is 0 to 14, in the order of document 01's table.
fn coded_of(command: Command) -> Coded {
    let number = |operand: usize| operand as u32;
    let vw = |word, v, w| coded(word, number(v), number(w), 0, 0, 0);
    let vk = |word, v, k| coded(word, number(v), 0, number(k), 0, 0);
    let vt = |word, v, t| coded(word, number(v), 0, 0, number(t), 0);
    match command {
        Command::Set(v, n) => coded(0, number(v), 0, 0, 0, n),
        Command::Add(v, w) => vw(1, v, w),
        Command::Sub(v, w) => vw(2, v, w),
        Command::Mul(v, w) => vw(3, v, w),
        Command::Div(v, w) => vw(4, v, w),
        Command::Read(v, k) => vk(5, v, k),
        Command::Has(v, k) => vk(6, v, k),
        Command::Put(k, v) => vk(7, v, k),
        Command::Drop(k) => vk(8, 0, k),
        Command::IfNeg(v, t) => vt(9, v, t),
        Command::IfZero(v, t) => vt(10, v, t),
        Command::Jump(t) => vt(11, 0, t),
        Command::Receive => vw(12, 0, 0),
        Command::Send => vw(13, 0, 0),
        Command::Stop => vw(14, 0, 0),
    }
}

/// The job of a record without faults.
pub fn job_of(record: &Record) -> Job {
    let form = form_of(record).expect("it has a form");
    let keys = record.keys as usize;
    let mut secrets = vec![None; keys];
    for &Secret { key, dummy, owner } in record.secrets() {
        let owner = owner_of(form, owner).expect("it is an owner of this form");
        secrets[key as usize] = Some(model::Secret { dummy, owner });
    }
    let message = |message: &Message| {
        let mut entries = vec![None; keys];
        for entry in message.entries() {
            entries[entry.key as usize] = Some(entry.value);
        }
        entries
    };
    let level = |&letter: &u8| form.level(letter).expect("it is a letter of this form");
    Job {
        form,
        keys,
        secrets,
        commands: record.commands().iter().map(command_of).collect(),
        messages: record.messages().iter().map(message).collect(),
        turns: record.letters().iter().map(level).collect(),
    }
}

fn command_of(coded: &Coded) -> Command {
    let [v, w, k, t] = [coded.v, coded.w, coded.k, coded.t].map(|number| number as usize);
    match coded.word {
        0 => Command::Set(v, coded.n),
        1 => Command::Add(v, w),
        2 => Command::Sub(v, w),
        3 => Command::Mul(v, w),
        4 => Command::Div(v, w),
        5 => Command::Read(v, k),
        6 => Command::Has(v, k),
        7 => Command::Put(k, v),
        8 => Command::Drop(k),
        9 => Command::IfNeg(v, t),
        10 => Command::IfZero(v, t),
        11 => Command::Jump(t),
        12 => Command::Receive,
        13 => Command::Send,
        14 => Command::Stop,
        word => panic!("{word} is a fault"),
    }
}

// ---------------------------------------------------------------------------------------------
// What a C program calls
// ---------------------------------------------------------------------------------------------

/// Writes the record that these bytes are. As in document 01, an answer memory of another length gets
/// 10, "returned before anything else, nothing written".
pub fn write_entry(record: &[u8], output: &mut [u8], answer: &mut [u8]) -> u32 {
    if answer.len() != ANSWER_BYTES {
        return 10;
    }
    let numbers = write(&unpack(record), output);
    write_numbers(answer, &numbers);
    numbers[0]
}

/// Reads a sheet into the record that these bytes are.
pub fn read_entry(sheet: &[u8], record: &mut [u8], answer: &mut [u8]) -> u32 {
    if answer.len() != ANSWER_BYTES {
        return 10;
    }
    let mut changed = unpack(record);
    let numbers = open(sheet, &mut changed);
    record.copy_from_slice(&pack(&changed));
    write_numbers(answer, &numbers);
    numbers[0]
}

/// A line for tests: `answer=` and the two numbers.
pub fn answer_line(numbers: [u32; 2]) -> Vec<u8> {
    numbers_line("answer", &numbers)
}

/// Every number that the counts cover, for tests and for a reader: a line for the form and the keys, for
/// each secret, command and message, and for the letters.
pub fn listing(record: &Record) -> String {
    let mut listing = format!("form {} keys {}\n", record.form, record.keys);
    for Secret { key, dummy, owner } in record.secrets() {
        listing += &format!("secret {key} {dummy} {owner}\n");
    }
    for Coded {
        word,
        v,
        w,
        k,
        t,
        n,
    } in record.commands()
    {
        listing += &format!("command {word} {v} {w} {k} {t} {n}\n");
    }
    for message in record.messages() {
        listing += "message";
        for Entry { key, value } in message.entries() {
            listing += &format!(" {key}:{value}");
        }
        listing += "\n";
    }
    listing + &format!("letters {}\n", record.letters().escape_ascii())
}
