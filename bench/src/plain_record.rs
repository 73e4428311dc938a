//! A record saved as a sheet, and a sheet opened as a record, as a straightforward Rust program: safe,
//! idiomatic, not tuned. Saving answers what Notes 7 and 8 of document 02 demand. Opening reads with the
//! program that runs sheets, so it accepts what document 01 and Note 8 accept, but does not say why it
//! refuses the others.

use crate::plain::{read, targets_good, turns_good, Command, Entries, Form, Job, Owner};
use crate::plain::{Secret, Secrets, MOST_COMMANDS, MOST_KEYS, VARIABLES};
use pavebox::{Command as Coded, Entry, Job as Record, Message, OWNER_A, OWNER_B};

/// No sheet of a record is longer.
const MOST_SHEET: usize = 6_286;

// Saving.

/// Saves a record: the number and the bytes written.
pub fn save(record: &Record, output: &mut [u8]) -> [u32; 2] {
    let Some(job) = job_of(record) else {
        return [54, 0];
    };
    let sheet = sheet_of(&job);
    match output.get_mut(..sheet.len()) {
        Some(place) => {
            place.copy_from_slice(&sheet);
            [0, sheet.len() as u32]
        }
        None => [55, 0],
    }
}

/// The job that a record is, if its numbers are within their limits.
fn job_of(record: &Record) -> Option<Job<'_>> {
    let form = match record.form {
        1 => Form::One,
        2 => Form::Two,
        _ => return None,
    };
    let keys = record.keys as usize;
    if !(1..=MOST_KEYS).contains(&keys) {
        return None;
    }
    let secrets = secrets_of(covered(&record.secrets, record.secret_count)?, form, keys)?;
    let commands = commands_of(covered(&record.commands, record.command_count)?, keys)?;
    let messages = messages_of(covered(&record.messages, record.message_count)?, keys)?;
    let turns = covered(&record.letters, record.letter_count)?;
    if !targets_good(&commands) || !turns_good(form, turns) {
        return None;
    }
    Some(Job {
        form,
        keys,
        secrets,
        commands,
        messages,
        turns,
    })
}

/// The places that a count covers.
fn covered<T>(places: &[T], count: u32) -> Option<&[T]> {
    places.get(..count as usize)
}

fn secrets_of(secrets: &[pavebox::Secret], form: Form, keys: usize) -> Option<Secrets> {
    let secret = |coded: &pavebox::Secret| {
        let owner = owner_of(form, coded.owner)?;
        let dummy = coded.dummy;
        Some((coded.key, Secret { dummy, owner }))
    };
    by_key(secrets.iter().map(secret), keys)
}

fn owner_of(form: Form, number: u32) -> Option<Owner> {
    match (form, number) {
        (Form::One, 0) => Some(Owner::H),
        (Form::Two, OWNER_A) => Some(Owner::A),
        (Form::Two, OWNER_B) => Some(Owner::B),
        _ => None,
    }
}

/// What stands at keys that rise, each at the place of its key.
fn by_key<T: Copy>(
    parts: impl Iterator<Item = Option<(u32, T)>>,
    keys: usize,
) -> Option<[Option<T>; MOST_KEYS]> {
    let mut places = [None; MOST_KEYS];
    let mut lowest = 0;
    for part in parts {
        let (key, value) = part?;
        let key = key as usize;
        if !(lowest..keys).contains(&key) {
            return None;
        }
        places[key] = Some(value);
        lowest = key + 1;
    }
    Some(places)
}

fn commands_of(commands: &[Coded], keys: usize) -> Option<Vec<Command>> {
    if !(1..=MOST_COMMANDS).contains(&commands.len()) {
        return None;
    }
    let command = |coded| command_of(coded, keys);
    commands.iter().map(command).collect()
}

fn command_of(coded: &Coded, keys: usize) -> Option<Command> {
    let [v, w, k, t] = [coded.v, coded.w, coded.k, coded.t].map(|number| number as usize);
    if v >= VARIABLES || w >= VARIABLES || k >= keys {
        return None;
    }
    let command = match coded.word {
        0 => Command::Set(v, coded.n),
        1 => Command::Add(v, w),
        2 => Command::Sub(v, w),
        3 => Command::Mul(v, w),
        4 => Command::Div(v, w),
        5 => Command::Read(v, k),
        6 => Command::Has(v, k),
        7 => Command::Put(k, v),
        8 => Command::Drop(k),
        9 => Command::IfNeg(v, t),
        10 => Command::IfZero(v, t),
        11 => Command::Jump(t),
        12 => Command::Receive,
        13 => Command::Send,
        14 => Command::Stop,
        _ => return None,
    };
    // An operand that the word lacks would not come back.
    (coded_of(command) == *coded).then_some(command)
}

fn messages_of(messages: &[Message], keys: usize) -> Option<Vec<Entries>> {
    let entry = |entry: &Entry| Some((entry.key, entry.value));
    let message = |message: &Message| {
        let entries = covered(&message.entries, message.entry_count)?;
        by_key(entries.iter().map(entry), keys)
    };
    messages.iter().map(message).collect()
}

pub fn sheet_of(job: &Job) -> Vec<u8> {
    let mut text = Vec::with_capacity(MOST_SHEET);
    text.extend_from_slice(match job.form {
        Form::One => b"sheet=1\nkeys=",
        Form::Two => b"sheet=2\nkeys=",
    });
    write_small(&mut text, job.keys);
    text.push(b'\n');
    for (key, &secret) in job.secrets.iter().enumerate() {
        if let Some(Secret { dummy, owner }) = secret {
            text.extend_from_slice(b"secret=");
            write_entry(&mut text, key, dummy);
            write_owner(&mut text, owner);
            text.push(b'\n');
        }
    }
    for &command in &job.commands {
        text.extend_from_slice(b"do=");
        write_command(&mut text, command);
        text.push(b'\n');
    }
    for message in &job.messages {
        text.extend_from_slice(b"msg=");
        write_message(&mut text, message);
        text.push(b'\n');
    }
    text.extend_from_slice(b"turns=");
    text.extend_from_slice(job.turns);
    text.push(b'\n');
    text
}

/// In a sheet of form 1 no owner is named.
fn write_owner(text: &mut Vec<u8>, owner: Owner) {
    match owner {
        Owner::H => {}
        Owner::A => text.extend_from_slice(b":A"),
        Owner::B => text.extend_from_slice(b":B"),
    }
}

fn write_message(text: &mut Vec<u8>, message: &Entries) {
    let mut first = true;
    for (key, &value) in message.iter().enumerate() {
        if let Some(value) = value {
            if !first {
                text.push(b',');
            }
            first = false;
            write_entry(text, key, value);
        }
    }
}

fn write_entry(text: &mut Vec<u8>, key: usize, value: i32) {
    write_small(text, key);
    text.push(b':');
    write_number(text, value);
}

fn write_command(text: &mut Vec<u8>, command: Command) {
    match command {
        Command::Set(v, n) => {
            text.extend_from_slice(b"set ");
            write_small(text, v);
            text.push(b' ');
            write_number(text, n);
        }
        Command::Add(v, w) => write_words(text, b"add", &[v, w]),
        Command::Sub(v, w) => write_words(text, b"sub", &[v, w]),
        Command::Mul(v, w) => write_words(text, b"mul", &[v, w]),
        Command::Div(v, w) => write_words(text, b"div", &[v, w]),
        Command::Read(v, k) => write_words(text, b"read", &[v, k]),
        Command::Has(v, k) => write_words(text, b"has", &[v, k]),
        Command::Put(k, v) => write_words(text, b"put", &[k, v]),
        Command::Drop(k) => write_words(text, b"drop", &[k]),
        Command::IfNeg(v, t) => write_words(text, b"ifneg", &[v, t]),
        Command::IfZero(v, t) => write_words(text, b"ifzero", &[v, t]),
        Command::Jump(t) => write_words(text, b"jump", &[t]),
        Command::Receive => write_words(text, b"receive", &[]),
        Command::Send => write_words(text, b"send", &[]),
        Command::Stop => write_words(text, b"stop", &[]),
    }
}

fn write_words(text: &mut Vec<u8>, word: &[u8], operands: &[usize]) {
    text.extend_from_slice(word);
    for &operand in operands {
        text.push(b' ');
        write_small(text, operand);
    }
}

/// A number of one digit or two.
fn write_small(text: &mut Vec<u8>, number: usize) {
    if number >= 10 {
        text.push(b'0' + (number / 10) as u8);
    }
    text.push(b'0' + (number % 10) as u8);
}

/// A number of the full range.
fn write_number(text: &mut Vec<u8>, number: i32) {
    if number < 0 {
        text.push(b'-');
    }
    let mut digits = [0; 10];
    let mut first = digits.len();
    let mut rest = number.unsigned_abs();
    loop {
        first -= 1;
        digits[first] = b'0' + (rest % 10) as u8;
        rest /= 10;
        if rest == 0 {
            break;
        }
    }
    text.extend_from_slice(&digits[first..]);
}

// Opening.

/// Opens a sheet as a record: the number and the line, or nothing if the sheet is not accepted.
pub fn open(sheet: &[u8], record: &mut Record) -> Option<[u32; 2]> {
    fill(record, &read(sheet)?);
    Some([0, 0])
}

/// Puts a job into the record. What its counts do not cover stays as it is.
fn fill(record: &mut Record, job: &Job) {
    record.form = match job.form {
        Form::One => 1,
        Form::Two => 2,
    };
    record.keys = job.keys as u32;
    record.secret_count = 0;
    for (key, &secret) in job.secrets.iter().enumerate() {
        if let Some(Secret { dummy, owner }) = secret {
            record.secrets[record.secret_count as usize] = pavebox::Secret {
                key: key as u32,
                dummy,
                owner: owner_number(owner),
            };
            record.secret_count += 1;
        }
    }
    record.command_count = job.commands.len() as u32;
    for (place, &command) in record.commands.iter_mut().zip(&job.commands) {
        *place = coded_of(command);
    }
    record.message_count = job.messages.len() as u32;
    for (place, message) in record.messages.iter_mut().zip(&job.messages) {
        fill_message(place, message);
    }
    record.letter_count = job.turns.len() as u32;
    record.letters[..job.turns.len()].copy_from_slice(job.turns);
}

fn owner_number(owner: Owner) -> u32 {
    match owner {
        Owner::H => 0,
        Owner::A => OWNER_A,
        Owner::B => OWNER_B,
    }
}

fn fill_message(place: &mut Message, message: &Entries) {
    place.entry_count = 0;
    for (key, &value) in message.iter().enumerate() {
        if let Some(value) = value {
            let key = key as u32;
            place.entries[place.entry_count as usize] = Entry { key, value };
            place.entry_count += 1;
        }
    }
}

/// A command as numbers, with 0 for each operand that its word lacks.
fn coded_of(command: Command) -> Coded {
    let mut coded = Coded::default();
    match command {
        Command::Set(v, n) => {
            coded.v = v as u32;
            coded.n = n;
        }
        Command::Add(v, w) | Command::Sub(v, w) | Command::Mul(v, w) | Command::Div(v, w) => {
            coded.v = v as u32;
            coded.w = w as u32;
        }
        Command::Read(v, k) | Command::Has(v, k) | Command::Put(k, v) => {
            coded.v = v as u32;
            coded.k = k as u32;
        }
        Command::Drop(k) => coded.k = k as u32,
        Command::IfNeg(v, t) | Command::IfZero(v, t) => {
            coded.v = v as u32;
            coded.t = t as u32;
        }
        Command::Jump(t) => coded.t = t as u32,
        Command::Receive | Command::Send | Command::Stop => {}
    }
    coded.word = word_of(command);
    coded
}

fn word_of(command: Command) -> u32 {
    match command {
        Command::Set(..) => 0,
        Command::Add(..) => 1,
        Command::Sub(..) => 2,
        Command::Mul(..) => 3,
        Command::Div(..) => 4,
        Command::Read(..) => 5,
        Command::Has(..) => 6,
        Command::Put(..) => 7,
        Command::Drop(..) => 8,
        Command::IfNeg(..) => 9,
        Command::IfZero(..) => 10,
        Command::Jump(..) => 11,
        Command::Receive => 12,
        Command::Send => 13,
        Command::Stop => 14,
    }
}

#[cfg(test)]
mod tests {
    use crate::records::record_in;
    use pavebox::Job;
    use reference::corners::records::{corners, opened};
    use reference::generate::records::{arbitrary_by, damaged_again_by, damaged_by, memory_length};
    use reference::generate::records::{old_by, passing_by};
    use reference::generate::{self, Rng, Shape};
    use reference::model::Form;
    use reference::record::{listing, open, pack, text, write, Record};

    /// The same record, as a C program has it.
    fn job(record: &Record) -> Job {
        record_in(&pack(record)).clone()
    }

    fn check_saving(record: &Record, lent: usize) {
        let (mut output, mut wanted) = (vec![b'~'; lent], vec![b'~'; lent]);
        let found = super::save(&job(record), &mut output);
        let numbers = write(record, &mut wanted);
        assert_eq!(found, numbers, "{}", listing(record));
        assert!(output == wanted, "{}", listing(record));
    }

    fn check_opening(sheet: &[u8], before: &Record) {
        let (mut found, mut wanted) = (job(before), before.clone());
        let numbers = open(sheet, &mut wanted);
        let accepted = (numbers == [0, 0]).then_some(numbers);
        let sheet_text = sheet.escape_ascii();
        assert_eq!(super::open(sheet, &mut found), accepted, "{sheet_text}");
        assert!(found == job(&wanted), "{sheet_text}");
    }

    fn check_random_saving(form: Form, seed: u64) {
        let mut rng = Rng::new(seed);
        for place in 0..20_000 {
            let record = match place % 5 {
                0 => arbitrary_by(form, &mut rng),
                1 | 2 => damaged_by(form, &mut rng),
                3 => damaged_again_by(form, &mut rng),
                _ => passing_by(form, &mut rng),
            };
            let lent = memory_length(&mut rng, &record);
            check_saving(&record, lent);
        }
    }

    #[test]
    fn it_saves_what_the_reference_saves_and_refuses_what_it_refuses() {
        for corner in corners() {
            check_saving(&corner.record, corner.lent);
        }
        check_random_saving(Form::One, 1);
        check_random_saving(Form::Two, 2);
    }

    fn check_random_opening(form: Form, seed: u64) {
        let mut rng = Rng::new(seed);
        for place in 0..20_000 {
            let sheet = match place % 6 {
                0 => generate::noise_by(form, &mut rng),
                1 | 2 => generate::damaged_by(form, &mut rng),
                3 => text(&passing_by(form, &mut rng)),
                4 => generate::crossed(&mut rng),
                _ => {
                    let shape = rng.pick(&Shape::ALL);
                    generate::accepted_by(form, &mut rng, shape)
                }
            };
            // What was there before may be of either form.
            let before = rng.pick(&Form::ALL);
            check_opening(&sheet, &old_by(before, &mut rng));
        }
    }

    #[test]
    fn it_opens_what_the_reference_opens_and_refuses_what_it_refuses() {
        let mut rng = Rng::new(3);
        let sheets = reference::corners::corners().into_iter();
        let opened = opened().into_iter().map(|corner| corner.sheet);
        for sheet in opened.chain(sheets.map(|corner| corner.sheet)) {
            check_opening(&sheet, &old_by(Form::One, &mut rng));
        }
        check_random_opening(Form::One, 4);
        check_random_opening(Form::Two, 5);
    }
}
