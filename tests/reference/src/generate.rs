//! Random sheets from a seed.
//!
//! The same seed gives the same sheets on every machine. Accepted sheets are made as a [`Job`] and
//! then written out by [`sheet_of`]; damaged ones begin as accepted ones. A function whose name ends with
//! `by` is given the form of the sheet; the one without makes sheets of form 1.

pub mod block_damage;
pub mod blocks;
mod damage;
pub mod forms;
pub mod honest;
pub mod log;
mod owners;
mod programs;
pub mod records;

use crate::model::{
    read, run, words, Form, Job, Level, Owner, Secret, HIGH, LENT, MOST_COMMANDS, MOST_KEYS,
    MOST_MESSAGES, MOST_TURNS,
};
pub use owners::crossed;

/// A small generator of pseudo-random numbers (splitmix64).
#[derive(Debug, Clone)]
pub struct Rng {
    state: u64,
}

impl Rng {
    pub fn new(seed: u64) -> Rng {
        Rng { state: seed }
    }

    pub fn draw(&mut self) -> u64 {
        self.state = self.state.wrapping_add(0x9e37_79b9_7f4a_7c15);
        let mut mixed = self.state;
        mixed = (mixed ^ (mixed >> 30)).wrapping_mul(0xbf58_476d_1ce4_e5b9);
        mixed = (mixed ^ (mixed >> 27)).wrapping_mul(0x94d0_49bb_1331_11eb);
        mixed ^ (mixed >> 31)
    }

    /// A number from 0 to `count` - 1. `count` must not be 0.
    pub fn below(&mut self, count: usize) -> usize {
        (self.draw() % count as u64) as usize
    }

    /// A number from `lowest` to `highest`, both included.
    pub fn between(&mut self, lowest: usize, highest: usize) -> usize {
        lowest + self.below(highest - lowest + 1)
    }

    /// True in `part` cases out of `whole`.
    pub fn chance(&mut self, part: usize, whole: usize) -> bool {
        self.below(whole) < part
    }

    /// One of a list that is not empty.
    pub fn pick<T: Copy>(&mut self, list: &[T]) -> T {
        list[self.below(list.len())]
    }
}

/// How large an accepted sheet is to be.
#[derive(Debug, Clone, Copy, PartialEq, Eq)]
pub enum Shape {
    /// A few lines.
    Small,
    /// Some dozens of lines.
    Medium,
    /// Near the limits, which are often reached.
    Large,
    /// An endless loop with 1,024 letters: a run in 32,768 bytes uses all of them.
    LongRun,
}

impl Shape {
    pub const ALL: [Shape; 4] = [Shape::Small, Shape::Medium, Shape::Large, Shape::LongRun];
}

/// A random sheet that the model accepts.
pub fn accepted(rng: &mut Rng, shape: Shape) -> Vec<u8> {
    accepted_by(Form::One, rng, shape)
}

pub fn accepted_by(form: Form, rng: &mut Rng, shape: Shape) -> Vec<u8> {
    sheet_of(&accepted_job_by(form, rng, shape))
}

/// An accepted sheet with one or two faults, so that every refusal occurs often. A few of the
/// changes do no harm (a target that equals the count of commands, say).
pub fn damaged(rng: &mut Rng) -> Vec<u8> {
    damaged_by(Form::One, rng)
}

pub fn damaged_by(form: Form, rng: &mut Rng) -> Vec<u8> {
    let shape = rng.pick(&[Shape::Small, Shape::Small, Shape::Medium]);
    let mut sheet = accepted_by(form, rng, shape);
    for _ in 0..rng.between(1, 2) {
        sheet = match form {
            Form::One => damage::damage(rng, &sheet),
            Form::Two => owners::damage(rng, &sheet),
        };
    }
    sheet
}

/// Bytes that are no work of a generator of sheets: random bytes, random text of the format's
/// alphabet, or random lines.
pub fn noise(rng: &mut Rng) -> Vec<u8> {
    noise_by(Form::One, rng)
}

pub fn noise_by(form: Form, rng: &mut Rng) -> Vec<u8> {
    match rng.below(4) {
        0 => {
            let count = rng.below(200);
            (0..count).map(|_| rng.draw() as u8).collect()
        }
        1 => {
            let count = rng.below(200);
            let mut text: Vec<u8> = (0..count).map(|_| damage::letter(rng)).collect();
            text.push(b'\n');
            text
        }
        _ => damage::random_lines(form, rng),
    }
}

/// Two accepted sheets that differ in secret entries of their message lines, by value or by
/// presence, and in nothing else.
pub fn secret_pair(rng: &mut Rng) -> (Vec<u8>, Vec<u8>) {
    secret_pair_by(Form::One, &[Owner::H], rng)
}

/// The same, where only entries of these owners differ. They must be owners of the form, and at least one.
pub fn secret_pair_by(form: Form, owners: &[Owner], rng: &mut Rng) -> (Vec<u8>, Vec<u8>) {
    let shape = rng.pick(&Shape::ALL);
    let mut first = accepted_job_by(form, rng, shape);
    if owners.iter().any(|&owner| !has_keys(&first, owner)) {
        give_keys(rng, &mut first, owners);
    }
    if first.messages.is_empty() {
        first.messages.push(vec![None; first.keys]);
    }
    let mut second = first.clone();
    for line in &mut second.messages {
        for (entry, secret) in line.iter_mut().zip(&first.secrets) {
            let theirs = secret.is_some_and(|secret| owners.contains(&secret.owner));
            if theirs && rng.chance(3, 4) {
                *entry = maybe(rng, 3, 4);
            }
        }
    }
    if first == second {
        make_different(rng, &mut second, owners);
    }
    (sheet_of(&first), sheet_of(&second))
}

fn has_keys(job: &Job, owner: Owner) -> bool {
    (0..job.keys).any(|key| job.secret_of(owner, key).is_some())
}

/// Makes a key of each of these owners secret, as far as there are keys.
fn give_keys(rng: &mut Rng, job: &mut Job, owners: &[Owner]) {
    let first = rng.below(job.keys);
    for (place, &owner) in owners.iter().enumerate() {
        let dummy = value(rng);
        job.secrets[(first + place) % job.keys] = Some(Secret { dummy, owner });
    }
}

/// Turns one secret entry of the first message line from present to absent, or back.
fn make_different(rng: &mut Rng, job: &mut Job, owners: &[Owner]) {
    let theirs = |secret: &Option<Secret>| secret.is_some_and(|s| owners.contains(&s.owner));
    let secret = job.secrets.iter().position(theirs);
    if let (Some(key), Some(line)) = (secret, job.messages.first_mut()) {
        line[key] = match line[key] {
            Some(_) => None,
            None => Some(value(rng)),
        };
    }
}

/// A length for the output memory: none, one byte short of some lines, exactly some lines, somewhat
/// more, or long enough for the whole run.
pub fn memory_length(rng: &mut Rng, sheet: &[u8]) -> usize {
    let (width, lines) = match read(sheet) {
        Ok(job) => {
            let width = job.line_length();
            let mut long = vec![0; width * MOST_TURNS];
            (width, run(&job, &mut long)[4] as usize / width)
        }
        Err(_) => (10 + 12 * rng.between(1, MOST_KEYS), rng.below(4)),
    };
    // Few lines more often than many, and at times one more than the run sends.
    let most = rng.pick(&[1, 2, 3, lines, lines, lines + 1]);
    let lines = rng.between(1, most.clamp(1, lines + 1));
    match rng.below(10) {
        0 => 0,
        1 | 2 => lines * width - 1,
        3 | 4 => lines * width,
        5 => lines * width + rng.below(width),
        6 => width * MOST_TURNS,
        _ => LENT,
    }
}

/// A random job of the given shape.
pub fn accepted_job(rng: &mut Rng, shape: Shape) -> Job {
    accepted_job_by(Form::One, rng, shape)
}

pub fn accepted_job_by(form: Form, rng: &mut Rng, shape: Shape) -> Job {
    let size = match form {
        Form::One => Size::of(rng, shape),
        Form::Two => owners::size(rng, shape),
    };
    let secrets = match form {
        Form::One => (0..size.keys).map(|_| of_one(maybe(rng, 1, 2))).collect(),
        Form::Two => owners::secrets(rng, size.keys),
    };
    let commands = match shape {
        Shape::LongRun => programs::endless(rng, &secrets),
        _ => programs::mixed(rng, &secrets, size.commands),
    };
    let messages = (0..size.messages)
        .map(|_| message(rng, size.keys))
        .collect();
    let turns = match form {
        Form::One => turns(rng, size.turns),
        Form::Two => owners::turns(rng, size.turns),
    };
    Job {
        form,
        keys: size.keys,
        secrets,
        commands,
        messages,
        turns,
    }
}

/// The secret of form 1 with this dummy.
fn of_one(dummy: Option<i32>) -> Option<Secret> {
    let owner = Owner::H;
    dummy.map(|dummy| Secret { dummy, owner })
}

/// The counts of a sheet.
struct Size {
    keys: usize,
    commands: usize,
    messages: usize,
    turns: usize,
}

impl Size {
    fn of(rng: &mut Rng, shape: Shape) -> Size {
        match shape {
            Shape::Small => Size {
                keys: rng.between(1, 2),
                commands: rng.between(1, 9),
                messages: rng.below(4),
                turns: rng.between(1, 36),
            },
            Shape::Medium => Size {
                keys: rng.between(1, 5),
                commands: rng.between(4, 24),
                messages: rng.below(9),
                turns: rng.between(8, 160),
            },
            Shape::Large => Size::large(rng),
            Shape::LongRun => Size {
                keys: rng.between(1, MOST_KEYS),
                commands: MOST_COMMANDS,
                messages: rng.between(0, MOST_MESSAGES),
                turns: MOST_TURNS,
            },
        }
    }

    fn large(rng: &mut Rng) -> Size {
        Size {
            keys: up_to(rng, 6, MOST_KEYS),
            commands: up_to(rng, 48, MOST_COMMANDS),
            messages: up_to(rng, 24, MOST_MESSAGES),
            turns: up_to(rng, 700, MOST_TURNS),
        }
    }
}

/// The limit itself in half of the cases, else something from `lowest` on.
fn up_to(rng: &mut Rng, lowest: usize, limit: usize) -> usize {
    if rng.chance(1, 2) {
        limit
    } else {
        rng.between(lowest, limit)
    }
}

/// A value: small, extreme, near a place where products leave the range, or anything.
fn value(rng: &mut Rng) -> i32 {
    const EXTREME: [i32; 12] = [
        i32::MIN,
        i32::MIN + 1,
        i32::MIN / 2,
        -65_536,
        -46_341,
        -46_340,
        46_340,
        46_341,
        65_536,
        i32::MAX / 2,
        i32::MAX - 1,
        i32::MAX,
    ];
    match rng.below(6) {
        0 => 0,
        1 | 2 => rng.below(21) as i32 - 10,
        3 => rng.below(200_001) as i32 - 100_000,
        4 => rng.pick(&EXTREME),
        _ => rng.draw() as i32,
    }
}

/// A value in `part` cases out of `whole`.
fn maybe(rng: &mut Rng, part: usize, whole: usize) -> Option<i32> {
    rng.chance(part, whole).then(|| value(rng))
}

/// A length for the output memory: none, one byte short of what is needed, exactly that, one byte or
/// somewhat more, any that is too short, or enough for every text.
fn length_near(rng: &mut Rng, needed: usize, enough: usize) -> usize {
    match rng.below(10) {
        0 => 0,
        1 => needed.saturating_sub(1),
        2..=4 => needed,
        5 => needed + 1,
        6 => needed + rng.below(100),
        7 => rng.below(needed + 1),
        _ => enough,
    }
}

fn message(rng: &mut Rng, keys: usize) -> Vec<Option<i32>> {
    if rng.chance(1, 10) {
        return vec![None; keys];
    }
    (0..keys).map(|_| maybe(rng, 3, 4)).collect()
}

/// Letters in one of several mixes.
fn turns(rng: &mut Rng, count: usize) -> Vec<Level> {
    let letter = |low: bool| if low { Level::Low } else { HIGH };
    match rng.below(22) {
        0..=4 => (0..count).map(|place| letter(place % 2 == 0)).collect(),
        5 | 6 => (0..count).map(|place| letter(place % 2 == 1)).collect(),
        7..=10 => (0..count).map(|_| letter(rng.chance(1, 2))).collect(),
        11 | 12 => (0..count).map(|_| letter(rng.chance(4, 5))).collect(),
        13..=15 => (0..count).map(|_| letter(rng.chance(1, 4))).collect(),
        16 => vec![Level::Low; count],
        17 if rng.chance(1, 2) => vec![HIGH; count],
        18 | 19 => late(rng, count),
        _ => bursts(rng, count),
    }
}

/// Both in turn, but the high execution begins late, and so stays some calls behind.
fn late(rng: &mut Rng, count: usize) -> Vec<Level> {
    let first = rng.between(2, 24);
    let high = |place| place >= first && place % 2 == 1;
    let letter = |place| if high(place) { HIGH } else { Level::Low };
    (0..count).map(letter).collect()
}

/// Several turns of one execution, then several of the other.
fn bursts(rng: &mut Rng, count: usize) -> Vec<Level> {
    let mut turns = Vec::new();
    let mut level = rng.pick(&[Level::Low, HIGH]);
    while turns.len() < count {
        let length = rng.between(1, 9).min(count - turns.len());
        turns.extend(vec![level; length]);
        level = match level {
            Level::Low => HIGH,
            _ => Level::Low,
        };
    }
    turns
}

/// Writes a job out as a sheet.
pub fn sheet_of(job: &Job) -> Vec<u8> {
    let mut sheet = format!("sheet={}\nkeys={}\n", job.form.number(), job.keys);
    for (key, secret) in job.secrets.iter().enumerate() {
        if let &Some(Secret { dummy, owner }) = secret {
            let owner = match job.form {
                Form::One => String::new(),
                Form::Two => format!(":{}", char::from(owner.letter())),
            };
            sheet.push_str(&format!("secret={key}:{dummy}{owner}\n"));
        }
    }
    for &command in &job.commands {
        sheet.push_str(&format!("do={}\n", words(command)));
    }
    for message in &job.messages {
        sheet.push_str(&format!("msg={}\n", entries(message)));
    }
    sheet.push_str("turns=");
    sheet.extend(job.turns.iter().map(|level| char::from(level.letter())));
    sheet.push('\n');
    sheet.into_bytes()
}

fn entries(message: &[Option<i32>]) -> String {
    let part = |(key, entry): (usize, &Option<i32>)| entry.map(|value| format!("{key}:{value}"));
    let parts: Vec<String> = message.iter().enumerate().filter_map(part).collect();
    parts.join(",")
}
