//! What random sheets of form 2 have of their own, for Note 8 of document 02: two owners of secrets,
//! turns of three executions, and lines and letters of the other form.

// All line faults have one type, also those that change no count of lines.
#![allow(clippy::ptr_arg)]

use super::{accepted_by, damage, maybe, value, Rng, Shape, Size};
use crate::model::{
    Form, Level, Owner, Secret, MOST_COMMANDS, MOST_KEYS, MOST_MESSAGES, MOST_TURNS,
};

/// Both owners.
const OWNERS: [Owner; 2] = [Owner::A, Owner::B];
/// The three executions.
const LEVELS: [Level; 3] = [Level::Low, Level::Of(Owner::A), Level::Of(Owner::B)];

/// The counts of a sheet. It has more keys, commands and letters than one of form 1, so that both owners
/// have a key, and each execution comes as far.
pub(super) fn size(rng: &mut Rng, shape: Shape) -> Size {
    match shape {
        Shape::Small => Size {
            keys: rng.pick(&[1, 2, 2, 2, 3, 3]),
            commands: rng.between(1, 14),
            messages: rng.below(4),
            turns: rng.between(1, 60),
        },
        Shape::Medium => Size {
            keys: rng.between(2, 5),
            commands: rng.between(4, 28),
            messages: rng.below(9),
            turns: rng.between(8, 240),
        },
        Shape::Large => Size::large(rng),
        Shape::LongRun => Size {
            keys: rng.between(2, MOST_KEYS),
            commands: MOST_COMMANDS,
            messages: rng.between(0, MOST_MESSAGES),
            turns: MOST_TURNS,
        },
    }
}

/// Secret keys of both owners in most cases, of one alone or of none at times.
pub(super) fn secrets(rng: &mut Rng, keys: usize) -> Vec<Option<Secret>> {
    let secret = |rng: &mut Rng| {
        maybe(rng, 4, 5).map(|dummy| Secret {
            dummy,
            owner: rng.pick(&OWNERS),
        })
    };
    let mut secrets: Vec<Option<Secret>> = (0..keys).map(|_| secret(rng)).collect();
    let mut found = secrets.iter_mut().flatten();
    if let (Some(first), Some(last)) = (found.next(), found.last()) {
        if rng.chance(3, 4) {
            last.owner = other(first.owner);
        }
    }
    secrets
}

pub(super) fn other(owner: Owner) -> Owner {
    match owner {
        Owner::A => Owner::B,
        _ => Owner::A,
    }
}

/// Letters in one of several mixes.
pub(super) fn turns(rng: &mut Rng, count: usize) -> Vec<Level> {
    match rng.below(20) {
        0..=5 => in_turn(rng, count),
        6..=8 => weighed(rng, count, [1, 1, 1]),
        9 | 10 => weighed(rng, count, [4, 1, 1]),
        11 => weighed(rng, count, [1, 2, 2]),
        12 => weighed(rng, count, [2, 3, 1]),
        13 => weighed(rng, count, [2, 1, 3]),
        14 => {
            let without = rng.pick(&[[1, 1, 0], [1, 0, 1], [1, 0, 0], [0, 1, 1], [9, 9, 1]]);
            weighed(rng, count, without)
        }
        15..=17 => late(rng, count),
        _ => bursts(rng, count),
    }
}

/// The three in one of their orders, again and again.
fn in_turn(rng: &mut Rng, count: usize) -> Vec<Level> {
    let (first, forth) = (rng.below(3), rng.chance(1, 2));
    let level = |place: usize| match forth {
        true => LEVELS[(first + place) % 3],
        false => LEVELS[(first + 2 * place) % 3],
    };
    (0..count).map(level).collect()
}

/// Each as often as its weight says.
fn weighed(rng: &mut Rng, count: usize, weights: [usize; 3]) -> Vec<Level> {
    let of = |(&level, weight)| vec![level; weight];
    let levels: Vec<Level> = LEVELS.iter().zip(weights).flat_map(of).collect();
    (0..count).map(|_| rng.pick(&levels)).collect()
}

/// One follower begins late, and the other later still.
fn late(rng: &mut Rng, count: usize) -> Vec<Level> {
    let begins = [0, rng.between(0, 40), rng.between(0, 40)];
    let level = |place: usize| match place >= begins[place % 3] {
        true => LEVELS[place % 3],
        false => Level::Low,
    };
    (0..count).map(level).collect()
}

/// Several turns of one execution, then several of another.
fn bursts(rng: &mut Rng, count: usize) -> Vec<Level> {
    let mut turns = Vec::new();
    while turns.len() < count {
        let length = rng.between(1, 9).min(count - turns.len());
        turns.extend(vec![rng.pick(&LEVELS); length]);
    }
    turns
}

/// An accepted sheet of either form with something of the other: its number, a secret line or all of
/// them, a letter or all of them. At times it does no harm.
pub fn crossed(rng: &mut Rng) -> Vec<u8> {
    let form = rng.pick(&Form::ALL);
    let shape = rng.pick(&[Shape::Small, Shape::Small, Shape::Medium]);
    let sheet = accepted_by(form, rng, shape);
    let lines = sheet.split(|&byte| byte == b'\n');
    let mut lines: Vec<Vec<u8>> = lines.map(Vec::from).collect();
    let [head, secrets, letters] = rng.pick(&[
        [true, false, false],
        [true, false, true],
        [true, true, false],
        [false, true, false],
        [false, false, true],
        [false, true, true],
    ]);
    if head {
        lines[0][6] ^= b'1' ^ b'2';
    }
    if secrets {
        cross_secrets(rng, form, &mut lines);
    }
    if letters {
        cross_letters(rng, form, &mut lines);
    }
    lines.join(&b'\n')
}

/// One secret line, or each, as the other form has it.
fn cross_secrets(rng: &mut Rng, form: Form, lines: &mut [Vec<u8>]) {
    let all = rng.chance(1, 2);
    let one = damage::place_of(rng, lines, "secret=");
    for place in damage::places(lines, "secret=") {
        if all || Some(place) == one {
            match form {
                Form::One => lines[place].extend([b':', rng.pick(b"AB")]),
                Form::Two => lines[place].truncate(lines[place].len() - 2),
            }
        }
    }
}

/// One letter, or each that is not `L`, as the other form has it.
fn cross_letters(rng: &mut Rng, form: Form, lines: &mut [Vec<u8>]) {
    let Some(place) = damage::place_of(rng, lines, "turns=") else {
        return;
    };
    let all = rng.chance(1, 2);
    let first = "turns=".len();
    let one = rng.between(first, lines[place].len() - 1);
    for (at, letter) in lines[place].iter_mut().enumerate().skip(first) {
        if at == one || (all && *letter != b'L') {
            *letter = match form {
                Form::One => rng.pick(b"AB"),
                Form::Two => b'H',
            };
        }
    }
}

// Faults of sheets of form 2.

type Line = damage::Line;

/// What stands where an owner should, and is none.
const NO_OWNERS: [&str; 22] = [
    "", "a", "b", "C", "H", "L", "AA", "AB", "BB", "A ", " B", "A:", ":A", ":", "A:B", "0", "65",
    "@", "A,1:1:B", "A=B", "-", "AL",
];

const FAULTS: &[damage::LineFault] = &[
    spoil_owner,
    spoil_owner,
    spoil_owner,
    put_secret,
    put_secret,
    put_secret,
    put_secret,
    disorder_secrets,
    disorder_secrets,
    spoil_head,
    spoil_letters,
    spoil_letters,
    too_many_letters,
];

/// A sheet of form 2 with one fault. Some are of this form alone, and the others are those of form 1.
pub(super) fn damage(rng: &mut Rng, sheet: &[u8]) -> Vec<u8> {
    match rng.below(24) {
        0..=11 => damage::with_lines(rng, sheet, FAULTS),
        _ => damage::damage(rng, sheet),
    }
}

/// A secret line with another owner; without one, such a line before all others.
fn spoil_owner(rng: &mut Rng, lines: &mut Vec<Line>) {
    let wrong = rng.pick(&NO_OWNERS);
    let Some(place) = damage::place_of(rng, lines, "secret=") else {
        let line = format!("secret=0:{}:{wrong}", value(rng));
        return lines.insert(lines.len().min(2), Line::from(line));
    };
    let line = &mut lines[place];
    if let Some(colon) = line.iter().rposition(|&byte| byte == b':') {
        line.splice(colon + 1.., wrong.bytes());
    }
}

/// A secret line, of which each part may be at fault: its key, its order, its dummy, its owner, and its
/// colons. It comes in place of another, or before all others, or behind them.
fn put_secret(rng: &mut Rng, lines: &mut Vec<Line>) {
    let line = Line::from(secret_line(rng, damage::keys(lines)));
    let places = damage::places(lines, "secret=");
    match (rng.below(3), places.last()) {
        (0, Some(_)) => lines[rng.pick(&places)] = line,
        (1, Some(&last)) => lines.insert(last + 1, line),
        _ => lines.insert(lines.len().min(2), line),
    }
}

pub(super) fn secret_line(rng: &mut Rng, keys: usize) -> String {
    let key = match rng.below(6) {
        0 => rng.pick(&damage::BAD_NUMBERS).to_string(),
        1 => rng.pick(&[keys, keys + 1, 8]).to_string(),
        _ => rng.below(keys).to_string(),
    };
    let dummy = match rng.below(4) {
        0 => rng.pick(&damage::BAD_NUMBERS).to_string(),
        _ => value(rng).to_string(),
    };
    let owner = match rng.below(2) {
        0 => rng.pick(&NO_OWNERS),
        _ => rng.pick(&["A", "B"]),
    };
    match rng.below(12) {
        0 => format!("secret={key}"),
        1 => format!("secret={key}:{dummy}"),
        2 => format!("secret={key}{owner}:{dummy}"),
        3 => format!("secret={key}:{dummy}:{owner}:{owner}"),
        4 => format!("secret={key}::{owner}"),
        _ => format!("secret={key}:{dummy}:{owner}"),
    }
}

/// Secret keys that do not rise; at times the second has a bad dummy, a bad owner, or no owner.
fn disorder_secrets(rng: &mut Rng, lines: &mut Vec<Line>) {
    let count = damage::keys(lines);
    let (first, second) = (rng.below(count), rng.below(count));
    let (high, low) = (first.max(second), first.min(second));
    let rest = rng.pick(&[
        "5:A", "-7:B", "0:B", "0:A", "-0:A", "x:B", "1:", "1:C", ":", "1",
    ]);
    let place = lines.len().min(2);
    lines.insert(place, Line::from(format!("secret={low}:{rest}")));
    let owner = rng.pick(&["A", "B"]);
    lines.insert(place, Line::from(format!("secret={high}:1:{owner}")));
}

/// Another number of the form.
fn spoil_head(rng: &mut Rng, lines: &mut Vec<Line>) {
    let head = rng.pick(&[
        "sheet=3",
        "sheet=0",
        "sheet=02",
        "sheet=2 ",
        "sheet= 2",
        "sheet=+2",
        "sheet=-2",
        "sheet=12",
        "sheet=22",
        "sheet=2=2",
        "sheet=",
        "sheet=1",
        "sheet=1",
        "sheet=4294967298",
    ]);
    if !lines.is_empty() {
        lines[0] = Line::from(head);
    }
}

/// A letter that is none, `H` among them.
fn spoil_letters(rng: &mut Rng, lines: &mut Vec<Line>) {
    let Some(place) = damage::place_of(rng, lines, "turns=") else {
        return;
    };
    let line = &mut lines[place];
    let place = rng.between("turns=".len(), line.len());
    let wrong = rng.pick(b"HHHhabClC@M :");
    if rng.chance(1, 3) || place == line.len() {
        line.insert(place, wrong);
    } else {
        line[place] = wrong;
    }
}

fn too_many_letters(rng: &mut Rng, lines: &mut Vec<Line>) {
    damage::fill_letters(rng, lines, b"LAB");
}
