//! Faults for programs with blocks, programs at the limits, and lines of fragments.
//!
//! A fault is a change of text. It may meet another fault, or a text without the lines it looks for,
//! so what it leads to is for the model to say.

// All line faults have one type, also those that change no count of lines.
#![allow(clippy::ptr_arg)]

use super::blocks::{accepted, program_of, Program, Shape};
use super::damage::{change_byte, delete_line, repeat_line, swap_lines, BAD_NUMBERS};
use super::Rng;
use crate::blocks::MOST_DEPTH;
use crate::model::MOST_COMMANDS;

type Line = String;
/// A change of the lines of a text, none of which holds its line feed.
type LineFault = fn(&mut Rng, &mut Vec<Line>);
/// A change of the bytes of a text.
type ByteFault = fn(&mut Rng, &mut Vec<u8>);

/// Meant for 51, by an `else`, an `end` too many, an `end` too few.
const BLOCKS: &[LineFault] = &[
    more_else,
    more_else,
    move_else,
    more_end,
    more_end,
    lose_end,
    lose_end,
    lose_begin,
    swap_lines,
    delete_line,
    repeat_line,
];
/// Meant for 6.
const WORDS: &[LineFault] = &[other_word, spoil_spaces, spoil_spaces, bad_line, bad_line];
/// Meant for 4 at a line.
const NUMBERS: &[LineFault] = &[bad_number, bad_number, key_beyond];
/// Meant for 52.
const DEPTH: &[LineFault] = &[deepen];
/// Meant for 2.
const BYTES: &[ByteFault] = &[forbidden_byte, forbidden_byte, cut_off, cut_off, other_ends];

/// A program with one fault or some, so that every refusal occurs often. A few of the changes do no
/// harm.
pub fn damaged(rng: &mut Rng) -> Program {
    let mut program = accepted(rng);
    for _ in 0..rng.pick(&[1, 1, 2, 3]) {
        match rng.below(16) {
            0..=4 => with_lines(rng, &mut program, BLOCKS),
            5 | 6 => with_lines(rng, &mut program, WORDS),
            7 | 8 => with_lines(rng, &mut program, NUMBERS),
            9..=11 => with_lines(rng, &mut program, DEPTH),
            12 | 13 => rng.pick(BYTES)(rng, &mut program.text),
            14 => change_byte(rng, &mut program.text),
            _ if rng.chance(1, 2) => program.keys = other_keys(rng),
            _ => program.keys = rng.between(1, 8) as u32,
        }
    }
    program
}

/// Too many commands by some, or just as many as there may be, and at times a fault behind them or a
/// level too many.
pub fn boundary(rng: &mut Rng) -> Program {
    let shape = rng.pick(&[Shape::Full, Shape::Full, Shape::Deep]);
    let commands = rng.pick(&[MOST_COMMANDS - 1, MOST_COMMANDS, 65, 65, 65, 66, 100, 300]);
    let mut program = program_of(rng, shape, commands);
    if rng.chance(1, 4) {
        let behind = rng.pick(&[
            "nope", "end", "else", "if 0", "set 8 0", "send", "while 9", "",
        ]);
        program.text.extend(behind.bytes());
        program.text.push(b'\n');
    }
    if rng.chance(1, 8) {
        with_lines(rng, &mut program, DEPTH);
    }
    program
}

/// A K that is beyond its limit, or nearly.
pub fn other_keys(rng: &mut Rng) -> u32 {
    let any = rng.draw() as u32;
    rng.pick(&[
        0,
        0,
        9,
        9,
        10,
        16,
        256,
        257,
        65_537,
        1 << 31,
        u32::MAX,
        any,
        1,
        8,
    ])
}

/// Lines of fragments, or bytes that no maker writes.
pub fn noise(rng: &mut Rng) -> Program {
    let keys = match rng.below(12) {
        0 => other_keys(rng),
        _ => rng.between(1, 8) as u32,
    };
    let text = match rng.below(8) {
        0 => (0..rng.below(40)).map(|_| rng.draw() as u8).collect(),
        1 => (0..rng.below(12))
            .map(|_| rng.pick(b"if 0\nend\n\nelse"))
            .collect(),
        _ => random_lines(rng).into_bytes(),
    };
    Program { keys, text }
}

/// Lines that mostly are the dialect's, in any order.
fn random_lines(rng: &mut Rng) -> String {
    const GOOD: [&str; 12] = [
        "if 0", "if 1", "while 2", "else", "else", "end", "end", "end", "send", "receive",
        "set 0 1", "has 1 0",
    ];
    let mut text = String::new();
    for _ in 0..rng.between(1, 12) {
        let line = match rng.below(40) {
            0 => rng.pick(&BAD_LINES),
            _ => rng.pick(&GOOD),
        };
        text += line;
        text.push('\n');
    }
    text
}

fn with_lines(rng: &mut Rng, program: &mut Program, faults: &[LineFault]) {
    let text = String::from_utf8_lossy(&program.text).into_owned();
    let mut lines: Vec<Line> = text.split('\n').map(Line::from).collect();
    let tail = lines.pop().unwrap_or_default();
    rng.pick(faults)(rng, &mut lines);
    let lines: String = lines.iter().map(|line| line.to_owned() + "\n").collect();
    program.text = (lines + &tail).into_bytes();
}

/// The place of one line that begins with the word, if there is one.
fn place_of(rng: &mut Rng, lines: &[Line], word: &str) -> Option<usize> {
    let begins = |&place: &usize| lines[place].split(' ').next() == Some(word);
    let places: Vec<usize> = (0..lines.len()).filter(begins).collect();
    (!places.is_empty()).then(|| rng.pick(&places))
}

fn insert(rng: &mut Rng, lines: &mut Vec<Line>, line: &str) {
    let anywhere = rng.below(lines.len() + 1);
    let place = rng.pick(&[0, lines.len(), anywhere, anywhere]);
    lines.insert(place, line.to_string());
}

fn more_else(rng: &mut Rng, lines: &mut Vec<Line>) {
    let line = rng.pick(&["else", "else", "else 7", "else "]);
    insert(rng, lines, line);
}

fn move_else(rng: &mut Rng, lines: &mut Vec<Line>) {
    if let Some(place) = place_of(rng, lines, "else") {
        let line = lines.remove(place);
        insert(rng, lines, &line);
    }
}

fn more_end(rng: &mut Rng, lines: &mut Vec<Line>) {
    let line = rng.pick(&["end", "end", "end 0", "end "]);
    insert(rng, lines, line);
}

fn lose_end(rng: &mut Rng, lines: &mut Vec<Line>) {
    if let Some(place) = place_of(rng, lines, "end") {
        lines.remove(place);
    }
}

fn lose_begin(rng: &mut Rng, lines: &mut Vec<Line>) {
    let word = rng.pick(&["if", "while"]);
    if let Some(place) = place_of(rng, lines, word) {
        lines.remove(place);
    }
}

/// The first word of a line becomes another one, or one that only looks right.
fn other_word(rng: &mut Rng, lines: &mut Vec<Line>) {
    const OTHERS: [&str; 20] = [
        "", "if", "while", "else", "end", "jump", "ifneg", "ifzero", "If", "END", "set", "add",
        "drop", "stop", "sends", "loop", "elif", "for", "repeat", "until",
    ];
    if lines.is_empty() {
        return;
    }
    let place = rng.below(lines.len());
    let end = lines[place].find(' ').unwrap_or(lines[place].len());
    lines[place].replace_range(..end, rng.pick(&OTHERS));
}

/// A space too many or too few, or a part too many or too few.
fn spoil_spaces(rng: &mut Rng, lines: &mut Vec<Line>) {
    if lines.is_empty() {
        return;
    }
    let place = rng.below(lines.len());
    let line = &mut lines[place];
    match rng.below(6) {
        0 => line.push(' '),
        1 => line.insert(0, ' '),
        2 => line.push_str(" 0"),
        3 => *line = line.replace(' ', ""),
        4 => *line = line.replacen(' ', "  ", 1),
        _ => line.truncate(line.rfind(' ').unwrap_or(line.len())),
    }
}

const BAD_LINES: [&str; 17] = [
    "",
    " ",
    "nope",
    "jump 0",
    "jump x",
    "jump 65",
    "ifzero 0 1",
    "ifneg 0 1",
    "ifneg 8 0",
    "End",
    "if",
    "while",
    "if 0 0",
    "set 0",
    "if 8",
    "while -0",
    "drop 8",
];

fn bad_line(rng: &mut Rng, lines: &mut Vec<Line>) {
    let line = rng.pick(&BAD_LINES);
    insert(rng, lines, line);
}

/// A bad number in place of a part behind the word.
fn bad_number(rng: &mut Rng, lines: &mut Vec<Line>) {
    let has_number = |&place: &usize| lines[place].contains(' ');
    let places: Vec<usize> = (0..lines.len()).filter(has_number).collect();
    if places.is_empty() {
        return;
    }
    let place = rng.pick(&places);
    let mut parts: Vec<&str> = lines[place].split(' ').collect();
    let part = rng.between(1, parts.len() - 1);
    parts[part] = rng.pick(&BAD_NUMBERS);
    lines[place] = parts.join(" ");
}

/// A key that is K or more, though mostly below 8.
fn key_beyond(rng: &mut Rng, lines: &mut Vec<Line>) {
    let words = rng.pick(&["read 0 K", "has 7 K", "put K 0", "drop K"]);
    let key = rng.between(1, 8).to_string();
    insert(rng, lines, &words.replace('K', &key));
}

/// Levels around some of the lines: enough for a ninth, or nearly. The innermost, which may be the
/// ninth, is at times no good line.
fn deepen(rng: &mut Rng, lines: &mut Vec<Line>) {
    let levels = rng.pick(&[
        1,
        MOST_DEPTH - 1,
        MOST_DEPTH,
        MOST_DEPTH + 1,
        MOST_DEPTH + 1,
    ]);
    let (one, other) = (rng.below(lines.len() + 1), rng.below(lines.len() + 1));
    let (begin, end) = (one.min(other), one.max(other));
    for _ in 0..levels {
        lines.insert(end, "end".to_string());
    }
    for level in 0..levels {
        let line = match rng.below(4) {
            0 if level == 0 => rng.pick(&["if", "while", "if 9", "while 0 0", "if "]),
            _ => rng.pick(&["if 0", "if 1", "while 2"]),
        };
        lines.insert(begin, line.to_string());
    }
}

fn forbidden_byte(rng: &mut Rng, text: &mut Vec<u8>) {
    let byte = rng.pick(&[0, 1, 9, 11, 13, 31, 127, 128, 160, 255]);
    let anywhere = rng.below(text.len() + 1);
    let place = rng.pick(&[anywhere, anywhere, text.len()]);
    text.insert(place, byte);
}

/// The text ends early, often without its last line feed alone.
fn cut_off(rng: &mut Rng, text: &mut Vec<u8>) {
    let any = rng.below(text.len() + 1);
    let fewer = rng.pick(&[1, 1, any]);
    text.truncate(text.len().saturating_sub(fewer));
}

/// Line ends of another system.
fn other_ends(rng: &mut Rng, text: &mut Vec<u8>) {
    let end: &[u8] = rng.pick(&[b"\r\n".as_slice(), b"\r", b""]);
    let lines: Vec<&[u8]> = text.split(|&byte| byte == b'\n').collect();
    *text = lines.join(end);
}
