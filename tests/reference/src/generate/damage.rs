//! Faults for sheets, grouped by the refusal that each is meant to bring about, and random lines.
//!
//! A fault is a change of text. It may meet another fault, or a sheet without the lines it looks
//! for, so what it leads to is for the model to say.

// All line faults have one type, also those that change no count of lines.
#![allow(clippy::ptr_arg)]

use super::{value, Rng};
use crate::model::{Form, MOST_BYTES, MOST_COMMANDS, MOST_MESSAGES, MOST_TURNS};

pub(super) type Line = Vec<u8>;
/// A change of the lines of a sheet, none of which holds its line feed.
pub(super) type LineFault = fn(&mut Rng, &mut Vec<Line>);
/// A change of the bytes of a sheet.
type ByteFault = fn(&mut Rng, &mut Vec<u8>);

const NAMES: &[LineFault] = &[
    delete_line,
    repeat_line,
    swap_lines,
    misspell_name,
    lose_equals,
    follow_turns,
    end_early,
    misplace_line,
];
const NUMBERS: &[LineFault] = &[
    spoil_number,
    spoil_number,
    spoil_number,
    spoil_head,
    spoil_parts,
    spoil_parts,
    key_beyond,
];
const KEY_ORDER: &[LineFault] = &[disorder_message, disorder_message, disorder_secrets];
const WORDS: &[LineFault] = &[spoil_word, spoil_spaces, spoil_spaces];
const TARGETS: &[LineFault] = &[aim_beyond];
const COUNTS: &[LineFault] = &[
    too_many_commands,
    too_many_messages,
    too_many_letters,
    too_many_elsewhere,
];
const LETTERS: &[LineFault] = &[spoil_letters];
const BYTES: &[ByteFault] = &[forbidden_byte, forbidden_byte, forbidden_byte, open_end];
const ANY_BYTE: &[ByteFault] = &[change_byte];
const LENGTH: &[ByteFault] = &[overlong];

/// The sheet with one fault.
pub fn damage(rng: &mut Rng, sheet: &[u8]) -> Vec<u8> {
    match rng.below(24) {
        0 => with_bytes(rng, sheet, LENGTH),
        1 | 2 => with_bytes(rng, sheet, BYTES),
        3..=5 => with_lines(rng, sheet, NAMES),
        6..=8 => with_lines(rng, sheet, NUMBERS),
        9..=11 => with_lines(rng, sheet, KEY_ORDER),
        12..=14 => with_lines(rng, sheet, WORDS),
        15..=17 => with_lines(rng, sheet, TARGETS),
        18 | 19 => with_lines(rng, sheet, COUNTS),
        20..=22 => with_lines(rng, sheet, LETTERS),
        _ => with_bytes(rng, sheet, ANY_BYTE),
    }
}

fn with_bytes(rng: &mut Rng, sheet: &[u8], faults: &[ByteFault]) -> Vec<u8> {
    let mut sheet = sheet.to_vec();
    rng.pick(faults)(rng, &mut sheet);
    sheet
}

/// Splits the sheet into lines, changes them, and joins them again. Bytes after the last line feed
/// stay as they are.
pub(super) fn with_lines(rng: &mut Rng, sheet: &[u8], faults: &[LineFault]) -> Vec<u8> {
    let mut lines: Vec<Line> = sheet.split(|&byte| byte == b'\n').map(Line::from).collect();
    let tail = lines.pop().unwrap_or_default();
    rng.pick(faults)(rng, &mut lines);
    let mut changed = Vec::new();
    for line in lines {
        changed.extend(line);
        changed.push(b'\n');
    }
    changed.extend(tail);
    changed
}

/// The places of the lines that begin with `name`.
pub(super) fn places(lines: &[Line], name: &str) -> Vec<usize> {
    let begins = |&place: &usize| lines[place].starts_with(name.as_bytes());
    (0..lines.len()).filter(begins).collect()
}

/// The place of one line that begins with `name`, if there is one.
pub(super) fn place_of(rng: &mut Rng, lines: &[Line], name: &str) -> Option<usize> {
    let places = places(lines, name);
    (!places.is_empty()).then(|| rng.pick(&places))
}

/// The place after the last line that begins with `name`; without one, the place before `turns`.
fn place_after(lines: &[Line], name: &str) -> usize {
    match places(lines, name).last() {
        Some(last) => last + 1,
        None => lines.len().saturating_sub(1),
    }
}

pub(super) fn keys(lines: &[Line]) -> usize {
    let digit = places(lines, "keys=").first().map(|&place| &lines[place]);
    match digit.and_then(|line| line.get(5)) {
        Some(&digit @ b'1'..=b'8') => usize::from(digit - b'0'),
        _ => 1,
    }
}

// Refusal 1.

/// Fills the sheet up to 16,384 bytes or over it, in front of its last line feed or after it.
fn overlong(rng: &mut Rng, sheet: &mut Vec<u8>) {
    let length = rng.pick(&[0, 1, 1, 1, 2, 200]) + MOST_BYTES;
    let missing = length.saturating_sub(sheet.len());
    let filling: Vec<u8> = match rng.below(4) {
        0 => vec![b'L'; missing],
        1 => b"msg=0:1\n".iter().copied().cycle().take(missing).collect(),
        2 => vec![b'\n'; missing],
        _ => vec![0; missing],
    };
    let place = if rng.chance(1, 2) {
        sheet.len().saturating_sub(1)
    } else {
        sheet.len()
    };
    sheet.splice(place..place, filling);
}

// Refusal 2.

fn forbidden_byte(rng: &mut Rng, sheet: &mut Vec<u8>) {
    let byte = rng.pick(&[0, 1, 9, 11, 13, 31, 127, 128, 160, 255]);
    let place = rng.below(sheet.len() + 1);
    if rng.chance(1, 2) || place == sheet.len() {
        sheet.insert(place, byte);
    } else {
        sheet[place] = byte;
    }
}

/// No line feed at the end, by one way or another.
fn open_end(rng: &mut Rng, sheet: &mut Vec<u8>) {
    match rng.below(8) {
        0 => sheet.clear(),
        1 => sheet.extend(b"msg=0:1"),
        2 => sheet.push(b' '),
        3 => sheet.truncate(rng.below(sheet.len() + 1)),
        _ => sheet.truncate(sheet.len().saturating_sub(1)),
    }
}

// Refusal 3.

pub(super) fn delete_line<T>(rng: &mut Rng, lines: &mut Vec<T>) {
    if !lines.is_empty() {
        lines.remove(rng.below(lines.len()));
    }
}

pub(super) fn repeat_line<T: Clone>(rng: &mut Rng, lines: &mut Vec<T>) {
    if !lines.is_empty() {
        let place = rng.below(lines.len());
        lines.insert(place, lines[place].clone());
    }
}

pub(super) fn swap_lines<T>(rng: &mut Rng, lines: &mut Vec<T>) {
    if !lines.is_empty() {
        let (first, second) = (rng.below(lines.len()), rng.below(lines.len()));
        lines.swap(first, second);
    }
}

/// Another name, or one that only looks right.
fn misspell_name(rng: &mut Rng, lines: &mut Vec<Line>) {
    const NAMES: [&str; 16] = [
        "", " ", "sheet", "keys", "secret", "do", "msg", "turns", "Do", " do", "do ", "secrets",
        "turn", "MSG", "key", "do:",
    ];
    if lines.is_empty() {
        return;
    }
    let place = rng.below(lines.len());
    if let Some(equals) = lines[place].iter().position(|&byte| byte == b'=') {
        let name = rng.pick(&NAMES);
        lines[place].splice(..equals, name.bytes());
    }
}

fn lose_equals(rng: &mut Rng, lines: &mut Vec<Line>) {
    if lines.is_empty() {
        return;
    }
    let place = rng.below(lines.len());
    if let Some(equals) = lines[place].iter().position(|&byte| byte == b'=') {
        lines[place].remove(equals);
    }
}

/// "Nothing follows": something does.
fn follow_turns(rng: &mut Rng, lines: &mut Vec<Line>) {
    let more = rng.pick(&["", " ", "turns=L", "msg=0:1", "do=stop", "sheet=1", "="]);
    lines.push(Line::from(more));
}

fn end_early(rng: &mut Rng, lines: &mut Vec<Line>) {
    lines.truncate(rng.below(lines.len() + 1));
}

fn misplace_line(rng: &mut Rng, lines: &mut Vec<Line>) {
    let line = rng.pick(&["secret=0:1", "do=stop", "msg=", "keys=1", "sheet=1", ""]);
    lines.insert(rng.below(lines.len() + 1), Line::from(line));
}

// Refusal 4.

/// Numbers that are malformed, or beyond some limit, or just at it.
pub(super) const BAD_NUMBERS: [&str; 28] = [
    "",
    "00",
    "01",
    "-0",
    "-00",
    "-01",
    "+1",
    "--1",
    "-",
    "1-",
    "1 ",
    "1x",
    "0x1",
    "1.5",
    "1:2",
    "=1",
    "-1",
    "8",
    "9",
    "64",
    "65",
    "2147483647",
    "2147483648",
    "-2147483648",
    "-2147483649",
    "4294967296",
    "9223372036854775808",
    "-99999999999999999999",
];

/// Puts a bad number in place of one of a random line.
fn spoil_number(rng: &mut Rng, lines: &mut Vec<Line>) {
    let name = rng.pick(&["secret=", "do=", "do=", "msg=", "msg=", "keys=", "sheet="]);
    let Some(place) = place_of(rng, lines, name) else {
        return;
    };
    let line = &lines[place];
    let in_number = |place: usize| line[place].is_ascii_digit() || line[place] == b'-';
    let starts: Vec<usize> = (name.len()..line.len())
        .filter(|&place| in_number(place) && !in_number(place - 1))
        .collect();
    if starts.is_empty() {
        return;
    }
    let start = rng.pick(&starts);
    let length = (start..line.len())
        .take_while(|&place| in_number(place))
        .count();
    let bad = rng.pick(&BAD_NUMBERS);
    lines[place].splice(start..start + length, bad.bytes());
}

/// A key that is K or more, though mostly below 8.
fn key_beyond(rng: &mut Rng, lines: &mut Vec<Line>) {
    let count = keys(lines);
    let key = rng.pick(&[count, count, count + 1, 7, 8]);
    match rng.below(6) {
        0 => lines.insert(lines.len().min(2), Line::from(format!("secret={key}:1"))),
        1 => put_message(rng, lines, Line::from(format!("msg={key}:1"))),
        2 => put_message(rng, lines, Line::from(format!("msg=0:1,{key}:x"))),
        _ => {
            let words = rng.pick(&["do=read 0 K", "do=has 7 K", "do=put K 0", "do=drop K"]);
            let words = words.replace('K', &key.to_string());
            put_command(rng, lines, Line::from(words));
        }
    }
}

/// A bad number in one of the first two lines.
fn spoil_head(rng: &mut Rng, lines: &mut Vec<Line>) {
    let bad = rng.pick(&[
        "sheet=2",
        "sheet=0",
        "sheet=",
        "sheet=01",
        "sheet=1 ",
        "sheet=1=1",
        "keys=0",
        "keys=9",
        "keys=-1",
        "keys=",
        "keys=08",
        "keys= 1",
        "keys=10",
    ]);
    let place = usize::from(bad.starts_with("keys"));
    if place < lines.len() {
        lines[place] = Line::from(bad);
    }
}

/// A part of a message or a secret that is no `key:value`.
fn spoil_parts(rng: &mut Rng, lines: &mut Vec<Line>) {
    const MESSAGES: [&str; 16] = [
        "msg=,",
        "msg=0:1,",
        "msg=,0:1",
        "msg=0",
        "msg=0:",
        "msg=:1",
        "msg=:",
        "msg=0:1:2",
        "msg= 0:1",
        "msg=0: 1",
        "msg=0=1",
        "msg=0:1;",
        "msg=0:1,,",
        "msg= ",
        "msg=8:1",
        "msg=-1:1",
    ];
    const SECRETS: [&str; 8] = [
        "secret=",
        "secret=0",
        "secret=0:",
        "secret=:0",
        "secret=0:1,1:1",
        "secret=0:1:2",
        "secret=8:1",
        "secret=0 1",
    ];
    if rng.chance(2, 3) {
        let line = rng.pick(&MESSAGES);
        put_message(rng, lines, Line::from(line));
    } else {
        let line = rng.pick(&SECRETS);
        let place = lines.len().min(2);
        lines.insert(place, Line::from(line));
    }
}

/// Puts a message line in place of another, or in as the last.
fn put_message(rng: &mut Rng, lines: &mut Vec<Line>, line: Line) {
    match place_of(rng, lines, "msg=") {
        Some(place) => lines[place] = line,
        None => lines.insert(place_after(lines, "do="), line),
    }
}

// Refusal 5.

/// A message whose keys do not rise; at times a bad number stands beside.
fn disorder_message(rng: &mut Rng, lines: &mut Vec<Line>) {
    let count = keys(lines);
    let (first, second) = (rng.below(count), rng.below(count));
    let (high, low) = (first.max(second), first.min(second));
    let mut text = format!("msg={high}:{},{low}:{}", value(rng), value(rng));
    match rng.below(10) {
        0 => text.push('x'),
        1 => text.push_str(",9:9"),
        2 => text.push_str(":1"),
        3 => text = format!("msg={high}:01,{low}:1"),
        4 => text = format!("msg={high}:1,0{low}:1"),
        5 => text = format!("msg={high}:1,{low}"),
        _ => {}
    }
    put_message(rng, lines, Line::from(text));
}

/// Secret keys that do not rise; at times the second has a bad dummy.
fn disorder_secrets(rng: &mut Rng, lines: &mut Vec<Line>) {
    let count = keys(lines);
    let (first, second) = (rng.below(count), rng.below(count));
    let (high, low) = (first.max(second), first.min(second));
    let dummy = rng.pick(&["0", "5", "-7", "-0", "x", ""]);
    let place = lines.len().min(2);
    lines.insert(place, Line::from(format!("secret={low}:{dummy}")));
    lines.insert(place, Line::from(format!("secret={high}:1")));
}

// Refusal 6.

/// A command word that is not in the table.
fn spoil_word(rng: &mut Rng, lines: &mut Vec<Line>) {
    let line = rng.pick(&[
        "do=",
        "do= ",
        "do=Stop",
        "do=STOP",
        "do=halt",
        "do=sen",
        "do=sends",
        "do=recieve 9",
        "do=jmp 0",
        "do=if 0 0",
        "do=set=0 1",
        "do=0",
        "do=do=stop",
        "do=loop 3",
        "do=neg 0 99",
    ]);
    put_command(rng, lines, Line::from(line));
}

/// A space too many or too few, or a part too many or too few.
fn spoil_spaces(rng: &mut Rng, lines: &mut Vec<Line>) {
    let Some(place) = place_of(rng, lines, "do=") else {
        return;
    };
    let line = &mut lines[place];
    let spaces: Vec<usize> = (3..line.len()).filter(|&at| line[at] == b' ').collect();
    match rng.below(6) {
        0 => line.push(b' '),
        1 => line.insert(3, b' '),
        2 => line.extend(b" 0"),
        3 => line.extend(b" 99999999999"),
        4 if !spaces.is_empty() => line.insert(rng.pick(&spaces), b' '),
        5 if !spaces.is_empty() => line.truncate(rng.pick(&spaces)),
        _ => line.extend(b"  "),
    }
}

fn put_command(rng: &mut Rng, lines: &mut [Line], line: Line) {
    if let Some(place) = place_of(rng, lines, "do=") {
        lines[place] = line;
    }
}

// Refusal 7.

/// A target near the count of commands or near 64.
fn aim_beyond(rng: &mut Rng, lines: &mut Vec<Line>) {
    let count = places(lines, "do=").len();
    let target = rng.pick(&[
        count,
        count + 1,
        count + 1,
        count + 1,
        count + 2,
        64,
        64,
        65,
    ]);
    let words = rng.pick(&["jump", "ifneg 0", "ifzero 7"]);
    put_command(rng, lines, Line::from(format!("do={words} {target}")));
}

// Refusal 8.

fn too_many_commands(rng: &mut Rng, lines: &mut Vec<Line>) {
    let last = rng.pick(&["do=stop", "do=send", "do=", "do=jump 65", "do=set 9 9"]);
    let count = places(lines, "do=").len();
    let most = rng.pick(&[MOST_COMMANDS, MOST_COMMANDS + 1, MOST_COMMANDS + 1]);
    insert_more(lines, "do=", "do=receive", last, most.saturating_sub(count));
}

fn too_many_messages(rng: &mut Rng, lines: &mut Vec<Line>) {
    let last = rng.pick(&["msg=", "msg=0:1", "msg=9", "msg=0:1,0:1"]);
    let count = places(lines, "msg=").len();
    let most = rng.pick(&[MOST_MESSAGES, MOST_MESSAGES + 1, MOST_MESSAGES + 1]);
    insert_more(lines, "msg=", "msg=0:0", last, most.saturating_sub(count));
}

/// Inserts `missing` lines after those with `name`, `last` as the last of them.
fn insert_more(lines: &mut Vec<Line>, name: &str, line: &str, last: &str, missing: usize) {
    let place = match name {
        "msg=" if places(lines, name).is_empty() => place_after(lines, "do="),
        _ => place_after(lines, name),
    };
    for more in 0..missing {
        let text = if more == 0 { last } else { line };
        lines.insert(place, Line::from(text));
    }
}

fn too_many_letters(rng: &mut Rng, lines: &mut Vec<Line>) {
    fill_letters(rng, lines, b"LH");
}

/// As many letters of these as may be, or more.
pub(super) fn fill_letters(rng: &mut Rng, lines: &mut [Line], letters: &[u8]) {
    let Some(place) = place_of(rng, lines, "turns=") else {
        return;
    };
    let most = rng.pick(&[MOST_TURNS, MOST_TURNS + 1, MOST_TURNS + 1, MOST_TURNS + 2]);
    let wrong = rng.chance(1, 4);
    let line = &mut lines[place];
    while line.len() < "turns=".len() + most {
        line.push(rng.pick(letters));
    }
    if wrong {
        let place = rng.between("turns=".len(), line.len() - 1);
        line[place] = b'x';
    }
}

/// One too many, in a place where its name may not stand.
fn too_many_elsewhere(rng: &mut Rng, lines: &mut Vec<Line>) {
    match rng.below(3) {
        0 => {
            too_many_commands(rng, lines);
            lines.push(Line::from("do=stop"));
        }
        1 => {
            too_many_messages(rng, lines);
            lines.push(Line::from("msg="));
        }
        _ => {
            let mut line = Line::from("turns=");
            line.extend([b'H'; MOST_TURNS + 1]);
            lines.insert(rng.pick(&[0, 1, 2, lines.len()]).min(lines.len()), line);
        }
    }
}

// Refusal 9.

fn spoil_letters(rng: &mut Rng, lines: &mut Vec<Line>) {
    let Some(place) = place_of(rng, lines, "turns=") else {
        return;
    };
    let line = &mut lines[place];
    if rng.chance(1, 3) {
        line.truncate("turns=".len());
        return;
    }
    let wrong = rng.pick(b"lhMXI =,:10-~");
    let place = rng.between("turns=".len(), line.len());
    if rng.chance(1, 2) || place == line.len() {
        line.insert(place, wrong);
    } else {
        line[place] = wrong;
    }
}

// Any refusal, or none.

/// One byte changed, lost, added or taken from another place.
pub(super) fn change_byte(rng: &mut Rng, sheet: &mut Vec<u8>) {
    if sheet.is_empty() {
        return;
    }
    let (place, other) = (rng.below(sheet.len()), rng.below(sheet.len()));
    match rng.below(5) {
        0 => sheet[place] ^= 1 << rng.below(8),
        1 => sheet[place] = letter(rng),
        2 => sheet.insert(place, letter(rng)),
        3 => sheet.swap(place, other),
        _ => {
            sheet.remove(place);
        }
    }
}

// Noise.

/// A byte of the format's alphabet.
pub fn letter(rng: &mut Rng) -> u8 {
    rng.pick(b"\n\n=:, -0123456789LHabcdefghijklmnopqrstuvwxyz")
}

/// Lines of fragments, mostly in the order of the format, often after a head that is right.
pub fn random_lines(form: Form, rng: &mut Rng) -> Vec<u8> {
    let mut sheet = Vec::new();
    if rng.chance(9, 10) {
        sheet.extend(format!("sheet={}\nkeys=", form.number()).bytes());
        sheet.push(rng.pick(b"23478"));
        sheet.push(b'\n');
    }
    let counts = [("secret=", 2), ("do=", 4), ("msg=", 3), ("turns=", 1)];
    for (name, most) in counts {
        let least = usize::from(name == "do=" || name == "turns=");
        for _ in 0..rng.between(least, most) {
            random_line(form, rng, name, &mut sheet);
        }
    }
    sheet
}

/// A line that mostly has the name asked for.
fn random_line(form: Form, rng: &mut Rng, name: &str, sheet: &mut Vec<u8>) {
    const NAMES: [&str; 8] = [
        "sheet=", "keys=", "secret=", "do=", "msg=", "turns=", "", "do",
    ];
    let name = match rng.below(20) {
        0 => rng.pick(&NAMES),
        _ => name,
    };
    let text = match name {
        "do=" => random_words(rng),
        "msg=" => random_entries(rng),
        "secret=" => random_secret(form, rng),
        "turns=" => random_turns(form, rng).to_string(),
        _ => random_number(rng),
    };
    sheet.extend(name.bytes());
    sheet.extend(text.bytes());
    sheet.push(b'\n');
}

fn random_secret(form: Form, rng: &mut Rng) -> String {
    let entry = random_entry(rng);
    match form {
        Form::One => entry,
        Form::Two => format!("{entry}:{}", rng.pick(&["A", "A", "B", "B", "", "C", "A:"])),
    }
}

fn random_turns(form: Form, rng: &mut Rng) -> &'static str {
    match form {
        Form::One => rng.pick(&["L", "HL", "LLHH", "LHLHLHLH", "LxH", ""]),
        Form::Two => rng.pick(&["L", "AL", "LLAABB", "LABLABLABLAB", "LBxA", "LHL", ""]),
    }
}

/// A command word and numbers, mostly as many as the word asks for.
fn random_words(rng: &mut Rng) -> String {
    const WORDS: [(&str, usize); 17] = [
        ("set", 2),
        ("add", 2),
        ("sub", 2),
        ("mul", 2),
        ("div", 2),
        ("read", 2),
        ("has", 2),
        ("put", 2),
        ("drop", 1),
        ("ifneg", 2),
        ("ifzero", 2),
        ("jump", 1),
        ("receive", 0),
        ("send", 0),
        ("stop", 0),
        ("LH", 0),
        ("", 1),
    ];
    let (word, parts) = rng.pick(&WORDS);
    let parts = if rng.chance(1, 16) {
        rng.below(4)
    } else {
        parts
    };
    let mut words = vec![word.to_string()];
    words.extend((0..parts).map(|_| random_number(rng)));
    words.join(" ")
}

fn random_entries(rng: &mut Rng) -> String {
    let count = rng.below(4);
    let parts: Vec<String> = (0..count).map(|_| random_entry(rng)).collect();
    parts.join(",")
}

fn random_entry(rng: &mut Rng) -> String {
    let colon = match rng.below(20) {
        0 => rng.pick(&["::", "", " :", "="]),
        _ => ":",
    };
    format!("{}{colon}{}", random_number(rng), random_number(rng))
}

fn random_number(rng: &mut Rng) -> String {
    match rng.below(20) {
        0 => rng.pick(&BAD_NUMBERS).to_string(),
        1 => value(rng).to_string(),
        _ => rng.below(4).to_string(),
    }
}
