//! The `do` lines of a program with blocks as a straightforward Rust program: safe, idiomatic, not
//! tuned. It answers what Note 5 of document 02 demands.

use crate::plain::{small, value};

const MOST_KEYS: u32 = 8;
const MOST_COMMANDS: usize = 64;
const MOST_DEPTH: usize = 8;
const VARIABLES: usize = 8;
/// The bytes of the longest line: `do=set 7 -2147483648` and a line feed.
const MOST_LINE: usize = 21;

/// Why a program is refused: the number, and the line.
type Refusal = (u32, u32);

/// One command of the translation. A target is 0 until its place is known.
enum Command<'a> {
    /// A line as it stands.
    Own(&'a [u8]),
    IfZero(usize, usize),
    Jump(usize),
}

/// A block that is open, with the place of the command whose target is to come.
enum Open {
    First(usize),
    Second(usize),
    While(usize),
}

/// What stands between the spaces of a line behind its word.
enum Part {
    Variable,
    Key,
    Number,
}

/// Makes the lines of a program: the number, the line and the bytes written.
pub fn blocks(text: &[u8], keys: u32, output: &mut [u8]) -> [u32; 3] {
    let commands = match translate(text, keys) {
        Ok(commands) => commands,
        Err((number, line)) => return [number, line, 0],
    };
    if commands.len() > MOST_COMMANDS {
        return [53, 0, 0];
    }
    let lines = lines(&commands);
    match output.get_mut(..lines.len()) {
        Some(place) => {
            place.copy_from_slice(&lines);
            [0, 0, lines.len() as u32]
        }
        None => [53, 0, 0],
    }
}

fn translate(text: &[u8], keys: u32) -> Result<Vec<Command<'_>>, Refusal> {
    if !(1..=MOST_KEYS).contains(&keys) {
        return Err((4, 0));
    }
    check_bytes(text)?;
    let (mut commands, mut open) = (Vec::with_capacity(MOST_COMMANDS), Vec::new());
    let mut line = 0;
    for words in text[..text.len() - 1].split(|&byte| byte == b'\n') {
        line += 1;
        let done = take_line(words, keys as usize, &mut commands, &mut open);
        done.map_err(|number| (number, line))?;
    }
    if open.is_empty() {
        Ok(commands)
    } else {
        Err((51, line + 1))
    }
}

fn check_bytes(text: &[u8]) -> Result<(), Refusal> {
    let mut line = 1;
    for &byte in text {
        match byte {
            b'\n' => line += 1,
            32..=126 => {}
            _ => return Err((2, line)),
        }
    }
    if text.last() == Some(&b'\n') {
        Ok(())
    } else {
        Err((2, line))
    }
}

fn take_line<'a>(
    words: &'a [u8],
    keys: usize,
    commands: &mut Vec<Command<'a>>,
    open: &mut Vec<Open>,
) -> Result<(), u32> {
    let mut parts = words.split(|&byte| byte == b' ');
    let word = parts.next().unwrap_or_default();
    match word {
        b"else" if !matches!(open.last(), Some(Open::First(_))) => return Err(51),
        b"end" if open.is_empty() => return Err(51),
        b"if" | b"while" if open.len() == MOST_DEPTH => return Err(52),
        _ => {}
    }
    let wanted = parts_of(word).ok_or(6u32)?;
    if parts.clone().count() != wanted.len() {
        return Err(6);
    }
    let mut last = 0;
    for (part, wanted) in parts.zip(wanted) {
        last = number(part, wanted, keys).ok_or(4u32)?;
    }
    match word {
        b"if" => begin(last, Open::First, commands, open),
        b"while" => begin(last, Open::While, commands, open),
        b"else" => second(commands, open),
        b"end" => end(commands, open),
        _ => commands.push(Command::Own(words)),
    }
    Ok(())
}

/// What stands behind a word of the dialect.
fn parts_of(word: &[u8]) -> Option<&'static [Part]> {
    Some(match word {
        b"set" => &[Part::Variable, Part::Number],
        b"add" | b"sub" | b"mul" | b"div" => &[Part::Variable, Part::Variable],
        b"read" | b"has" => &[Part::Variable, Part::Key],
        b"put" => &[Part::Key, Part::Variable],
        b"drop" => &[Part::Key],
        b"if" | b"while" => &[Part::Variable],
        b"receive" | b"send" | b"stop" | b"else" | b"end" => &[],
        _ => return None,
    })
}

fn number(part: &[u8], wanted: &Part, keys: usize) -> Option<usize> {
    match wanted {
        Part::Variable => small(part, 0, VARIABLES - 1),
        Part::Key => small(part, 0, keys - 1),
        Part::Number => value(part).map(|_| 0),
    }
}

fn begin(v: usize, block: fn(usize) -> Open, commands: &mut Vec<Command>, open: &mut Vec<Open>) {
    open.push(block(commands.len()));
    commands.push(Command::IfZero(v, 0));
}

fn second(commands: &mut Vec<Command>, open: &mut Vec<Open>) {
    if let Some(Open::First(test)) = open.pop() {
        open.push(Open::Second(commands.len()));
        commands.push(Command::Jump(0));
        aim(commands, test);
    }
}

fn end(commands: &mut Vec<Command>, open: &mut Vec<Open>) {
    match open.pop() {
        Some(Open::First(place) | Open::Second(place)) => aim(commands, place),
        Some(Open::While(test)) => {
            commands.push(Command::Jump(test));
            aim(commands, test);
        }
        None => {}
    }
}

/// The command at this place goes to the place behind the last one.
fn aim(commands: &mut [Command], place: usize) {
    let here = commands.len();
    if let Command::IfZero(_, target) | Command::Jump(target) = &mut commands[place] {
        *target = here;
    }
}

fn lines(commands: &[Command]) -> Vec<u8> {
    let mut text = Vec::with_capacity(commands.len() * MOST_LINE);
    for command in commands {
        text.extend_from_slice(b"do=");
        match *command {
            Command::Own(words) => text.extend_from_slice(words),
            Command::IfZero(v, target) => {
                text.extend_from_slice(b"ifzero ");
                write_small(&mut text, v);
                text.push(b' ');
                write_small(&mut text, target);
            }
            Command::Jump(target) => {
                text.extend_from_slice(b"jump ");
                write_small(&mut text, target);
            }
        }
        text.push(b'\n');
    }
    text
}

/// A number of one digit or two.
fn write_small(text: &mut Vec<u8>, number: usize) {
    if number >= 10 {
        text.push(b'0' + (number / 10) as u8);
    }
    text.push(b'0' + (number % 10) as u8);
}

#[cfg(test)]
mod tests {
    use reference::blocks::blocks;
    use reference::corners::blocks::corners;
    use reference::generate::block_damage::{boundary, damaged, noise};
    use reference::generate::blocks::{accepted, memory_length, Program};
    use reference::generate::Rng;

    fn check(Program { keys, text }: &Program, lent: usize) {
        let (mut output, mut wanted) = (vec![b'~'; lent], vec![b'~'; lent]);
        let found = super::blocks(text, *keys, &mut output);
        let numbers = blocks(text, *keys, &mut wanted);
        let start = text[..text.len().min(200)].escape_ascii();
        assert_eq!(found, numbers, "K {keys} {start}");
        assert!(output == wanted, "K {keys} {start}");
    }

    #[test]
    fn it_answers_what_the_reference_answers() {
        for corner in corners() {
            let (keys, text) = (corner.keys, corner.text);
            check(&Program { keys, text }, corner.lent);
        }
        let mut rng = Rng::new(1);
        for place in 0..20_000 {
            let program = match place % 5 {
                0 => noise(&mut rng),
                1 | 2 => damaged(&mut rng),
                3 => boundary(&mut rng),
                _ => accepted(&mut rng),
            };
            check(&program, memory_length(&mut rng, &program));
        }
    }
}
