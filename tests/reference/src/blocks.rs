//! The reference model of Note 5 of document 02, "Programs with blocks": a text of the block dialect
//! becomes the `do` lines of a sheet.
//!
//! The lines are taken one after the other, with a list of the blocks that are open. What a program
//! of the dialect does by itself is not said here but in [`crate::block_run`].
//!
//! Words between quotation marks are the note's own. A comment that begins with "Reading:" names
//! the reading taken where the text leaves a choice, or seems to leave one.

use crate::model::{
    check_text, command, lines, numbers_line, parts, variable, words, write_numbers, Command,
    Refusal, MOST_COMMANDS, MOST_KEYS,
};

/// The answer memory: "number, line (0 on success) and bytes".
pub const ANSWER_BYTES: usize = 12;
/// The bytes that `blocks` lends. No text needs more: 64 lines of `do=set 7 -2147483648`, each with
/// its line feed.
pub const LENT: usize = MOST_COMMANDS * 21;
/// "nested at most 8 deep".
pub const MOST_DEPTH: usize = 8;

/// A block that is open.
enum Open {
    /// An `if` in its first body; the place of its test.
    First(usize),
    /// An `if` behind its `else`; the place of the jump after the first body.
    Second(usize),
    /// A `while`; the place of its test.
    While(usize),
}

/// Reads a text and translates it: the commands, as many as there are.
pub fn translated(text: &[u8], keys: u32) -> Result<Vec<Command>, Refusal> {
    // "The caller gives K; a K beyond its limit gets 4 at line 0, before all else."
    if !(1..=MOST_KEYS as u32).contains(&keys) {
        return Err(Refusal { number: 4, line: 0 });
    }
    // "Then 2 is tested over the whole text."
    check_text(text)?;
    let lines = lines(text);
    // Reading: of a line beyond the 32 bits of the answer, the low ones.
    let at = |line: usize| {
        move |number| Refusal {
            number,
            line: line as u32,
        }
    };
    let mut translation = Translation::new(keys as usize);
    for (line, text) in (1..).zip(&lines) {
        translation.take_line(text).map_err(at(line))?;
    }
    // 51: "a missing `end` (the line after the last)". Reading: once for all that are missing.
    if !translation.open.is_empty() {
        return Err(at(lines.len() + 1)(51));
    }
    Ok(translation.commands)
}

/// What the lines so far have given.
struct Translation {
    keys: usize,
    /// The innermost block last.
    open: Vec<Open>,
    commands: Vec<Command>,
}

impl Translation {
    fn new(keys: usize) -> Translation {
        Translation {
            keys,
            open: Vec::new(),
            commands: Vec::new(),
        }
    }

    /// One line: "51, line by line and before 6", "52, next on that line", and "A line's other faults
    /// get 6 and 4 as in `do` lines." A refusal comes back as its number.
    fn take_line(&mut self, text: &[u8]) -> Result<(), u32> {
        let parts = parts(text);
        self.check_place(parts[0])?;
        match parts.as_slice() {
            [b"if", v] => self.begin(variable(v)?, Open::First),
            [b"while", v] => self.begin(variable(v)?, Open::While),
            [b"else"] => self.begin_second(),
            [b"end"] => self.end(),
            // "the commands of document 01 except `jump`, `ifneg` and `ifzero`". Reading: such a line
            // has a word that is not in the table, whatever its other parts are.
            [b"jump" | b"ifneg" | b"ifzero", ..] => return Err(6),
            _ => self.commands.push(command(text, self.keys, MOST_COMMANDS)?),
        }
        Ok(())
    }

    /// 51 and 52. Reading: what a line is, its first word says, the part before its first space,
    /// however many parts follow; else 51 could never come before 6.
    fn check_place(&self, word: &[u8]) -> Result<(), u32> {
        match word {
            // 51: "an `else` not directly in an `if`'s first body".
            b"else" if !matches!(self.open.last(), Some(Open::First(_))) => Err(51),
            // 51: "an `end` outside blocks".
            b"end" if self.open.is_empty() => Err(51),
            // 52: "a ninth level". Reading: an `else` opens none.
            b"if" | b"while" if self.open.len() == MOST_DEPTH => Err(52),
            _ => Ok(()),
        }
    }

    /// The place of the next command.
    fn here(&self) -> usize {
        self.commands.len()
    }

    /// "`if` is one test before its body"; "`while` is a test before". "A block runs while, or if, v
    /// is not 0", so at 0 the test goes to a place that is known when the body ends.
    fn begin(&mut self, v: usize, open: fn(usize) -> Open) {
        self.open.push(open(self.here()));
        self.commands.push(Command::IfZero(v, 0));
    }

    /// "with `else` there is also a jump after the first body". Behind it the second one begins.
    fn begin_second(&mut self) {
        let Some(Open::First(test)) = self.open.pop() else {
            unreachable!("an `else` stands in a first body, or it is refused");
        };
        let jump = self.here();
        self.commands.push(Command::Jump(0));
        self.aim(test);
        self.open.push(Open::Second(jump));
    }

    fn end(&mut self) {
        match self.open.pop() {
            Some(Open::First(place) | Open::Second(place)) => self.aim(place),
            // "`while` is a test before and a jump back after".
            Some(Open::While(test)) => {
                self.commands.push(Command::Jump(test));
                self.aim(test);
            }
            None => unreachable!("an `end` closes a block, or it is refused"),
        }
    }

    /// The test or jump at this place goes to the place of the next command.
    fn aim(&mut self, place: usize) {
        let here = self.here();
        self.commands[place] = match self.commands[place] {
            Command::IfZero(v, _) => Command::IfZero(v, here),
            _ => Command::Jump(here),
        };
    }
}

/// "Out come `do` lines."
pub fn do_lines(commands: &[Command]) -> Vec<u8> {
    let line = |&command: &Command| format!("do={}\n", words(command));
    let text: String = commands.iter().map(line).collect();
    text.into_bytes()
}

/// Translates a text and writes its lines. "The answer is number, line (0 on success) and bytes; a
/// refusal writes nothing."
pub fn blocks(text: &[u8], keys: u32, output: &mut [u8]) -> [u32; 3] {
    let commands = match translated(text, keys) {
        Ok(commands) => commands,
        Err(refusal) => return [refusal.number, refusal.line, 0],
    };
    let lines = do_lines(&commands);
    // "53, last and at line 0, for more than 64 commands after translation or too little lent
    // memory". Reading: exactly enough is enough.
    if commands.len() > MOST_COMMANDS || lines.len() > output.len() {
        return [53, 0, 0];
    }
    output[..lines.len()].copy_from_slice(&lines);
    [0, 0, lines.len() as u32]
}

/// What a C program calls. As in document 01, an answer memory of another length gets 10, "returned
/// before anything else, nothing written".
pub fn c_entry(text: &[u8], keys: u32, output: &mut [u8], answer: &mut [u8]) -> u32 {
    if answer.len() != ANSWER_BYTES {
        return 10;
    }
    let numbers = blocks(text, keys, output);
    write_numbers(answer, &numbers);
    numbers[0]
}

/// The line that `blocks` prints on standard error: `answer=` and the three numbers.
pub fn answer_line(numbers: [u32; 3]) -> Vec<u8> {
    numbers_line("answer", &numbers)
}
