//! Random programs with blocks from a seed.
//!
//! Accepted ones are written block by block, with a count of commands that is used up; those of
//! [`super::block_damage`] begin as accepted ones.

use super::{length_near, message, value, Rng};
use crate::blocks::{do_lines, translated, LENT, MOST_DEPTH};
use crate::model::{words, Command, MOST_COMMANDS, MOST_KEYS, VARIABLES};

/// A text of the block dialect, and the K that is given with it.
#[derive(Debug, Clone, PartialEq, Eq)]
pub struct Program {
    pub keys: u32,
    pub text: Vec<u8>,
}

/// How large an accepted program is to be.
#[derive(Debug, Clone, Copy, PartialEq, Eq)]
pub enum Shape {
    /// A few commands.
    Small,
    /// Some dozens.
    Medium,
    /// Near 64 commands, and often as many.
    Full,
    /// Blocks in blocks, often eight deep.
    Deep,
}

impl Shape {
    pub const ALL: [Shape; 4] = [Shape::Small, Shape::Medium, Shape::Full, Shape::Deep];

    /// The commands of a program of this shape.
    fn commands(self, rng: &mut Rng) -> usize {
        match self {
            Shape::Small => rng.between(1, 9),
            Shape::Medium => rng.between(6, 32),
            Shape::Full if rng.chance(1, 2) => MOST_COMMANDS,
            Shape::Full => rng.between(50, MOST_COMMANDS),
            Shape::Deep => rng.between(8, MOST_COMMANDS),
        }
    }
}

/// A random program that the model accepts.
pub fn accepted(rng: &mut Rng) -> Program {
    let shape = rng.pick(&Shape::ALL);
    let commands = shape.commands(rng);
    program_of(rng, shape, commands)
}

/// One of exactly so many commands, which may be too many.
pub fn program_of(rng: &mut Rng, shape: Shape, commands: usize) -> Program {
    let keys = rng.between(1, MOST_KEYS);
    let mut writer = Writer {
        rng,
        keys,
        deep: shape == Shape::Deep,
        depth: 0,
        text: String::new(),
    };
    writer.body(commands);
    Program {
        keys: keys as u32,
        text: writer.text.into_bytes(),
    }
}

/// A text as it is put together.
struct Writer<'a> {
    rng: &'a mut Rng,
    keys: usize,
    /// Whether most of what it writes is to be in blocks.
    deep: bool,
    /// The blocks that are open.
    depth: usize,
    text: String,
}

impl Writer<'_> {
    fn line(&mut self, words: &str) {
        self.text += words;
        self.text.push('\n');
    }

    fn add(&mut self, command: Command) {
        self.line(&words(command));
    }

    /// The first four variables more often, so that commands meet.
    fn variable(&mut self) -> usize {
        let count = self.rng.pick(&[4, 4, VARIABLES]);
        self.rng.below(count)
    }

    fn key(&mut self) -> usize {
        self.rng.below(self.keys)
    }

    /// Commands and blocks that give so many commands.
    fn body(&mut self, commands: usize) {
        let mut left = commands;
        while left > 0 {
            let block = if self.deep { 5 } else { 2 };
            let part = if self.depth < MOST_DEPTH && self.rng.chance(block, 6) {
                self.block(left)
            } else {
                self.plain();
                1
            };
            left -= part;
        }
    }

    /// A block, and what leads to it, of at most so many commands. Gives their count.
    fn block(&mut self, left: usize) -> usize {
        let v = self.variable();
        match self.rng.below(10) {
            8 if left >= 5 => self.counted_loop(left),
            9 if left >= 6 => self.message_loop(left),
            kind if left >= 3 && self.rng.chance(2, 3) => {
                self.lead_to(v);
                1 + self.block_on(v, kind, left - 1)
            }
            kind => self.block_on(v, kind, left),
        }
    }

    /// Gives a variable something that is mostly not 0.
    fn lead_to(&mut self, v: usize) {
        let (k, n) = (self.key(), value(self.rng));
        let command = match self.rng.below(6) {
            0 => Command::Set(v, -1),
            1 => Command::Has(v, k),
            2 => Command::Read(v, k),
            3 => Command::Set(v, n),
            _ => Command::Set(v, 1),
        };
        self.add(command);
    }

    fn block_on(&mut self, v: usize, kind: usize, left: usize) -> usize {
        match kind {
            0..=4 if left >= 2 => self.if_else(v, left),
            5 if left >= 2 => self.any_while(v, left),
            _ => self.if_alone(v, left),
        }
    }

    /// How many commands a body gets of those that are left: none at times, few or many; in a deep
    /// program mostly nearly all.
    fn share(&mut self, left: usize) -> usize {
        match self.rng.below(6) {
            0 if !self.deep => 0,
            1..=3 if !self.deep => self.rng.below(left.min(6) + 1),
            4 => left,
            5 => self.rng.below(left + 1),
            _ => left - self.rng.below(left / 4 + 1),
        }
    }

    /// The lines of a block's body, one level down.
    fn inner(&mut self, commands: usize) {
        self.depth += 1;
        self.body(commands);
        self.depth -= 1;
    }

    fn if_alone(&mut self, v: usize, left: usize) -> usize {
        let inner = self.share(left - 1);
        self.line(&format!("if {v}"));
        self.inner(inner);
        self.line("end");
        1 + inner
    }

    fn if_else(&mut self, v: usize, left: usize) -> usize {
        let first = self.share(left - 2);
        let second = self.share(left - 2 - first);
        self.line(&format!("if {v}"));
        self.inner(first);
        self.line("else");
        self.inner(second);
        self.line("end");
        2 + first + second
    }

    /// A loop that may have no end.
    fn any_while(&mut self, v: usize, left: usize) -> usize {
        let inner = self.share(left - 2);
        self.line(&format!("while {v}"));
        self.inner(inner);
        self.line("end");
        2 + inner
    }

    /// A few rounds, counted down in one variable by another.
    fn counted_loop(&mut self, left: usize) -> usize {
        let (counter, one) = (self.rng.pick(&[4, 5]), self.rng.pick(&[6, 7]));
        let inner = self.share(left - 5);
        let rounds = self.rng.between(1, 4) as i32;
        self.add(Command::Set(counter, rounds));
        self.add(Command::Set(one, 1));
        self.line(&format!("while {counter}"));
        self.inner(inner);
        self.add(Command::Sub(counter, one));
        self.line("end");
        5 + inner
    }

    /// Takes message after message, as long as they have an entry.
    fn message_loop(&mut self, left: usize) -> usize {
        let (v, k) = (self.variable(), self.key());
        let inner = self.share(left - 6);
        self.add(Command::Receive);
        self.add(Command::Has(v, k));
        self.line(&format!("while {v}"));
        self.inner(inner);
        self.add(Command::Receive);
        self.add(Command::Has(v, k));
        self.line("end");
        6 + inner
    }

    /// One command. Some are more frequent, so that tests go both ways and sent lines have entries.
    fn plain(&mut self) {
        let (v, w) = (self.variable(), self.variable());
        let (k, n) = (self.key(), value(self.rng));
        let command = match self.rng.below(36) {
            0..=3 => Command::Set(v, n),
            4 => Command::Set(v, 0),
            5 | 6 => Command::Set(v, 1),
            7 | 8 => Command::Add(v, w),
            9 => Command::Sub(v, w),
            10 => Command::Mul(v, w),
            11 => Command::Div(v, w),
            12..=15 => Command::Read(v, k),
            16..=18 => Command::Has(v, k),
            19..=22 => Command::Put(k, v),
            23 => Command::Drop(k),
            24..=28 => Command::Receive,
            29..=34 => Command::Send,
            _ if self.rng.chance(1, 2) => Command::Stop,
            _ => Command::Send,
        };
        self.add(command);
    }
}

/// Messages for a program to run on.
pub fn messages(rng: &mut Rng, keys: usize) -> Vec<Vec<Option<i32>>> {
    (0..rng.below(9)).map(|_| message(rng, keys)).collect()
}

/// A length for the output memory, often near that of the lines.
pub fn memory_length(rng: &mut Rng, program: &Program) -> usize {
    let length = match translated(&program.text, program.keys) {
        Ok(commands) if commands.len() <= MOST_COMMANDS => do_lines(&commands).len(),
        _ => rng.below(100),
    };
    length_near(rng, length, LENT)
}
