//! What a program with blocks does by itself, for Note 5 of document 02: "A test or jump counts one
//! step in the dialect's own meaning, so every plain run of the translation agrees with it step by
//! step."
//!
//! Nothing here knows of a translation, of places or of targets. A text becomes a tree, and an
//! execution has a list of what is left to do. With the plain run it shares what one command does,
//! and what a call is.
//!
//! Words between quotation marks are the note's own. A comment that begins with "Reading:" names
//! the reading taken where the text leaves a choice, or seems to leave one.

use crate::model::{
    command, lines, parts, sent_line, step, variable, Command, Execution, Job, FIRST, MOST_COMMANDS,
};
use crate::plain::{called, Lines, Plain, Seen, Step};
use std::slice::Iter;

/// "A block holds commands and blocks".
pub type Body = Vec<Part>;

#[derive(Debug, Clone, PartialEq, Eq)]
pub enum Part {
    Command(Command),
    /// The variable, the first body, and the second one if there is an `else`.
    If(usize, Body, Option<Body>),
    /// The variable and the body.
    While(usize, Body),
}

/// The tree of a text that is accepted with so many keys.
pub fn tree(text: &[u8], keys: usize) -> Body {
    let lines = lines(text);
    let mut left = lines.iter();
    let (body, last) = body(&mut left, keys);
    assert_eq!(
        last, None,
        "an accepted text has no `else` or `end` too many"
    );
    body
}

/// Takes the parts of one body, and the line behind them: `else`, `end`, or none.
fn body<'a>(left: &mut Iter<&'a [u8]>, keys: usize) -> (Body, Option<&'a [u8]>) {
    let mut body = Body::new();
    while let Some(&line) = left.next() {
        match parts(line).as_slice() {
            [b"else" | b"end"] => return (body, Some(line)),
            [b"if", v] => {
                let v = variable(v).expect("an accepted text has variables only");
                let (first, last) = self::body(left, keys);
                let second = (last == Some(b"else")).then(|| self::body(left, keys).0);
                body.push(Part::If(v, first, second));
            }
            [b"while", v] => {
                let v = variable(v).expect("an accepted text has variables only");
                body.push(Part::While(v, self::body(left, keys).0));
            }
            _ => {
                let command = command(line, keys, MOST_COMMANDS);
                body.push(Part::Command(command.expect("it is a command")));
            }
        }
    }
    (body, None)
}

/// One thing that is left to do.
#[derive(Clone, Copy)]
enum Left<'a> {
    Part(&'a Part),
    /// The jump after a first body, over the second.
    Over,
    /// The jump back to a `while`, after its body.
    Back(&'a Part),
}

/// A program with blocks that runs alone, step by step. Reading: a state is the variables, the fields,
/// the messages, and what is left to do.
pub struct BlockRun<'a> {
    /// What is next stands last.
    left: Vec<Left<'a>>,
    /// Its variables count, its place does not.
    execution: Execution,
    fields: Vec<Option<i32>>,
    messages: Iter<'a, Vec<Option<i32>>>,
}

impl<'a> BlockRun<'a> {
    pub fn new(body: &'a [Part], keys: usize, messages: &'a Lines) -> BlockRun<'a> {
        let mut run = BlockRun {
            left: Vec::new(),
            execution: FIRST,
            fields: vec![None; keys],
            messages: messages.iter(),
        };
        run.go_into(body);
        run
    }

    /// Reading: it has stopped when nothing is left. An `end` is nothing to do.
    pub fn seen(&self) -> Seen {
        Seen {
            variables: self.execution.variables,
            fields: self.fields.clone(),
            stopped: self.left.is_empty(),
        }
    }

    pub fn step(&mut self) -> Step {
        match self.left.pop() {
            None => return Step::Stopped,
            Some(Left::Part(Part::Command(command))) => return self.command(*command),
            Some(Left::Part(part @ Part::While(v, body))) => self.test_while(part, *v, body),
            Some(Left::Part(Part::If(v, first, second))) => self.test_if(*v, first, second),
            // "A test or jump counts one step". Reading: after the jump back the test is one more.
            Some(Left::Back(part)) => self.left.push(Left::Part(part)),
            Some(Left::Over) => {}
        }
        Step::Works
    }

    fn go_into(&mut self, body: &'a [Part]) {
        self.left.extend(body.iter().rev().map(Left::Part));
    }

    fn command(&mut self, command: Command) -> Step {
        let done = called(command, &mut self.fields, &mut self.messages);
        self.execution = step(self.execution, command, &mut self.fields, 0);
        // Reading: `stop` goes to the end of the whole program, out of every block.
        if command == Command::Stop {
            self.left.clear();
        }
        done
    }

    /// "A block runs while, or if, v is not 0."
    fn test_while(&mut self, part: &'a Part, v: usize, body: &'a [Part]) {
        if self.execution.variables[v] != 0 {
            self.left.push(Left::Back(part));
            self.go_into(body);
        }
    }

    /// "with `else` there is also a jump after the first body".
    fn test_if(&mut self, v: usize, first: &'a [Part], second: &'a Option<Body>) {
        match (self.execution.variables[v] != 0, second) {
            (true, None) => self.go_into(first),
            (true, Some(_)) => {
                self.left.push(Left::Over);
                self.go_into(first);
            }
            (false, None) => {}
            (false, Some(second)) => self.go_into(second),
        }
    }
}

/// The first of so many steps, from 0, at which a program with blocks and the plain run of some
/// commands differ: in what is done, or in what there is to see before or after it.
pub fn difference(body: &[Part], job: &Job, messages: &Lines, steps: usize) -> Option<usize> {
    let mut blocks = BlockRun::new(body, job.keys, messages);
    let mut plain = Plain::new(job, messages);
    let mut differ = || {
        let before = blocks.seen() != plain.seen();
        before || blocks.step() != plain.step() || blocks.seen() != plain.seen()
    };
    (0..steps).find(|_| differ())
}

/// What the monitor leaves where a program's lines stand in a sheet without secret keys whose turns are
/// so many letters L: the low execution works alone, and step s is position s.
#[derive(Debug, Clone, PartialEq, Eq)]
pub struct Alone {
    pub sent: Vec<u8>,
    /// Ending, line, positions used, low steps, bytes written, messages taken.
    pub numbers: [u32; 6],
}

/// Runs a program with blocks for so many turns, or until it has stopped.
pub fn alone(body: &[Part], keys: usize, messages: &Lines, turns: usize) -> Alone {
    let mut run = BlockRun::new(body, keys, messages);
    let (mut sent, mut used) = (String::new(), 0);
    while used < turns && !run.seen().stopped {
        if let Step::Sends(entries) = run.step() {
            sent += &sent_line(used, &entries);
        }
        used += 1;
    }
    let ending = if run.seen().stopped { 0 } else { 31 };
    let taken = messages.len() - run.messages.len();
    let numbers = [ending, 0, used, used, sent.len(), taken];
    Alone {
        sent: sent.into_bytes(),
        numbers: numbers.map(|number| number as u32),
    }
}
