//! The plain run of document 02's Note 4, and what makes a program honest.
//!
//! The plain run knows nothing of two executions, of turns or of waiting. With the paired model it
//! shares what one command does, and how a sent line is written.
//!
//! Words between quotation marks are the note's own. A comment that begins with "Reading:" names the
//! reading taken where the text leaves a choice, or seems to leave one.

use crate::model::{
    sent_line, step, Command, Execution, Job, Level, Secret, FIRST, HIGH, MOST_TURNS, VARIABLES,
};
use std::slice::Iter;

/// "Take N from 1 to 512": so many steps have a turn for each of the two executions.
pub const MOST_STEPS: usize = MOST_TURNS / 2;

/// Message lines, one place per key; `None` where the line lacks the key.
pub type Lines = [Vec<Option<i32>>];

/// What a plain run does at one step.
#[derive(Debug, Clone, PartialEq, Eq)]
pub enum Step {
    /// "once stopped it does nothing more".
    Stopped,
    /// A command that is no call.
    Works,
    Receives,
    /// The entries that it sends, one for each key.
    Sends(Vec<Option<i32>>),
}

/// N of a job whose turns are "N times LH", if they are. Reading: the note speaks of sheets of form 1, which
/// alone have turns of `H`.
pub fn steps_of(job: &Job) -> Option<usize> {
    let pairs = job.turns.chunks(2);
    let steps = pairs.len();
    let all = pairs.into_iter().all(|pair| pair == [Level::Low, HIGH]);
    (all && (1..=MOST_STEPS).contains(&steps)).then_some(steps)
}

/// What there is to see of an execution that works alone, before its next step.
#[derive(Debug, Clone, PartialEq, Eq)]
pub struct Seen {
    pub variables: [i32; VARIABLES],
    pub fields: Vec<Option<i32>>,
    pub stopped: bool,
}

/// A plain run, step by step: "Call it a plain run when one execution works alone, with one field to a
/// key". The turns of the job and its secret keys do not count.
pub struct Plain<'a> {
    commands: &'a [Command],
    execution: Execution,
    fields: Vec<Option<i32>>,
    /// The message lines that are left.
    left: Iter<'a, Vec<Option<i32>>>,
}

impl<'a> Plain<'a> {
    pub fn new(job: &'a Job, messages: &'a Lines) -> Plain<'a> {
        Plain {
            commands: &job.commands,
            execution: FIRST,
            // Reading: as in document 01, "All fields are absent at first", and a plain run has no
            // others.
            fields: vec![None; job.keys],
            left: messages.iter(),
        }
    }

    pub fn seen(&self) -> Seen {
        Seen {
            variables: self.execution.variables,
            fields: self.fields.clone(),
            stopped: self.execution.place >= self.commands.len(),
        }
    }

    /// The place of the next command.
    pub fn place(&self) -> usize {
        self.execution.place
    }

    pub fn step(&mut self) -> Step {
        let Some(&command) = self.commands.get(self.execution.place) else {
            return Step::Stopped;
        };
        let done = called(command, &mut self.fields, &mut self.left);
        let end = self.commands.len();
        self.execution = step(self.execution, command, &mut self.fields, end);
        done
    }
}

/// What a command does as a call, to the fields of an execution that works alone.
pub(crate) fn called(
    command: Command,
    fields: &mut Vec<Option<i32>>,
    left: &mut Iter<Vec<Option<i32>>>,
) -> Step {
    match command {
        Command::Receive => {
            // Reading: the message as it stands in the line, an entry or absent at each key; with no
            // line left, as in document 01, "every field becomes absent".
            *fields = left.next().cloned().unwrap_or(vec![None; fields.len()]);
            Step::Receives
        }
        Command::Send => Step::Sends(fields.clone()),
        _ => Step::Works,
    }
}

/// The first steps of a plain run, as many as are asked for.
pub fn plain_run(job: &Job, messages: &Lines, steps: usize) -> Vec<Step> {
    let mut plain = Plain::new(job, messages);
    (0..steps).map(|_| plain.step()).collect()
}

/// "the same messages where every secret key of each message line holds its dummy". Reading: also
/// where the line lacks the key; there are as many lines as before.
pub fn dummied(job: &Job) -> Vec<Vec<Option<i32>>> {
    let entry = |(entry, secret): (&Option<i32>, &Option<Secret>)| {
        let dummy = secret.map(|secret| secret.dummy);
        dummy.or(*entry)
    };
    let line = |line: &Vec<Option<i32>>| line.iter().zip(&job.secrets).map(entry).collect();
    job.messages.iter().map(line).collect()
}

/// The two plain runs that Note 4 compares.
#[derive(Debug, Clone, PartialEq, Eq)]
pub struct Compared {
    /// "the plain run on real messages".
    pub real: Vec<Step>,
    /// The one on the dummied messages.
    pub dummied: Vec<Step>,
}

impl Compared {
    pub fn of(job: &Job, steps: usize) -> Compared {
        Compared {
            real: plain_run(job, &job.messages, steps),
            dummied: plain_run(job, &dummied(job), steps),
        }
    }

    /// Both steps of each number, "counted from 0".
    fn pairs(&self) -> impl Iterator<Item = (&Step, &Step)> {
        self.real.iter().zip(&self.dummied)
    }

    /// "If both receive and send at the same steps". Reading: each receives where the other does, and
    /// sends where the other does. A step that is no call may be any, or none at all.
    pub fn same_calls(&self) -> bool {
        self.pairs().all(|steps| match steps {
            (Step::Receives, Step::Receives) | (Step::Sends(_), Step::Sends(_)) => true,
            (Step::Receives | Step::Sends(_), _) | (_, Step::Receives | Step::Sends(_)) => false,
            _ => true,
        })
    }

    /// "and send the same open entries". Reading: where both send at one step, both lack an open entry
    /// or have one number there.
    pub fn same_open_entries(&self, job: &Job) -> bool {
        self.pairs().all(|steps| match steps {
            (Step::Sends(real), Step::Sends(dummied)) => {
                open_entries(job, real).eq(open_entries(job, dummied))
            }
            _ => true,
        })
    }

    /// Whether the program is one that loses nothing, in memory that "holds all the lines".
    pub fn honest(&self, job: &Job) -> bool {
        self.same_calls() && self.same_open_entries(job)
    }
}

/// The entries at open keys.
pub fn open_entries<'a>(
    job: &'a Job,
    entries: &'a [Option<i32>],
) -> impl Iterator<Item = &'a Option<i32>> {
    let open = |(_, secret): &(_, &Option<Secret>)| secret.is_none();
    entries
        .iter()
        .zip(&job.secrets)
        .filter(open)
        .map(|(entry, _)| entry)
}

/// What a plain run sends, as the monitor writes it: "Step s shows as position 2 × s."
pub fn lines(steps: &[Step]) -> Vec<u8> {
    let line = |(number, step): (usize, &Step)| match step {
        Step::Sends(entries) => sent_line(2 * number, entries),
        _ => String::new(),
    };
    let lines: String = steps.iter().enumerate().map(line).collect();
    lines.into_bytes()
}
