//! Random jobs for document 02's Note 4: their turns are N times LH, and their programs are honest,
//! or honest but for one fault, or anything.
//!
//! In an honest program what is computed from secrets stays in variables and at keys of its own. A
//! secret decides a way only where both ways are as long as each other, have no call and change
//! nothing but what may be secret, or where no call comes any more.

use super::{accepted_job, maybe, message, of_one, value, Rng, Shape};
use crate::model::{Command, Form, Job, Level, HIGH, MOST_COMMANDS, MOST_KEYS};
use crate::plain::{dummied, MOST_STEPS};

/// What a job's program is to be.
#[derive(Debug, Clone, Copy, PartialEq, Eq)]
pub enum Care {
    Honest,
    /// Honest but for one passage, which does no harm at times.
    OneFault,
    /// A program of the other generators.
    None,
}

impl Care {
    pub const ALL: [Care; 3] = [Care::Honest, Care::OneFault, Care::None];
}

/// A random job, more often with an honest program.
pub fn job(rng: &mut Rng) -> Job {
    let care = match rng.below(10) {
        0..=3 => Care::Honest,
        4..=7 => Care::OneFault,
        _ => Care::None,
    };
    job_with(rng, care)
}

/// A random job with a program of this care.
pub fn job_with(rng: &mut Rng, care: Care) -> Job {
    let mut job = match care {
        Care::None => any_job(rng),
        Care::Honest | Care::OneFault => careful_job(rng, care),
    };
    if rng.chance(1, 16) {
        job.messages = dummied(&job);
    }
    job.turns = [Level::Low, HIGH].repeat(steps(rng));
    job
}

fn any_job(rng: &mut Rng) -> Job {
    let shape = rng.pick(&Shape::ALL);
    accepted_job(rng, shape)
}

fn careful_job(rng: &mut Rng, care: Care) -> Job {
    let keys = match rng.below(8) {
        0 => MOST_KEYS,
        1 => rng.between(1, MOST_KEYS),
        _ => rng.between(1, 4),
    };
    let secrets = secrets(rng, keys);
    let commands = commands(rng, &secrets, care);
    // A fault shows only on a message.
    let least = usize::from(care == Care::OneFault);
    let count = rng.between(least, 8);
    let messages = (0..count).map(|_| message(rng, keys)).collect();
    Job {
        form: Form::One,
        keys,
        secrets: secrets.into_iter().map(of_one).collect(),
        commands,
        messages,
        turns: Vec::new(),
    }
}

/// Nearly always at least one secret key. Many dummies are 0, so that they go another way than entries.
fn secrets(rng: &mut Rng, keys: usize) -> Vec<Option<i32>> {
    let mut secrets: Vec<Option<i32>> = (0..keys).map(|_| maybe(rng, 1, 2)).collect();
    if secrets.iter().all(Option::is_none) && rng.chance(7, 8) {
        secrets[rng.below(keys)] = Some(value(rng));
    }
    for dummy in secrets.iter_mut().flatten() {
        if rng.chance(1, 3) {
            *dummy = 0;
        }
    }
    secrets
}

/// N: an end of its range, as many steps as a short program needs, or anything.
fn steps(rng: &mut Rng) -> usize {
    match rng.below(20) {
        0 => 1,
        1 => MOST_STEPS,
        2..=9 => rng.between(1, 40),
        10..=15 => rng.between(20, 160),
        _ => rng.between(1, MOST_STEPS),
    }
}

/// A target that stands for the end until the count of commands is known.
const END: usize = usize::MAX;

/// What is computed without secrets is in the first variables. Of these COUNTER and ONE, which loops
/// use, are changed nowhere else.
const OPEN_VARIABLES: [usize; 2] = [0, 1];
const COUNTER: usize = 2;
const ONE: usize = 3;
/// What is computed from secrets, or may be.
const SECRET_VARIABLES: [usize; 4] = [4, 5, 6, 7];

/// Enough for some passages; the longest of them fits behind it.
const MOST_BEFORE_LAST: usize = 36;

fn commands(rng: &mut Rng, secrets: &[Option<i32>], care: Care) -> Vec<Command> {
    let most = rng.between(1, MOST_BEFORE_LAST);
    let late = rng.between(0, most / 2);
    let fault_at = rng.pick(&[0, 0, late]);
    let mut faults = usize::from(care == Care::OneFault);
    let mut writer = Writer {
        rng,
        secrets,
        commands: Vec::new(),
    };
    while writer.here() < most {
        if faults > 0 && writer.here() >= fault_at {
            writer.fault();
            faults -= 1;
        } else {
            writer.passage();
        }
    }
    writer.last();
    writer.finish()
}

/// Commands as they are put together.
struct Writer<'a> {
    rng: &'a mut Rng,
    secrets: &'a [Option<i32>],
    commands: Vec<Command>,
}

impl Writer<'_> {
    fn add(&mut self, command: Command) {
        self.commands.push(command);
    }

    /// The place of the next command.
    fn here(&self) -> usize {
        self.commands.len()
    }

    /// Adds a branch or a jump without its target, and gives its place.
    fn aside(&mut self, command: fn(usize) -> Command) -> usize {
        self.add(command(END));
        self.here() - 1
    }

    /// The command at `place` goes to the place of the next command.
    fn lands(&mut self, place: usize) {
        self.commands[place] = aimed(self.commands[place], self.here());
    }

    /// The commands, with every target brought into their range.
    fn finish(mut self) -> Vec<Command> {
        self.commands.truncate(MOST_COMMANDS);
        let count = self.here();
        for command in &mut self.commands {
            if let Some(target) = command.target() {
                *command = aimed(*command, target.min(count));
            }
        }
        self.commands
    }

    fn key(&mut self, secret: bool) -> Option<usize> {
        let fits = |key: &usize| self.secrets[*key].is_some() == secret;
        let keys: Vec<usize> = (0..self.secrets.len()).filter(fits).collect();
        (!keys.is_empty()).then(|| self.rng.pick(&keys))
    }

    fn secret_variable(&mut self) -> usize {
        self.rng.pick(&SECRET_VARIABLES)
    }

    /// A branch on a variable, to be aimed.
    fn branch(&mut self, v: usize) -> usize {
        let branch = self.rng.pick(&[Command::IfNeg, Command::IfZero]);
        self.add(branch(v, END));
        self.here() - 1
    }

    fn operation(&mut self, v: usize, w: usize) {
        let operation = self
            .rng
            .pick(&[Command::Add, Command::Sub, Command::Mul, Command::Div]);
        self.add(operation(v, w));
    }

    /// A command that nothing secret goes into.
    fn open_command(&mut self) {
        let v = self.rng.pick(&OPEN_VARIABLES);
        let w = self.rng.below(ONE + 1);
        match (self.rng.below(8), self.key(false)) {
            (0 | 1, Some(k)) => self.add(Command::Read(v, k)),
            (2, Some(k)) => self.add(Command::Has(v, k)),
            (3 | 4, Some(k)) => self.add(Command::Put(k, w)),
            (5, Some(k)) => self.add(Command::Drop(k)),
            (6, _) => self.operation(v, w),
            _ => {
                let number = value(self.rng);
                self.add(Command::Set(v, number));
            }
        }
    }

    /// A command that changes nothing but what may be secret.
    fn secret_command(&mut self) {
        let (v, w) = (self.secret_variable(), self.rng.below(8));
        let key = self.rng.below(self.secrets.len());
        match (self.rng.below(8), self.key(true)) {
            (0 | 1, Some(k)) => self.add(Command::Read(v, k)),
            (2, _) => self.add(Command::Has(v, key)),
            (3, Some(k)) => self.add(Command::Put(k, v)),
            (4, Some(k)) => self.add(Command::Put(k, w)),
            (5, Some(k)) => self.add(Command::Drop(k)),
            (6, _) => {
                let number = value(self.rng);
                self.add(Command::Set(v, number));
            }
            _ => self.operation(v, w),
        }
    }

    /// A command that is no call and moves on to the next.
    fn quiet(&mut self) {
        if self.rng.chance(1, 2) {
            self.open_command();
        } else {
            self.secret_command();
        }
    }

    fn call(&mut self) {
        let call = self.rng.pick(&[Command::Receive, Command::Send]);
        self.add(call);
    }

    fn passage(&mut self) {
        match self.rng.below(16) {
            0..=4 => self.carry(),
            5 | 6 => self.balanced(),
            7 | 8 => self.counted_loop(),
            9 => self.open_fork(),
            10 => self.message_loop(),
            11 => self.leave(),
            12 => self.call(),
            13 => self.add(Command::Send),
            _ => self.quiet(),
        }
    }

    /// Takes a message, works on a secret entry of it, and sends it.
    fn carry(&mut self) {
        if self.rng.chance(3, 4) {
            self.add(Command::Receive);
        }
        if let Some(k) = self.key(true) {
            let (v, w) = (self.secret_variable(), self.rng.below(8));
            self.add(Command::Read(v, k));
            if self.rng.chance(2, 3) {
                self.operation(v, w);
            }
            let to = self.key(true).unwrap_or(k);
            self.add(Command::Put(to, v));
        }
        self.add(Command::Send);
    }

    /// A test of a secret entry, to be aimed.
    fn secret_test(&mut self) -> usize {
        let v = self.secret_variable();
        let key = self.key(true);
        match (key, self.rng.below(3)) {
            (None, _) => self.branch(v),
            (Some(k), 0) => {
                self.add(Command::Has(v, k));
                self.add(Command::IfZero(v, END));
                self.here() - 1
            }
            (Some(k), _) => {
                self.add(Command::Read(v, k));
                self.branch(v)
            }
        }
    }

    /// A secret decides between two ways of the same length.
    fn balanced(&mut self) {
        let branch = self.secret_test();
        let count = self.rng.between(0, 3);
        for _ in 0..count {
            self.secret_command();
        }
        let past = self.aside(Command::Jump);
        self.lands(branch);
        for _ in 0..=count {
            self.secret_command();
        }
        self.lands(past);
    }

    /// Some rounds that gather a secret, as many in every run.
    fn counted_loop(&mut self) {
        let rounds = self.rng.between(1, 6) as i32;
        self.add(Command::Set(COUNTER, rounds));
        self.add(Command::Set(ONE, 1));
        let start = self.here();
        for _ in 0..self.rng.between(0, 3) {
            self.quiet();
        }
        if self.rng.chance(2, 3) {
            self.carry();
        }
        self.add(Command::Sub(COUNTER, ONE));
        self.add(Command::IfZero(COUNTER, self.here() + 2));
        self.add(Command::Jump(start));
    }

    /// What is open may decide anything.
    fn open_fork(&mut self) {
        let v = self.rng.pick(&OPEN_VARIABLES);
        if let Some(k) = self.key(false) {
            self.add(Command::Read(v, k));
        }
        let branch = self.branch(v);
        for _ in 0..self.rng.between(0, 2) {
            self.quiet();
        }
        if self.rng.chance(1, 2) {
            self.call();
        }
        self.lands(branch);
    }

    /// Takes message after message, and leaves when an open entry is missing.
    fn message_loop(&mut self) {
        let start = self.here();
        self.add(Command::Receive);
        if let Some(k) = self.key(false) {
            self.add(Command::Has(OPEN_VARIABLES[0], k));
            self.add(Command::IfZero(OPEN_VARIABLES[0], END));
        }
        self.secret_command();
        self.add(Command::Send);
        self.add(Command::Jump(start));
    }

    /// A way to the end that secrets do not decide.
    fn leave(&mut self) {
        let v = self.rng.pick(&OPEN_VARIABLES);
        let command = match self.rng.below(6) {
            0 => Command::Stop,
            1 | 2 => Command::IfZero(v, END),
            _ => Command::IfNeg(v, END),
        };
        self.add(command);
    }

    /// The last commands. A secret may decide whether a run stops, as no call comes after.
    fn last(&mut self) {
        match self.rng.below(8) {
            0 => self.add(Command::Stop),
            1 | 2 => self.add(Command::Jump(0)),
            3..=5 => {
                self.secret_test();
                self.secret_command();
                let back = self.rng.below(2);
                self.add(Command::Jump(self.here() - back));
            }
            _ => {}
        }
    }

    /// A passage by which something secret may show.
    fn fault(&mut self) {
        self.add(Command::Receive);
        match self.rng.below(8) {
            0 => self.unbalanced(),
            1 | 2 => self.put_secret_at_open_key(),
            3 => self.open_key_on_one_way(),
            4 => self.call_on_one_way(),
            5 => self.receive_on_one_way(),
            6 => self.calls_of_two_kinds(),
            _ => self.stop_on_one_way(),
        }
        self.secret_command();
        self.add(Command::Send);
    }

    /// Two ways of different length, without a call.
    fn unbalanced(&mut self) {
        let branch = self.secret_test();
        for _ in 0..self.rng.between(1, 3) {
            self.secret_command();
        }
        self.lands(branch);
    }

    fn put_secret_at_open_key(&mut self) {
        if let (Some(from), Some(to)) = (self.key(true), self.key(false)) {
            let v = self.secret_variable();
            let test = self.rng.pick(&[Command::Read, Command::Has]);
            self.add(test(v, from));
            self.add(Command::Put(to, v));
        }
    }

    /// Two ways of the same length. At an open key one of them puts 0, or does nothing, and the other
    /// leaves the entry absent.
    fn open_key_on_one_way(&mut self) {
        let Some(k) = self.key(false) else {
            return;
        };
        let branch = self.secret_test();
        if self.rng.chance(1, 2) {
            self.add(Command::Put(k, COUNTER));
        } else {
            self.secret_command();
        }
        let past = self.aside(Command::Jump);
        self.lands(branch);
        self.add(Command::Drop(k));
        self.secret_command();
        self.lands(past);
    }

    /// A call that one way has and the other has not, so that it comes to the next one sooner.
    fn call_on_one_way(&mut self) {
        let branch = self.secret_test();
        self.call();
        self.lands(branch);
    }

    /// Two ways of the same length, and one of them has a `receive`.
    fn receive_on_one_way(&mut self) {
        let branch = self.secret_test();
        self.secret_command();
        let past = self.aside(Command::Jump);
        self.lands(branch);
        self.add(Command::Receive);
        self.secret_command();
        self.lands(past);
    }

    /// Two ways of the same length, with a `receive` on one and a `send` on the other at the same step.
    fn calls_of_two_kinds(&mut self) {
        let calls = (Command::Receive, Command::Send);
        let (call, other) = self.rng.pick(&[calls, (calls.1, calls.0)]);
        let branch = self.secret_test();
        self.add(call);
        let past = self.aside(Command::Jump);
        self.lands(branch);
        self.add(other);
        self.secret_command();
        self.lands(past);
    }

    /// A secret decides whether the run stops here.
    fn stop_on_one_way(&mut self) {
        self.secret_test();
    }
}

/// The command with another target, if it has one.
fn aimed(command: Command, target: usize) -> Command {
    match command {
        Command::IfNeg(v, _) => Command::IfNeg(v, target),
        Command::IfZero(v, _) => Command::IfZero(v, target),
        Command::Jump(_) => Command::Jump(target),
        other => other,
    }
}
