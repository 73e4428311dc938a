//! Random lists of commands, put together from short passages that do something together.

use super::{value, Rng};
use crate::model::{Command, Owner, Secret, MOST_COMMANDS, VARIABLES};

/// A target that stands for the end until the count of commands is known.
const END: usize = usize::MAX;

/// Pairs whose sum, difference, product or quotient leaves the range, or nearly does, or is cut.
const NEAR_THE_ENDS: [(i32, i32); 12] = [
    (i32::MIN, -1),
    (i32::MIN, 1),
    (i32::MIN, i32::MAX),
    (i32::MAX, i32::MIN),
    (i32::MAX, 1),
    (i32::MAX, -1),
    (-2, i32::MAX),
    (-1, i32::MIN),
    (65_536, 32_768),
    (65_536, -32_768),
    (-7, 2),
    (7, 0),
];

/// Numbers that lead many an entry out of the range, or just to its end, by one of the operations.
const LEADS_OUT: [i32; 6] = [i32::MIN, i32::MIN + 1, -1, 65_536, i32::MAX - 1, i32::MAX];

/// Exactly `count` commands of every kind, with loops and jumps; most of them come to an end.
pub fn mixed(rng: &mut Rng, secrets: &[Option<Secret>], count: usize) -> Vec<Command> {
    let mut writer = Writer::new(rng, secrets);
    // At the start, where all executions come to it, and where a short program has room for it.
    if writer.two_owners() && writer.rng.chance(1, 2) {
        writer.part_ways();
    }
    match writer.rng.below(8) {
        0 => writer.calls_of_two_kinds(),
        1..=3 => writer.reckon(),
        _ => {}
    }
    while writer.commands.len() < count {
        writer.passage();
    }
    writer.commands.truncate(count);
    let last = match writer.rng.below(10) {
        0..=2 => Some(Command::Stop),
        3 => Some(Command::Jump(END)),
        4 => Some(Command::Jump(0)),
        5 | 6 => Some(Command::Send),
        _ => None,
    };
    if let Some(last) = last {
        writer.commands[count - 1] = last;
    }
    writer.finish()
}

/// A loop without a way out. A round takes at least five low steps and sends at most once, so that
/// 1,024 letters never fill 32,768 bytes.
pub fn endless(rng: &mut Rng, secrets: &[Option<Secret>]) -> Vec<Command> {
    let mut writer = Writer::new(rng, secrets);
    for _ in 0..writer.rng.below(4) {
        writer.plain();
    }
    let start = writer.here();
    for _ in 0..4 {
        writer.plain();
    }
    for _ in 0..writer.rng.below(8) {
        match writer.rng.below(4) {
            0 => writer.add(Command::Receive),
            1 => writer.plain(),
            2 => writer.calculate(),
            _ => writer.fork(),
        }
    }
    if writer.two_owners() {
        writer.three_ways();
    }
    match writer.rng.below(8) {
        0 => {}
        1 | 2 => writer.one_call_or_the_other(),
        _ => writer.add(Command::Send),
    }
    writer.add(Command::Jump(start));
    writer.finish()
}

/// Commands as they are put together.
struct Writer<'a> {
    rng: &'a mut Rng,
    secrets: &'a [Option<Secret>],
    commands: Vec<Command>,
}

impl<'a> Writer<'a> {
    fn new(rng: &'a mut Rng, secrets: &'a [Option<Secret>]) -> Writer<'a> {
        Writer {
            rng,
            secrets,
            commands: Vec::new(),
        }
    }

    fn add(&mut self, command: Command) {
        self.commands.push(command);
    }

    /// The place of the next command.
    fn here(&self) -> usize {
        self.commands.len()
    }

    /// Gives the command at `place` the target `target`, if it has one.
    fn aim(&mut self, place: usize, target: usize) {
        let aimed = match self.commands[place] {
            Command::IfNeg(v, _) => Command::IfNeg(v, target),
            Command::IfZero(v, _) => Command::IfZero(v, target),
            Command::Jump(_) => Command::Jump(target),
            other => other,
        };
        self.commands[place] = aimed;
    }

    /// The commands, with every target brought into their range.
    fn finish(mut self) -> Vec<Command> {
        let count = self.commands.len();
        for place in 0..count {
            if let Some(target) = self.commands[place].target() {
                self.aim(place, target.min(count));
            }
        }
        self.commands
    }

    /// The first four variables more often, so that commands meet.
    fn variable(&mut self) -> usize {
        let count = self.rng.pick(&[4, 4, VARIABLES]);
        self.rng.below(count)
    }

    fn key(&mut self) -> usize {
        self.rng.below(self.secrets.len())
    }

    /// A secret key if chance finds one.
    fn secret_key(&mut self) -> usize {
        let (first, second) = (self.key(), self.key());
        if self.secrets[first].is_some() {
            first
        } else {
            second
        }
    }

    /// What others see at a key; 0 if it is open.
    fn dummy(&self, key: usize) -> i32 {
        self.secrets[key].map_or(0, |secret| secret.dummy)
    }

    fn passage(&mut self) {
        if self.two_owners() && self.rng.chance(1, 3) {
            return self.part_ways();
        }
        match self.rng.below(26) {
            0..=4 => self.carry(),
            5..=7 => {
                self.calculate();
                if self.rng.chance(2, 3) {
                    self.add(Command::Send);
                }
            }
            8 | 9 => self.fork(),
            10 => self.counted_loop(),
            11 => self.message_loop(),
            12 => self.call_on_one_side(),
            13 => self.add(Command::Receive),
            14 => self.add(Command::Send),
            15 | 16 => self.plain(),
            17 => self.leave(),
            18 | 19 => self.jump(),
            20..=22 => self.reckon(),
            _ => self.calls_of_two_kinds(),
        }
    }

    /// A command that is no call and moves on to the next.
    fn plain(&mut self) {
        let (v, w) = (self.variable(), self.variable());
        let k = self.key();
        let command = match self.rng.below(10) {
            0 | 1 => Command::Set(v, value(self.rng)),
            2 => Command::Add(v, w),
            3 => Command::Sub(v, w),
            4 => Command::Mul(v, w),
            5 => Command::Div(v, w),
            6 => Command::Read(v, k),
            7 => Command::Has(v, k),
            8 => Command::Put(k, v),
            _ => Command::Drop(k),
        };
        self.add(command);
    }

    /// Takes a message, moves one entry of it, and sends it.
    fn carry(&mut self) {
        let v = self.variable();
        if self.rng.chance(2, 3) {
            self.add(Command::Receive);
        }
        if self.rng.chance(2, 3) {
            let (from, other) = (self.secret_key(), self.key());
            self.add(Command::Read(v, from));
            if self.rng.chance(1, 2) {
                self.plain();
            }
            let to = self.rng.pick(&[from, other]);
            self.add(Command::Put(to, v));
        }
        self.add(Command::Send);
    }

    /// Two values, one operation, and the result where it can be seen.
    fn calculate(&mut self) {
        let (v, k) = (self.variable(), self.key());
        let w = match self.rng.below(8) {
            0 => v,
            _ => (v + 1) % VARIABLES,
        };
        let (first, second) = match self.rng.below(3) {
            0 => self.rng.pick(&NEAR_THE_ENDS),
            _ => (value(self.rng), value(self.rng)),
        };
        self.add(Command::Set(v, first));
        self.add(Command::Set(w, second));
        self.operation(v, w);
        self.add(Command::Put(k, v));
    }

    fn operation(&mut self, v: usize, w: usize) {
        let operation = self
            .rng
            .pick(&[Command::Add, Command::Sub, Command::Mul, Command::Div]);
        self.add(operation(v, w));
    }

    /// An operation on an entry that the executions may see differently, so that one of them may clamp
    /// what the other does not.
    fn reckon(&mut self) {
        let (v, k) = (self.variable(), self.secret_key());
        let w = (v + 1) % VARIABLES;
        self.add(Command::Receive);
        self.add(Command::Read(v, k));
        match self.rng.below(6) {
            0 => self.operation(v, v),
            1 => {
                let other = self.secret_key();
                self.add(Command::Read(w, other));
                self.operation(v, w);
            }
            2 => {
                let number = self.rng.pick(&LEADS_OUT);
                self.add(Command::Set(w, number));
                self.operation(v, w);
            }
            _ => self.lead_to_an_end(v, w, k),
        }
        self.add(Command::Put(k, v));
        if self.rng.chance(3, 4) {
            self.add(Command::Send);
        }
    }

    /// A sum or a difference that leads the dummy of `k` to the nearer end of the range, or to the
    /// number before or after it. Entries beyond the dummy are led out.
    fn lead_to_an_end(&mut self, v: usize, w: usize, k: usize) {
        let dummy = self.dummy(k);
        let end = if dummy < 0 { i32::MIN } else { i32::MAX };
        let step = (end - dummy).saturating_add(self.rng.pick(&[-1, 0, 0, 1]));
        if self.rng.chance(1, 2) {
            self.add(Command::Set(w, step));
            self.add(Command::Add(v, w));
        } else {
            self.add(Command::Set(w, step.saturating_neg()));
            self.add(Command::Sub(v, w));
        }
    }

    /// A test of an entry. Gives the place of its branch, which is to be aimed.
    fn test(&mut self, v: usize, k: usize) -> usize {
        let test = self.rng.pick(&[Command::Read, Command::Has]);
        let branch = self.rng.pick(&[Command::IfNeg, Command::IfZero]);
        self.add(test(v, k));
        self.add(branch(v, 0));
        self.here() - 1
    }

    /// A test of an entry that may pass over some commands.
    fn fork(&mut self) {
        let (v, k) = (self.variable(), self.secret_key());
        let place = self.test(v, k);
        for _ in 0..self.rng.between(1, 3) {
            self.plain();
        }
        self.aim(place, self.here());
    }

    /// A call that one execution may make and the other may not.
    fn call_on_one_side(&mut self) {
        let (v, k) = (self.variable(), self.secret_key());
        let branch = self.rng.pick(&[Command::IfNeg, Command::IfZero]);
        let call = self.rng.pick(&[Command::Receive, Command::Send]);
        self.add(Command::Read(v, k));
        self.add(branch(v, self.here() + 2));
        self.add(call);
    }

    /// A `receive` on one side of a test and a `send` on the other.
    fn one_call_or_the_other(&mut self) {
        let (v, k) = (self.variable(), self.secret_key());
        let (call, other) = self.two_calls();
        let branch = self.test(v, k);
        self.add(call);
        let past = self.here();
        self.add(Command::Jump(0));
        self.aim(branch, self.here());
        self.add(other);
        self.aim(past, self.here());
    }

    fn two_calls(&mut self) -> (Command, Command) {
        let calls = (Command::Receive, Command::Send);
        self.rng.pick(&[calls, (calls.1, calls.0)])
    }

    /// The two executions may come to calls of different kinds, and what stands behind these is
    /// seen if the high one moves on.
    fn calls_of_two_kinds(&mut self) {
        self.add(Command::Receive);
        if self.rng.chance(1, 2) {
            self.one_call_or_the_other();
        } else {
            // One of them may pass over the first call, so that the other call is its first.
            let (v, k) = (self.variable(), self.secret_key());
            let (call, other) = self.two_calls();
            let branch = self.test(v, k);
            self.add(call);
            self.aim(branch, self.here());
            self.add(other);
        }
        let (v, k) = (self.variable(), self.secret_key());
        self.add(Command::Put(k, v));
        self.add(Command::Send);
    }

    /// A few rounds, counted down in one variable by another.
    fn counted_loop(&mut self) {
        let (counter, one) = (self.rng.pick(&[4, 5]), self.rng.pick(&[6, 7]));
        let rounds = self.rng.between(1, 4) as i32;
        self.add(Command::Set(counter, rounds));
        self.add(Command::Set(one, 1));
        let start = self.here();
        for _ in 0..self.rng.between(0, 2) {
            self.plain();
        }
        if self.rng.chance(2, 3) {
            let call = self.rng.pick(&[Command::Receive, Command::Send]);
            self.add(call);
        }
        self.add(Command::Sub(counter, one));
        self.add(Command::IfZero(counter, self.here() + 2));
        self.add(Command::Jump(start));
    }

    /// Takes message after message, and leaves when an entry is missing.
    fn message_loop(&mut self) {
        let (v, k) = (self.variable(), self.key());
        let start = self.here();
        self.add(Command::Receive);
        self.add(Command::Has(v, k));
        let place = self.here();
        self.add(Command::IfZero(v, END));
        self.plain();
        self.add(Command::Send);
        self.add(Command::Jump(start));
        if self.rng.chance(1, 2) {
            self.aim(place, self.here());
        }
    }

    /// A way to the end.
    fn leave(&mut self) {
        let v = self.variable();
        let command = match self.rng.below(5) {
            0 => Command::Stop,
            1 => Command::Jump(END),
            2 => Command::IfZero(v, END),
            _ => Command::IfNeg(v, END),
        };
        self.add(command);
    }

    /// A jump to anywhere, the own place included.
    fn jump(&mut self) {
        let v = self.variable();
        let target = match self.rng.below(4) {
            0 => self.rng.below(MOST_COMMANDS),
            1 => self.rng.below(self.here() + 1),
            _ => self.here() + self.rng.between(1, 4),
        };
        let command = match self.rng.below(3) {
            0 => Command::IfNeg(v, target),
            1 => Command::IfZero(v, target),
            _ => Command::Jump(target),
        };
        self.add(command);
    }
    // With two owners, whose executions see other entries than each other.

    fn keys_of(&self, owner: Owner) -> Vec<usize> {
        let owns = |key: &usize| self.secrets[*key].is_some_and(|secret| secret.owner == owner);
        (0..self.secrets.len()).filter(owns).collect()
    }

    /// Whether both owners have a key.
    fn two_owners(&self) -> bool {
        !self.keys_of(Owner::A).is_empty() && !self.keys_of(Owner::B).is_empty()
    }

    /// A key of each owner, in one order or the other.
    fn a_key_of_each(&mut self) -> (usize, usize) {
        let (a, b) = (self.keys_of(Owner::A), self.keys_of(Owner::B));
        let (a, b) = (self.rng.pick(&a), self.rng.pick(&b));
        self.rng.pick(&[(a, b), (b, a)])
    }

    /// Each execution has something of its own, and shows it.
    fn part_ways(&mut self) {
        if self.rng.chance(3, 4) {
            self.add(Command::Receive);
        }
        match self.rng.below(8) {
            0 | 1 => self.exchange(),
            2 | 3 => self.reckon_across(),
            4 => self.stay(),
            5 => self.call_on_one_side(),
            _ => self.three_ways(),
        }
        self.add(Command::Send);
    }

    /// What stands at the key of one owner goes to the key of the other: there its dummy is seen.
    fn exchange(&mut self) {
        let (one, other) = self.a_key_of_each();
        let v = self.variable();
        let w = (v + 1) % VARIABLES;
        self.add(Command::Read(v, one));
        self.add(Command::Read(w, other));
        self.add(Command::Put(other, v));
        self.add(Command::Put(one, w));
    }

    /// An operation on entries of both owners, of which each execution sees one at most.
    fn reckon_across(&mut self) {
        let (one, other) = self.a_key_of_each();
        let v = self.variable();
        let w = (v + 1) % VARIABLES;
        let test = self.rng.pick(&[Command::Read, Command::Read, Command::Has]);
        self.add(test(v, one));
        self.add(Command::Read(w, other));
        self.operation(v, w);
        self.put_at_both(one, other, v);
    }

    /// A test of an entry of each owner, and other commands behind it. Who sees the entries goes another
    /// way than who sees the dummies.
    fn three_ways(&mut self) {
        let (one, other) = self.a_key_of_each();
        let (v, result) = (self.rng.below(4), self.rng.between(4, 7));
        for key in [one, other] {
            let place = self.test(v, key);
            let number = self.rng.between(1, 99) as i32;
            self.add(Command::Set(result, number));
            if self.rng.chance(1, 3) {
                self.plain();
            }
            self.aim(place, self.here());
        }
        self.put_at_both(one, other, result);
    }

    fn put_at_both(&mut self, one: usize, other: usize, v: usize) {
        self.add(Command::Put(one, v));
        self.add(Command::Put(other, v));
        let key = self.key();
        self.add(Command::Put(key, v));
    }

    /// A loop without a way out, for those who see the entry at a key. Who sees its dummy passes by.
    fn stay(&mut self) {
        let (k, _) = self.a_key_of_each();
        let v = self.variable();
        let dummy = self.dummy(k);
        self.add(Command::Read(v, k));
        let here = self.here();
        if dummy > 0 {
            self.add(Command::IfZero(v, here));
            self.add(Command::IfNeg(v, here + 1));
        } else {
            let branch = [Command::IfZero, Command::IfNeg][usize::from(dummy < 0)];
            self.add(branch(v, here + 2));
            self.add(Command::Jump(here + 1));
        }
    }
}
