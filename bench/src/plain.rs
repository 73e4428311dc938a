//! The confidential run as a straightforward Rust program: safe, idiomatic, not tuned. It accepts
//! the sheets that document 01 accepts, and those of form 2 that Note 8 of document 02 accepts, but does
//! not say why it refuses the others. Calls of an owner's execution move on as Note 2 says, and the
//! clamped results of the low one are counted as Note 3 says.

const MOST_BYTES: usize = 16_384;
pub const MOST_KEYS: usize = 8;
pub const MOST_COMMANDS: usize = 64;
const MOST_MESSAGES: usize = 32;
const MOST_TURNS: usize = 1_024;
pub const VARIABLES: usize = 8;

/// One entry or none for each key.
pub type Entries = [Option<i32>; MOST_KEYS];

/// A secret or none for each key.
pub type Secrets = [Option<Secret>; MOST_KEYS];

/// What a sheet says. The letters stay in the sheet.
pub struct Job<'a> {
    pub form: Form,
    pub keys: usize,
    pub secrets: Secrets,
    pub commands: Vec<Command>,
    pub messages: Vec<Entries>,
    pub turns: &'a [u8],
}

/// The number of a sheet.
#[derive(Clone, Copy)]
pub enum Form {
    One,
    Two,
}

impl Form {
    /// The executions that follow the low one.
    fn followers(self) -> usize {
        match self {
            Form::One => 1,
            Form::Two => 2,
        }
    }
}

#[derive(Clone, Copy)]
pub struct Secret {
    pub dummy: i32,
    pub owner: Owner,
}

/// Whose a secret is. In a sheet of form 1 each is that of the high execution.
#[derive(Clone, Copy, PartialEq)]
pub enum Owner {
    H,
    A,
    B,
}

impl Owner {
    /// The place of its execution among those that follow the low one.
    fn place(self) -> usize {
        match self {
            Owner::H | Owner::A => 0,
            Owner::B => 1,
        }
    }
}

#[derive(Clone, Copy)]
pub enum Command {
    Set(usize, i32),
    Add(usize, usize),
    Sub(usize, usize),
    Mul(usize, usize),
    Div(usize, usize),
    Read(usize, usize),
    Has(usize, usize),
    Put(usize, usize),
    Drop(usize),
    IfNeg(usize, usize),
    IfZero(usize, usize),
    Jump(usize),
    Receive,
    Send,
    Stop,
}

/// Reads a sheet and runs it: the seven numbers, or nothing if the sheet is not accepted.
pub fn run(sheet: &[u8], output: &mut [u8]) -> Option<[u32; 7]> {
    let job = read(sheet)?;
    Some(run_job(&job, output))
}

// Reading.

/// The job of a sheet. It is in line in the run, as it is without a second caller: called, it would make
/// running a sheet cost 4 in 100 more.
#[inline(always)]
pub fn read(sheet: &[u8]) -> Option<Job<'_>> {
    let allowed = |&byte: &u8| byte == b'\n' || (32..=126).contains(&byte);
    if sheet.len() > MOST_BYTES || !sheet.iter().all(allowed) {
        return None;
    }
    let mut lines = Lines::of(sheet.strip_suffix(b"\n")?);
    let form = match lines.next_named(b"sheet=")? {
        b"1" => Form::One,
        b"2" => Form::Two,
        _ => return None,
    };
    let keys = small(lines.next_named(b"keys=")?, 1, MOST_KEYS)?;
    let secrets = read_secrets(&mut lines, form, keys)?;
    let commands = read_commands(&mut lines, keys)?;
    let messages = read_messages(&mut lines, keys)?;
    let turns = lines.next_named(b"turns=")?;
    if !lines.at_end() || !targets_good(&commands) || !turns_good(form, turns) {
        return None;
    }
    Some(Job {
        form,
        keys,
        secrets,
        commands,
        messages,
        turns,
    })
}

pub fn targets_good(commands: &[Command]) -> bool {
    commands.iter().all(|&command| match command {
        Command::IfNeg(_, t) | Command::IfZero(_, t) | Command::Jump(t) => t <= commands.len(),
        _ => true,
    })
}

pub fn turns_good(form: Form, turns: &[u8]) -> bool {
    let letter = |&byte: &u8| match form {
        Form::One => byte == b'L' || byte == b'H',
        Form::Two => byte == b'L' || byte == b'A' || byte == b'B',
    };
    (1..=MOST_TURNS).contains(&turns.len()) && turns.iter().all(letter)
}

/// The lines that are still to be read.
struct Lines<'a> {
    rest: Option<&'a [u8]>,
}

impl<'a> Lines<'a> {
    fn of(text: &'a [u8]) -> Lines<'a> {
        Lines { rest: Some(text) }
    }

    /// Takes the next line if it begins with the name, and gives what stands after that.
    fn next_named(&mut self, name: &[u8]) -> Option<&'a [u8]> {
        let text = self.rest?.strip_prefix(name)?;
        match text.iter().position(|&byte| byte == b'\n') {
            Some(end) => {
                self.rest = Some(&text[end + 1..]);
                Some(&text[..end])
            }
            None => {
                self.rest = None;
                Some(text)
            }
        }
    }

    fn at_end(&self) -> bool {
        self.rest.is_none()
    }
}

fn read_secrets(lines: &mut Lines, form: Form, keys: usize) -> Option<Secrets> {
    let mut secrets = [None; MOST_KEYS];
    let mut lowest = 0;
    while let Some(text) = lines.next_named(b"secret=") {
        let (part, owner) = owned(form, text)?;
        let (key, dummy) = entry(part, lowest, keys)?;
        secrets[key] = Some(Secret { dummy, owner });
        lowest = key + 1;
    }
    Some(secrets)
}

/// The `key:dummy` part of a secret line, and whose it is.
fn owned(form: Form, text: &[u8]) -> Option<(&[u8], Owner)> {
    match (form, text) {
        (Form::One, part) => Some((part, Owner::H)),
        (Form::Two, [part @ .., b':', b'A']) => Some((part, Owner::A)),
        (Form::Two, [part @ .., b':', b'B']) => Some((part, Owner::B)),
        _ => None,
    }
}

fn read_commands(lines: &mut Lines, keys: usize) -> Option<Vec<Command>> {
    let mut commands = Vec::with_capacity(MOST_COMMANDS);
    while let Some(text) = lines.next_named(b"do=") {
        if commands.len() == MOST_COMMANDS {
            return None;
        }
        commands.push(command(text, keys)?);
    }
    (!commands.is_empty()).then_some(commands)
}

fn read_messages(lines: &mut Lines, keys: usize) -> Option<Vec<Entries>> {
    let mut messages = Vec::with_capacity(MOST_MESSAGES);
    while let Some(text) = lines.next_named(b"msg=") {
        if messages.len() == MOST_MESSAGES {
            return None;
        }
        messages.push(message(text, keys)?);
    }
    Some(messages)
}

fn message(text: &[u8], keys: usize) -> Option<Entries> {
    let mut entries = [None; MOST_KEYS];
    if text.is_empty() {
        return Some(entries);
    }
    let mut lowest = 0;
    for part in text.split(|&byte| byte == b',') {
        let (key, value) = entry(part, lowest, keys)?;
        entries[key] = Some(value);
        lowest = key + 1;
    }
    Some(entries)
}

/// A `key:value` part whose key is at least `lowest`.
fn entry(part: &[u8], lowest: usize, keys: usize) -> Option<(usize, i32)> {
    let colon = part.iter().position(|&byte| byte == b':')?;
    let key = small(&part[..colon], lowest, keys - 1)?;
    Some((key, value(&part[colon + 1..])?))
}

fn command(text: &[u8], keys: usize) -> Option<Command> {
    let mut parts = text.split(|&byte| byte == b' ');
    let word = parts.next()?;
    let mut next = || parts.next();
    let variable = |text: &[u8]| small(text, 0, VARIABLES - 1);
    let key = |text: &[u8]| small(text, 0, keys - 1);
    let target = |text: &[u8]| small(text, 0, MOST_COMMANDS);
    let command = match word {
        b"set" => Command::Set(variable(next()?)?, value(next()?)?),
        b"add" => Command::Add(variable(next()?)?, variable(next()?)?),
        b"sub" => Command::Sub(variable(next()?)?, variable(next()?)?),
        b"mul" => Command::Mul(variable(next()?)?, variable(next()?)?),
        b"div" => Command::Div(variable(next()?)?, variable(next()?)?),
        b"read" => Command::Read(variable(next()?)?, key(next()?)?),
        b"has" => Command::Has(variable(next()?)?, key(next()?)?),
        b"put" => Command::Put(key(next()?)?, variable(next()?)?),
        b"drop" => Command::Drop(key(next()?)?),
        b"ifneg" => Command::IfNeg(variable(next()?)?, target(next()?)?),
        b"ifzero" => Command::IfZero(variable(next()?)?, target(next()?)?),
        b"jump" => Command::Jump(target(next()?)?),
        b"receive" => Command::Receive,
        b"send" => Command::Send,
        b"stop" => Command::Stop,
        _ => return None,
    };
    next().is_none().then_some(command)
}

/// A number of the full range.
pub fn value(text: &[u8]) -> Option<i32> {
    let (minus, digits) = match text.strip_prefix(b"-") {
        Some(digits) => (true, digits),
        None => (false, text),
    };
    let good_start = match digits {
        [b'0'] => !minus,
        [b'1'..=b'9', ..] => digits.len() <= 10,
        _ => false,
    };
    if !good_start {
        return None;
    }
    let mut number: i64 = 0;
    for byte in digits {
        if !byte.is_ascii_digit() {
            return None;
        }
        number = number * 10 + i64::from(byte - b'0');
    }
    i32::try_from(if minus { -number } else { number }).ok()
}

pub fn small(text: &[u8], lowest: usize, highest: usize) -> Option<usize> {
    let number = usize::try_from(value(text)?).ok()?;
    (lowest..=highest).contains(&number).then_some(number)
}

// Running.

/// The kind of a call.
#[derive(Clone, Copy, PartialEq)]
enum Call {
    Receive,
    Send,
}

/// One execution and its own fields of the message.
#[derive(Default)]
struct Execution {
    place: usize,
    variables: [i32; VARIABLES],
    fields: Entries,
    clamped: u32,
}

/// The execution of an owner, and how many calls it has moved on from.
#[derive(Default)]
struct Follower {
    execution: Execution,
    calls: usize,
}

impl Follower {
    /// A turn, which passes idle at the end and at a call that the low execution has not made.
    fn turn(&mut self, commands: &[Command], low_calls: &[Call]) {
        let Some(&command) = commands.get(self.execution.place) else {
            return;
        };
        let call = match command {
            Command::Receive => Some(Call::Receive),
            Command::Send => Some(Call::Send),
            _ => None,
        };
        if call.is_none() || low_calls.get(self.calls).copied() == call {
            self.calls += usize::from(call.is_some());
            self.execution.step(command, commands.len());
        }
    }
}

impl Execution {
    fn step(&mut self, command: Command, end: usize) {
        let variables = &mut self.variables;
        let mut next = self.place + 1;
        match command {
            Command::Set(v, n) => variables[v] = n,
            Command::Add(v, w) => {
                let exact = i64::from(variables[v]) + i64::from(variables[w]);
                self.store(v, exact);
            }
            Command::Sub(v, w) => {
                let exact = i64::from(variables[v]) - i64::from(variables[w]);
                self.store(v, exact);
            }
            Command::Mul(v, w) => {
                let exact = i64::from(variables[v]) * i64::from(variables[w]);
                self.store(v, exact);
            }
            Command::Div(v, w) => {
                let exact = quotient(variables[v], variables[w]);
                self.store(v, exact);
            }
            Command::Read(v, k) => variables[v] = self.fields[k].unwrap_or(0),
            Command::Has(v, k) => variables[v] = i32::from(self.fields[k].is_some()),
            Command::Put(k, v) => self.fields[k] = Some(variables[v]),
            Command::Drop(k) => self.fields[k] = None,
            Command::IfNeg(v, t) => {
                if variables[v] < 0 {
                    next = t;
                }
            }
            Command::IfZero(v, t) => {
                if variables[v] == 0 {
                    next = t;
                }
            }
            Command::Jump(t) => next = t,
            Command::Receive | Command::Send => {}
            Command::Stop => next = end,
        }
        self.place = next;
    }

    /// The exact result of an operation, clamped to 32 bits where it has to be.
    fn store(&mut self, v: usize, exact: i64) {
        let clamped = exact.clamp(i32::MIN.into(), i32::MAX.into());
        self.variables[v] = clamped as i32;
        self.clamped += u32::from(clamped != exact);
    }
}

fn quotient(v: i32, w: i32) -> i64 {
    if w == 0 {
        0
    } else {
        i64::from(v) / i64::from(w)
    }
}

fn run_job(job: &Job, output: &mut [u8]) -> [u32; 7] {
    let end = job.commands.len();
    let width = 10 + 12 * job.keys;
    let mut low = Execution::default();
    let mut followers = [Follower::default(), Follower::default()];
    let followers = &mut followers[..job.form.followers()];
    let mut low_calls = Vec::with_capacity(MOST_TURNS);
    let (mut positions, mut low_steps, mut written, mut taken) = (0, 0, 0, 0);
    let ending = loop {
        let Some(&command) = job.commands.get(low.place) else {
            break 0;
        };
        let Some(&letter) = job.turns.get(positions) else {
            break 31;
        };
        match letter {
            b'L' => {
                match command {
                    Command::Receive => {
                        receive(job, taken, &mut low, followers);
                        taken = job.messages.len().min(taken + 1);
                        low_calls.push(Call::Receive);
                    }
                    Command::Send => {
                        let Some(line) = output.get_mut(written..written + width) else {
                            break 32;
                        };
                        write_line(line, job, positions, &low, followers);
                        written += width;
                        low_calls.push(Call::Send);
                    }
                    _ => {}
                }
                low.step(command, end);
                low_steps += 1;
            }
            b'B' => followers[1].turn(&job.commands, &low_calls),
            _ => followers[0].turn(&job.commands, &low_calls),
        }
        positions += 1;
    };
    [
        ending,
        0,
        positions as u32,
        low_steps,
        written as u32,
        taken as u32,
        low.clamped,
    ]
}

fn receive(job: &Job, taken: usize, low: &mut Execution, followers: &mut [Follower]) {
    let Some(line) = job.messages.get(taken) else {
        low.fields = [None; MOST_KEYS];
        for follower in followers {
            follower.execution.fields = [None; MOST_KEYS];
        }
        return;
    };
    low.fields = *line;
    for follower in followers.iter_mut() {
        follower.execution.fields = *line;
    }
    for key in 0..job.keys {
        if let Some(Secret { dummy, owner }) = job.secrets[key] {
            low.fields[key] = Some(dummy);
            for (place, follower) in followers.iter_mut().enumerate() {
                if place != owner.place() {
                    follower.execution.fields[key] = Some(dummy);
                }
            }
        }
    }
}

fn write_line(
    line: &mut [u8],
    job: &Job,
    position: usize,
    low: &Execution,
    followers: &[Follower],
) {
    line[..5].copy_from_slice(b"sent=");
    write_digits(&mut line[5..9], position as u32);
    for key in 0..job.keys {
        let field = match job.secrets[key] {
            Some(secret) => followers[secret.owner.place()].execution.fields[key],
            None => low.fields[key],
        };
        let column = &mut line[9 + 12 * key..21 + 12 * key];
        column[0] = b' ';
        match field {
            None => column[1..].fill(b'.'),
            Some(number) => {
                column[1] = if number < 0 { b'-' } else { b'+' };
                write_digits(&mut column[2..], number.unsigned_abs());
            }
        }
    }
    line[9 + 12 * job.keys] = b'\n';
}

fn write_digits(place: &mut [u8], mut number: u32) {
    for byte in place.iter_mut().rev() {
        *byte = b'0' + (number % 10) as u8;
        number /= 10;
    }
}

#[cfg(test)]
mod tests {
    use reference::corners::corners;
    use reference::generate::{accepted_by, crossed, damaged_by, memory_length, noise_by};
    use reference::generate::{Rng, Shape};
    use reference::model::Form;
    use reference::run_sheet;

    fn check(sheet: &[u8], lent: usize) {
        let (mut output, mut wanted) = (vec![b'~'; lent], vec![b'~'; lent]);
        let numbers = run_sheet(sheet, &mut wanted);
        let accepted = matches!(numbers[0], 0 | 31 | 32);
        let found = super::run(sheet, &mut output);
        assert_eq!(
            found,
            accepted.then_some(numbers),
            "{}",
            sheet.escape_ascii()
        );
        assert!(output == wanted, "{}", sheet.escape_ascii());
    }

    fn check_random(form: Form, seed: u64) {
        let mut rng = Rng::new(seed);
        for place in 0..20_000 {
            let sheet = match place % 8 {
                0 | 1 => noise_by(form, &mut rng),
                2..=4 => damaged_by(form, &mut rng),
                5 => crossed(&mut rng),
                _ => {
                    let shape = rng.pick(&Shape::ALL);
                    accepted_by(form, &mut rng, shape)
                }
            };
            check(&sheet, memory_length(&mut rng, &sheet));
        }
    }

    #[test]
    fn it_runs_what_the_reference_runs_and_refuses_what_it_refuses() {
        for corner in corners() {
            check(&corner.sheet, corner.lent);
        }
        check_random(Form::One, 1);
        check_random(Form::Two, 2);
    }

    /// A wrong byte where a line or a part is divided is rare in random sheets.
    #[test]
    fn it_looks_at_every_byte() {
        let sheets: [&[u8]; 2] = [
            b"sheet=1\nkeys=2\nsecret=1:300\ndo=receive\ndo=send\nmsg=0:15,1:14\nturns=LHL\n",
            b"sheet=2\nkeys=2\nsecret=0:30:A\nsecret=1:40:B\ndo=receive\ndo=send\nmsg=0:1,1:2\nturns=LABL\n",
        ];
        for sheet in sheets {
            for place in 0..sheet.len() {
                for byte in 0..=255 {
                    let mut sheet = sheet.to_vec();
                    sheet[place] = byte;
                    check(&sheet, 100);
                }
            }
        }
    }
}
