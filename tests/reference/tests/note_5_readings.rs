//! Note 5 of document 02 once more, by another method, and read wrongly on purpose.
//!
//! The reader here has a function for a block and one for a line, which call each other, and knows a
//! place only when it has come to it. Read rightly, it gives what the model gives. Each wrong reading
//! changes one thing, and the corners must tell; so must the dialect's own meaning where the lines that
//! come out are other lines.

use reference::block_run::{difference, tree};
use reference::blocks::{blocks, translated};
use reference::corners::blocks::{corners, Corner};
use reference::generate::block_damage::{boundary, damaged, noise};
use reference::generate::blocks::{accepted, memory_length, messages, Program};
use reference::generate::Rng;
use reference::{read, Command, Job};

/// A way to read the note wrongly.
#[derive(Debug, Clone, Copy, PartialEq, Eq)]
enum Wrong {
    /// 2 before K's 4.
    BytesBeforeKeys,
    /// 2 line by line, with the other faults.
    BytesLineByLine,
    /// The empty text is accepted.
    EmptyText,
    /// 6 before 51 and 52: only a line that is well formed is an `else`, an `end`, an `if`.
    PartsBeforePlace,
    /// 4 before 52.
    NumberBeforeDepth,
    /// 51 for an `else` only where no `if` is open at all.
    ElseInAnyIf,
    /// A second `else` is another second body.
    SecondElse,
    /// An `else` opens a level.
    ElseIsALevel,
    /// Nine levels.
    NineLevels,
    /// The missing `end` at the last line.
    MissingAtLast,
    /// The missing `end` at the line of the block that lacks it.
    MissingAtBegin,
    /// 53 before the missing `end`.
    TooManyBeforeMissing,
    /// 53 at the 65th command, before the faults of later lines.
    TooManyAtOnce,
    /// 64 lines in place of 64 commands.
    LinesCount,
    /// One command too many is not too many.
    SixtyFive,
    /// A byte more than the text must be there.
    OneByteMore,
    /// The words of document 01 that the dialect lacks are commands.
    JumpsAllowed,
    /// These words get 4 for a bad operand.
    JumpsRead,
    /// Several spaces split once.
    SpacesJoin,
    /// Keys are below 8, whatever K is.
    KeysBelowEight,
    /// The test of an `if` with an `else` goes to the jump.
    ElseToTheJump,
    /// There is a jump after every first body.
    JumpWithoutElse,
    /// An empty first body needs no jump.
    NoJumpIfEmpty,
    /// The jump back goes behind the test.
    BackBehindTest,
    /// The test of a `while` goes to the jump back.
    WhileToTheJump,
    /// The jump goes to the end of the program.
    JumpToTheEnd,
    /// A block runs if v is not below 0.
    NegativeSkips,
    /// What stands behind a `stop` in its block is left out.
    StopEndsBlock,
}

const WRONG: &[Wrong] = &[
    Wrong::BytesBeforeKeys,
    Wrong::BytesLineByLine,
    Wrong::EmptyText,
    Wrong::PartsBeforePlace,
    Wrong::NumberBeforeDepth,
    Wrong::ElseInAnyIf,
    Wrong::SecondElse,
    Wrong::ElseIsALevel,
    Wrong::NineLevels,
    Wrong::MissingAtLast,
    Wrong::MissingAtBegin,
    Wrong::TooManyBeforeMissing,
    Wrong::TooManyAtOnce,
    Wrong::LinesCount,
    Wrong::SixtyFive,
    Wrong::OneByteMore,
    Wrong::JumpsAllowed,
    Wrong::JumpsRead,
    Wrong::SpacesJoin,
    Wrong::KeysBelowEight,
    Wrong::ElseToTheJump,
    Wrong::JumpWithoutElse,
    Wrong::NoJumpIfEmpty,
    Wrong::BackBehindTest,
    Wrong::WhileToTheJump,
    Wrong::JumpToTheEnd,
    Wrong::NegativeSkips,
    Wrong::StopEndsBlock,
];

/// Those that change what an accepted text means.
const MEANING: &[Wrong] = &[
    Wrong::ElseToTheJump,
    Wrong::JumpWithoutElse,
    Wrong::NoJumpIfEmpty,
    Wrong::BackBehindTest,
    Wrong::WhileToTheJump,
    Wrong::JumpToTheEnd,
    Wrong::NegativeSkips,
];

/// A target that stands for the end until the count of commands is known.
const END: usize = usize::MAX;

/// What kind of block a body belongs to.
#[derive(Debug, Clone, Copy, PartialEq, Eq)]
enum Inside {
    Nothing,
    First,
    Second,
    While,
}

/// What ends a body.
#[derive(Debug, Clone, Copy, PartialEq, Eq)]
enum Ended {
    Else,
    End,
    Nothing,
}

/// A refusal: number and line.
type Refused = (u32, usize);

/// A reader of the block dialect, right or wrong in one way.
struct Reader<'a> {
    wrong: Option<Wrong>,
    keys: u32,
    lines: Vec<&'a str>,
    /// The next line, from 0.
    next: usize,
    /// The bodies that are open, the innermost last.
    inside: Vec<Inside>,
    /// The lines at which they were opened.
    begun: Vec<usize>,
    /// Whether a `stop` stands in this body.
    stopped: bool,
    /// Whether the text has ended in a block.
    lacks_end: bool,
    commands: Vec<String>,
}

impl<'a> Reader<'a> {
    fn new(wrong: Option<Wrong>, keys: u32, text: &'a str) -> Reader<'a> {
        Reader {
            wrong,
            keys,
            lines: text.split_terminator('\n').collect(),
            next: 0,
            inside: vec![Inside::Nothing],
            begun: vec![0],
            stopped: false,
            lacks_end: false,
            commands: Vec::new(),
        }
    }

    fn is(&self, wrong: Wrong) -> bool {
        self.wrong == Some(wrong)
    }

    /// Reads lines up to the end of this body.
    fn body(&mut self) -> Result<Ended, Refused> {
        while let Some(&line) = self.lines.get(self.next) {
            self.next += 1;
            let refused = |number| (number, self.next);
            if self.is(Wrong::BytesLineByLine) && !line.bytes().all(|b| (32..=126).contains(&b)) {
                return Err((2, self.next));
            }
            self.place(line).map_err(refused)?;
            if let Some(ended) = self.line(line)? {
                return Ok(ended);
            }
            if self.is(Wrong::TooManyAtOnce) && self.commands.len() > 64 {
                return Err((53, 0));
            }
        }
        let lacks_end = self.inside.len() > 1;
        self.lacks_end |= lacks_end;
        if lacks_end && !self.is(Wrong::TooManyBeforeMissing) {
            return Err((51, self.missing()));
        }
        Ok(Ended::Nothing)
    }

    fn missing(&self) -> usize {
        match self.wrong {
            Some(Wrong::MissingAtLast) => self.lines.len(),
            Some(Wrong::MissingAtBegin) => self.begun[self.begun.len() - 1],
            _ => self.lines.len() + 1,
        }
    }

    /// 51 and 52.
    fn place(&self, line: &str) -> Result<(), u32> {
        let parts: Vec<&str> = line.split(' ').collect();
        let whole = match parts[0] {
            "else" | "end" => parts.len() == 1,
            _ => parts.len() == 2,
        };
        if self.is(Wrong::PartsBeforePlace) && !whole {
            return Ok(());
        }
        let unread = parts.get(1).is_some_and(|v| operand(v, 0, 7).is_none());
        let second_too = self.is(Wrong::ElseIsALevel);
        let level = |inside: &&Inside| second_too && **inside == Inside::Second;
        let depth = self.inside.len() - 1 + self.inside.iter().filter(level).count();
        let most = if self.is(Wrong::NineLevels) { 9 } else { 8 };
        match parts[0] {
            "else" if !self.takes_else() => Err(51),
            "end" if self.inside.len() == 1 => Err(51),
            "if" | "while" if self.is(Wrong::NumberBeforeDepth) && whole && unread => Ok(()),
            "if" | "while" if depth >= most => Err(52),
            _ => Ok(()),
        }
    }

    fn takes_else(&self) -> bool {
        let innermost = self.inside[self.inside.len() - 1];
        match self.wrong {
            Some(Wrong::ElseInAnyIf) => self.inside.contains(&Inside::First),
            Some(Wrong::SecondElse) => matches!(innermost, Inside::First | Inside::Second),
            _ => innermost == Inside::First,
        }
    }

    /// One line. Something if it ends the body.
    fn line(&mut self, line: &str) -> Result<Option<Ended>, Refused> {
        let at = self.next;
        let mut parts: Vec<&str> = line.split(' ').collect();
        if self.is(Wrong::SpacesJoin) {
            parts.retain(|part| !part.is_empty());
        }
        let variable = |v: &str| operand(v, 0, 7).ok_or((4, at));
        match parts.as_slice() {
            ["else"] => return Ok(Some(Ended::Else)),
            ["end"] => return Ok(Some(Ended::End)),
            ["if", v] => self.read_if(variable(v)?)?,
            ["while", v] => self.read_while(variable(v)?)?,
            _ => {
                self.check_command(&parts).map_err(|number| (number, at))?;
                let left_out = self.stopped && self.is(Wrong::StopEndsBlock);
                if !left_out {
                    self.commands.push(parts.join(" "));
                }
                self.stopped |= parts == ["stop"];
            }
        }
        Ok(None)
    }

    /// A command by document 01: a sheet with it alone says what is wrong with it. A part too long, or
    /// too many of them, is wrong by less, and the sheet stays short.
    fn check_command(&self, parts: &[&str]) -> Result<(), u32> {
        if matches!(parts.first(), Some(&("jump" | "ifneg" | "ifzero"))) {
            let allowed = self.is(Wrong::JumpsAllowed) || self.is(Wrong::JumpsRead);
            if !allowed {
                return Err(6);
            }
        }
        let keys = if self.is(Wrong::KeysBelowEight) {
            8
        } else {
            self.keys
        };
        let short = |part: &&str| part[..part.len().min(50)].to_string();
        let parts: Vec<String> = parts.iter().take(5).map(short).collect();
        let sheet = format!("sheet=1\nkeys={keys}\ndo={}\nturns=L\n", parts.join(" "));
        match read(sheet.as_bytes()) {
            Err(refusal) if refusal.number != 7 => Err(refusal.number),
            _ if self.is(Wrong::JumpsRead) && parts[0].contains(['j', 'f']) => Err(6),
            _ => Ok(()),
        }
    }

    /// Reads a body that a line has opened.
    fn inner(&mut self, inside: Inside) -> Result<Ended, Refused> {
        self.inside.push(inside);
        self.begun.push(self.next);
        let stopped = std::mem::take(&mut self.stopped);
        let ended = self.body()?;
        self.stopped = stopped;
        self.inside.pop();
        self.begun.pop();
        Ok(ended)
    }

    fn test(&self, v: usize, target: usize) -> String {
        let word = if self.is(Wrong::NegativeSkips) {
            "ifneg"
        } else {
            "ifzero"
        };
        format!("{word} {v} {target}")
    }

    fn read_if(&mut self, v: usize) -> Result<(), Refused> {
        let test = self.commands.len();
        self.commands.push(String::new());
        let mut ended = self.inner(Inside::First)?;
        let empty = self.commands.len() == test + 1;
        if ended != Ended::Else && !self.is(Wrong::JumpWithoutElse) {
            self.commands[test] = self.test(v, self.commands.len());
            return Ok(());
        }
        let jump = self.commands.len();
        let left_out = empty && self.is(Wrong::NoJumpIfEmpty);
        if !left_out {
            self.commands.push(String::new());
        }
        let to_the_jump = self.is(Wrong::ElseToTheJump);
        let behind = if to_the_jump {
            jump
        } else {
            self.commands.len()
        };
        self.commands[test] = self.test(v, behind);
        while ended == Ended::Else {
            ended = self.inner(Inside::Second)?;
        }
        let target = if self.is(Wrong::JumpToTheEnd) {
            END
        } else {
            self.commands.len()
        };
        if !left_out {
            self.commands[jump] = format!("jump {target}");
        }
        Ok(())
    }

    fn read_while(&mut self, v: usize) -> Result<(), Refused> {
        let test = self.commands.len();
        self.commands.push(String::new());
        self.inner(Inside::While)?;
        let back = test + usize::from(self.is(Wrong::BackBehindTest));
        let jump = self.commands.len();
        self.commands.push(format!("jump {back}"));
        let to_the_jump = self.is(Wrong::WhileToTheJump);
        self.commands[test] = self.test(v, if to_the_jump { jump } else { jump + 1 });
        Ok(())
    }

    /// The `do` lines.
    fn lines(&self) -> String {
        let end = self.commands.len().to_string();
        let line = |command: &String| format!("do={}\n", command.replace(&END.to_string(), &end));
        self.commands.iter().map(line).collect()
    }
}

fn operand(text: &str, lowest: usize, highest: usize) -> Option<usize> {
    let number: usize = text.parse().ok()?;
    let canonical = number.to_string() == text;
    (canonical && (lowest..=highest).contains(&number)).then_some(number)
}

/// The three numbers and the lines, by this reading.
fn read_by(wrong: Option<Wrong>, program: &Program, lent: usize) -> ([u32; 3], String) {
    match lines_by(wrong, program, lent) {
        Ok(lines) => ([0, 0, lines.len() as u32], lines),
        Err((number, line)) => ([number, line as u32, 0], String::new()),
    }
}

fn lines_by(wrong: Option<Wrong>, program: &Program, lent: usize) -> Result<String, Refused> {
    let is = |other: Wrong| wrong == Some(other);
    let keys_first = !is(Wrong::BytesBeforeKeys);
    if keys_first && !(1..=8).contains(&program.keys) {
        return Err((4, 0));
    }
    let text = &program.text;
    let skip_bytes = is(Wrong::BytesLineByLine) || is(Wrong::EmptyText) && text.is_empty();
    if !skip_bytes {
        check_bytes(text)?;
    }
    if !(1..=8).contains(&program.keys) {
        return Err((4, 0));
    }
    // One character for each byte, so that forbidden ones stay what they are.
    let text: String = text.iter().map(|&byte| char::from(byte)).collect();
    let mut reader = Reader::new(wrong, program.keys, &text);
    reader.body()?;
    let count = match wrong {
        Some(Wrong::LinesCount) => reader.lines.len(),
        _ => reader.commands.len(),
    };
    let most = if is(Wrong::SixtyFive) { 65 } else { 64 };
    let lines = reader.lines();
    let needed = lines.len() + usize::from(is(Wrong::OneByteMore));
    if count > most || needed > lent {
        return Err((53, 0));
    }
    if reader.lacks_end {
        return Err((51, reader.missing()));
    }
    Ok(lines)
}

/// 2, over the whole text.
fn check_bytes(text: &[u8]) -> Result<(), Refused> {
    let mut line = 1;
    for &byte in text {
        match byte {
            b'\n' => line += 1,
            32..=126 => {}
            _ => return Err((2, line)),
        }
    }
    match text {
        [.., b'\n'] => Ok(()),
        _ => Err((2, line)),
    }
}

/// The model's numbers and lines.
fn modelled(program: &Program, lent: usize) -> ([u32; 3], String) {
    let mut output = vec![0; lent];
    let numbers = blocks(&program.text, program.keys, &mut output);
    output.truncate(numbers[2] as usize);
    (numbers, String::from_utf8(output).expect("lines are text"))
}

fn program_of(corner: &Corner) -> Program {
    Program {
        keys: corner.keys,
        text: corner.text.clone(),
    }
}

fn random_program(rng: &mut Rng) -> Program {
    match rng.below(4) {
        0 => accepted(rng),
        1 => damaged(rng),
        2 => boundary(rng),
        _ => noise(rng),
    }
}

/// Two readers of different methods.
#[test]
fn read_rightly_the_two_methods_agree() {
    for corner in corners() {
        let found = read_by(None, &program_of(&corner), corner.lent);
        let lines = String::from_utf8(corner.lines).expect("lines are text");
        assert_eq!(found, (corner.numbers, lines));
    }
    let mut rng = Rng::new(21);
    for _ in 0..20_000 {
        let program = random_program(&mut rng);
        let lent = memory_length(&mut rng, &program);
        let (found, wanted) = (read_by(None, &program, lent), modelled(&program, lent));
        let text = program.text.escape_ascii();
        assert_eq!(found, wanted, "K {} lent {lent} \"{text}\"", program.keys);
    }
}

/// Each wrong reading answers some corner wrongly, and not only the longest ones.
#[test]
fn every_wrong_reading_fails_at_a_corner() {
    let mut corners = corners();
    corners.retain(|corner| corner.text.len() <= 10_000);
    for &wrong in WRONG {
        let fails = |corner: &&Corner| {
            let found = read_by(Some(wrong), &program_of(corner), corner.lent);
            found
                != (
                    corner.numbers,
                    String::from_utf8_lossy(&corner.lines).into_owned(),
                )
        };
        let count = corners.iter().filter(fails).count();
        println!("{wrong:?}: {count} corners");
        assert!(count > 0, "{wrong:?}");
    }
}

/// And some random programs, so that the comparison with the archive would tell it too.
#[test]
fn every_wrong_reading_fails_at_random() {
    for &wrong in WRONG {
        let mut rng = Rng::new(22);
        let mut fails = 0;
        for _ in 0..6_000 {
            let program = random_program(&mut rng);
            let lent = memory_length(&mut rng, &program);
            fails += usize::from(read_by(Some(wrong), &program, lent) != modelled(&program, lent));
        }
        println!("{wrong:?}: {fails} of 6,000");
        assert!(fails >= 3, "{wrong:?}: {fails}");
    }
}

/// The commands of some lines, in a sheet with this K.
fn job_of(lines: &str, keys: u32) -> Job {
    let sheet = format!("sheet=1\nkeys={keys}\n{lines}turns=L\n");
    read(sheet.as_bytes()).expect("the lines stand in a sheet")
}

/// Where the lines of a wrong translation differ in what they do, the dialect's own meaning tells.
#[test]
fn the_meaning_tells_wrong_translations() {
    for &wrong in MEANING {
        let mut rng = Rng::new(23);
        let mut told = 0;
        for _ in 0..600 {
            let program = accepted(&mut rng);
            let (numbers, lines) = read_by(Some(wrong), &program, 9_999);
            if numbers[0] != 0 {
                continue;
            }
            let keys = program.keys as usize;
            let (body, job) = (tree(&program.text, keys), job_of(&lines, program.keys));
            let messages = messages(&mut rng, keys);
            told += usize::from(difference(&body, &job, &messages, 300).is_some());
        }
        println!("{wrong:?}: {told} of 600");
        assert!(told >= 20, "{wrong:?}: {told}");
    }
}

/// Wrong translations, each with the first step at which it differs from the dialect's own meaning. The
/// variables are 0 at first.
const DIFFER: &[(&str, &str, usize)] = &[
    // An `end` that counts a step of its own.
    (
        "set 0 1\nif 0\nend\nsend\n",
        "do=set 0 1\ndo=ifzero 0 2\ndo=jump 3\ndo=send\n",
        2,
    ),
    // A `while` that is tested after its body only.
    (
        "while 0\nsend\nend\n",
        "do=send\ndo=ifzero 0 3\ndo=jump 0\n",
        0,
    ),
    // A jump back that tests in the same step: the body comes a step too soon.
    (
        "set 0 1\nwhile 0\nsend\nend\n",
        "do=set 0 1\ndo=ifzero 0 4\ndo=send\ndo=jump 2\n",
        4,
    ),
    // No jump after the first body: the second one runs too.
    (
        "set 0 1\nif 0\nsend\nelse\nreceive\nend\n",
        "do=set 0 1\ndo=ifzero 0 3\ndo=send\ndo=receive\n",
        3,
    ),
    // A jump after a first body that has no second one.
    (
        "set 0 1\nif 0\nsend\nend\nsend\n",
        "do=set 0 1\ndo=ifzero 0 4\ndo=send\ndo=jump 4\ndo=send\n",
        3,
    ),
    // A `stop` that ends its block only.
    (
        "set 0 1\nif 0\nstop\nend\nsend\n",
        "do=set 0 1\ndo=ifzero 0 3\ndo=jump 3\ndo=send\n",
        2,
    ),
    // A block that runs if v is above 0.
    (
        "set 0 -1\nif 0\nreceive\nend\nsend\n",
        "do=set 0 -1\ndo=ifneg 0 4\ndo=ifzero 0 4\ndo=receive\ndo=send\n",
        2,
    ),
    // The bodies in the wrong places.
    (
        "if 0\nsend\nelse\nreceive\nend\n",
        "do=ifzero 0 3\ndo=receive\ndo=jump 4\ndo=send\n",
        1,
    ),
    // A program that stops one step late, and one that stops too soon.
    ("send\n", "do=send\ndo=stop\n", 0),
    ("send\nsend\n", "do=send\ndo=jump 2\n", 1),
    // A variable alone, a field alone, a call alone, what is sent alone.
    ("set 0 1\nsend\n", "do=set 0 2\ndo=send\n", 0),
    ("put 0 0\nstop\n", "do=drop 0\ndo=stop\n", 0),
    ("drop 0\nsend\n", "do=drop 0\ndo=drop 0\n", 1),
    ("send\nput 0 0\n", "do=put 0 0\ndo=send\n", 0),
];

#[test]
fn wrong_translations_differ_at_a_step() {
    for &(text, lines, step) in DIFFER {
        let body = tree(text.as_bytes(), 1);
        let right = Job {
            commands: translated(text.as_bytes(), 1).expect("it is accepted"),
            ..job_of(lines, 1)
        };
        assert_eq!(difference(&body, &right, &[vec![Some(7)]], 50), None);
        let wrong = job_of(lines, 1);
        let found = difference(&body, &wrong, &[vec![Some(7)]], 50);
        assert_eq!(found, Some(step), "{text}");
    }
}

/// One target moved by one, anywhere in a program, is often told.
#[test]
fn moved_targets_are_told() {
    let mut rng = Rng::new(24);
    let (mut told, mut tried) = (0, 0);
    for _ in 0..2_000 {
        let program = accepted(&mut rng);
        let keys = program.keys as usize;
        let mut job = Job {
            commands: translated(&program.text, program.keys).expect("it is accepted"),
            ..job_of("do=stop\n", program.keys)
        };
        let aimed = |place: &usize| job.commands[*place].target().is_some();
        let places: Vec<usize> = (0..job.commands.len()).filter(aimed).collect();
        if places.is_empty() {
            continue;
        }
        let place = rng.pick(&places);
        let by = rng.pick(&[-1, 1]);
        let moved = |t: usize| t.saturating_add_signed(by).min(job.commands.len());
        job.commands[place] = match job.commands[place] {
            Command::IfZero(v, t) => Command::IfZero(v, moved(t)),
            Command::Jump(t) => Command::Jump(moved(t)),
            other => other,
        };
        let messages = messages(&mut rng, keys);
        let body = tree(&program.text, keys);
        told += usize::from(difference(&body, &job, &messages, 300).is_some());
        tried += 1;
    }
    println!("{told} of {tried}");
    assert!(told * 5 > tried, "{told} of {tried}");
}
