//! The entry that makes `do` lines out of a program with blocks: document 02's Note 5. The lines that the
//! archive has written are put into a sheet, and are held to what the program does by itself, in the
//! dialect's own meaning: step by step by a plain run, and by the archive's own run of that sheet.

use crate::compare::{Difference, Entry, Left, Record};
use crate::part::{Corner, Part, Texts};
use crate::tally::{Tally, Telling, Wanted};
use pavebox::{BlocksAnswer, BLOCKS_ANSWER_BYTES, WRITTEN};
use reference::block_run::{alone, difference, tree, Body, Part as Piece};
use reference::blocks::{answer_line, c_entry, translated};
use reference::generate::block_damage::{boundary, damaged, noise};
use reference::generate::blocks::{accepted, memory_length, messages, Program};
use reference::generate::{sheet_of, Rng};
use reference::model::{Form, MOST_COMMANDS, MOST_TURNS};
use reference::plain::Plain;
use reference::{read, Command, Job, Level};

pub static BLOCKS: Part = Part {
    name: "blocks",
    entry: Entry {
        archive: pavebox::blocks_entry,
        model: c_entry,
        input: "program",
        number: "K",
        record: Record::None,
    },
    answer_bytes: BLOCKS_ANSWER_BYTES,
    wrong_lengths: &[0, 1, 4, 8, 11, 13, 16, 24, 28, 48, 268],
    memory_length: |rng, text, keys| memory_length(rng, &program(text, keys)),
    corners,
    texts,
    text: lines_and_answer,
    random,
    // Every number of Note 5.
    wanted: Wanted {
        numbers: &[0, 2, 4, 6, 51, 52, 53, 10],
        tellings: &[
            &KEYS_BEYOND,
            &BAD_NUMBER,
            &ELSE_ASTRAY,
            &END_TOO_MANY,
            &END_MISSING,
            &TOO_MANY,
            &TOO_LITTLE_MEMORY,
            &GIVE_LINES,
            &JUST_FIT,
            &EIGHT_DEEP,
            &AS_MANY_AS_MAY_BE,
            &GO_ROUND,
            &SEND_SEVERAL,
            &GO_ON,
        ],
    },
};

/// Both causes of 4, the first and the last that a program is tested for: about one in 50, one in 17.
static KEYS_BEYOND: Telling = Telling {
    words: "programs are given a K beyond its limit",
    one_of: 200,
};
static BAD_NUMBER: Telling = Telling {
    words: "programs have a bad number in a line",
    one_of: 70,
};

/// Each of the three causes of 51: about one in 18, one in 26, one in 45.
static ELSE_ASTRAY: Telling = Telling {
    words: "programs have an else outside a first body",
    one_of: 70,
};
static END_TOO_MANY: Telling = Telling {
    words: "programs have an end outside blocks",
    one_of: 100,
};
static END_MISSING: Telling = Telling {
    words: "programs lack an end",
    one_of: 180,
};

/// Both causes of 53: about one in 12, two in 13.
static TOO_MANY: Telling = Telling {
    words: "programs have more than 64 commands",
    one_of: 50,
};
static TOO_LITTLE_MEMORY: Telling = Telling {
    words: "programs have longer lines than the memory",
    one_of: 30,
};

/// About a third do; the others could not tell an entry that never writes.
static GIVE_LINES: Telling = Telling {
    words: "programs give lines",
    one_of: 6,
};

/// About three in seven do; the others could not tell an entry that wants a byte more than it needs.
static JUST_FIT: Telling = Telling {
    words: "lines just fit into the memory",
    one_of: 8,
};

/// About one in eight is, and one in seven has; the others could not tell lower limits.
static EIGHT_DEEP: Telling = Telling {
    words: "programs that give lines are eight deep",
    one_of: 30,
};
static AS_MANY_AS_MAY_BE: Telling = Telling {
    words: "programs that give lines have 64 commands",
    one_of: 30,
};

/// About a quarter do; a run without rounds could not tell a jump back to a wrong place.
static GO_ROUND: Telling = Telling {
    words: "runs of these lines jump back twice or more",
    one_of: 16,
};

/// About one in five does; runs that send nothing show little of what they did.
static SEND_SEVERAL: Telling = Telling {
    words: "runs of these lines send several lines",
    one_of: 20,
};

/// About one in five does; the others could not tell lines that stop where they should not.
static GO_ON: Telling = Telling {
    words: "runs of these lines go on until all letters are used",
    one_of: 20,
};

fn corners() -> Vec<Corner> {
    let corners = reference::corners::blocks::corners();
    let corner = |corner: reference::corners::blocks::Corner| Corner {
        lent: corner.lent,
        number: Some(corner.keys),
        input: corner.text,
        text: [corner.lines, answer_line(corner.numbers)].concat(),
    };
    corners.into_iter().map(corner).collect()
}

/// The lines of a program that gives some have room in the memory.
fn texts() -> Vec<Texts> {
    vec![Texts {
        lent: 150,
        number: Some(2),
        inputs: reference::corners::bytes::programs(),
    }]
}

fn program(text: &[u8], keys: Option<u32>) -> Program {
    Program {
        keys: keys.unwrap_or(0),
        text: text.to_vec(),
    }
}

/// The three numbers, if the answer memory has them.
fn numbers(left: &Left) -> Option<[u32; 3]> {
    let bytes: &[u8; BLOCKS_ANSWER_BYTES] = left.answer().try_into().ok()?;
    Some(BlocksAnswer::from_bytes(bytes).numbers())
}

/// What `blocks` would print: the lines, and then the answer.
fn lines_and_answer(left: &Left) -> Vec<u8> {
    let numbers = numbers(left).unwrap_or([0; 3]);
    [left.lines(numbers[2]), &answer_line(numbers)].concat()
}

fn random_program(rng: &mut Rng) -> Program {
    match rng.below(20) {
        0..=8 => accepted(rng),
        9..=15 => damaged(rng),
        16..=18 => boundary(rng),
        _ => noise(rng),
    }
}

fn random(rng: &mut Rng, _place: u64, tally: &mut Tally) -> Result<(), Difference> {
    let program = random_program(rng);
    let left = BLOCKS.compare_with_number(rng, &program.text, Some(program.keys))?;
    tally.count_random(left.returned);
    let Some(numbers) = numbers(&left) else {
        return Ok(());
    };
    count_causes(&program, numbers, tally);
    if numbers[0] != WRITTEN {
        return Ok(());
    }
    let lines = left.lines(numbers[2]);
    let run = Run::of(rng, &program, lines);
    let held = run.check_steps().and_then(|()| run.check_archive());
    held.map_err(|message| {
        let case = BLOCKS.case(rng, &program.text, left.output().len(), BLOCKS_ANSWER_BYTES);
        let sheet = run.sheet.escape_ascii();
        let case = case.with_number(Some(program.keys));
        case.differs(format!("{message}\nits lines in a sheet \"{sheet}\""))
    })?;
    run.count(left.output().len() == lines.len(), tally);
    Ok(())
}

/// Why a program is refused, where a number has several causes.
fn count_causes(program: &Program, [number, line, _]: [u32; 3], tally: &mut Tally) {
    let mut lines = program.text.split(|&byte| byte == b'\n');
    let words = (line as usize)
        .checked_sub(1)
        .and_then(|place| lines.nth(place));
    let begins = |word: &[u8]| words.is_some_and(|words| words.starts_with(word));
    let commands = translated(&program.text, program.keys).map_or(0, |commands| commands.len());
    let many = commands > MOST_COMMANDS;
    tally.count_telling(&KEYS_BEYOND, number == 4 && line == 0);
    tally.count_telling(&BAD_NUMBER, number == 4 && line > 0);
    tally.count_telling(&ELSE_ASTRAY, number == 51 && begins(b"else"));
    tally.count_telling(&END_TOO_MANY, number == 51 && begins(b"end"));
    tally.count_telling(&END_MISSING, number == 51 && words == Some(b""));
    tally.count_telling(&TOO_MANY, number == 53 && many);
    tally.count_telling(&TOO_LITTLE_MEMORY, number == 53 && !many);
    tally.count_telling(&GIVE_LINES, number == WRITTEN);
}

/// An accepted program, and the sheet with the lines that the archive has written.
struct Run {
    body: Body,
    keys: usize,
    messages: Vec<Vec<Option<i32>>>,
    turns: usize,
    sheet: Vec<u8>,
}

/// The steps that are compared one by one.
const STEPS: usize = 300;

impl Run {
    fn of(rng: &mut Rng, program: &Program, lines: &[u8]) -> Run {
        let keys = program.keys as usize;
        let messages = messages(rng, keys);
        let turns = match rng.below(4) {
            0 => rng.between(1, 40),
            _ => rng.between(200, MOST_TURNS),
        };
        let sheet = sheet_around(lines, keys, &messages, turns);
        Run {
            body: tree(&program.text, keys),
            keys,
            messages,
            turns,
            sheet,
        }
    }

    fn job(&self) -> Result<Job, String> {
        let refused = |refusal| format!("the lines do not stand in a sheet: {refusal:?}");
        read(&self.sheet).map_err(refused)
    }

    /// "every plain run of the translation agrees with it step by step".
    fn check_steps(&self) -> Result<(), String> {
        match difference(&self.body, &self.job()?, &self.messages, STEPS) {
            None => Ok(()),
            Some(step) => Err(format!("the plain run of the lines differs at step {step}")),
        }
    }

    /// The archive's run of the sheet sends what the program would, and ends where it does.
    fn check_archive(&self) -> Result<(), String> {
        let wanted = alone(&self.body, self.keys, &self.messages, self.turns);
        let mut output = vec![0; wanted.sent.len()];
        let numbers = pavebox::run(&self.sheet, &mut output).numbers();
        if numbers[..6] != wanted.numbers || output != wanted.sent {
            let (found, wanted) = (output.escape_ascii(), wanted.sent.escape_ascii());
            return Err(format!(
                "the archive runs the lines to {numbers:?} and \"{found}\", the program sends \"{wanted}\""
            ));
        }
        Ok(())
    }

    fn count(&self, just_fit: bool, tally: &mut Tally) {
        let wanted = alone(&self.body, self.keys, &self.messages, self.turns);
        let commands = self.job().map_or(Vec::new(), |job| job.commands);
        let lines = wanted.sent.len() / (10 + 12 * self.keys);
        tally.count_telling(&JUST_FIT, just_fit);
        tally.count_telling(&EIGHT_DEEP, depth(&self.body) == 8);
        tally.count_telling(&AS_MANY_AS_MAY_BE, commands.len() == MOST_COMMANDS);
        tally.count_telling(&GO_ROUND, self.rounds() >= 2);
        tally.count_telling(&SEND_SEVERAL, lines >= 2);
        tally.count_telling(&GO_ON, wanted.numbers[0] == 31);
    }

    /// How often the plain run of the lines jumps back.
    fn rounds(&self) -> usize {
        let Ok(job) = self.job() else { return 0 };
        let mut plain = Plain::new(&job, &self.messages);
        let mut back = || {
            let place = plain.place();
            plain.step();
            matches!(job.commands.get(place), Some(&Command::Jump(t)) if t <= place)
        };
        (0..self.turns).filter(|_| back()).count()
    }
}

/// How deep the blocks of a body are.
fn depth(body: &[Piece]) -> usize {
    let depths = body.iter().map(|piece| match piece {
        Piece::Command(_) => 0,
        Piece::While(_, body) | Piece::If(_, body, None) => 1 + depth(body),
        Piece::If(_, first, Some(second)) => 1 + depth(first).max(depth(second)),
    });
    depths.max().unwrap_or(0)
}

/// A sheet without secret keys that has these lines as its commands, whatever they are, and so many
/// letters L.
fn sheet_around(lines: &[u8], keys: usize, messages: &[Vec<Option<i32>>], turns: usize) -> Vec<u8> {
    let mut sheet = sheet_of(&Job {
        form: Form::One,
        keys,
        secrets: vec![None; keys],
        commands: Vec::new(),
        messages: messages.to_vec(),
        turns: vec![Level::Low; turns],
    });
    let head = b"sheet=1\nkeys=1\n".len();
    sheet.splice(head..head, lines.iter().copied());
    sheet
}
