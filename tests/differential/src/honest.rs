//! The entry that runs a sheet, on sheets whose turns are N times LH: document 02's Note 4, "Honest
//! programs lose nothing". Where the two plain runs of a random program meet the note's condition, what
//! the archive leaves is held to the plain run on real messages, which knows nothing of two executions.
//! Every case is compared with the paired model too; the corners with it and with what is written
//! beside them.

use crate::compare::{call_archive, compare_output, compare_with_model, Case, Difference, Left};
use crate::part::{Corner, Part};
use crate::sheets::{corner, numbers, printed, RUN, WRONG_LENGTHS};
use crate::tally::{Tally, Telling, Wanted};
use pavebox::ANSWER_BYTES;
use reference::corners::honest_corners;
use reference::generate::{honest::job, memory_length, sheet_of, Rng};
use reference::model::LENT;
use reference::plain::{lines, steps_of, Compared, Step, MOST_STEPS};
use reference::Job;

pub static HONEST: Part = Part {
    name: "honest",
    entry: RUN,
    answer_bytes: ANSWER_BYTES,
    wrong_lengths: WRONG_LENGTHS,
    memory_length: |rng, sheet, _| memory_length(rng, sheet),
    corners,
    // The part `sheets` has them.
    texts: Vec::new,
    text: printed,
    random,
    // Every ending; all sheets are accepted.
    wanted: Wanted {
        numbers: &[0, 31, 32],
        tellings: &[
            &ONE_STEP,
            &MOST,
            &ARE_HELD,
            &SHOW_SECRETS,
            &SEND_SEVERAL,
            &JUST_ENOUGH,
            &LACK_A_SECRET,
            &STOP_ALONE,
            &ARE_NOT_HONEST,
            &LOSE_SOMETHING,
            &DIFFER_AT_OPEN_KEYS,
        ],
    },
};

/// About one in 16 has, and one in 20: the ends of "N from 1 to 512".
static ONE_STEP: Telling = Telling {
    words: "programs have one step",
    one_of: 60,
};
static MOST: Telling = Telling {
    words: "programs have 512 steps",
    one_of: 60,
};

/// About four in five are; of the others the note says nothing.
static ARE_HELD: Telling = Telling {
    words: "programs are honest, in memory that holds all the lines",
    one_of: 2,
};

/// About four in nine do; the others could not tell a monitor that sends the low execution's entries
/// everywhere.
static SHOW_SECRETS: Telling = Telling {
    words: "such programs send other secret entries than on dummies",
    one_of: 5,
};

/// About half do; one line, or none, could not tell a monitor that falls behind.
static SEND_SEVERAL: Telling = Telling {
    words: "such programs send several lines",
    one_of: 5,
};

/// About a third do; the others could not tell a monitor that wants a byte more than it needs.
static JUST_ENOUGH: Telling = Telling {
    words: "such programs send lines that just fit",
    one_of: 10,
};

/// About two in five do; the others could not tell a monitor whose high execution gets the dummy where
/// the line lacks the key.
static LACK_A_SECRET: Telling = Telling {
    words: "such programs take a message line that lacks a secret key",
    one_of: 10,
};

/// About one in 55 has; the others would be honest too if both runs had to have stopped by the last
/// step, or neither, for which the note does not ask.
static STOP_ALONE: Telling = Telling {
    words: "such programs have stopped in one plain run and not in the other",
    one_of: 200,
};

/// About two in 13 are not; without them the condition would never be seen to shut one out.
static ARE_NOT_HONEST: Telling = Telling {
    words: "programs are not honest",
    one_of: 20,
};

/// About 11 in 12 do; if none did, the condition would ask for more than it needs to.
static LOSE_SOMETHING: Telling = Telling {
    words:
        "programs that are not honest, in as much memory, send something else than the plain run",
    one_of: 3,
};

/// About two in seven do; the others would be shut out without a look at what is sent.
static DIFFER_AT_OPEN_KEYS: Telling = Telling {
    words: "programs that are not honest differ in open entries alone",
    one_of: 10,
};

fn corners() -> Vec<Corner> {
    honest_corners().into_iter().map(corner).collect()
}

/// A job with its plain runs.
struct Program {
    job: Job,
    compared: Compared,
    /// What the plain run on real messages sends.
    sent: Vec<u8>,
    honest: bool,
}

impl Program {
    /// The turns of the job must be N times LH.
    fn of(job: Job) -> Program {
        let steps = steps_of(&job).expect("the turns are N times LH");
        let compared = Compared::of(&job, steps);
        Program {
            sent: lines(&compared.real),
            honest: compared.honest(&job),
            job,
            compared,
        }
    }

    /// A length for the output memory: just enough for all the lines, more, or too little.
    fn memory_length(&self, rng: &mut Rng) -> usize {
        let needed = self.sent.len();
        match rng.below(10) {
            0..=3 => needed,
            4..=6 => needed + rng.between(1, 200),
            7 | 8 => needed.max(LENT),
            _ => needed.saturating_sub(rng.between(1, 200)),
        }
    }

    /// The note's condition: the program is honest, "and the lent memory holds all the lines".
    fn loses_nothing(&self, lent: usize) -> bool {
        self.honest && lent >= self.sent.len()
    }

    /// "then the monitor sends exactly what the plain run on real messages sends": its lines, and
    /// behind them the bytes that were there.
    fn compare(&self, case: &Case, left: &Left) -> Result<(), Difference> {
        let needed = self.sent.len();
        let written = numbers(left).map(|numbers| numbers[4] as usize);
        if written != Some(needed) {
            return Err(case.differs(format!(
                "the archive says that it has written {written:?} bytes, the plain run sends {needed}"
            )));
        }
        let mut wanted = case.output().to_vec();
        wanted[..needed].copy_from_slice(&self.sent);
        compare_output(case, left, &wanted, "the plain run's")
    }

    fn count_tellings(&self, left: &Left, tally: &mut Tally) {
        let steps = self.compared.real.len();
        let lent = left.output().len();
        let held = self.loses_nothing(lent);
        tally.count_telling(&ONE_STEP, steps == 1);
        tally.count_telling(&MOST, steps == MOST_STEPS);
        tally.count_telling(&ARE_HELD, held);
        tally.count_telling(&ARE_NOT_HONEST, !self.honest);
        if held {
            self.count_held(lent, tally);
        }
        if !self.honest {
            self.count_not_honest(left, tally);
        }
    }

    /// Of what was compared with the plain run.
    fn count_held(&self, lent: usize, tally: &mut Tally) {
        let needed = self.sent.len();
        let stopped = |run: &[Step]| run.last() == Some(&Step::Stopped);
        let (real, dummied) = (&self.compared.real, &self.compared.dummied);
        tally.count_telling(&SHOW_SECRETS, self.sent != lines(dummied));
        tally.count_telling(&SEND_SEVERAL, needed >= 2 * self.job.line_length());
        tally.count_telling(&JUST_ENOUGH, needed > 0 && lent == needed);
        tally.count_telling(&LACK_A_SECRET, self.takes_line_without_secret());
        tally.count_telling(&STOP_ALONE, stopped(real) != stopped(dummied));
    }

    fn count_not_honest(&self, left: &Left, tally: &mut Tally) {
        tally.count_telling(&DIFFER_AT_OPEN_KEYS, self.compared.same_calls());
        if left.output().len() >= self.sent.len() {
            let written = numbers(left).map_or(0, |numbers| numbers[4]);
            tally.count_telling(&LOSE_SOMETHING, left.lines(written) != self.sent);
        }
    }

    /// Whether a message line that is taken lacks a secret key.
    fn takes_line_without_secret(&self) -> bool {
        let received = |step: &&Step| **step == Step::Receives;
        let taken = self.compared.real.iter().filter(received).count();
        let mut lines = self.job.messages.iter().take(taken);
        lines.any(|line| {
            let mut entries = line.iter().zip(&self.job.secrets);
            entries.any(|(entry, secret)| secret.is_some() && entry.is_none())
        })
    }
}

fn random(rng: &mut Rng, _place: u64, tally: &mut Tally) -> Result<(), Difference> {
    let program = Program::of(job(rng));
    let lent = program.memory_length(rng);
    let case = HONEST.case(rng, &sheet_of(&program.job), lent, ANSWER_BYTES);
    let left = call_archive(&case)?;
    if program.loses_nothing(lent) {
        program.compare(&case, &left)?;
    }
    compare_with_model(&case, &left)?;
    tally.count_random(left.returned);
    program.count_tellings(&left, tally);
    Ok(())
}
