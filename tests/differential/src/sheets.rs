//! The entry that runs a sheet. The random ones are of form 1; those of form 2 are in the part
//! `owners`. Every fourth case is a pair of sheets that differ in secret entries only.

use crate::compare::{Difference, Entry, Left, Record};
use crate::pairs;
use crate::part::{Corner, Part, Texts};
use crate::tally::{Tally, Telling, Wanted};
use pavebox::{Answer, ANSWER_BYTES};
use reference::generate::{accepted_by, damaged_by, memory_length, noise_by, Rng, Shape};
use reference::model::{end_line, run_by, CallRule, NUMBERS};
use reference::{read, Form, Job, Owner};

pub static SHEETS: Part = Part {
    name: "sheets",
    entry: RUN,
    answer_bytes: ANSWER_BYTES,
    wrong_lengths: WRONG_LENGTHS,
    memory_length: |rng, sheet, _| memory_length(rng, sheet),
    corners,
    texts,
    text: printed,
    random,
    // Every first number of document 01.
    wanted: Wanted {
        numbers: &[0, 31, 32, 1, 2, 3, 4, 5, 6, 7, 8, 9, 10],
        tellings: &[
            &PAIRS_DIFFER,
            &PAIRS_CLAMP_DIFFERENTLY,
            &IDLE_BY_KIND,
            &KIND_DECIDES,
            &HIGH_CLAMPS_ALONE,
            &LOW_CLAMPS_ALONE,
            &DIVIDES_BY_ZERO,
            &REACHES_AN_END,
        ],
    },
};

pub const RUN: Entry = Entry {
    archive: |sheet, _, output, answer| pavebox::entry(sheet, output, answer),
    model: |sheet, _, output, answer| reference::c_entry(sheet, output, answer),
    input: "sheet",
    number: "",
    record: Record::None,
};

/// Lengths of an answer memory that are refused.
pub const WRONG_LENGTHS: &[usize] = &[0, 1, 4, 8, 20, 24, 26, 27, 29, 30, 32, 56];

/// About two in five do; pairs whose columns are equal could not tell a monitor that mixes up the two
/// executions.
static PAIRS_DIFFER: Telling = Telling {
    words: "pairs have different secret columns",
    one_of: 10,
};

/// About one in 15 has; without such a turn a sheet could not tell a monitor that compares the kinds
/// of calls in a wrong way.
static IDLE_BY_KIND: Telling = Telling {
    words: "accepted sheets have an H turn that is idle at a call of the other kind",
    one_of: 100,
};

/// About one in 30 does; the other sheets could not tell a monitor that does not compare the kinds.
static KIND_DECIDES: Telling = Telling {
    words: "accepted sheets would send something else if the kinds of calls did not count",
    one_of: 200,
};

/// About one in 18 has; the other pairs would have equal seventh numbers even if these counted the
/// high executions' results.
static PAIRS_CLAMP_DIFFERENTLY: Telling = Telling {
    words: "pairs have high executions with different counts of clamped results",
    one_of: 60,
};

/// About one in 54 has; where both clamp equally often, a monitor that counts the high execution's
/// results in place of the low one's is right by chance.
static HIGH_CLAMPS_ALONE: Telling = Telling {
    words: "accepted sheets have a high execution that clamps and a low one that does not",
    one_of: 200,
};

/// About one in 18 has; the same, for a monitor that counts a result only where both clamp.
static LOW_CLAMPS_ALONE: Telling = Telling {
    words: "accepted sheets have a low execution that clamps and a high one that does not",
    one_of: 60,
};

/// About one in 10 has; the others could not tell a monitor that counts a zero divisor.
static DIVIDES_BY_ZERO: Telling = Telling {
    words: "accepted sheets have a low execution that divides by zero",
    one_of: 40,
};

/// About one in 9 has; the others could not tell a monitor that counts a result at an end as one beyond
/// it.
static REACHES_AN_END: Telling = Telling {
    words: "accepted sheets have a low execution with a result that just reaches an end",
    one_of: 40,
};

/// Every so many cases there is a pair.
const PAIR_EVERY: u64 = 4;

fn corners() -> Vec<Corner> {
    let corners = reference::corners::corners();
    corners.into_iter().map(corner).collect()
}

pub fn corner(corner: reference::corners::Corner) -> Corner {
    Corner {
        lent: corner.lent,
        number: None,
        input: corner.sheet,
        text: corner.printed,
    }
}

/// A line of two keys, if one is sent, has room in the memory.
fn texts() -> Vec<Texts> {
    vec![Texts {
        lent: 40,
        number: None,
        inputs: reference::corners::bytes::sheets(),
    }]
}

/// The seven numbers, if the answer memory has them.
pub fn numbers(left: &Left) -> Option<[u32; NUMBERS]> {
    let bytes: &[u8; ANSWER_BYTES] = left.answer().try_into().ok()?;
    Some(Answer::from_bytes(bytes).numbers())
}

/// What `runsheet` would print.
pub fn printed(left: &Left) -> Vec<u8> {
    let numbers = numbers(left).unwrap_or([0; NUMBERS]);
    [left.lines(numbers[4]), &end_line(numbers)].concat()
}

fn random(rng: &mut Rng, place: u64, tally: &mut Tally) -> Result<(), Difference> {
    if place.is_multiple_of(PAIR_EVERY) {
        return random_pair(rng, tally);
    }
    let sheet = random_sheet(Form::One, rng);
    let left = SHEETS.compare_once(rng, &sheet)?;
    tally.count_random(left.returned);
    count_tellings(&sheet, &left, tally);
    Ok(())
}

/// What a run does not say of itself: what the kinds of calls have decided, and which execution has
/// clamped results. It is over: `left` is what it left.
fn count_tellings(sheet: &[u8], left: &Left, tally: &mut Tally) {
    let (Ok(job), Some(numbers)) = (read(sheet), numbers(left)) else {
        return;
    };
    let mut output = vec![0; left.output().len()];
    let (_, unreported) = run_by(CallRule::SameKind, &job, &mut output);
    tally.count_telling(&IDLE_BY_KIND, unreported.idle_by_kind() > 0);
    let (low, high) = (numbers[6] > 0, unreported.clamped() > 0);
    tally.count_telling(&HIGH_CLAMPS_ALONE, high && !low);
    tally.count_telling(&LOW_CLAMPS_ALONE, low && !high);
    tally.count_telling(&DIVIDES_BY_ZERO, unreported.low_zero_divisors > 0);
    tally.count_telling(&REACHES_AN_END, unreported.low_at_an_end > 0);
    let kind_decides = sends_else(CallRule::EitherKind, &job, left);
    tally.count_telling(&KIND_DECIDES, kind_decides);
}

/// Whether the run of this job by this rule sends something else than a run has left, in as much
/// memory.
pub fn sends_else(rule: CallRule, job: &Job, left: &Left) -> bool {
    let mut output = vec![0; left.output().len()];
    let (run, _) = run_by(rule, job, &mut output);
    let written = numbers(left).map_or(0, |numbers| numbers[4]);
    left.lines(written) != &output[..run[4] as usize]
}

fn random_pair(rng: &mut Rng, tally: &mut Tally) -> Result<(), Difference> {
    let pair = pairs::random_pair(&SHEETS, Form::One, &[Owner::H], rng)?;
    tally.count_random(pair.returned);
    tally.count_telling(&PAIRS_DIFFER, !pair.differ.is_empty());
    let clamp_differently = !pair.clamp_differently.is_empty();
    tally.count_telling(&PAIRS_CLAMP_DIFFERENTLY, clamp_differently);
    Ok(())
}

/// A sheet of this form that is accepted, or damaged, or noise.
pub fn random_sheet(form: Form, rng: &mut Rng) -> Vec<u8> {
    match rng.below(20) {
        0..=3 => accepted_by(form, rng, Shape::Small),
        4..=6 => accepted_by(form, rng, Shape::Medium),
        7 | 8 => accepted_by(form, rng, Shape::Large),
        9 => accepted_by(form, rng, Shape::LongRun),
        10..=17 => damaged_by(form, rng),
        _ => noise_by(form, rng),
    }
}
