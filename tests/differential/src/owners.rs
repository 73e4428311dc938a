//! The entry that runs a sheet, on sheets of form 2: document 02's Note 8, "Two owners of secrets".
//! Some have something of the other form. Every third case is a pair of sheets that differ in
//! secret entries only: in turn in those of A, of B, and of both.

use crate::compare::{Difference, Left};
use crate::pairs::{different_places, random_pair, Pair};
use crate::part::{Corner, Part};
use crate::sheets::{corner, numbers, printed, random_sheet, sends_else, RUN, WRONG_LENGTHS};
use crate::tally::{Tally, Telling, Wanted};
use pavebox::ANSWER_BYTES;
use reference::corners::owner_corners;
use reference::generate::{crossed, memory_length, Rng};
use reference::model::{run, run_by, CallRule};
use reference::{in_column_of, read, Form, Job, Level, Owner};

pub static OWNERS: Part = Part {
    name: "owners",
    entry: RUN,
    answer_bytes: ANSWER_BYTES,
    wrong_lengths: WRONG_LENGTHS,
    memory_length: |rng, sheet, _| memory_length(rng, sheet),
    corners,
    // The part `sheets` has them.
    texts: Vec::new,
    text: printed,
    random,
    // Every first number of document 01, and that of the note.
    wanted: Wanted {
        numbers: &[0, 31, 32, 1, 2, 3, 4, 5, 46, 6, 7, 8, 9, 10],
        tellings: &[
            &PAIRS_DIFFER[0],
            &PAIRS_DIFFER[1],
            &PAIRS_DIFFER_IN_BOTH,
            &WOULD_TELL[0],
            &WOULD_TELL[1],
            &CLAMP_DIFFERENTLY[0],
            &CLAMP_DIFFERENTLY[1],
            &ALL_APART,
            &CALLS_DIFFER,
            &IDLES_ALONE[0],
            &IDLES_ALONE[1],
            &CLAMPS_UNCOUNTED[0],
            &CLAMPS_UNCOUNTED[1],
            &LOW_CLAMPS_ALONE,
            &OWNERS_DECIDE[0],
            &OWNERS_DECIDE[1],
            &LETTERS_DECIDE,
            &KIND_DECIDES,
            &LAST_LINE_DECIDES,
            &LETTER_OF_ONE,
            &LETTER_OF_TWO,
            &OWNER_MISSING,
            &OWNER_ASTRAY,
            &BEFORE_THE_OWNER,
        ],
    },
};

/// About two in five have, and one in three; pairs whose columns are equal could not tell a monitor
/// that mixes up the executions.
static PAIRS_DIFFER: [Telling; 2] = [
    telling("pairs of A have different columns of A", 8),
    telling("pairs of B have different columns of B", 8),
];
static PAIRS_DIFFER_IN_BOTH: Telling =
    telling("pairs of both have different columns of A and of B", 10);

/// About two in 19 would, either way; the other pairs could not tell a monitor that shows the
/// entries of one owner to the other's execution.
static WOULD_TELL: [Telling; 2] = [
    telling(
        "pairs of A would have different columns of B if B's execution saw all entries",
        35,
    ),
    telling(
        "pairs of B would have different columns of A if A's execution saw all entries",
        35,
    ),
];

/// About one in 27 has, either way; the other pairs would have equal seventh numbers even if
/// these counted the results of that execution.
static CLAMP_DIFFERENTLY: [Telling; 2] = [
    telling(
        "pairs of A or both have executions of A with different counts of clamped results",
        100,
    ),
    telling(
        "pairs of B or both have executions of B with different counts of clamped results",
        100,
    ),
];

/// About four in seven have; where two executions stay together, a monitor that takes one of them
/// for the other is right by chance.
static ALL_APART: Telling = telling(
    "accepted sheets have three executions at three places at some time",
    6,
);

/// About three in ten have; the others could not tell a monitor with one count of calls for both.
static CALLS_DIFFER: Telling = telling(
    "accepted sheets have executions of A and B with different counts of calls",
    12,
);

/// About one in 37 has, either way; the others could not tell a monitor in which both idle once
/// one of them is at a wrong call.
static IDLES_ALONE: [Telling; 2] = [
    telling(
        "accepted sheets have A turns, and no B turns, that are idle at a call of the other kind",
        130,
    ),
    telling(
        "accepted sheets have B turns, and no A turns, that are idle at a call of the other kind",
        130,
    ),
];

/// About one in 78 has, either way; where the low one clamps as often, a monitor that counts the
/// results of the other is right by chance.
static CLAMPS_UNCOUNTED: [Telling; 2] = [
    telling(
        "accepted sheets have an execution of A that clamps and a low one that does not",
        300,
    ),
    telling(
        "accepted sheets have an execution of B that clamps and a low one that does not",
        300,
    ),
];

/// About one in 33 has; the same, for a monitor that counts a result only where another clamps too.
static LOW_CLAMPS_ALONE: Telling = telling(
    "accepted sheets have a low execution that clamps and others that do not",
    120,
);

/// About one in five would, either way; the others could not tell a monitor with one execution for
/// both owners, that sees the entries of both and fills the columns of both.
static OWNERS_DECIDE: [Telling; 2] = [
    telling(
        "accepted sheets would send something else if all secrets were A's",
        18,
    ),
    telling(
        "accepted sheets would send something else if all secrets were B's",
        18,
    ),
];

/// About two in 13 would; the others could not tell a monitor that mixes up the letters.
static LETTERS_DECIDE: Telling = telling(
    "accepted sheets would send something else if A and B had each other's turns",
    22,
);

/// About one in 30 would; the others could not tell a monitor that does not compare the kinds.
static KIND_DECIDES: Telling = telling(
    "accepted sheets would send something else if the kinds of calls did not count",
    110,
);

/// About one in 17 would; the others could not tell a monitor that shows dummies where no line is.
static LAST_LINE_DECIDES: Telling = telling(
    "accepted sheets would send something else if dummies stood in with no line left",
    60,
);

/// About one in 36 is, and one in 48; the others could not tell a monitor that takes all letters in
/// both forms.
static LETTER_OF_ONE: Telling = telling("sheets of form 2 are refused for letters H alone", 130);
static LETTER_OF_TWO: Telling = telling(
    "sheets of form 1 are refused for letters A and B alone",
    170,
);

/// About one in 17 is, one in 24 and one in 29; the others could not tell a monitor that divides
/// the lines of both forms in one way, or tests the owner before the rest.
static OWNER_MISSING: Telling = telling(
    "sheets of form 2 are refused for a secret line with one colon",
    60,
);
static OWNER_ASTRAY: Telling = telling(
    "sheets of form 1 are refused for a secret line with two colons",
    85,
);
static BEFORE_THE_OWNER: Telling = telling(
    "sheets of form 2 are refused for a fault in a secret line before its bad owner",
    100,
);

const fn telling(words: &'static str, one_of: u64) -> Telling {
    Telling { words, one_of }
}

/// The owners, in the order of the tellings that there are for each.
const BOTH: [Owner; 2] = [Owner::A, Owner::B];

/// Every so many cases there is a pair, in turn with other entries of these owners.
const PAIR_EVERY: u64 = 3;
const PAIRS: [&[Owner]; 3] = [&[Owner::A], &[Owner::B], &BOTH];

fn corners() -> Vec<Corner> {
    owner_corners().into_iter().map(corner).collect()
}

fn random(rng: &mut Rng, place: u64, tally: &mut Tally) -> Result<(), Difference> {
    if place.is_multiple_of(PAIR_EVERY) {
        let turn = (place / PAIR_EVERY) as usize % PAIRS.len();
        let pair = random_pair(&OWNERS, Form::Two, PAIRS[turn], rng)?;
        tally.count_random(pair.returned);
        count_pair(PAIRS[turn], &pair, tally);
        return Ok(());
    }
    let sheet = match rng.below(8) {
        0 => crossed(rng),
        _ => random_sheet(Form::Two, rng),
    };
    let left = OWNERS.compare_once(rng, &sheet)?;
    tally.count_random(left.returned);
    if let Some([number, line, ..]) = numbers(&left) {
        count_causes(&sheet, number, line, tally);
        // One with something of the other form may be accepted as a sheet of that form.
        if let Some(job) = read(&sheet).ok().filter(|job| job.form == Form::Two) {
            count_run(&job, &left, tally);
            count_wrong_rules(&job, &left, tally);
        }
    }
    Ok(())
}

/// What a pair with other entries of these owners shows.
fn count_pair(owners: &[Owner], pair: &Pair, tally: &mut Tally) {
    if owners == BOTH {
        tally.count_telling(&PAIRS_DIFFER_IN_BOTH, pair.differ == BOTH);
    }
    for (place, owner) in BOTH.into_iter().enumerate() {
        if owners == [owner] {
            let other = BOTH[1 - place];
            tally.count_telling(&PAIRS_DIFFER[place], pair.differ == [owner]);
            tally.count_telling(&WOULD_TELL[place], would_tell(pair, other));
        }
        if owners.contains(&owner) {
            let different = pair.clamp_differently.contains(&owner);
            tally.count_telling(&CLAMP_DIFFERENTLY[place], different);
        }
    }
}

/// Whether columns of an owner would differ in a pair if that execution saw all secret entries.
fn would_tell(pair: &Pair, owner: Owner) -> bool {
    let [(written, one), (_, other)] = pair.jobs.each_ref().map(|job| {
        let mut output = vec![0; pair.lent];
        let numbers = run(&all_of(owner, job), &mut output);
        (numbers[4] as usize, output)
    });
    let places = different_places(&one, &other);
    let mut places = places.into_iter();
    places.any(|place| in_column_of(&pair.jobs[0], owner, place, written))
}

/// What a run does not say of itself: how far each execution came, and which has clamped results.
fn count_run(job: &Job, left: &Left, tally: &mut Tally) {
    let mut output = vec![0; left.output().len()];
    let (numbers, unreported) = run_by(CallRule::SameKind, job, &mut output);
    let [a, b] = BOTH.map(|owner| unreported.of(owner));
    let low_clamps = numbers[6] > 0;
    tally.count_telling(&ALL_APART, unreported.all_apart);
    tally.count_telling(&CALLS_DIFFER, a.calls != b.calls);
    for (place, [one, other]) in [[a, b], [b, a]].into_iter().enumerate() {
        let idles_alone = one.idle_by_kind > 0 && other.idle_by_kind == 0;
        tally.count_telling(&IDLES_ALONE[place], idles_alone);
        let uncounted = one.clamped > 0 && !low_clamps;
        tally.count_telling(&CLAMPS_UNCOUNTED[place], uncounted);
    }
    let alone = low_clamps && unreported.clamped() == 0;
    tally.count_telling(&LOW_CLAMPS_ALONE, alone);
}

/// What monitors with other rules would have sent.
fn count_wrong_rules(job: &Job, left: &Left, tally: &mut Tally) {
    let differs = |job: Job| sends_else(CallRule::SameKind, &job, left);
    for (owner, way) in BOTH.into_iter().zip(&OWNERS_DECIDE) {
        tally.count_telling(way, differs(all_of(owner, job)));
    }
    tally.count_telling(&LETTERS_DECIDE, differs(with_turns_exchanged(job)));
    tally.count_telling(&LAST_LINE_DECIDES, differs(with_lines_to_the_end(job)));
    let kind_decides = sends_else(CallRule::EitherKind, job, left);
    tally.count_telling(&KIND_DECIDES, kind_decides);
}

/// The job with every secret this owner's.
fn all_of(owner: Owner, job: &Job) -> Job {
    let mut job = job.clone();
    for secret in job.secrets.iter_mut().flatten() {
        secret.owner = owner;
    }
    job
}

/// The job with A's turns B's, and B's turns A's.
pub fn with_turns_exchanged(job: &Job) -> Job {
    let mut job = job.clone();
    for level in &mut job.turns {
        *level = match *level {
            Level::Of(Owner::A) => Level::Of(Owner::B),
            Level::Of(Owner::B) => Level::Of(Owner::A),
            other => other,
        };
    }
    job
}

/// The job with a message line without entries for every `receive` that finds no line left.
fn with_lines_to_the_end(job: &Job) -> Job {
    let mut job = job.clone();
    let lines = job.messages.len() + job.turns.len();
    job.messages.resize(lines, vec![None; job.keys]);
    job
}

/// Why a sheet is refused, where the two forms part.
fn count_causes(sheet: &[u8], number: u32, line: u32, tally: &mut Tally) {
    let mut lines = sheet.split(|&byte| byte == b'\n');
    let two = sheet.starts_with(b"sheet=2\n");
    let place = (line as usize).checked_sub(1);
    let line = place.and_then(|place| lines.nth(place)).unwrap_or(b"");
    let letters = line.strip_prefix(b"turns=").unwrap_or(b"");
    let known = |letter: &u8| b"LHAB".contains(letter);
    let crossed = number == 9 && !letters.is_empty() && letters.iter().all(known);
    tally.count_telling(&LETTER_OF_ONE, two && crossed);
    tally.count_telling(&LETTER_OF_TWO, !two && crossed);
    let parts = line
        .strip_prefix(b"secret=")
        .map(parts_of)
        .unwrap_or_default();
    let refused = number == 4 || number == 5;
    tally.count_telling(&OWNER_MISSING, two && refused && parts.len() == 2);
    tally.count_telling(&OWNER_ASTRAY, !two && refused && parts.len() == 3);
    let no_owner = parts
        .get(2)
        .is_some_and(|&owner| owner != b"A" && owner != b"B");
    tally.count_telling(&BEFORE_THE_OWNER, two && refused && no_owner);
}

/// What the first two colons divide.
fn parts_of(text: &[u8]) -> Vec<&[u8]> {
    text.splitn(3, |&byte| byte == b':').collect()
}
