//! Note 2 of document 02 against the model: its worked examples, what it changes against document
//! 01's rule and what not, and what the generators reach. The corners of the note stand with the
//! others, in `document.rs`.

use reference::corners::calls::{CALLS, LATE, SAME, WRONG};
use reference::corners::{Run, EXAMPLES};
use reference::generate::{accepted_job, memory_length, sheet_of, Rng, Shape};
use reference::model::{end_line, run_by, CallRule, HIGH, NUMBERS};
use reference::{in_secret_column, read, Job, Level};

/// What the output memory holds before a run.
const FILL: u8 = 0xaa;

/// A run: its answer, the output memory after it, and the H turns that were idle by the kind.
struct Ran {
    numbers: [u32; NUMBERS],
    output: Vec<u8>,
    idle_by_kind: usize,
}

impl Ran {
    fn of(rule: CallRule, job: &Job, lent: usize) -> Ran {
        let mut output = vec![FILL; lent];
        let (numbers, unreported) = run_by(rule, job, &mut output);
        Ran {
            numbers,
            output,
            idle_by_kind: unreported.idle_by_kind(),
        }
    }

    /// What `runsheet` would print.
    fn printed(&self) -> String {
        let lines = &self.output[..self.numbers[4] as usize];
        String::from_utf8_lossy(&[lines, &end_line(self.numbers)].concat()).into_owned()
    }
}

/// A sheet of a table, by one of the rules.
fn ran(rule: CallRule, &(lent, sheet, _): &Run) -> Ran {
    let job = read(sheet.as_bytes()).expect("the sheet is accepted");
    Ran::of(rule, &job, lent)
}

// The worked examples.

#[test]
fn the_makers_program_no_longer_sends_what_it_made_of_another_message() {
    let before = "sent=0013 +0000000002 +0000000007\nend=0 0 14 7 34 2 0\n";
    let now = "sent=0013 +0000000002 +0000000002\nend=0 0 14 7 34 2 0\n";
    assert_eq!(ran(CallRule::EitherKind, &WRONG).printed(), before);
    assert_eq!(ran(CallRule::SameKind, &WRONG).printed(), now);
}

#[test]
fn a_high_receive_at_a_low_one_moves_on_as_before() {
    let printed = "sent=0013 +0000000002 +0000000007\nend=0 0 14 7 34 2 0\n";
    assert_eq!(ran(CallRule::EitherKind, &SAME).printed(), printed);
    assert_eq!(ran(CallRule::SameKind, &SAME).printed(), printed);
}

#[test]
fn high_letters_after_the_end_are_no_turns() {
    let printed = "sent=0006 +0000000002 +0000000002\nend=0 0 7 7 34 2 0\n";
    assert_eq!(ran(CallRule::SameKind, &LATE).printed(), printed);
    assert_eq!(ran(CallRule::SameKind, &LATE).idle_by_kind, 0);
}

/// Positions 7 to 10 of the maker's program; and none by document 01's rule.
#[test]
fn turns_that_are_idle_by_the_kind_are_counted() {
    assert_eq!(ran(CallRule::SameKind, &WRONG).idle_by_kind, 4);
    assert_eq!(ran(CallRule::SameKind, &SAME).idle_by_kind, 0);
    assert_eq!(ran(CallRule::EitherKind, &WRONG).idle_by_kind, 0);
}

/// Sheet A and its relatives.
#[test]
fn the_examples_of_document_01_stay() {
    for example in EXAMPLES {
        if read(example.1.as_bytes()).is_ok() {
            assert_eq!(ran(CallRule::EitherKind, example).printed(), example.2);
            assert_eq!(ran(CallRule::SameKind, example).printed(), example.2);
        }
    }
}

/// Five of the corners are ones at which the kinds differ and decide what is sent.
#[test]
fn the_corners_have_both_sides_of_the_rule() {
    let other = |corner: &&Run| ran(CallRule::EitherKind, corner).printed() != corner.2;
    assert_eq!(CALLS.iter().filter(other).count(), 5);
}

// What the note changes, and what not.

/// The numbers and the open columns stay what they were; only secret columns change, and these only
/// where a turn was idle by the kind.
#[test]
fn only_secret_columns_change() {
    let mut rng = Rng::new(21);
    let mut changed = 0;
    for round in 0..4_000 {
        let job = accepted_job(&mut rng, Shape::ALL[round % 4]);
        let lent = memory_length(&mut rng, &sheet_of(&job));
        let before = Ran::of(CallRule::EitherKind, &job, lent);
        let now = Ran::of(CallRule::SameKind, &job, lent);
        assert_eq!(before.numbers, now.numbers);
        let written = now.numbers[4] as usize;
        for place in 0..lent {
            let secret = in_secret_column(&job, place, written);
            assert!(secret || before.output[place] == now.output[place]);
        }
        let differs = before.output != now.output;
        assert!(!differs || now.idle_by_kind > 0);
        changed += usize::from(differs);
    }
    println!("sheets with other secret columns: {changed} of 4000");
    assert!(changed > 30, "{changed}");
}

/// "If the kinds differ, the high execution idles for the rest of the run": from the first turn that
/// is idle by the kind, every H turn is.
#[test]
fn a_high_execution_at_the_wrong_call_idles_to_the_end() {
    let mut rng = Rng::new(22);
    let mut tried = 0;
    for round in 0..2_000 {
        let job = accepted_job(&mut rng, Shape::ALL[round % 4]);
        let lent = memory_length(&mut rng, &sheet_of(&job));
        let whole = Ran::of(CallRule::SameKind, &job, lent);
        if whole.idle_by_kind == 0 {
            continue;
        }
        let used = &job.turns[..whole.numbers[2] as usize];
        let first = (0..used.len())
            .find(|&place| idles_by_kind_before(&job, place + 1, lent))
            .expect("the run has such a turn");
        let high = |letter: &&Level| **letter == HIGH;
        let rest = used[first..].iter().filter(high).count();
        assert_eq!(whole.idle_by_kind, rest);
        tried += 1;
    }
    println!("sheets with turns that are idle by the kind: {tried} of 2000");
    assert!(tried > 30, "{tried}");
}

/// Whether one of the first `count` turns is idle by the kind.
fn idles_by_kind_before(job: &Job, count: usize, lent: usize) -> bool {
    let mut job = job.clone();
    job.turns.truncate(count);
    Ran::of(CallRule::SameKind, &job, lent).idle_by_kind > 0
}

// The generators.

/// How many of 2,000 sheets of a shape have a turn that is idle by the kind.
#[test]
fn calls_of_two_kinds_occur_in_every_shape() {
    let mut rng = Rng::new(23);
    for (shape, least) in [
        (Shape::Small, 2),
        (Shape::Medium, 15),
        (Shape::Large, 90),
        (Shape::LongRun, 25),
    ] {
        let idles = |_: &usize| {
            let job = accepted_job(&mut rng, shape);
            let lent = memory_length(&mut rng, &sheet_of(&job));
            Ran::of(CallRule::SameKind, &job, lent).idle_by_kind > 0
        };
        let count = (0..2_000).filter(idles).count();
        println!("{shape:?}: {count} of 2000");
        assert!(count >= least, "{shape:?}: {count}");
    }
}
