//! Random sheets of both forms that are to be turned into the other form, for Note 9 of document 02: sheets that
//! can be turned, sheets of form 2 with something of B's, and sheets that are refused on reading.

use super::records::passing_by;
use super::{
    accepted_by, accepted_job_by, crossed, damaged_by, length_near, noise_by, sheet_of, value, Rng,
    Shape,
};
use crate::forms::turned;
use crate::model::{Form, Job, Level, Owner, Refusal, Secret};
use crate::record::{job_of, text, LONGEST};

/// A random sheet of either form. Two in three are accepted, and three in four of these can be turned.
pub fn sheet(rng: &mut Rng) -> Vec<u8> {
    let form = rng.pick(&Form::ALL);
    match rng.below(20) {
        0..=4 => old(rng),
        5..=9 => new(rng),
        10 | 11 => with_b(rng),
        12 => {
            let shape = shape(rng);
            accepted_by(Form::Two, rng, shape)
        }
        13..=17 => damaged_by(form, rng),
        18 => crossed(rng),
        _ => noise_by(form, rng),
    }
}

/// Small sheets more often than large ones.
fn shape(rng: &mut Rng) -> Shape {
    rng.pick(&[
        Shape::Small,
        Shape::Small,
        Shape::Small,
        Shape::Medium,
        Shape::Medium,
        Shape::Large,
        Shape::LongRun,
    ])
}

/// An accepted sheet of form 1. Some are those of records, whose programs do nothing of use but have every word,
/// and of which some are as long as may be.
pub fn old(rng: &mut Rng) -> Vec<u8> {
    match rng.below(4) {
        0 => text(&passing_by(Form::One, rng)),
        _ => {
            let shape = shape(rng);
            accepted_by(Form::One, rng, shape)
        }
    }
}

/// An accepted sheet of form 2 that can go back: it has nothing of B's.
pub fn new(rng: &mut Rng) -> Vec<u8> {
    sheet_of(&new_job(rng))
}

fn new_job(rng: &mut Rng) -> Job {
    let mut job = match rng.below(4) {
        0 => job_of(&passing_by(Form::Two, rng)),
        _ => {
            let shape = shape(rng);
            accepted_job_by(Form::Two, rng, shape)
        }
    };
    for secret in job.secrets.iter_mut().flatten() {
        secret.owner = Owner::A;
    }
    // Without B's turns there are those of two executions. At times none is left but those of the low one.
    let instead = match rng.below(3) {
        0 => Level::Low,
        _ => Level::Of(Owner::A),
    };
    let all_low = rng.chance(1, 12);
    for level in &mut job.turns {
        if *level == Level::Of(Owner::B) {
            *level = instead;
        }
        if all_low {
            *level = Level::Low;
        }
    }
    if rng.chance(1, 12) {
        job.secrets.fill(None);
    }
    job
}

/// The same with something of B's: an owner, a turn, or both; one alone, or some.
pub fn with_b(rng: &mut Rng) -> Vec<u8> {
    let mut job = new_job(rng);
    let [owners, turns] = rng.pick(&[[true, false], [false, true], [true, true]]);
    if owners {
        give_owners(rng, &mut job);
    }
    if turns {
        give_turns(rng, &mut job);
    }
    sheet_of(&job)
}

/// B owns one secret, which is made if there is none, or some.
fn give_owners(rng: &mut Rng, job: &mut Job) {
    if job.secrets.iter().all(Option::is_none) {
        let dummy = value(rng);
        let key = rng.below(job.keys);
        let owner = Owner::A;
        job.secrets[key] = Some(Secret { dummy, owner });
    }
    let mut secrets: Vec<&mut Secret> = job.secrets.iter_mut().flatten().collect();
    for place in some_places(rng, secrets.len()) {
        secrets[place].owner = Owner::B;
    }
}

/// B has one turn, or some.
fn give_turns(rng: &mut Rng, job: &mut Job) {
    for place in some_places(rng, job.turns.len()) {
        job.turns[place] = Level::Of(Owner::B);
    }
}

/// One place of so many, at least one: the first, the last or any. Or about a third of them, and one of these.
fn some_places(rng: &mut Rng, count: usize) -> Vec<usize> {
    let one = match rng.below(4) {
        0 => 0,
        1 => count - 1,
        _ => rng.below(count),
    };
    let some = rng.chance(1, 4);
    let taken = |&place: &usize| place == one || (some && rng.chance(1, 3));
    (0..count).filter(taken).collect()
}

/// A length for the output memory: often near that of the sheet that comes of it. Where none comes it is near
/// that of the sheet that is there, or any: all other refusals come before 49.
pub fn memory_length(rng: &mut Rng, sheet: &[u8], form: Form) -> usize {
    let needed = match turned(sheet, form) {
        Ok(text) => text.len(),
        Err(Refusal { line: 0, .. }) => sheet.len().min(LONGEST),
        Err(_) => rng.below(100),
    };
    length_near(rng, needed, LONGEST)
}
