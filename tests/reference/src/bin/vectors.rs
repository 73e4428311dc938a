//! The sheets of the program `vectors`, and what it must print.
//!
//! `vectors sheets` prints the sheets, a byte 0 after each; `vectors text` prints what
//! `runsheet` would print for each of them, with 32,768 bytes lent and then with 100.

use reference::corners::{corners, owner_corners, Corner, EXAMPLES};
use reference::generate::{
    accepted_by, accepted_job, crossed, damaged_by, noise_by, sheet_of, Rng, Shape,
};
use reference::model::{run_by, CallRule, Form};
use reference::{printed, Job};
use std::io::Write;

const SEED: u64 = 20_261_115;
const ROOM: usize = 60_000;
/// Of which the corners of Note 8 have so much, and all others so much; generated sheets have the rest.
const ROOM_FOR_OWNERS: usize = 16_000;
const ROOM_FOR_CORNERS: usize = 34_000;
/// The corners of Note 8 begin with so many that are always among the sheets.
const WORKED_EXAMPLES: usize = 11;
/// The longest sheet. The corner with the greatest count of clamped results has 1,758 bytes.
const LONGEST: usize = 1_800;
const LENT: [usize; 2] = [32_768, 100];

/// The documents' examples and corners, then generated sheets: at calls of two kinds, with clamped
/// results on one side, and of every kind and both forms.
fn sheets() -> Vec<Vec<u8>> {
    let owners = owner_corners();
    let mut others = corners();
    others.retain(|corner| !owners.contains(corner));
    let mut all = spread(others, EXAMPLES.len(), ROOM_FOR_CORNERS);
    all.extend(spread(owners, WORKED_EXAMPLES, ROOM_FOR_OWNERS));
    all.extend(generated());
    let mut used = 0;
    all.retain(|s| {
        let fits = s.len() <= LONGEST && !s.contains(&0) && used + s.len() < ROOM;
        if fits {
            used += s.len() + 1;
        }
        fits
    });
    all
}

/// The first corners, so many of them, and as many of the others as have room, evenly to the last.
fn spread(corners: Vec<Corner>, first: usize, room: usize) -> Vec<Vec<u8>> {
    let sheets = corners.into_iter().map(|corner| corner.sheet);
    let mut sheets: Vec<Vec<u8>> = sheets.filter(|sheet| sheet.len() <= LONGEST).collect();
    let total: usize = sheets.iter().map(|sheet| sheet.len() + 1).sum();
    let (mut seen, mut kept, mut count) = (0, 0, 0);
    sheets.retain(|sheet| {
        seen += sheet.len() + 1;
        let keeps = count < first || (kept + sheet.len() + 1) * total <= room * seen;
        if keeps {
            kept += sheet.len() + 1;
            count += 1;
        }
        keeps
    });
    sheets
}

fn generated() -> Vec<Vec<u8>> {
    let mut rng = Rng::new(SEED);
    let mut all = Vec::new();
    for i in 0..8 {
        all.push(at_calls_of_two_kinds(&mut rng, Shape::Small));
        all.push(clamped_on_one_side(&mut rng, Shape::Small, i % 2 == 0));
    }
    for i in 0..240 {
        let form = Form::ALL[i % 2];
        all.push(match i % 14 {
            0..=3 => accepted_by(form, &mut rng, Shape::Small),
            4 | 5 => accepted_by(form, &mut rng, Shape::Medium),
            6..=9 => damaged_by(form, &mut rng),
            10 | 11 => noise_by(form, &mut rng),
            _ => crossed(&mut rng),
        });
    }
    all
}

/// An accepted sheet that sends something else where the kinds of calls are not compared.
fn at_calls_of_two_kinds(rng: &mut Rng, shape: Shape) -> Vec<u8> {
    loop {
        let job = accepted_job(rng, shape);
        if sent(&job, CallRule::SameKind) != sent(&job, CallRule::EitherKind) {
            return sheet_of(&job);
        }
    }
}

fn sent(job: &Job, rule: CallRule) -> Vec<u8> {
    let mut output = vec![0; LENT[0]];
    run_by(rule, job, &mut output);
    output
}

/// An accepted sheet in whose run one of the executions clamps and the other does not.
fn clamped_on_one_side(rng: &mut Rng, shape: Shape, by_low: bool) -> Vec<u8> {
    loop {
        let job = accepted_job(rng, shape);
        let (numbers, unreported) = run_by(CallRule::SameKind, &job, &mut vec![0; LENT[0]]);
        let (low, high) = (numbers[6] > 0, unreported.clamped() > 0);
        if (low, high) == (by_low, !by_low) {
            return sheet_of(&job);
        }
    }
}

fn main() -> std::io::Result<()> {
    let mut out = std::io::stdout().lock();
    let text = std::env::args().nth(1).as_deref() == Some("text");
    for sheet in sheets() {
        if text {
            for lent in LENT {
                out.write_all(&printed(&sheet, lent))?;
            }
        } else {
            out.write_all(&sheet)?;
            out.write_all(&[0])?;
        }
    }
    out.flush()
}
