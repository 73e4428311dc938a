//! Times both sides, in turn, so that a slow moment of the machine falls on both.

use crate::sheets::Group;
use crate::{pass, Side, Sides, LENT};
use std::ops::Range;
use std::time::Instant;

/// Rounds, of which the best and the middle one count.
const ROUNDS: usize = 41;
/// Passes over the texts in one measurement.
const PASSES: usize = 4;

fn seconds<const N: usize>(side: Side<N>, group: &Group) -> f64 {
    let mut output = vec![0; LENT];
    let start = Instant::now();
    for _ in 0..PASSES {
        pass(side, group, &mut output);
    }
    start.elapsed().as_secs_f64() / PASSES as f64
}

/// What a table says of some groups of texts together: its name, and the places of the groups.
pub struct Row<'a>(pub &'a str, pub Range<usize>);

/// A row for each group by itself.
pub fn each(groups: &[Group]) -> Vec<Row<'_>> {
    let places = (0..groups.len()).map(|place| place..place + 1);
    let names = groups.iter().map(|group| group.name.as_str());
    names
        .zip(places)
        .map(|(name, place)| Row(name, place))
        .collect()
}

/// Measures both sides on each group and says what came of it, row by row.
pub fn report<const N: usize>(sides: &Sides<N>, groups: &[Group], table: &[Row]) -> String {
    let (mut ours, mut theirs) = (Vec::new(), Vec::new());
    for round in 0..ROUNDS {
        let measure =
            |side| -> Vec<f64> { groups.iter().map(|group| seconds(side, group)).collect() };
        if round % 2 == 0 {
            ours.push(measure(sides.archive));
            theirs.push(measure(sides.plain));
        } else {
            theirs.push(measure(sides.plain));
            ours.push(measure(sides.archive));
        }
    }
    let mut said =
        "microseconds per text:           archive      plain  archive/plain\n".to_string();
    for Row(name, places) in table {
        let of_row = &groups[places.clone()];
        let texts = of_row.iter().map(|group| group.texts.len()).sum();
        said += &rows(
            name,
            texts,
            &summed(&ours, places),
            &summed(&theirs, places),
        );
    }
    said
}

/// The seconds of these groups together, from the quickest round to the slowest.
fn summed(rounds: &[Vec<f64>], places: &Range<usize>) -> Vec<f64> {
    let sum = |round: &Vec<f64>| round[places.clone()].iter().sum();
    let mut times: Vec<f64> = rounds.iter().map(sum).collect();
    times.sort_by(f64::total_cmp);
    times
}

/// The best round and the middle one of each side.
fn rows(name: &str, texts: usize, ours: &[f64], theirs: &[f64]) -> String {
    let row = |what: &str, place: usize| {
        let (ours, theirs) = (ours[place], theirs[place]);
        let each = |seconds: f64| seconds * 1e6 / texts as f64;
        let (our, their, ratio) = (each(ours), each(theirs), ours / theirs);
        format!("{texts:>4} {name:<10} {what:<10} {our:>12.3} {their:>10.3} {ratio:>14.3}\n")
    };
    row("best", 0) + &row("median", ROUNDS / 2)
}
