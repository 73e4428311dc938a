//! The entry that makes `msg` lines out of the export of a belt log.

use crate::compare::{Difference, Entry, Left, Record};
use crate::part::{Corner, Part, Texts};
use crate::tally::{Tally, Telling, Wanted};
use pavebox::{CsvAnswer, CSV_ANSWER_BYTES, WRITTEN};
use reference::generate::log::{accepted, damaged, memory_length, noise};
use reference::generate::Rng;
use reference::log::{answer_line, c_entry};

pub static LOGS: Part = Part {
    name: "logs",
    entry: Entry {
        archive: |export, _, output, answer| pavebox::csv_entry(export, output, answer),
        model: |export, _, output, answer| c_entry(export, output, answer),
        input: "export",
        number: "",
        record: Record::None,
    },
    answer_bytes: CSV_ANSWER_BYTES,
    wrong_lengths: &[0, 1, 4, 8, 11, 13, 16, 24, 28, 48, 268],
    memory_length: |rng, export, _| memory_length(rng, export),
    corners,
    texts,
    text: lines_and_answer,
    random,
    // Every number of Note 1.
    wanted: Wanted {
        numbers: &[0, 8, 41, 42, 43, 10],
        tellings: &[&GIVE_LINES],
    },
};

/// About a third do; exports that are refused, or have no message, could not tell an entry that
/// never writes.
static GIVE_LINES: Telling = Telling {
    words: "exports give lines",
    one_of: 5,
};

fn corners() -> Vec<Corner> {
    let corners = reference::corners::log::corners();
    let corner = |corner: reference::corners::log::Corner| Corner {
        lent: corner.lent,
        number: None,
        input: corner.export,
        text: [corner.lines, answer_line(corner.numbers)].concat(),
    };
    corners.into_iter().map(corner).collect()
}

/// The lines of an export that gives some have room in the memory.
fn texts() -> Vec<Texts> {
    vec![Texts {
        lent: 60,
        number: None,
        inputs: reference::corners::bytes::exports(),
    }]
}

/// The three numbers, if the answer memory has them.
fn numbers(left: &Left) -> Option<[u32; 3]> {
    let bytes: &[u8; CSV_ANSWER_BYTES] = left.answer().try_into().ok()?;
    Some(CsvAnswer::from_bytes(bytes).numbers())
}

/// What `beltlog` would print: the lines, and then the answer.
fn lines_and_answer(left: &Left) -> Vec<u8> {
    let numbers = numbers(left).unwrap_or([0; 3]);
    [left.lines(numbers[2]), &answer_line(numbers)].concat()
}

fn random(rng: &mut Rng, _place: u64, tally: &mut Tally) -> Result<(), Difference> {
    let export = random_export(rng);
    let left = LOGS.compare_once(rng, &export)?;
    let gives_lines = |[number, _, written]: [u32; 3]| number == WRITTEN && written > 0;
    tally.count_random(left.returned);
    tally.count_telling(&GIVE_LINES, numbers(&left).is_some_and(gives_lines));
    Ok(())
}

fn random_export(rng: &mut Rng) -> Vec<u8> {
    match rng.below(20) {
        0..=9 => accepted(rng),
        10..=16 => damaged(rng),
        _ => noise(rng),
    }
}
