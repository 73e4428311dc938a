//! `differential [PART] [COUNT [SEED]]` compares the archive with the reference model.
//!
//! PART is `sheets`, which are run, `owners`, sheets with two owners of secrets, `honest`, sheets
//! whose runs are held to plain runs too, `logs`, exports whose lines are made, `blocks`, programs
//! with blocks whose lines are made and held to what such programs do, `records`, which are written
//! as sheets, read again and run, `opened`, sheets that are read into records and written again, or
//! `forms`, sheets that are turned into the other form, turned back and run; without it, each of
//! them in turn. First come the hand-written corners, then texts with every byte and with faults at
//! every place, then COUNT random cases (20,000 by default). SEED is taken from the clock by
//! default, and is always printed. Of each call every byte of the three memories is compared, and
//! the bytes around them. Exit status 1: a difference, or random cases that show too little, as
//! fewer than some thousand may.

mod blocks;
mod compare;
mod forms;
mod honest;
mod lent;
mod logs;
mod opened;
mod owners;
mod pairs;
mod part;
mod records;
mod sheets;
mod tally;

use part::Part;
use std::process::ExitCode;
use std::time::{SystemTime, UNIX_EPOCH};

static PARTS: [&Part; 8] = [
    &sheets::SHEETS,
    &owners::OWNERS,
    &honest::HONEST,
    &logs::LOGS,
    &blocks::BLOCKS,
    &records::RECORDS,
    &opened::OPENED,
    &forms::FORMS,
];
const DEFAULT_COUNT: u64 = 20_000;

fn main() -> ExitCode {
    let words: Vec<String> = std::env::args().skip(1).collect();
    let words: Vec<&str> = words.iter().map(String::as_str).collect();
    let (parts, words) = chosen(&words);
    let Some((count, seed)) = arguments(words) else {
        eprintln!(
            "usage: differential [sheets|owners|honest|logs|blocks|records|opened|forms] [COUNT [SEED]]"
        );
        return ExitCode::from(2);
    };
    for part in parts {
        let name = part.name;
        println!("differential {name} {count} {seed}");
        if let Err(message) = run_and_check(part, count, seed) {
            println!("{message}\nagain: differential {name} {count} {seed}");
            return ExitCode::FAILURE;
        }
    }
    println!("differential: no difference");
    ExitCode::SUCCESS
}

/// The parts that the first word names, and the words behind it.
fn chosen<'a>(words: &'a [&'a str]) -> (&'static [&'static Part], &'a [&'a str]) {
    let named = |word: &&str| PARTS.iter().position(|part| part.name == *word);
    match words.first().and_then(named) {
        Some(place) => (&PARTS[place..=place], &words[1..]),
        None => (&PARTS, words),
    }
}

/// COUNT and SEED, where they are given.
fn arguments(words: &[&str]) -> Option<(u64, u64)> {
    match words {
        [] => Some((DEFAULT_COUNT, clock())),
        [count] => Some((count.parse().ok()?, clock())),
        [count, seed] => Some((count.parse().ok()?, seed.parse().ok()?)),
        _ => None,
    }
}

fn clock() -> u64 {
    let since = SystemTime::now().duration_since(UNIX_EPOCH);
    since.map_or(0, |time| time.as_nanos() as u64)
}

/// One part, with a table of what occurred.
fn run_and_check(part: &'static Part, count: u64, seed: u64) -> Result<(), String> {
    let tally = part
        .run(count, seed)
        .map_err(|difference| difference.to_string())?;
    print!("{tally}");
    tally
        .check()
        .map_err(|message| format!("FAILED: {message}"))
}

#[cfg(test)]
mod tests {
    use super::*;
    use tally::Tally;

    fn tally_of(part: &'static Part, count: u64) -> Tally {
        match part.run(count, 1) {
            Ok(tally) => tally,
            Err(difference) => panic!("{difference}"),
        }
    }

    #[test]
    fn the_corners_alone_show_nothing_at_random() {
        let message = "0 never occurred in a random case";
        for part in PARTS {
            assert_eq!(tally_of(part, 0).check(), Err(message.to_string()));
        }
    }

    #[test]
    fn some_thousand_random_cases_show_enough() {
        for part in PARTS {
            assert_eq!(tally_of(part, 4_000).check(), Ok(()));
        }
    }

    /// 24 bytes held the six numbers that document 01 has.
    #[test]
    fn wrong_lengths_are_wrong() {
        for part in PARTS {
            assert!(!part.wrong_lengths.contains(&part.answer_bytes));
        }
        assert_eq!(sheets::SHEETS.answer_bytes, 28);
        assert!(sheets::SHEETS.wrong_lengths.contains(&24));
    }

    #[test]
    fn a_first_word_chooses_a_part() {
        let names = |parts: &[&Part]| -> Vec<&str> { parts.iter().map(|part| part.name).collect() };
        let all = [
            "sheets", "owners", "honest", "logs", "blocks", "records", "opened", "forms",
        ];
        for (words, parts, rest) in [
            (&["logs", "7"][..], &["logs"][..], &["7"][..]),
            (&["sheets"], &["sheets"], &[]),
            (&["owners", "7"], &["owners"], &["7"]),
            (&["honest", "7", "8"], &["honest"], &["7", "8"]),
            (&["blocks"], &["blocks"], &[]),
            (&["records"], &["records"], &[]),
            (&["opened", "7"], &["opened"], &["7"]),
            (&["forms", "7"], &["forms"], &["7"]),
            (&["7", "8"], &all, &["7", "8"]),
            (&[], &all, &[]),
        ] {
            let (found, behind) = chosen(words);
            assert_eq!((names(found).as_slice(), behind), (parts, rest));
        }
        assert_eq!(arguments(&["x"]), None);
        assert_eq!(arguments(&["7", "8"]), Some((7, 8)));
    }
}
