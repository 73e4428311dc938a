//! The entry that reads a sheet into the record of a screen: document 02's Note 7, of both forms of
//! its Note 8. The record holds something before the call: anything, nothing, or an older record,
//! of either form. What the archive has read it must write as the same sheet.

use crate::compare::{compare, Difference, Entry, Left, Record as Memory};
use crate::part::{Corner, Part, Texts};
use crate::records::{job_in, job_in_mut, old, WRONG_LENGTHS};
use crate::tally::{Tally, Telling, Wanted};
use pavebox::{ReadAnswer, ACCEPTED, READ_ANSWER_BYTES};
use reference::generate::records::{damaged_by as damaged_record_by, passing_by};
use reference::generate::{accepted_by, crossed, damaged_by, noise_by, Rng, Shape};
use reference::record::{
    answer_line, faults, listing, pack, read_entry, record_of, text, unpack, Record, RECORD_BYTES,
};
use reference::{read, Form};

pub static OPENED: Part = Part {
    name: "opened",
    entry: Entry {
        archive: |sheet, _, record, answer| pavebox::read_entry(sheet, job_in_mut(record), answer),
        model: |sheet, _, record, answer| read_entry(sheet, record, answer),
        input: "sheet",
        number: "",
        record: Memory::Output,
    },
    answer_bytes: READ_ANSWER_BYTES,
    wrong_lengths: WRONG_LENGTHS,
    // The output memory is the record.
    memory_length: |_, _, _| RECORD_BYTES,
    corners,
    texts,
    text: answer_and_listing,
    random,
    // Success, and every refusal of a sheet.
    wanted: Wanted {
        numbers: &[0, 1, 2, 3, 4, 5, 46, 6, 7, 8, 9, 10],
        tellings: &[
            &ARE_READ,
            &OF_FORM_2,
            &OVER_A_RECORD,
            &OVER_MORE,
            &OVER_ANOTHER_FORM[0],
            &OVER_ANOTHER_FORM[1],
            &REFUSED_OVER_A_RECORD,
            &REFUSED_FOR_AN_OWNER,
            &NO_ENTRIES,
            &AT_THE_LIMITS,
        ],
    },
};

/// More than half are; the others could not tell an entry that leaves every record as it is.
static ARE_READ: Telling = Telling {
    words: "sheets are read",
    one_of: 6,
};

/// About half are; the others could not tell an entry that reads form 1 alone.
static OF_FORM_2: Telling = Telling {
    words: "sheets that are read are of form 2",
    one_of: 7,
};

/// About a quarter are, and one in 21; the others could not tell an entry that goes by what the
/// record held, or clears what the sheet does not need.
static OVER_A_RECORD: Telling = Telling {
    words: "sheets are read over a record that passes",
    one_of: 16,
};
static OVER_MORE: Telling = Telling {
    words: "sheets are read over a record with more of everything",
    one_of: 100,
};

/// About one in 16 is, either way; the others could not tell an entry that leaves the form as it
/// was, or the owners.
static OVER_ANOTHER_FORM: [Telling; 2] = [
    Telling {
        words: "sheets of form 1 are read over a record of form 2 that passes",
        one_of: 60,
    },
    Telling {
        words: "sheets of form 2 are read over a record of form 1 that passes",
        one_of: 60,
    },
];

/// About a quarter are; the others could not tell an entry that changes a count before it refuses.
static REFUSED_OVER_A_RECORD: Telling = Telling {
    words: "sheets are refused and leave a record that passes",
    one_of: 16,
};

/// About one in 16 is; the others could not tell an entry that takes any owner.
static REFUSED_FOR_AN_OWNER: Telling = Telling {
    words: "refused sheets are refused for an owner",
    one_of: 60,
};

/// About half have, and three in ten; the others could not tell lower limits, or a message that is
/// left out.
static NO_ENTRIES: Telling = Telling {
    words: "sheets that are read have a message with no entries",
    one_of: 12,
};
static AT_THE_LIMITS: Telling = Telling {
    words: "sheets that are read have 64 commands, 32 messages or 1,024 letters",
    one_of: 30,
};

/// Those of the note; and those of the sheets that are run, with the refusals that stand in their tables.
fn corners() -> Vec<Corner> {
    let corner = |sheet: Vec<u8>, numbers: [u32; 2], listing: String| Corner {
        lent: RECORD_BYTES,
        number: None,
        input: sheet,
        text: [answer_line(numbers), listing.into_bytes()].concat(),
    };
    let opened = reference::corners::records::opened().into_iter();
    let opened = opened.map(|opened| corner(opened.sheet, opened.numbers, opened.listing));
    let sheets = reference::corners::corners().into_iter();
    let sheets = sheets.map(|run| {
        let numbers = refusal_in(&run.printed);
        let listing = read(&run.sheet).map_or(String::new(), |job| listing(&record_of(&job)));
        corner(run.sheet, numbers, listing)
    });
    opened.chain(sheets).collect()
}

/// The refusal and its line in the `end=` line of a run; 0 and 0 if the sheet ran.
fn refusal_in(printed: &[u8]) -> [u32; 2] {
    let printed = String::from_utf8_lossy(printed);
    let end = printed
        .lines()
        .last()
        .and_then(|line| line.strip_prefix("end="));
    let mut numbers = end.expect("a run prints an end").split(' ');
    let mut next = || numbers.next().and_then(|word| word.parse().ok());
    match (next(), next()) {
        (Some(0 | 31 | 32), Some(line)) => [0, line],
        (Some(number), Some(line)) => [number, line],
        _ => panic!("an end has numbers"),
    }
}

fn texts() -> Vec<Texts> {
    vec![Texts {
        lent: RECORD_BYTES,
        number: None,
        inputs: reference::corners::bytes::sheets(),
    }]
}

/// The two numbers, if the answer memory has them.
fn numbers(left: &Left) -> Option<[u32; 2]> {
    let bytes: &[u8; READ_ANSWER_BYTES] = left.answer().try_into().ok()?;
    Some(ReadAnswer::from_bytes(bytes).numbers())
}

/// The answer, and all that the counts of the record cover if the sheet is read.
fn answer_and_listing(left: &Left) -> Vec<u8> {
    let numbers = numbers(left).unwrap_or([0; 2]);
    let listing = match numbers[0] {
        ACCEPTED => listing(&unpack(left.output())),
        _ => String::new(),
    };
    [answer_line(numbers), listing.into_bytes()].concat()
}

fn random_sheet(rng: &mut Rng) -> Vec<u8> {
    let form = rng.pick(&Form::ALL);
    match rng.below(20) {
        0 | 1 => accepted_by(form, rng, Shape::Small),
        2..=4 => accepted_by(form, rng, Shape::Medium),
        5 | 6 => accepted_by(form, rng, Shape::Large),
        7 => accepted_by(form, rng, Shape::LongRun),
        8 | 9 => text(&passing_by(form, rng)),
        10 => text(&damaged_record_by(form, rng)),
        11 => crossed(rng),
        12..=17 => damaged_by(form, rng),
        _ => noise_by(form, rng),
    }
}

fn random(rng: &mut Rng, _place: u64, tally: &mut Tally) -> Result<(), Difference> {
    let sheet = random_sheet(rng);
    let before = old(rng);
    let length = match rng.below(16) {
        0 => rng.pick(WRONG_LENGTHS),
        _ => READ_ANSWER_BYTES,
    };
    let case = OPENED.case(rng, &sheet, RECORD_BYTES, length);
    let case = case.with_output(&pack(&before));
    let left = compare(&case)?;
    tally.count_random(left.returned);
    if let Some([number, _]) = numbers(&left) {
        count(&before, number, &left, tally);
        if number == ACCEPTED {
            let held = check_writing(&left, &sheet).and_then(|written| check_run(&written, &sheet));
            held.map_err(|message| case.differs(message))?;
        }
    }
    Ok(())
}

fn count(before: &Record, number: u32, left: &Left, tally: &mut Tally) {
    let passes = faults(before).is_empty();
    tally.count_telling(&ARE_READ, number == ACCEPTED);
    if number != ACCEPTED {
        tally.count_telling(&REFUSED_OVER_A_RECORD, passes);
        tally.count_telling(&REFUSED_FOR_AN_OWNER, number == 46);
        return;
    }
    let record = unpack(left.output());
    count_forms(passes.then_some(before.form), record.form, tally);
    let more = [
        before.secret_count > record.secret_count,
        before.command_count > record.command_count,
        before.message_count > record.message_count,
        before.letter_count > record.letter_count,
    ];
    let messages = record.messages();
    let limits = [
        record.command_count == 64,
        record.message_count == 32,
        record.letter_count == 1_024,
    ];
    tally.count_telling(&OVER_A_RECORD, passes);
    tally.count_telling(&OVER_MORE, passes && more == [true; 4]);
    tally.count_telling(&NO_ENTRIES, messages.iter().any(|m| m.entry_count == 0));
    tally.count_telling(&AT_THE_LIMITS, limits.contains(&true));
}

/// The form of a sheet that is read, and before it that of the record, if that passed.
fn count_forms(before: Option<u32>, form: u32, tally: &mut Tally) {
    tally.count_telling(&OF_FORM_2, form == 2);
    for ((new, old), way) in [(1, 2), (2, 1)].into_iter().zip(&OVER_ANOTHER_FORM) {
        tally.count_telling(way, form == new && before == Some(old));
    }
}

/// "and writing an accepted sheet's record gives the same bytes", in memory that is just enough.
fn check_writing(left: &Left, sheet: &[u8]) -> Result<Vec<u8>, String> {
    let mut written = vec![0; sheet.len()];
    let numbers = pavebox::write(job_in(left.output()), &mut written).numbers();
    if numbers != [0, sheet.len() as u32] || written != sheet {
        let written = written.escape_ascii();
        return Err(format!(
            "the archive writes what it has read with {numbers:?} as \"{written}\""
        ));
    }
    Ok(written)
}

/// Both sheets run to the same lines and numbers.
fn check_run(written: &[u8], sheet: &[u8]) -> Result<(), String> {
    const LENT: usize = 2_000;
    let (mut output, mut again) = ([0; LENT], [0; LENT]);
    let first = pavebox::run(sheet, &mut output).numbers();
    let second = pavebox::run(written, &mut again).numbers();
    if first != second || output != again {
        return Err(format!(
            "the archive runs the sheet to {first:?}, and as it has written it to {second:?}"
        ));
    }
    Ok(())
}
