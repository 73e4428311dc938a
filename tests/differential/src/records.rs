//! The entry that writes the record of a screen as a sheet: document 02's Note 7, of both forms of
//! its Note 8. What the archive has written it must read as the same record, in all that the counts
//! cover, and run as the record's job.

use crate::compare::{Difference, Entry, Left, Record as Memory};
use crate::part::{Corner, Part};
use crate::tally::{Tally, Telling, Wanted};
use pavebox::{Job, WriteAnswer, BAD_RECORD, NO_ROOM_FOR_SHEET, WRITE_ANSWER_BYTES, WRITTEN};
use reference::generate::records::{
    arbitrary_by, crossed, damaged_again_by, damaged_by, memory_length, old_by, passing_by,
};
use reference::generate::Rng;
use reference::model::{run, Form, NUMBERS};
use reference::record::{
    answer_line, faults, job_of, laid_over, pack, text, unpack, write_entry, Fault, Record,
    LONGEST, LONGEST_OF_FORM_1,
};

pub static RECORDS: Part = Part {
    name: "records",
    entry: Entry {
        archive: |record, _, output, answer| pavebox::write_entry(job_in(record), output, answer),
        model: |record, _, output, answer| write_entry(record, output, answer),
        input: "record",
        number: "",
        record: Memory::Input,
    },
    answer_bytes: WRITE_ANSWER_BYTES,
    wrong_lengths: WRONG_LENGTHS,
    memory_length: |rng, record, _| memory_length(rng, &unpack(record)),
    corners,
    // No text is read here; those of sheets are in the part `opened`.
    texts: Vec::new,
    text: sheet_and_answer,
    random,
    // Every number of Note 7.
    wanted: Wanted {
        numbers: &[0, 54, 55, 10],
        tellings: &[
            &ARE_WRITTEN,
            &OF_FORM_2,
            &JUST_FIT,
            &LACK_A_BYTE,
            &LONGEST_SHEETS[0],
            &LONGEST_SHEETS[1],
            &REFUSED_WITHOUT_ROOM,
            &OWNERS_ALONE[0],
            &OWNERS_ALONE[1],
            &LETTERS_ALONE[0],
            &LETTERS_ALONE[1],
            &ALONE[0],
            &ALONE[1],
            &ALONE[2],
            &ALONE[3],
            &ALONE[4],
            &ALONE[5],
            &ALONE[6],
            &ALONE[7],
            &ALONE[8],
            &ALONE[9],
            &ALONE[10],
            &ALONE[11],
            &ALONE[12],
            &ALONE[13],
            &ALONE[14],
            &ALONE[15],
            &ALONE[16],
            &ALONE[17],
        ],
    },
};

/// Lengths of an answer memory that are refused.
pub const WRONG_LENGTHS: &[usize] = &[0, 1, 4, 7, 9, 12, 16, 28, 264];

/// About three in ten are; the others could not tell an entry that never writes.
static ARE_WRITTEN: Telling = Telling {
    words: "records are written",
    one_of: 8,
};

/// About half are; the others could not tell an entry that writes form 1 alone.
static OF_FORM_2: Telling = Telling {
    words: "records that are written are of form 2",
    one_of: 7,
};

/// About three in ten do, and one in ten; the others could not tell an entry that wants a byte more than it
/// needs, or a byte less.
static JUST_FIT: Telling = Telling {
    words: "sheets of records that pass just fit into the memory",
    one_of: 10,
};
static LACK_A_BYTE: Telling = Telling {
    words: "sheets of records that pass lack one byte of memory",
    one_of: 30,
};

/// About one in 84 has, of each form; the others could not tell an entry with too small a memory of
/// its own.
static LONGEST_SHEETS: [Telling; 2] = [
    Telling {
        words: "records that pass have the longest sheet of form 1",
        one_of: 300,
    },
    Telling {
        words: "records that pass have the longest sheet of form 2",
        one_of: 300,
    },
];

/// About two in nine have; the others could not tell an entry that tests 55 before 54.
static REFUSED_WITHOUT_ROOM: Telling = Telling {
    words: "refused records have less memory than any sheet needs",
    one_of: 20,
};

/// Records that an owner alone spoils: of those that are refused about one in 36 and one in 16. The
/// others could not tell an entry that tests the owners of both forms by one rule.
static OWNERS_ALONE: [Telling; 2] = [
    Telling {
        words: "refused records of form 1 are wrong in an owner alone",
        one_of: 120,
    },
    Telling {
        words: "refused records of form 2 are wrong in an owner alone",
        one_of: 60,
    },
];

/// The same for letters of the other form: about one in 70 and one in 62. The others could not tell
/// an entry that takes all letters in both forms.
static LETTERS_ALONE: [Telling; 2] = [
    Telling {
        words: "refused records of form 1 are wrong in letters A and B alone",
        one_of: 240,
    },
    Telling {
        words: "refused records of form 2 are wrong in letters H alone",
        one_of: 220,
    },
];

/// Records that one kind of fault alone spoils: of those that are refused, between one in nine and
/// one in 70 for each kind. Without it they would pass, so that an entry that does not test it is
/// found out.
static ALONE: [Telling; 18] = [
    alone("refused records are wrong in their form alone"),
    alone("refused records are wrong in their count of keys alone"),
    alone("refused records are wrong in their count of secrets alone"),
    alone("refused records are wrong in a key of a secret alone"),
    alone("refused records are wrong in the order of secrets alone"),
    alone("refused records are wrong in an owner alone"),
    alone("refused records are wrong in their count of commands alone"),
    alone("refused records are wrong in a word alone"),
    alone("refused records are wrong in a variable alone"),
    alone("refused records are wrong in a key of a command alone"),
    alone("refused records are wrong in a target alone"),
    alone("refused records are wrong in an operand that a word lacks alone"),
    alone("refused records are wrong in their count of messages alone"),
    alone("refused records are wrong in a count of entries alone"),
    alone("refused records are wrong in a key of an entry alone"),
    alone("refused records are wrong in the order of entries alone"),
    alone("refused records are wrong in their count of letters alone"),
    alone("refused records are wrong in a letter alone"),
];

const fn alone(words: &'static str) -> Telling {
    Telling { words, one_of: 600 }
}

/// The faults, in the order of [`ALONE`].
const FAULTS: [Fault; 18] = [
    Fault::Form,
    Fault::Keys,
    Fault::SecretCount,
    Fault::SecretKey,
    Fault::SecretOrder,
    Fault::Owner,
    Fault::CommandCount,
    Fault::Word,
    Fault::Variable,
    Fault::CommandKey,
    Fault::Target,
    Fault::Lacking,
    Fault::MessageCount,
    Fault::EntryCount,
    Fault::EntryKey,
    Fault::EntryOrder,
    Fault::LetterCount,
    Fault::Letter,
];

/// No sheet has fewer bytes.
const SHORTEST: usize = b"sheet=1\nkeys=1\ndo=send\nturns=L\n".len();

/// The record in these bytes, as it lies there.
pub fn job_in(bytes: &[u8]) -> &Job {
    Job::in_bytes(bytes).expect("the memory of a record is aligned")
}

pub fn job_in_mut(bytes: &mut [u8]) -> &mut Job {
    Job::in_bytes_mut(bytes).expect("the memory of a record is aligned")
}

fn corners() -> Vec<Corner> {
    let corners = reference::corners::records::corners();
    let corner = |corner: reference::corners::records::Corner| Corner {
        lent: corner.lent,
        number: None,
        input: pack(&corner.record),
        text: [corner.sheet, answer_line(corner.numbers)].concat(),
    };
    corners.into_iter().map(corner).collect()
}

/// The two numbers, if the answer memory has them.
fn numbers(left: &Left) -> Option<[u32; 2]> {
    let bytes: &[u8; WRITE_ANSWER_BYTES] = left.answer().try_into().ok()?;
    Some(WriteAnswer::from_bytes(bytes).numbers())
}

/// The sheet, and then the answer.
fn sheet_and_answer(left: &Left) -> Vec<u8> {
    let numbers = numbers(left).unwrap_or([0; 2]);
    [left.lines(numbers[1]), &answer_line(numbers)].concat()
}

fn random_record(rng: &mut Rng) -> Record {
    let form = rng.pick(&Form::ALL);
    match rng.below(20) {
        0..=5 => passing_by(form, rng),
        6..=13 => damaged_by(form, rng),
        14 => crossed(rng),
        15 | 16 => damaged_again_by(form, rng),
        _ => arbitrary_by(form, rng),
    }
}

/// What a record holds before a sheet is read into it, of either form.
pub fn old(rng: &mut Rng) -> Record {
    let form = rng.pick(&Form::ALL);
    old_by(form, rng)
}

fn random(rng: &mut Rng, _place: u64, tally: &mut Tally) -> Result<(), Difference> {
    let record = random_record(rng);
    let bytes = pack(&record);
    let left = RECORDS.compare_once(rng, &bytes)?;
    tally.count_random(left.returned);
    let Some(numbers) = numbers(&left) else {
        return Ok(());
    };
    let lent = left.output().len();
    count(&record, numbers[0], lent, tally);
    if numbers[0] != WRITTEN {
        return Ok(());
    }
    let sheet = left.lines(numbers[1]);
    let held = check_reading(rng, &record, sheet).and_then(|()| check_run(&record, sheet));
    held.map_err(|message| {
        let case = RECORDS.case(rng, &bytes, lent, WRITE_ANSWER_BYTES);
        case.differs(format!("{message}\nthe sheet \"{}\"", sheet.escape_ascii()))
    })
}

fn count(record: &Record, number: u32, lent: usize, tally: &mut Tally) {
    tally.count_telling(&ARE_WRITTEN, number == WRITTEN);
    if number == BAD_RECORD {
        tally.count_telling(&REFUSED_WITHOUT_ROOM, lent < SHORTEST);
        count_alone(record, tally);
        return;
    }
    let length = text(record).len();
    let no_room = number == NO_ROOM_FOR_SHEET;
    if number == WRITTEN {
        tally.count_telling(&OF_FORM_2, record.form == 2);
    }
    tally.count_telling(&JUST_FIT, number == WRITTEN && lent == length);
    tally.count_telling(&LACK_A_BYTE, no_room && lent + 1 == length);
    let longest = [LONGEST_OF_FORM_1, LONGEST];
    for ((form, longest), way) in (1..).zip(longest).zip(&LONGEST_SHEETS) {
        tally.count_telling(way, record.form == form && length == longest);
    }
}

/// Which one kind of fault a refused record has, if it has one.
fn count_alone(record: &Record, tally: &mut Tally) {
    let faults = faults(record);
    let alone = |fault: &Fault| faults.len() == 1 && faults.contains(fault);
    for (fault, way) in FAULTS.iter().zip(&ALONE) {
        tally.count_telling(way, alone(fault));
    }
    let of_a_form = |letter: &u8| b"LHAB".contains(letter);
    let crossed = alone(&Fault::Letter) && record.letters().iter().all(of_a_form);
    for (form, (owners, letters)) in (1..).zip(OWNERS_ALONE.iter().zip(&LETTERS_ALONE)) {
        let of_form = record.form == form;
        tally.count_telling(owners, of_form && alone(&Fault::Owner));
        tally.count_telling(letters, of_form && crossed);
    }
}

/// "Reading the written sheet gives the same record in all that its counts cover". What they do not
/// cover stays as it was in the other record.
fn check_reading(rng: &mut Rng, record: &Record, sheet: &[u8]) -> Result<(), String> {
    let before = old(rng);
    let mut bytes = pack(&before);
    let numbers = pavebox::read(sheet, job_in_mut(&mut bytes)).numbers();
    if numbers != [0, 0] {
        return Err(format!("the archive reads its own sheet with {numbers:?}"));
    }
    let wanted = pack(&laid_over(record, &before));
    match (0..wanted.len()).find(|&place| bytes[place] != wanted[place]) {
        None => Ok(()),
        Some(place) => Err(format!(
            "the archive reads its own sheet as another record: byte {place} is {} and not {}",
            bytes[place], wanted[place]
        )),
    }
}

/// The archive's run of the sheet sends what the record's job does, and ends where it does.
fn check_run(record: &Record, sheet: &[u8]) -> Result<(), String> {
    const LENT: usize = 4_000;
    let (mut output, mut wanted) = ([0; LENT], [0; LENT]);
    let found: [u32; NUMBERS] = pavebox::run(sheet, &mut output).numbers();
    let numbers = run(&job_of(record), &mut wanted);
    if found != numbers || output != wanted {
        return Err(format!(
            "the archive runs the sheet to {found:?}, the record's job ends with {numbers:?}"
        ));
    }
    Ok(())
}
