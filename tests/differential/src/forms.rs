//! The entries that turn a sheet of form 1 into one of form 2 and back: document 02's Note 9, "Old sheets to new
//! and back". Each sheet is asked for both forms. What was turned the archive must turn back to the first bytes,
//! and it must run both to the same lines and numbers.

use crate::compare::{call_archive, compare, compare_output, Difference, Entry, Left, Record};
use crate::owners::with_turns_exchanged;
use crate::part::{Corner, Part, Texts};
use crate::sheets::{numbers as run_numbers, sends_else, SHEETS};
use crate::tally::{Tally, Telling, Wanted};
use pavebox::{ANSWER_BYTES, FORM_ANSWER_BYTES, NO_ROOM, WRITTEN};
use reference::corners::forms::damaged;
use reference::forms::{
    answer_line, has_form, has_turn_b, names_owner_b, to_sheet1_entry, to_sheet2_entry, turned,
};
use reference::generate::forms::{memory_length, sheet};
use reference::generate::{memory_length as run_memory_length, Rng};
use reference::model::CallRule;
use reference::record::{LONGEST, LONGEST_OF_FORM_1};
use reference::{read, Form, Job, Level, Owner};

pub static FORMS: Part = Part {
    name: "forms",
    entry: Entry {
        archive: |sheet, form, output, answer| match form {
            1 => pavebox::to_sheet1_entry(sheet, output, answer),
            _ => pavebox::to_sheet2_entry(sheet, output, answer),
        },
        model: |sheet, form, output, answer| match form {
            1 => to_sheet1_entry(sheet, output, answer),
            _ => to_sheet2_entry(sheet, output, answer),
        },
        input: "sheet",
        number: "to form",
        record: Record::None,
    },
    answer_bytes: FORM_ANSWER_BYTES,
    wrong_lengths: &[0, 1, 4, 8, 11, 13, 16, 24, 28, 48, 268],
    memory_length: |rng, sheet, form| memory_length(rng, sheet, form_of(form)),
    corners,
    texts,
    text: sheet_and_answer,
    random,
    // Success, every refusal of a sheet, and every number of the note.
    wanted: Wanted {
        numbers: &[0, 1, 2, 3, 4, 5, 46, 6, 7, 8, 9, 47, 48, 49, 10],
        tellings: &[
            &ARE_TURNED[0],
            &ARE_TURNED[1],
            &JUST_FIT[0],
            &JUST_FIT[1],
            &LACK_A_BYTE[0],
            &LACK_A_BYTE[1],
            &LONGEST_SHEETS[0],
            &LONGEST_SHEETS[1],
            &NO_SECRET[0],
            &NO_SECRET[1],
            &EIGHT_SECRETS[0],
            &EIGHT_SECRETS[1],
            &LOW_ALONE[0],
            &LOW_ALONE[1],
            &ALREADY[0],
            &ALREADY[1],
            &ALREADY_OF_B,
            &ALREADY_WITHOUT_ROOM[0],
            &ALREADY_WITHOUT_ROOM[1],
            &OF_B_WITHOUT_ROOM,
            &OWNER_ALONE,
            &TURN_ALONE,
            &OWNER_AND_TURN,
            &ONE_OWNER,
            &ONE_TURN,
            &READ_FIRST[0],
            &READ_FIRST[1],
            &READ_BEFORE_B,
            &RUNS_SEND,
            &RUNS_WITHOUT_ROOM,
            &LETTERS_DECIDE,
        ],
    },
};

/// About two in eleven are, either way; the others could not tell an entry that never writes.
static ARE_TURNED: [Telling; 2] = [
    telling("sheets are turned back into form 1", 16),
    telling("sheets are turned into form 2", 16),
];

/// About three in ten do, and one in ten, either way; the others could not tell an entry that wants a byte more
/// than it needs, or a byte less.
static JUST_FIT: [Telling; 2] = [
    telling("sheets that can go back just fit into the memory", 10),
    telling(
        "sheets that can be turned into form 2 just fit into the memory",
        10,
    ),
];
static LACK_A_BYTE: [Telling; 2] = [
    telling("sheets that can go back lack one byte of memory", 30),
    telling(
        "sheets that can be turned into form 2 lack one byte of memory",
        30,
    ),
];

/// About one in 170 has, and one in 140; the others could not tell an entry with too small a memory of its own.
static LONGEST_SHEETS: [Telling; 2] = [
    telling("sheets that can go back have 6,270 bytes then", 600),
    telling(
        "sheets that can be turned into form 2 have 6,286 bytes then",
        600,
    ),
];

/// About one in seven has, and two in nine; one in 31, and one in 54; two in 15, and one in 13. The others could
/// not tell an entry that wants a secret, or a turn of its owner, or gives up after some.
static NO_SECRET: [Telling; 2] = [
    telling("sheets that are turned back have no secret", 30),
    telling("sheets that are turned into form 2 have no secret", 20),
];
static EIGHT_SECRETS: [Telling; 2] = [
    telling("sheets that are turned back have eight secrets", 130),
    telling("sheets that are turned into form 2 have eight secrets", 200),
];
static LOW_ALONE: [Telling; 2] = [
    telling("sheets that are turned back have no turn but L", 30),
    telling("sheets that are turned into form 2 have no turn but L", 55),
];

/// About a quarter have, and two in five; of those of form 2 three in eight have something of B's, so that an
/// entry that looks for it first is found out.
static ALREADY: [Telling; 2] = [
    telling("sheets that are asked for form 1 have it already", 15),
    telling("sheets that are asked for form 2 have it already", 10),
];
static ALREADY_OF_B: Telling = telling(
    "sheets that are asked for form 2 and have it already have something of B's",
    10,
);

/// About one in nine has, of each; the others could not tell an entry that tests 49 before 48 or 47.
static ALREADY_WITHOUT_ROOM: [Telling; 2] = [
    telling(
        "sheets that have form 1 already have less memory than any sheet needs",
        35,
    ),
    telling(
        "sheets that have form 2 already have less memory than any sheet needs",
        35,
    ),
];
static OF_B_WITHOUT_ROOM: Telling = telling(
    "sheets that cannot go back have less memory than any sheet needs",
    35,
);

/// The causes of 47: about one in 28, one in 24, one in 13. The others could not tell an entry that looks at the
/// owners alone, or at the turns alone, or wants both.
static OWNER_ALONE: Telling = telling("sheets cannot go back for an owner B alone", 100);
static TURN_ALONE: Telling = telling("sheets cannot go back for a turn B alone", 100);
static OWNER_AND_TURN: Telling = telling("sheets cannot go back for an owner B and a turn B", 50);

/// About one in seven has, and one in six; the others could not tell an entry that looks at some owners, or at
/// some turns, and not at all.
static ONE_OWNER: Telling = telling(
    "sheets that cannot go back have one owner B of several, and no turn B",
    30,
);
static ONE_TURN: Telling = telling(
    "sheets that cannot go back have one turn B of several, and no owner B",
    25,
);

/// More than two in five are; the others could not tell an entry that looks at the form, or for something of B's,
/// before it reads.
static READ_FIRST: [Telling; 2] = [
    telling(
        "sheets that are refused on reading are asked for form 1, which they begin with",
        10,
    ),
    telling(
        "sheets that are refused on reading are asked for form 2, which they begin with",
        10,
    ),
];
static READ_BEFORE_B: Telling = telling(
    "sheets that are refused on reading are asked to go back and have something of B's",
    10,
);

/// About three in seven do, and one in four; the others could not tell sheets that run to other lines or numbers.
static RUNS_SEND: Telling = telling("runs of both forms send lines", 10);
static RUNS_WITHOUT_ROOM: Telling = telling(
    "runs of both forms end where the memory has no room for a line",
    16,
);

/// About two in 13 would; the others could not tell an entry that gives the secrets to one owner and the turns to
/// the other.
static LETTERS_DECIDE: Telling = telling(
    "runs of both forms would send something else if A's turns were B's",
    30,
);

const fn telling(words: &'static str, one_of: u64) -> Telling {
    Telling { words, one_of }
}

/// No sheet has fewer bytes.
const SHORTEST: usize = b"sheet=1\nkeys=1\ndo=send\nturns=L\n".len();

/// The form of a number that is given with a sheet.
fn form_of(number: Option<u32>) -> Form {
    match number {
        Some(1) => Form::One,
        _ => Form::Two,
    }
}

fn number_of(form: Form) -> Option<u32> {
    Some(form.number() as u32)
}

fn other(form: Form) -> Form {
    match form {
        Form::One => Form::Two,
        Form::Two => Form::One,
    }
}

fn corners() -> Vec<Corner> {
    let corners = reference::corners::forms::corners();
    let corner = |corner: reference::corners::forms::Corner| Corner {
        lent: corner.lent,
        number: number_of(corner.form),
        input: corner.sheet,
        text: [corner.text, answer_line(corner.numbers)].concat(),
    };
    corners.into_iter().map(corner).collect()
}

/// Each of them asked for both forms. A sheet that can be turned has room in the memory.
fn texts() -> Vec<Texts> {
    let texts = Form::ALL.map(|form| Texts {
        lent: 150,
        number: number_of(form),
        inputs: damaged(),
    });
    texts.into()
}

/// The three numbers, if the answer memory has them.
fn numbers(left: &Left) -> Option<[u32; 3]> {
    let bytes: &[u8; FORM_ANSWER_BYTES] = left.answer().try_into().ok()?;
    let number = |place: usize| {
        let four = bytes[place..place + 4].iter().rev();
        four.fold(0, |number, &byte| number << 8 | u32::from(byte))
    };
    Some([0, 4, 8].map(number))
}

/// The sheet, and then the answer.
fn sheet_and_answer(left: &Left) -> Vec<u8> {
    let numbers = numbers(left).unwrap_or([0; 3]);
    [left.lines(numbers[2]), &answer_line(numbers)].concat()
}

fn random(rng: &mut Rng, _place: u64, tally: &mut Tally) -> Result<(), Difference> {
    let sheet = sheet(rng);
    for form in Form::ALL {
        let left = FORMS.compare_with_number(rng, &sheet, number_of(form))?;
        tally.count_random(left.returned);
        let Some(numbers) = numbers(&left) else {
            continue;
        };
        count(&sheet, form, numbers[0], left.output().len(), tally);
        if numbers[0] == WRITTEN {
            let text = left.lines(numbers[2]);
            check_way_back(rng, &sheet, form, text)?;
            let ran = check_runs(rng, &sheet, text)?;
            count_turned(&sheet, form, tally);
            count_run(&sheet, text, &ran, tally);
        }
    }
    Ok(())
}

/// "and turn it back to the first bytes", in memory that is just enough.
fn check_way_back(rng: &mut Rng, sheet: &[u8], form: Form, text: &[u8]) -> Result<(), Difference> {
    let case = FORMS.case(rng, text, sheet.len(), FORM_ANSWER_BYTES);
    let case = case.with_number(number_of(other(form)));
    let left = compare(&case)?;
    let answer = numbers(&left);
    if answer != Some([WRITTEN, 0, sheet.len() as u32]) {
        return Err(case.differs(format!("on the way back the archive answers {answer:?}")));
    }
    compare_output(&case, &left, sheet, "the first sheet")
}

/// "Both forms run to the same lines and numbers": all seven, and every byte of memories that were the same. What
/// the runs have left.
fn check_runs(rng: &mut Rng, sheet: &[u8], text: &[u8]) -> Result<Left, Difference> {
    let lent = run_memory_length(rng, sheet);
    let first = SHEETS.case(rng, sheet, lent, ANSWER_BYTES);
    let second = first.with_input(text);
    let (one, other) = (call_archive(&first)?, call_archive(&second)?);
    if one.returned != other.returned || one.answer() != other.answer() {
        let [found, wanted] = [&other, &one].map(run_numbers);
        let message = format!("the archive runs it to {found:?}, and the other form to {wanted:?}");
        return Err(second.differs(message));
    }
    compare_output(&second, &other, one.output(), "the other form's run")?;
    Ok(one)
}

/// What a sheet that is asked for a form shows by its answer.
fn count(sheet: &[u8], form: Form, number: u32, lent: usize, tally: &mut Tally) {
    let place = form.number() - 1;
    tally.count_telling(&ARE_TURNED[place], number == WRITTEN);
    tally.count_telling(&ALREADY[place], number == 48);
    let [owner, turn] = [names_owner_b(sheet), has_turn_b(sheet)];
    if form == Form::One {
        tally.count_telling(&OWNER_ALONE, number == 47 && !turn);
        tally.count_telling(&TURN_ALONE, number == 47 && !owner);
        tally.count_telling(&OWNER_AND_TURN, number == 47 && owner && turn);
    }
    let no_room = lent < SHORTEST;
    match number {
        WRITTEN | 49 => count_memory(sheet, form, lent, tally),
        47 => {
            tally.count_telling(&OF_B_WITHOUT_ROOM, no_room);
            count_single(sheet, tally);
        }
        48 => {
            tally.count_telling(&ALREADY_WITHOUT_ROOM[place], no_room);
            if form == Form::Two {
                tally.count_telling(&ALREADY_OF_B, owner || turn);
            }
        }
        _ => {
            tally.count_telling(&READ_FIRST[place], has_form(sheet, form));
            if form == Form::One {
                tally.count_telling(&READ_BEFORE_B, owner || turn);
            }
        }
    }
}

/// How the memory of a sheet that can be turned is to what it needs.
fn count_memory(sheet: &[u8], form: Form, lent: usize, tally: &mut Tally) {
    let place = form.number() - 1;
    let needed = turned(sheet, form).map_or(0, |text| text.len());
    let longest = [LONGEST_OF_FORM_1, LONGEST][place];
    tally.count_telling(&JUST_FIT[place], lent == needed);
    tally.count_telling(&LACK_A_BYTE[place], lent + 1 == needed);
    tally.count_telling(&LONGEST_SHEETS[place], needed == longest);
}

/// Whether one owner, or one turn, keeps a sheet from going back.
fn count_single(sheet: &[u8], tally: &mut Tally) {
    let Ok(job) = read(sheet) else { return };
    let secrets = job.secrets.iter().flatten().count();
    let owners = job.secrets.iter().flatten();
    let owners = owners.filter(|secret| secret.owner == Owner::B).count();
    let turns = job.turns.iter();
    let turns = turns.filter(|&&level| level == Level::Of(Owner::B)).count();
    let one_owner = secrets > 1 && (owners, turns) == (1, 0);
    let one_turn = job.turns.len() > 1 && (owners, turns) == (0, 1);
    tally.count_telling(&ONE_OWNER, one_owner);
    tally.count_telling(&ONE_TURN, one_turn);
}

/// What a sheet that was turned has.
fn count_turned(sheet: &[u8], form: Form, tally: &mut Tally) {
    let Ok(job) = read(sheet) else { return };
    let place = form.number() - 1;
    let secrets = job.secrets.iter().flatten().count();
    let low_alone = job.turns.iter().all(|&level| level == Level::Low);
    tally.count_telling(&NO_SECRET[place], secrets == 0);
    tally.count_telling(&EIGHT_SECRETS[place], secrets == 8);
    tally.count_telling(&LOW_ALONE[place], low_alone);
}

/// What the runs of both forms show, of which one is of form 2.
fn count_run(sheet: &[u8], text: &[u8], ran: &Left, tally: &mut Tally) {
    let of_two = |job: &Job| job.form == Form::Two;
    let mut jobs = [sheet, text].into_iter().flat_map(read);
    let (Some(job), Some(numbers)) = (jobs.find(of_two), run_numbers(ran)) else {
        return;
    };
    let other_turns = with_turns_exchanged(&job);
    let decide = sends_else(CallRule::SameKind, &other_turns, ran);
    tally.count_telling(&RUNS_SEND, numbers[4] > 0);
    tally.count_telling(&RUNS_WITHOUT_ROOM, numbers[0] == NO_ROOM);
    tally.count_telling(&LETTERS_DECIDE, decide);
}
