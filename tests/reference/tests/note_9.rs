//! Note 9 of document 02 against the model, sentence by sentence: its corners and memories, the way there and
//! back, the runs of both forms, the order of the refusals, and what the generator reaches.

use reference::corners::forms::{corners, of_b, pairs, refused_on_reading, A, EXAMPLES, NEW};
use reference::forms::{
    convert, has_form, has_turn_b, names_owner_b, to_sheet1_entry, to_sheet2_entry, turned,
};
use reference::generate::forms::{memory_length, new, old, sheet, with_b};
use reference::generate::{memory_length as run_memory_length, sheet_of, Rng};
use reference::model::{Form, Level, Owner, HIGH, NUMBERS};
use reference::record::{LONGEST, LONGEST_OF_FORM_1};
use reference::{read, run_sheet, Job, Refusal};
use std::collections::{BTreeMap, BTreeSet};
use std::path::{Path, PathBuf};
use Form::{One, Two};

/// What the output memory holds before a call.
const FILL: u8 = 0xaa;
/// More bytes than any sheet needs.
const PLENTY: usize = 10_000;

fn filled(sheet: &[u8], form: Form, lent: usize) -> ([u32; 3], Vec<u8>) {
    let mut output = vec![FILL; lent];
    let numbers = convert(sheet, form, &mut output);
    (numbers, output)
}

/// A sheet that can be turned into this form, turned.
fn turned_into(form: Form, sheet: &[u8]) -> Vec<u8> {
    let text = turned(sheet, form);
    text.unwrap_or_else(|refusal| panic!("{refusal:?}: {}", start(sheet)))
}

/// The start of a sheet, for the message of a test that fails.
fn start(sheet: &[u8]) -> String {
    sheet[..sheet.len().min(200)].escape_ascii().to_string()
}

fn examples() -> PathBuf {
    Path::new(env!("CARGO_MANIFEST_DIR")).join("../../examples")
}

fn text(sheet: &[u8]) -> &str {
    std::str::from_utf8(sheet).expect("it is text")
}

// The corners, and the lent memories.

/// The worked examples of the note stand in these tables, with everything beside them.
#[test]
fn every_corner_gives_what_the_note_says() {
    let corners = corners();
    let counts = [EXAMPLES.len(), pairs().len(), of_b().len()];
    assert_eq!(
        corners.len(),
        counts[0] + 16 * counts[1] + 6 * counts[2] + 6 * refused_on_reading().len()
    );
    assert!(corners.len() > 2_000, "{}", corners.len());
    for corner in corners {
        let (numbers, output) = filled(&corner.sheet, corner.form, corner.lent);
        let (form, start) = (corner.form, start(&corner.sheet));
        assert_eq!(numbers, corner.numbers, "{form:?}: {start}");
        let (written, rest) = output.split_at(corner.text.len());
        assert_eq!(text(written), text(&corner.text));
        assert!(rest.iter().all(|&byte| byte == FILL));
    }
}

/// Every number of the note stands in the corners of each direction.
#[test]
fn corners_have_every_number_both_ways() {
    for (form, numbers) in [
        (Two, &[0, 1, 2, 3, 4, 5, 6, 7, 8, 9, 46, 48, 49][..]),
        (One, &[0, 1, 2, 3, 4, 5, 6, 7, 8, 9, 46, 47, 48, 49]),
    ] {
        let asked = corners().into_iter().filter(|corner| corner.form == form);
        let mut found: Vec<u32> = asked.map(|corner| corner.numbers[0]).collect();
        found.sort_unstable();
        found.dedup();
        assert_eq!(found, numbers);
    }
}

/// Sheet A of document 01, and what is to be done to it.
#[test]
fn the_worked_example_is_sheet_a() {
    let file = std::fs::read(examples().join("sheet_a.txt"));
    assert_eq!(file.expect("the example is there"), A);
    assert_eq!((A.len(), NEW.len()), (113, 115));
    let by_hand = text(A)
        .replace("sheet=1", "sheet=2")
        .replace("secret=1:300", "secret=1:300:A")
        .replace('H', "A");
    assert_eq!(by_hand, text(NEW));
}

#[test]
fn c_entries_write_three_numbers_low_byte_first() {
    let (mut output, mut answer) = ([FILL; 200], [FILL; 12]);
    assert_eq!(to_sheet2_entry(A, &mut output, &mut answer), 0);
    assert_eq!(answer, [0, 0, 0, 0, 0, 0, 0, 0, 115, 0, 0, 0]);
    assert_eq!(output[..115], *NEW);
    assert_eq!(output[115..], [FILL; 85]);
    assert_eq!(to_sheet1_entry(NEW, &mut output, &mut answer), 0);
    assert_eq!(answer, [0, 0, 0, 0, 0, 0, 0, 0, 113, 0, 0, 0]);
    // What stood behind stays.
    assert_eq!(output[..113], *A);
    assert_eq!(output[113..115], NEW[113..]);
    assert_eq!(to_sheet2_entry(NEW, &mut output, &mut answer), 48);
    assert_eq!(answer, [48, 0, 0, 0, 0, 0, 0, 0, 0, 0, 0, 0]);
    let two = [NEW, b"\n"].concat();
    assert_eq!(to_sheet1_entry(&two, &mut output, &mut answer), 3);
    assert_eq!(answer, [3, 0, 0, 0, 11, 0, 0, 0, 0, 0, 0, 0]);
    assert_eq!(output[..113], *A);
    let [old, new] = pairs().pop().expect("there are pairs");
    let mut output = [FILL; LONGEST];
    assert_eq!(to_sheet2_entry(&old, &mut output, &mut answer), 0);
    assert_eq!(answer, [0, 0, 0, 0, 0, 0, 0, 0, 142, 24, 0, 0]);
    assert_eq!(output, new.as_slice());
}

#[test]
fn c_entries_refuse_answer_memory_of_another_length_before_anything_else() {
    for entry in [to_sheet1_entry, to_sheet2_entry] {
        for length in [0, 1, 8, 11, 13, 24, 28] {
            for sheet in [A, NEW, b"", &[0; 16_385]] {
                let mut output = [FILL; 115];
                let mut answer = vec![FILL; length];
                assert_eq!(entry(sheet, &mut output, &mut answer), 10);
                assert_eq!(output, [FILL; 115]);
                assert!(answer.iter().all(|&byte| byte == FILL));
            }
        }
    }
}

/// No sheet that comes of one is longer than those that come of records, and so it is never too long to be read.
#[test]
fn the_longest_sheets_need_every_byte() {
    assert_eq!((LONGEST_OF_FORM_1, LONGEST), (6_270, 6_286));
    let longest = pairs();
    let longest: Vec<_> = longest
        .iter()
        .filter(|[old, _]| old.len() == 6_270)
        .collect();
    assert_eq!(longest.len(), 4);
    for [old, new] in longest {
        for (form, sheet, text) in [(Two, old, new), (One, new, old)] {
            let needed = text.len();
            let written = ([0, 0, needed as u32], text.clone());
            assert_eq!(filled(sheet, form, needed), written);
            let short = ([49, 0, 0], vec![FILL; needed - 1]);
            assert_eq!(filled(sheet, form, needed - 1), short);
        }
    }
    let mut rng = Rng::new(901);
    for _ in 0..500 {
        assert!(turned_into(Two, &old(&mut rng)).len() <= LONGEST);
        assert!(turned_into(One, &new(&mut rng)).len() <= LONGEST_OF_FORM_1);
    }
}

// "Turn one into `sheet=2` with owner A and H turned to A, and turn it back to the first bytes."

/// The lines that differ, and how; all others keep their bytes.
#[test]
fn the_first_line_the_secret_lines_and_the_turns_are_turned_and_no_other() {
    let mut rng = Rng::new(902);
    for _ in 0..2_000 {
        let old = old(&mut rng);
        let new = turned_into(Two, &old);
        let (old_lines, new_lines) = (text(&old).lines(), text(&new).lines());
        assert_eq!(old_lines.clone().count(), new_lines.clone().count());
        for (place, (old, new)) in old_lines.zip(new_lines).enumerate() {
            let name = old.split('=').next();
            let wanted = match (place, name) {
                (0, _) => "sheet=2".to_string(),
                (_, Some("secret")) => format!("{old}:A"),
                (_, Some("turns")) => old.replace('H', "A"),
                _ => old.to_string(),
            };
            assert_eq!(new, wanted);
        }
    }
}

/// What the new sheet says is what the old one says, with A for its owner: as a job, and not as a text.
#[test]
fn the_new_sheet_says_the_old_job_with_owner_a() {
    let mut rng = Rng::new(903);
    for _ in 0..2_000 {
        let one = old(&mut rng);
        let job = read(&one).expect("it is accepted");
        let wanted = owned_by_a(&job);
        let two = turned_into(Two, &one);
        assert_eq!(two, sheet_of(&wanted));
        assert_eq!(read(&two), Ok(wanted));
    }
}

fn owned_by_a(one: &Job) -> Job {
    let mut two = one.clone();
    two.form = Two;
    for secret in two.secrets.iter_mut().flatten() {
        secret.owner = Owner::A;
    }
    for level in two.turns.iter_mut().filter(|level| **level == HIGH) {
        *level = Level::Of(Owner::A);
    }
    two
}

/// "back to the first bytes", and from a sheet of form 2 that can go back too: no two sheets become one.
#[test]
fn there_and_back_is_the_first_sheet() {
    let mut rng = Rng::new(904);
    for _ in 0..2_000 {
        let one = old(&mut rng);
        assert_eq!(turned_into(One, &turned_into(Two, &one)), one);
        let two = new(&mut rng);
        assert_eq!(turned_into(Two, &turned_into(One, &two)), two);
    }
}

/// A colon and a letter for each secret.
#[test]
fn a_sheet_grows_by_two_bytes_for_each_secret() {
    let mut rng = Rng::new(905);
    let mut counts = [0; 9];
    for _ in 0..2_000 {
        let one = old(&mut rng);
        let job = read(&one).expect("it is accepted");
        let secrets = job.secrets.iter().flatten().count();
        let two = turned_into(Two, &one);
        assert_eq!(two.len(), one.len() + 2 * secrets);
        let (numbers, _) = filled(&one, Two, PLENTY);
        assert_eq!(numbers, [0, 0, two.len() as u32]);
        counts[secrets] += 1;
    }
    assert!(counts.iter().all(|&count| count >= 10), "{counts:?}");
}

/// Every sheet of `examples/`: refused as on reading, or turned and turned back.
#[test]
fn every_example_is_turned_or_refused() {
    let files = std::fs::read_dir(examples()).expect("the folder of the examples is there");
    let paths = files.map(|file| file.expect("the folder can be read").path());
    let (mut refused, mut back, mut of_b) = (0, 0, 0);
    for path in paths.filter(|path| path.extension() == Some("txt".as_ref())) {
        let sheet = std::fs::read(&path).expect("the example can be read");
        let Ok(job) = read(&sheet) else {
            refused += 1;
            continue;
        };
        let (own, other) = match job.form {
            One => (One, Two),
            Two => (Two, One),
        };
        assert_eq!(filled(&sheet, own, PLENTY).0, [48, 0, 0]);
        match turned(&sheet, other) {
            Ok(text) => {
                assert_eq!(turned_into(own, &text), sheet);
                back += 1;
            }
            Err(refusal) => {
                assert_eq!((refusal.number, job.form), (47, Two));
                of_b += 1;
            }
        }
    }
    assert!(
        refused > 30 && back > 30 && of_b > 3,
        "{refused} {back} {of_b}"
    );
}

// "Both forms run to the same lines and numbers."

fn ran(sheet: &[u8], lent: usize) -> ([u32; NUMBERS], Vec<u8>) {
    let mut output = vec![FILL; lent];
    let numbers = run_sheet(sheet, &mut output);
    (numbers, output)
}

/// All seven numbers and every byte of the memory, in memory of any length.
#[test]
fn both_forms_run_to_the_same_lines_and_numbers() {
    let mut rng = Rng::new(906);
    let mut endings: BTreeMap<u32, usize> = BTreeMap::new();
    let mut sent = 0;
    for place in 0..3_000 {
        let (sheet, form) = match place % 2 {
            0 => (old(&mut rng), Two),
            _ => (new(&mut rng), One),
        };
        let lent = run_memory_length(&mut rng, &sheet);
        let (numbers, output) = ran(&sheet, lent);
        assert_eq!(ran(&turned_into(form, &sheet), lent), (numbers, output));
        *endings.entry(numbers[0]).or_default() += 1;
        sent += usize::from(numbers[4] > 0);
    }
    for [old, new] in pairs() {
        assert_eq!(ran(&old, 40), ran(&new, 40));
        assert_eq!(ran(&old, PLENTY), ran(&new, PLENTY));
    }
    println!("{endings:?}, {sent} send");
    assert_eq!(endings.keys().copied().collect::<Vec<_>>(), [0, 31, 32]);
    assert!(endings.values().all(|&count| count > 300), "{endings:?}");
    assert!(sent > 1_000, "{sent}");
}

// The refusals, and their order.

/// "47 ... if the sheet names owner B or has a turn B": all owners of no secret to three, with all letters of up
/// to three turns.
#[test]
fn going_back_is_refused_for_an_owner_b_and_for_a_turn_b() {
    let mut counts = [0; 4];
    for owners in words("AB", 0, 3) {
        for letters in words("LAB", 1, 3) {
            let line = |(key, owner): (usize, char)| format!("secret={key}:5:{owner}\n");
            let secrets: String = owners.chars().enumerate().map(line).collect();
            let sheet = format!("sheet=2\nkeys=3\n{secrets}do=stop\nturns={letters}\n");
            let (owner, turn) = (owners.contains('B'), letters.contains('B'));
            let found = filled(sheet.as_bytes(), One, PLENTY).0;
            let length = (sheet.len() - 2 * owners.len()) as u32;
            let wanted = match owner || turn {
                true => [47, 0, 0],
                false => [0, 0, length],
            };
            assert_eq!(found, wanted, "{sheet}");
            assert_eq!(filled(sheet.as_bytes(), Two, PLENTY).0, [48, 0, 0]);
            counts[usize::from(owner) + 2 * usize::from(turn)] += 1;
        }
    }
    assert_eq!(counts, [4 * 14, 11 * 14, 4 * 25, 11 * 25]);
}

/// Every word of these letters, of so many of them.
fn words(letters: &str, least: usize, most: usize) -> Vec<String> {
    let mut words = vec![String::new()];
    let mut all = Vec::new();
    for length in 0..=most {
        if length >= least {
            all.extend(words.iter().cloned());
        }
        let longer = |word: &String| -> Vec<String> {
            letters
                .chars()
                .map(|letter| format!("{word}{letter}"))
                .collect()
        };
        words = words.iter().flat_map(longer).collect();
    }
    all
}

/// "sheets refuse as on reading": with the same number and line, whichever form is asked for.
#[test]
fn a_refusal_on_reading_comes_before_all_others() {
    let mut rng = Rng::new(907);
    let (mut already, mut of_b) = (0, 0);
    for _ in 0..6_000 {
        let sheet = sheet(&mut rng);
        let Err(Refusal { number, line }) = read(&sheet) else {
            continue;
        };
        for form in Form::ALL {
            for lent in [0, PLENTY] {
                let untouched = ([number, line, 0], vec![FILL; lent]);
                assert_eq!(filled(&sheet, form, lent), untouched, "{}", start(&sheet));
            }
            already += usize::from(has_form(&sheet, form));
        }
        of_b += usize::from(names_owner_b(&sheet) || has_turn_b(&sheet));
    }
    assert!(already > 1_000 && of_b > 300, "{already} {of_b}");
}

/// 48 "after reading", "47, next", "49, last": what a sheet gets in no memory and in plenty.
#[test]
fn memory_decides_nothing_but_49() {
    let mut rng = Rng::new(908);
    let mut counts: BTreeMap<[u32; 2], usize> = BTreeMap::new();
    for _ in 0..6_000 {
        let sheet = sheet(&mut rng);
        for form in Form::ALL {
            let lent = memory_length(&mut rng, &sheet, form);
            let (with_plenty, text) = filled(&sheet, form, PLENTY);
            let (numbers, output) = filled(&sheet, form, lent);
            let fits = with_plenty[0] != 0 || with_plenty[2] as usize <= lent;
            assert_eq!(numbers, if fits { with_plenty } else { [49, 0, 0] });
            let written = numbers[2] as usize;
            assert_eq!(output[..written], text[..written]);
            assert!(output[written..].iter().all(|&byte| byte == FILL));
            let in_none = filled(&sheet, form, 0).0[0];
            *counts.entry([with_plenty[0], in_none]).or_default() += 1;
        }
    }
    println!("{counts:?}");
    for [with_plenty, in_none] in counts.keys().copied() {
        let wanted = if with_plenty == 0 { 49 } else { with_plenty };
        assert_eq!(in_none, wanted);
    }
    assert!(counts[&[47, 47]] > 300 && counts[&[48, 48]] > 2_000);
}

// The generator.

#[test]
fn generated_sheets_are_what_their_names_say() {
    let mut rng = Rng::new(909);
    // No secret, eight, no turn of an owner, and the longest, among 2,000 of each form.
    let mut counts = [[0; 4]; 2];
    for _ in 0..2_000 {
        let sheets = [old(&mut rng), new(&mut rng)];
        for ((sheet, form), counts) in sheets.iter().zip(Form::ALL).zip(&mut counts) {
            let job = read(sheet).expect("it is accepted");
            assert_eq!(job.form, form);
            assert!(!names_owner_b(sheet) && !has_turn_b(sheet));
            let longest = [LONGEST_OF_FORM_1, LONGEST][form.number() - 1];
            let occurs = [
                job.secrets.iter().all(Option::is_none),
                job.secrets.iter().flatten().count() == 8,
                job.turns.iter().all(|&level| level == Level::Low),
                sheet.len() == longest,
            ];
            for (count, occurs) in counts.iter_mut().zip(occurs) {
                *count += usize::from(occurs);
            }
        }
    }
    println!("no secret, eight, L alone, longest: {counts:?}");
    assert!(
        counts.iter().flatten().all(|&count| count >= 5),
        "{counts:?}"
    );
}

/// Each cause of 47 alone, and both; and a single B, as the first of its kind, as the last, and between.
#[test]
fn sheets_with_something_of_b_have_it_everywhere() {
    let mut rng = Rng::new(910);
    let mut causes = [0; 4];
    let mut single = [[0; 3]; 2];
    for _ in 0..3_000 {
        let sheet = with_b(&mut rng);
        assert_eq!(filled(&sheet, One, PLENTY).0, [47, 0, 0]);
        let [owners, turns] = places_of_b(&read(&sheet).expect("it is accepted"));
        causes[usize::from(!owners.0.is_empty()) + 2 * usize::from(!turns.0.is_empty())] += 1;
        for ((places, count), single) in [owners, turns].into_iter().zip(&mut single) {
            match places.as_slice() {
                [0] => single[0] += 1,
                [last] if last + 1 == count => single[1] += 1,
                [_] => single[2] += 1,
                _ => {}
            }
        }
    }
    println!("none, owner, turn, both: {causes:?}; first, last, between: {single:?}");
    assert_eq!(causes[0], 0);
    assert!(causes[1..].iter().all(|&count| count > 600), "{causes:?}");
    assert!(
        single.iter().flatten().all(|&count| count > 150),
        "{single:?}"
    );
}

/// The places of B among the secrets and among the turns, and how many there are of each.
fn places_of_b(job: &Job) -> [(Vec<usize>, usize); 2] {
    let owners = job.secrets.iter().flatten();
    let owners: Vec<bool> = owners.map(|secret| secret.owner == Owner::B).collect();
    let turns = job.turns.iter().map(|&level| level == Level::Of(Owner::B));
    let turns: Vec<bool> = turns.collect();
    [owners, turns].map(|of_b| {
        let places = (0..of_b.len()).filter(|&place| of_b[place]);
        (places.collect(), of_b.len())
    })
}

/// How often each number occurs in 10,000 sheets, both ways, with the bytes lent chosen for each; and how often a
/// byte is missing.
#[test]
fn random_sheets_reach_every_answer_both_ways() {
    let mut rng = Rng::new(911);
    let mut counts: [BTreeMap<u32, usize>; 2] = Default::default();
    let mut byte_short = [0; 2];
    for _ in 0..10_000 {
        let sheet = sheet(&mut rng);
        for (place, form) in Form::ALL.into_iter().enumerate() {
            let lent = memory_length(&mut rng, &sheet, form);
            let number = filled(&sheet, form, lent).0[0];
            *counts[place].entry(number).or_default() += 1;
            let lacks = turned(&sheet, form).is_ok_and(|text| text.len() == lent + 1);
            byte_short[place] += usize::from(lacks);
        }
    }
    println!("{counts:?}, a byte short {byte_short:?}");
    for (counts, numbers) in counts.iter().zip([&[47][..], &[]]) {
        let refusals = [1, 2, 3, 4, 5, 6, 7, 8, 9, 46];
        let all = refusals.iter().chain(&[0, 48, 49]).chain(numbers);
        assert!(counts.keys().eq(all.collect::<BTreeSet<_>>()), "{counts:?}");
        assert!(
            refusals.iter().all(|number| counts[number] >= 40),
            "{counts:?}"
        );
        assert!(counts[&0] > 1_500 && counts[&48] > 2_500 && counts[&49] > 500);
    }
    assert!(counts[0][&47] > 1_000, "{counts:?}");
    assert!(
        byte_short.iter().all(|&count| count > 200),
        "{byte_short:?}"
    );
}
