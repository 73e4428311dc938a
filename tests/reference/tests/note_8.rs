//! Note 8 of document 02 against the model, sentence by sentence: the second form of a sheet, its two
//! owners and three executions, their secrecy, its records, and what the generators reach. The corners of
//! the note stand with the others, in `document.rs` and `note_7.rs`.

use reference::corners::owners::{
    A_AT_THE_WRONG_CALL, A_GOES_ROUND, B_AT_THE_WRONG_CALL, B_GOES_ROUND, FOLLOWERS_CLAMP,
    LOW_CLAMPS_TWICE, NO_LINE, OTHER_A, THREE_WAYS, TWO, WITHOUT_B,
};
use reference::corners::records::{longest, passing as passing_corners};
use reference::corners::{corners, corners_by, owner_corners, Run};
use reference::generate::records::{
    arbitrary_by, crossed as crossed_record, damaged_again_by, damaged_by as damaged_record,
    old_by, passing_by,
};
use reference::generate::{
    accepted_job, accepted_job_by, crossed, damaged_by, memory_length, noise_by, secret_pair_by,
    sheet_of, Rng, Shape,
};
use reference::model::{
    end_line, in_column_of, run, run_by, CallRule, Form, Level, Owner, Secret, Unreported, HIGH,
    LENT, NUMBERS,
};
use reference::record::{
    faults, job_of, laid_over, listing, open, owner_of, record_of, text, write, Fault, Record,
    LONGEST,
};
use reference::{in_secret_column, printed, read, run_sheet, Job, Refusal};
use std::collections::{BTreeMap, BTreeSet};

const A: Owner = Owner::A;
const B: Owner = Owner::B;
/// What the output memory holds before a run.
const FILL: u8 = 0xaa;

fn job(sheet: &str) -> Job {
    read(sheet.as_bytes()).expect("the sheet is accepted")
}

fn refusal(sheet: &str) -> (u32, u32) {
    match read(sheet.as_bytes()) {
        Ok(_) => (0, 0),
        Err(Refusal { number, line }) => (number, line),
    }
}

fn ran(job: &Job, lent: usize) -> ([u32; NUMBERS], Vec<u8>, Unreported) {
    let mut output = vec![FILL; lent];
    let (numbers, unreported) = run_by(CallRule::SameKind, job, &mut output);
    (numbers, output, unreported)
}

fn unreported(&(lent, sheet, _): &Run) -> Unreported {
    ran(&job(sheet), lent).2
}

fn printed_by(rule: CallRule, &(lent, sheet, _): &Run) -> String {
    let mut output = vec![FILL; lent];
    let (numbers, _) = run_by(rule, &job(sheet), &mut output);
    output.truncate(numbers[4] as usize);
    String::from_utf8([output, end_line(numbers)].concat()).expect("it is text")
}

// The sheet.

/// "A new sheet begins `sheet=2`", "a secret line reads `secret=key:dummy:owner`, owner `A` or `B`, and turns
/// use `L`, `A`, `B`".
#[test]
fn a_sheet_of_form_2_is_read_as_written() {
    let secret = |dummy, owner| Some(Secret { dummy, owner });
    let found = job(TWO.1);
    assert_eq!(found.form, Form::Two);
    assert_eq!(found.secrets, [None, secret(300, A), secret(400, B)]);
    assert_eq!(
        found.turns,
        [Level::Low, Level::Of(A), Level::Of(B)].repeat(7)
    );
    let changed = TWO.1.replace("300:A", "-300:B").replace("400:B", "0:B");
    assert_eq!(job(&changed).secrets, [None, secret(-300, B), secret(0, B)]);
}

/// "Refusal 4 allows 1 or 2 for `sheet`". All else of form 2 is read as of form 1.
#[test]
fn the_number_of_the_form_is_1_or_2() {
    for number in 0..=300 {
        let wanted = match number {
            1 | 2 => (0, 0),
            _ => (4, 1),
        };
        let sheet = format!("sheet={number}\nkeys=1\ndo=stop\nturns=L\n");
        assert_eq!(refusal(&sheet), wanted);
    }
    assert_eq!(job("sheet=1\nkeys=1\ndo=stop\nturns=L\n").form, Form::One);
    assert_eq!(job("sheet=2\nkeys=1\ndo=stop\nturns=L\n").form, Form::Two);
    assert_eq!(Form::One.limits(), Form::Two.limits());
}

/// "a secret line divides at its first two colons and, lacking either, gets 4, before its key", and "46, after
/// the dummy": with every choice of faults the first in this order decides.
#[test]
fn a_secret_line_is_tested_for_colons_key_order_dummy_and_owner() {
    let keys = [("1", None), ("0", Some(5)), ("2", Some(4)), ("", Some(4))];
    let keys = keys.into_iter().chain([("01", Some(4)), ("x", Some(4))]);
    let dummies = [("7", None), ("", Some(4)), ("-0", Some(4)), ("A", Some(4))];
    let owners = ["A", "B", "", "C", "a", "H", "AB", "A:", ":", "A:B", " A"];
    for (key, key_fault) in keys {
        for (dummy, dummy_fault) in dummies {
            for owner in owners {
                let owner_fault = (owner != "A" && owner != "B").then_some(46);
                let fault = key_fault.or(dummy_fault).or(owner_fault);
                let sheet = |line: &str| {
                    format!("sheet=2\nkeys=2\nsecret=0:0:A\nsecret={line}\ndo=stop\nturns=L\n")
                };
                let wanted = fault.map_or((0, 0), |number| (number, 4));
                assert_eq!(refusal(&sheet(&format!("{key}:{dummy}:{owner}"))), wanted);
                assert_eq!(refusal(&sheet(&format!("{key}:{dummy}"))), (4, 4));
                assert_eq!(refusal(&sheet(key)), (4, 4));
            }
        }
    }
}

/// "for an owner that is neither letter": every byte.
#[test]
fn an_owner_is_one_of_two_bytes() {
    for byte in (32..=126).map(char::from) {
        let sheet = format!("sheet=2\nkeys=1\nsecret=0:0:{byte}\ndo=stop\nturns=L\n");
        let wanted = if "AB".contains(byte) { (0, 0) } else { (46, 3) };
        assert_eq!(refusal(&sheet), wanted, "{byte}");
    }
}

/// "9 tests the new letters": every byte at the first place and the last, in both forms.
#[test]
fn letters_are_those_of_the_form() {
    for (form, letters) in [(1, "LH"), (2, "LAB")] {
        for byte in (32..=126).map(char::from) {
            let wanted = if letters.contains(byte) {
                (0, 0)
            } else {
                (9, 4)
            };
            let sheet = |turns: String| format!("sheet={form}\nkeys=1\ndo=stop\nturns={turns}\n");
            assert_eq!(refusal(&sheet(format!("{byte}LLL"))), wanted);
            assert_eq!(refusal(&sheet(format!("LLL{byte}"))), wanted);
        }
    }
}

// "`sheet=1` runs as before".

/// A sheet of form 1 is one of form 2 with a single owner, whichever it is: the same lines and numbers.
#[test]
fn a_single_owner_runs_as_the_high_execution() {
    let mut rng = Rng::new(81);
    for round in 0..1_000 {
        let one = accepted_job(&mut rng, Shape::ALL[round % 4]);
        let lent = memory_length(&mut rng, &sheet_of(&one));
        let (numbers, output, before) = ran(&one, lent);
        for owner in [A, B] {
            let (found, same, after) = ran(&owned(&one, owner), lent);
            assert_eq!((found, &same), (numbers, &output));
            let (high, follower) = (before.of(Owner::H), after.of(owner));
            assert_eq!((high.place, high.calls), (follower.place, follower.calls));
            assert_eq!(high.idle_by_kind, follower.idle_by_kind);
        }
    }
}

/// The job of form 1 as one of form 2 with this owner.
fn owned(one: &Job, owner: Owner) -> Job {
    let mut two = one.clone();
    two.form = Form::Two;
    for secret in two.secrets.iter_mut().flatten() {
        secret.owner = owner;
    }
    for letter in two.turns.iter_mut().filter(|letter| **letter == HIGH) {
        *letter = Level::Of(owner);
    }
    two
}

#[test]
fn corners_of_form_1_know_nothing_of_form_2() {
    for corner in corners_by(Form::One) {
        let number = run_sheet(&corner.sheet, &mut vec![0; corner.lent])[0];
        assert_ne!(number, 46);
    }
    assert!(corners_by(Form::Two).len() > 150);
    assert!(corners().len() > owner_corners().len() + 300);
}

// "There are three executions."

/// "A's sees A's entries and B's dummies, whether or not the line has those keys, and B's the reverse": each
/// execution puts what it sees at each key where it is sent, in lines with every choice of entries.
#[test]
fn each_execution_sees_its_own_entries_and_the_other_s_dummies() {
    let entries = ["0:7", "1:10", "2:20"];
    for choice in 0..8 {
        let has = |key: usize| choice >> key & 1 == 1;
        let line: Vec<&str> = (0..3).filter(|&k| has(k)).map(|k| entries[k]).collect();
        let entry = |key: usize, value: i32| has(key).then_some(value);
        // What is seen at each key by the low execution, by A's, and by B's.
        let seen = [
            [entry(0, 7); 3],
            [Some(300), entry(1, 10), Some(300)],
            [Some(400), Some(400), entry(2, 20)],
        ];
        for (key, seen) in seen.iter().enumerate() {
            let sheet = |word: &str| {
                format!(
                    "sheet=2\nkeys=3\nsecret=1:300:A\nsecret=2:400:B\ndo=receive\ndo={word} 0 {key}\n\
                     do=put 0 0\ndo=put 1 0\ndo=put 2 0\ndo=send\nmsg={}\nturns={}L\n",
                    line.join(","),
                    "LAB".repeat(5)
                )
            };
            let [low, a, b] = seen.map(|value| value.unwrap_or(0));
            assert_eq!(sent_by(&sheet("read")), [low, a, b]);
            let [low, a, b] = seen.map(|value| i32::from(value.is_some()));
            assert_eq!(sent_by(&sheet("has")), [low, a, b]);
        }
    }
}

/// The three columns of the one line that is sent.
fn sent_by(sheet: &str) -> [i32; 3] {
    let printed = String::from_utf8(printed(sheet.as_bytes(), LENT)).expect("it is text");
    let columns: Vec<&str> = printed.lines().next().expect("a line").split(' ').collect();
    [1, 2, 3].map(|place| columns[place].parse().expect("a number"))
}

/// "with no line left every field becomes absent, as before".
#[test]
fn with_no_line_left_nothing_is_seen() {
    assert_eq!(printed(NO_LINE.1.as_bytes(), LENT), NO_LINE.2.as_bytes());
    let has = |sheet: &str| {
        let sheet = sheet.replace("do=read", "do=has");
        let sheet = sheet.replace("do=send", "do=put 0 0\ndo=send");
        sent_by(&sheet.replace("turns=", "turns=LAB"))
    };
    assert_eq!(has(NO_LINE.1), [0; 3]);
    // At a line both dummies are there, for all who do not see the entries.
    assert_eq!(has(TWO.1), [2; 3]);
    assert_eq!(has(WITHOUT_B.1), [2, 2, 1]);
}

/// "Each waits for the low one as the high one did. A secret column comes from its owner's execution.": what an
/// owner's execution does, and the low one, is what they do on a sheet of form 1 without the other's turns
/// and where the other's keys are open and hold their dummies.
#[test]
fn each_owner_s_execution_is_a_high_one_by_itself() {
    let mut rng = Rng::new(82);
    let mut lines = 0;
    for round in 0..2_000 {
        let two = accepted_job_by(Form::Two, &mut rng, Shape::ALL[round % 4]);
        let lent = memory_length(&mut rng, &sheet_of(&two));
        let (numbers, output, followed) = ran(&two, lent);
        for owner in [A, B] {
            let one = alone(&two, owner);
            if one.turns.is_empty() {
                continue;
            }
            let (found, sent, high) = ran(&one, lent);
            assert_eq!((found[0], &found[3..]), (numbers[0], &numbers[3..]));
            assert_eq!(followed.of(owner).place, high.of(Owner::H).place);
            assert_eq!(followed.of(owner).clamped, high.of(Owner::H).clamped);
            let written = numbers[4] as usize;
            let compared = |place: usize| {
                let secret = in_secret_column(&two, place, written);
                let position = place % two.line_length() < 9;
                !position && (!secret || in_column_of(&two, owner, place, written))
            };
            let differs = |place: &usize| compared(*place) && output[*place] != sent[*place];
            assert_eq!((0..lent).find(differs), None);
            lines += written / two.line_length();
        }
    }
    println!("lines compared: {lines}");
    assert!(lines > 10_000, "{lines}");
}

/// The sheet of form 1 for one owner.
fn alone(two: &Job, owner: Owner) -> Job {
    let mut one = two.clone();
    one.form = Form::One;
    for key in 0..two.keys {
        match two.secrets[key] {
            Some(secret) if secret.owner == owner => {
                let (dummy, owner) = (secret.dummy, Owner::H);
                one.secrets[key] = Some(Secret { dummy, owner });
            }
            Some(secret) => {
                one.secrets[key] = None;
                let lines = one.messages.iter_mut();
                lines.for_each(|line| line[key] = Some(secret.dummy));
            }
            None => {}
        }
    }
    let theirs = |&letter: &Level| letter == Level::Low || letter == Level::Of(owner);
    one.turns.retain(theirs);
    for letter in one.turns.iter_mut().filter(|l| **l != Level::Low) {
        *letter = HIGH;
    }
    one
}

/// Notes 2 and 3 for each of the two followers.
#[test]
fn calls_places_and_clamped_results_are_each_follower_s_own() {
    let idle = |run: &Run| [A, B].map(|owner| unreported(run).of(owner).idle_by_kind);
    assert_eq!(idle(&A_AT_THE_WRONG_CALL), [4, 0]);
    assert_eq!(idle(&B_AT_THE_WRONG_CALL), [0, 5]);
    let either = printed_by(CallRule::EitherKind, &A_AT_THE_WRONG_CALL);
    assert!(either.starts_with("sent=0021 +0000000007 +0000000007\n"));
    let either = printed_by(CallRule::EitherKind, &B_AT_THE_WRONG_CALL);
    assert!(either.starts_with("sent=0022 +0000000007 +0000000007\n"));
    let clamped = |run: &Run| [A, B].map(|owner| unreported(run).of(owner).clamped);
    assert_eq!(clamped(&FOLLOWERS_CLAMP), [1, 1]);
    assert_eq!(clamped(&LOW_CLAMPS_TWICE), [1, 1]);
    let places = |run: &Run| [A, B].map(|owner| unreported(run).of(owner).place);
    assert_eq!(places(&A_GOES_ROUND), [3, 7]);
    assert_eq!(places(&B_GOES_ROUND), [7, 3]);
    let ways = unreported(&THREE_WAYS);
    assert!(ways.all_apart && unreported(&A_GOES_ROUND).all_apart);
    assert_eq!((ways.low_place, places(&THREE_WAYS)), (15, [14, 14]));
    assert_eq!(ways.of(A).idle_by_count + ways.of(B).idle_by_count, 0);
    let two = unreported(&TWO);
    assert_eq!((two.of(A).calls, two.of(B).calls), (1, 1));
}

// Secrecy.

/// "if only B's entries differ, everything outside B's columns is equal, and likewise for A". The worked
/// examples.
#[test]
fn only_the_column_of_the_owner_differs() {
    let line = |run: &Run| run.2.lines().next().expect("a line")[10..].to_string();
    assert_eq!(line(&TWO)[..23], line(&WITHOUT_B)[..23]);
    assert_ne!(line(&TWO)[24..], line(&WITHOUT_B)[24..]);
    assert_eq!(line(&TWO)[24..], line(&OTHER_A)[24..]);
    assert_ne!(line(&TWO)[12..23], line(&OTHER_A)[12..23]);
    let two = job(TWO.1);
    let columns = |owner| -> Vec<usize> {
        let lies = |&place: &usize| in_column_of(&two, owner, place, 46);
        (0..100).filter(lies).collect()
    };
    assert_eq!(columns(A), (22..=32).collect::<Vec<_>>());
    assert_eq!(columns(B), (34..=44).collect::<Vec<_>>());
    let secret = |&place: &usize| in_secret_column(&two, place, 46);
    let both: Vec<usize> = (0..100).filter(secret).collect();
    assert_eq!(both, [columns(A), columns(B)].concat());
    assert!(!in_column_of(&two, A, 22, 22));
}

/// Two whole runs that differ in entries of these owners only: the seven numbers are equal, and each byte
/// outside the columns of these owners; those of the other owner are among the equal ones. Gives how many of
/// the pairs differ within the columns of each of the owners.
fn check_pairs(seed: u64, owners: &[Owner]) -> Vec<usize> {
    let mut rng = Rng::new(seed);
    let mut differ = vec![0; owners.len()];
    for _ in 0..1_500 {
        let (first, second) = secret_pair_by(Form::Two, owners, &mut rng);
        assert_ne!(first, second);
        let (one, other) = [&first, &second]
            .map(|s| read(s).expect("it is accepted"))
            .into();
        check_entries(&one, &other, owners);
        let lent = memory_length(&mut rng, &first);
        let (numbers, output, _) = ran(&one, lent);
        let (others, other_output, _) = ran(&other, lent);
        assert_eq!(numbers, others);
        let written = numbers[4] as usize;
        let different = |place: &usize| output[*place] != other_output[*place];
        let places: Vec<usize> = (0..lent).filter(different).collect();
        let theirs = |owner: Owner, place: usize| in_column_of(&one, owner, place, written);
        for &place in &places {
            assert!(owners.iter().any(|&owner| theirs(owner, place)), "{place}");
        }
        for (count, &owner) in differ.iter_mut().zip(owners) {
            *count += usize::from(places.iter().any(|&place| theirs(owner, place)));
        }
    }
    println!("{owners:?}: {differ:?} of 1500 pairs");
    differ
}

/// The jobs differ in entries of these owners' keys, and in nothing else.
fn check_entries(first: &Job, second: &Job, owners: &[Owner]) {
    let without = |job: &Job| {
        let mut job = job.clone();
        for line in &mut job.messages {
            for (entry, secret) in line.iter_mut().zip(&job.secrets) {
                if secret.is_some_and(|secret| owners.contains(&secret.owner)) {
                    *entry = None;
                }
            }
        }
        job
    };
    assert_ne!(first, second);
    assert_eq!(without(first), without(second));
}

#[test]
fn pairs_of_one_owner_and_of_both_answer_alike() {
    for (seed, owners) in [(83, &[A][..]), (84, &[B]), (85, &[A, B])] {
        let differ = check_pairs(seed, owners);
        assert!(differ.iter().all(|&count| count > 400), "{differ:?}");
    }
}

// Records: "The writer of Note 7 takes both forms, each with its own letters and limits."

fn random_record(rng: &mut Rng, place: usize) -> Record {
    match place % 5 {
        0 => arbitrary_by(Form::Two, rng),
        1 | 2 => damaged_record(Form::Two, rng),
        3 => damaged_again_by(Form::Two, rng),
        _ => passing_by(Form::Two, rng),
    }
}

fn number(record: &Record) -> u32 {
    write(record, &mut [])[0]
}

/// What is written reads as the same record in all that its counts cover, and an accepted sheet's record is
/// written as that sheet.
#[test]
fn both_forms_are_written_and_read_again() {
    let mut rng = Rng::new(86);
    for place in 0..2_000 {
        let record = passing_by(Form::Two, &mut rng);
        let sheet = text(&record);
        let mut output = vec![FILL; sheet.len() + 1];
        assert_eq!(write(&record, &mut output), [0, sheet.len() as u32]);
        assert_eq!(output, [&sheet[..], &[FILL]].concat());
        let before = old_by(Form::Two, &mut rng);
        let mut again = before.clone();
        assert_eq!(open(&sheet, &mut again), [0, 0]);
        assert_eq!(again, laid_over(&record, &before));
        assert_eq!(job_of(&record), read(&sheet).expect("it is accepted"));
        let form = Form::ALL[place % 2];
        let job = accepted_job_by(form, &mut rng, Shape::ALL[place % 4]);
        assert_eq!(text(&record_of(&job)), sheet_of(&job));
        assert_eq!(job_of(&record_of(&job)), job);
    }
}

/// 54 is what no sheet can say: a record passes exactly if its text is read as the same numbers.
#[test]
fn refusal_54_is_what_no_sheet_of_form_2_can_say() {
    let mut rng = Rng::new(87);
    let mut passed = 0;
    for place in 0..8_000 {
        let record = random_record(&mut rng, place);
        let counts = [
            record.secret_count as usize <= record.secrets.len(),
            record.command_count as usize <= record.commands.len(),
            record.message_count as usize <= record.messages.len(),
            record.letter_count as usize <= record.letters.len(),
        ];
        let entries = record.messages().iter();
        let entries = entries.map(|m| m.entry_count as usize <= m.entries.len());
        let covers = counts.into_iter().chain(entries).all(|covers| covers);
        let same = |job: Job| listing(&record_of(&job)) == listing(&record);
        let passes = covers && read(&text(&record)).is_ok_and(same);
        assert_eq!(number(&record) != 54, passes, "{}", listing(&record));
        passed += usize::from(passes);
    }
    assert!((1_800..5_000).contains(&passed), "{passed}");
}

/// Every owner's number and every letter, in both forms.
#[test]
fn owners_and_letters_are_those_of_the_record_s_form() {
    let (one, two) = (longest(), longest_of_two());
    for owner in (0..400).chain([65 + 256, 66 + 65_536, 65 + (1 << 31), u32::MAX]) {
        let with = |record: &Record| {
            let mut record = record.clone();
            record.secrets[5].owner = owner;
            number(&record)
        };
        assert_eq!(with(&one), if owner == 0 { 55 } else { 54 });
        let stands = owner == 65 || owner == 66;
        assert_eq!(with(&two), if stands { 55 } else { 54 });
        assert_eq!(owner_of(Form::Two, owner).is_some(), stands);
    }
    for letter in 0..=255 {
        for (record, letters) in [(&one, &b"LH"[..]), (&two, b"LAB")] {
            let mut record = record.clone();
            record.letters[700] = letter;
            let stands = letters.contains(&letter);
            assert_eq!(number(&record), if stands { 55 } else { 54 });
        }
    }
}

fn longest_of_two() -> Record {
    let mut corners = passing_corners().into_iter();
    let longest = corners.find(|(_, sheet)| sheet.len() == LONGEST);
    longest.expect("there is such a corner").0
}

#[test]
fn the_longest_sheet_of_form_2_needs_every_byte() {
    assert_eq!(LONGEST, 6_286);
    let record = longest_of_two();
    assert_eq!(record.form, 2);
    assert_eq!(write(&record, &mut [FILL; LONGEST]), [0, 6_286]);
    assert_eq!(write(&record, &mut [FILL; LONGEST - 1]), [55, 0]);
}

// The generators.

#[test]
fn accepted_sheets_of_form_2_are_accepted_and_read_back() {
    let mut rng = Rng::new(88);
    for shape in Shape::ALL {
        let mut both = 0;
        for _ in 0..400 {
            let job = accepted_job_by(Form::Two, &mut rng, shape);
            let has = |owner| (0..job.keys).any(|key| job.secret_of(owner, key).is_some());
            both += usize::from(has(A) && has(B));
            if shape == Shape::LongRun {
                let numbers = run(&job, &mut vec![0; LENT]);
                assert_eq!((numbers[0], numbers[2]), (31, 1_024));
            }
            assert_eq!(read(&sheet_of(&job)), Ok(job));
        }
        assert!(both > 180, "{shape:?}: {both}");
    }
}

/// How often each first number occurs in so many sheets.
fn counts(seed: u64, count: usize, mut sheet: impl FnMut(&mut Rng) -> Vec<u8>) -> [usize; 47] {
    let mut rng = Rng::new(seed);
    let mut counts = [0; 47];
    for _ in 0..count {
        let sheet = sheet(&mut rng);
        let lent = memory_length(&mut rng, &sheet);
        counts[run_sheet(&sheet, &mut vec![FILL; lent])[0] as usize] += 1;
    }
    counts
}

#[test]
fn damaged_crossed_and_noisy_sheets_reach_the_refusals() {
    let damaged = counts(89, 8_000, |rng| damaged_by(Form::Two, rng));
    println!("damaged: {damaged:?}");
    for number in [1, 2, 3, 4, 5, 6, 7, 8, 9, 46] {
        assert!(damaged[number] >= 120, "refusal {number}: {damaged:?}");
    }
    let crossed = counts(90, 2_000, crossed);
    println!("crossed: {crossed:?}");
    let accepted = crossed[0] + crossed[31] + crossed[32];
    for count in [accepted, crossed[4], crossed[9]] {
        assert!(count >= 100, "{crossed:?}");
    }
    let noise = counts(91, 4_000, |rng| noise_by(Form::Two, rng));
    println!("noise: {noise:?}");
    for number in [0, 2, 3, 4, 5, 6, 7, 9, 46] {
        assert!(noise[number] >= 3, "{number}: {noise:?}");
    }
    for shape in Shape::ALL {
        let sheet = |rng: &mut Rng| sheet_of(&accepted_job_by(Form::Two, rng, shape));
        let endings = counts(92, 1_000, sheet);
        assert!(shape == Shape::LongRun || endings[0] >= 80, "{endings:?}");
        assert!(endings[31] >= 80 && endings[32] >= 80, "{endings:?}");
    }
}

/// Of 1,000 sheets of a shape: those whose executions are at three places at once; whose A idles by the kind
/// and B does not, and the reverse; whose A clamps and B does not, and the reverse; whose A has made more calls
/// than B, and the reverse; and those that end with three places and some line sent.
#[test]
fn executions_part_ways_in_every_shape() {
    let mut rng = Rng::new(93);
    for (shape, least) in [
        (Shape::Small, [100, 2, 2, 10, 10, 80, 80, 40]),
        (Shape::Medium, [300, 8, 8, 20, 20, 100, 100, 80]),
        (Shape::Large, [400, 20, 20, 40, 40, 120, 120, 100]),
        (Shape::LongRun, [500, 10, 10, 20, 20, 60, 60, 200]),
    ] {
        let mut counts = [0; 8];
        for _ in 0..1_000 {
            let job = accepted_job_by(Form::Two, &mut rng, shape);
            let (numbers, _, unreported) = ran(&job, LENT);
            let (a, b) = (unreported.of(A), unreported.of(B));
            let apart = a.place != b.place && ![a.place, b.place].contains(&unreported.low_place);
            let occurs = [
                unreported.all_apart,
                a.idle_by_kind > 0 && b.idle_by_kind == 0,
                b.idle_by_kind > 0 && a.idle_by_kind == 0,
                a.clamped > 0 && b.clamped == 0,
                b.clamped > 0 && a.clamped == 0,
                a.calls > b.calls,
                b.calls > a.calls,
                apart && numbers[4] > 0,
            ];
            for (count, occurs) in counts.iter_mut().zip(occurs) {
                *count += usize::from(occurs);
            }
        }
        println!("{shape:?}: {counts:?} of 1000");
        let enough = counts
            .iter()
            .zip(least)
            .all(|(&count, least)| count >= least);
        assert!(enough, "{shape:?}: {counts:?}");
    }
}

/// Passing records pass, and every kind of fault stands alone in many damaged ones.
#[test]
fn damaged_records_of_form_2_have_every_fault_alone() {
    let mut rng = Rng::new(94);
    for _ in 0..500 {
        let record = passing_by(Form::Two, &mut rng);
        assert!(faults(&record).is_empty(), "{}", listing(&record));
    }
    let mut alone: BTreeMap<Fault, usize> = BTreeMap::new();
    for _ in 0..5_000 {
        let faults = faults(&damaged_record(Form::Two, &mut rng));
        if let (1, Some(&fault)) = (faults.len(), faults.first()) {
            *alone.entry(fault).or_default() += 1;
        }
    }
    println!("{alone:?}");
    assert_eq!(alone.len(), 18);
    assert!(alone.values().all(|&count| count > 20), "{alone:?}");
}

/// A record with one number of the other form is wrong in its owners, in its letters, or in both,
/// or passes.
#[test]
fn crossed_records_have_owners_and_letters_of_the_other_form() {
    let mut rng = Rng::new(95);
    let mut counts: BTreeMap<(u32, Vec<Fault>), usize> = BTreeMap::new();
    for _ in 0..2_000 {
        let record = crossed_record(&mut rng);
        let faults = faults(&record).into_iter().collect();
        *counts.entry((record.form, faults)).or_default() += 1;
    }
    println!("{counts:?}");
    let (owner, letter) = (Fault::Owner, Fault::Letter);
    let wrong = [vec![], vec![owner], vec![letter], vec![owner, letter]];
    let each: Vec<_> = [1, 2]
        .into_iter()
        .flat_map(|form| wrong.clone().map(|faults| (form, faults)))
        .collect();
    assert_eq!(
        counts.keys().cloned().collect::<BTreeSet<_>>(),
        each.into_iter().collect()
    );
    assert!(counts.values().all(|&count| count > 10), "{counts:?}");
}
