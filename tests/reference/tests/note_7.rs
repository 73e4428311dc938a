//! Note 7 of document 02 against the model: its corners, its memories, the bytes of a record, both
//! directions, 54 by another method, the limits of every number, and what the generators reach.

use reference::corners::records::{
    corners, every_word, faulty, longest, longest_sheet, opened, passing, sheet_a, smallest,
    SHEET_A,
};
use reference::generate::records::{
    arbitrary, damaged, damaged_again, memory_length, old, passing as random_passing,
};
use reference::generate::{accepted, accepted_job, damaged as damaged_sheet, noise, sheet_of};
use reference::generate::{Rng, Shape};
use reference::model::run;
use reference::record::{
    coded, faults, job_of, laid_over, listing, open, pack, read_entry, record_of, text, unpack,
    write, write_entry, Fault, Operand, Record, EMPTY, LONGEST, LONGEST_OF_FORM_1, OPERANDS,
    RECORD_BYTES, WORDS,
};
use reference::{read, run_sheet};
use std::collections::BTreeMap;

/// What the output memory holds before a call.
const FILL: u8 = 0xaa;

fn filled(record: &Record, lent: usize) -> ([u32; 2], Vec<u8>) {
    let mut output = vec![FILL; lent];
    let numbers = write(record, &mut output);
    (numbers, output)
}

/// The first number with no memory lent: 54, or 55, which says that the record passes.
fn number(record: &Record) -> u32 {
    write(record, &mut [])[0]
}

fn but(change: fn(&mut Record)) -> u32 {
    let mut record = record_of(&read(SHEET_A).unwrap());
    change(&mut record);
    number(&record)
}

// The corners, and the lent memories.

#[test]
fn every_corner_gives_what_the_note_says() {
    let corners = corners();
    assert_eq!(corners.len(), 4 * passing().len() + 2 * faulty().len());
    assert!(passing().len() >= 35 && faulty().len() >= 250);
    for corner in corners {
        let (numbers, output) = filled(&corner.record, corner.lent);
        let list = listing(&corner.record);
        assert_eq!(numbers, corner.numbers, "{list}");
        let (sheet, rest) = output.split_at(corner.sheet.len());
        let (found, wanted) = (sheet.escape_ascii(), corner.sheet.escape_ascii());
        assert_eq!(found.to_string(), wanted.to_string());
        assert!(rest.iter().all(|&byte| byte == FILL));
    }
}

#[test]
fn every_sheet_of_the_corners_is_read_as_the_note_says() {
    let opened = opened();
    for number in [0, 1, 2, 3, 4, 5, 6, 7, 8, 9, 46] {
        assert!(opened.iter().any(|corner| corner.numbers[0] == number));
    }
    for corner in opened {
        let before = smallest();
        let mut record = before.clone();
        let sheet = corner.sheet.escape_ascii();
        assert_eq!(open(&corner.sheet, &mut record), corner.numbers, "{sheet}");
        match corner.numbers[0] {
            0 => assert_eq!(listing(&record), corner.listing),
            _ => assert_eq!(record, before),
        }
    }
}

/// The worked examples of form 1.
#[test]
fn the_worked_examples() {
    let record = record_of(&read(SHEET_A).unwrap());
    assert_eq!(record, sheet_a());
    assert_eq!(SHEET_A.len(), 113);
    assert_eq!(filled(&record, 113), ([0, 113], SHEET_A.to_vec()));
    assert_eq!(filled(&record, 112), ([55, 0], vec![FILL; 112]));
    let (mut output, mut answer) = ([FILL; 999], [FILL; 8]);
    assert_eq!(write_entry(&pack(&record), &mut output, &mut answer), 0);
    assert_eq!(answer, [0, 0, 0, 0, 113, 0, 0, 0]);

    assert_eq!(but(|r| r.keys = 0), 54);
    assert_eq!(but(|r| r.keys = 9), 54);
    assert_eq!(but(|r| r.keys = 1), 54);
    assert_eq!(but(|r| r.letter_count = 0), 54);
    assert_eq!(but(|r| r.letter_count = 1_025), 54);
    assert_eq!(but(|r| r.command_count = 0), 54);
    assert_eq!(but(|r| r.message_count = 33), 54);

    assert_eq!(but(|r| r.letters[9] = 65), 54);
    assert_eq!(but(|r| r.letters[10] = 65), 55);
    assert_eq!(but(|r| r.commands[4].v = 5), 54);
    assert_eq!(but(|r| r.commands[5].v = 5), 55);
    assert_eq!(but(|r| r.secrets[0].owner = 65), 54);
    assert_eq!(but(|r| r.messages[0].entries[1].key = 0), 54);

    assert_eq!(but(|r| r.commands[4] = coded(11, 0, 0, 0, 5, 0)), 55);
    assert_eq!(but(|r| r.commands[4] = coded(11, 0, 0, 0, 6, 0)), 54);
    assert_eq!(but(|r| r.form = 2), 54);
}

#[test]
fn the_longest_sheet_is_reached_and_needs_every_byte() {
    assert_eq!(longest_sheet().len(), LONGEST_OF_FORM_1);
    assert_eq!(LONGEST_OF_FORM_1, 6_270);
    let wanted = ([0, 6_270], longest_sheet());
    assert_eq!(filled(&longest(), LONGEST_OF_FORM_1), wanted);
    let refused = ([55, 0], vec![FILL; LONGEST_OF_FORM_1 - 1]);
    assert_eq!(filled(&longest(), LONGEST_OF_FORM_1 - 1), refused);
}

#[test]
fn c_entries_write_two_numbers_low_byte_first() {
    let (mut output, mut answer) = (vec![FILL; 6_271], [FILL; 8]);
    assert_eq!(write_entry(&pack(&longest()), &mut output, &mut answer), 0);
    assert_eq!(answer, [0, 0, 0, 0, 0x7e, 0x18, 0, 0]);
    assert_eq!(output, [longest_sheet(), vec![FILL]].concat());
    assert_eq!(write_entry(&pack(&EMPTY), &mut output, &mut answer), 54);
    assert_eq!(answer, [54, 0, 0, 0, 0, 0, 0, 0]);
    assert_eq!(write_entry(&pack(&longest()), &mut [], &mut answer), 55);
    assert_eq!(answer, [55, 0, 0, 0, 0, 0, 0, 0]);

    let mut record = pack(&smallest());
    assert_eq!(read_entry(SHEET_A, &mut record, &mut answer), 0);
    assert_eq!(answer, [0; 8]);
    assert_eq!(listing(&unpack(&record)), listing(&sheet_a()));
    let before = record.clone();
    assert_eq!(read_entry(b"sheet=1\nkeys=\n", &mut record, &mut answer), 4);
    assert_eq!(answer, [4, 0, 0, 0, 2, 0, 0, 0]);
    assert_eq!(record, before);
    // A line above 255.
    let long = [&b"\n".repeat(300)[..], b"\r"].concat();
    assert_eq!(read_entry(&long, &mut record, &mut answer), 2);
    assert_eq!(answer, [2, 0, 0, 0, 45, 1, 0, 0]);
}

#[test]
fn c_entries_refuse_answer_memory_of_another_length_before_anything_else() {
    for length in [0, 1, 4, 7, 9, 12, 28, 264] {
        for record in [sheet_a(), EMPTY] {
            let (mut output, mut answer) = ([FILL; 200], vec![FILL; length]);
            let bytes = pack(&record);
            assert_eq!(write_entry(&bytes, &mut output, &mut answer), 10);
            assert_eq!((output, answer), ([FILL; 200], vec![FILL; length]));
        }
        for sheet in [SHEET_A, b"", &[b'x'; 20_000]] {
            let (mut record, mut answer) = (pack(&smallest()), vec![FILL; length]);
            assert_eq!(read_entry(sheet, &mut record, &mut answer), 10);
            assert_eq!((record, answer), (pack(&smallest()), vec![FILL; length]));
        }
    }
}

// The bytes of a record.

/// Checks that the record has these bytes at these places, and 0 at all others.
fn lies_at(record: &Record, bytes: &[(usize, &[u8])]) {
    let mut wanted = vec![0; RECORD_BYTES];
    for (place, bytes) in bytes {
        wanted[*place..place + bytes.len()].copy_from_slice(bytes);
    }
    assert_eq!(pack(record), wanted);
    assert_eq!(unpack(&wanted), *record);
}

// The table of places, by hand.

#[test]
fn each_number_of_the_head_and_the_secrets_has_its_place() {
    let mut record = EMPTY;
    record.form = 0x0403_0201;
    record.keys = 0x1413_1211;
    record.secret_count = 0x2423_2221;
    let head = [1, 2, 3, 4, 0x11, 0x12, 0x13, 0x14, 0x21, 0x22, 0x23, 0x24];
    for secret in [0, 15] {
        record.secrets[secret].key = 0x0403_0201;
        record.secrets[secret].dummy = -2;
        record.secrets[secret].owner = 66;
    }
    let secret = [1, 2, 3, 4, 0xfe, 0xff, 0xff, 0xff, 66, 0, 0, 0];
    lies_at(&record, &[(0, &head), (12, &secret), (192, &secret)]);
}

#[test]
fn each_number_of_the_commands_has_its_place() {
    let mut record = EMPTY;
    record.command_count = 256;
    record.commands[0] = coded(1, 2, 3, 4, 5, -6);
    record.commands[255] = coded(1, 2, 3, 4, 5, -6);
    let command = [
        1, 0, 0, 0, 2, 0, 0, 0, 3, 0, 0, 0, 4, 0, 0, 0, 5, 0, 0, 0, 0xfa, 0xff, 0xff, 0xff,
    ];
    let count = [0, 1, 0, 0];
    lies_at(
        &record,
        &[(204, &count), (208, &command), (6_328, &command)],
    );
}

#[test]
fn each_number_of_the_messages_and_the_letters_has_its_place() {
    let mut record = EMPTY;
    record.message_count = 32;
    let mut bytes: Vec<(usize, &[u8])> = vec![(6_352, &[32, 0, 0, 0])];
    for (message, place) in [(0, 6_356), (31, 10_448)] {
        record.messages[message].entry_count = 16;
        bytes.push((place, &[16, 0, 0, 0]));
        for (entry, behind) in [(0, 4), (15, 124)] {
            record.messages[message].entries[entry].key = 7;
            record.messages[message].entries[entry].value = i32::MIN;
            bytes.push((place + behind, &[7, 0, 0, 0, 0, 0, 0, 0x80]));
        }
    }
    record.letter_count = 1_024;
    record.letters[0] = b'L';
    record.letters[1_023] = b'H';
    let letters: [(usize, &[u8]); 3] = [(10_580, &[0, 4, 0, 0]), (10_584, b"L"), (11_607, b"H")];
    bytes.extend(letters);
    lies_at(&record, &bytes);
}

#[test]
fn all_bytes_are_a_record() {
    let mut rng = Rng::new(1);
    for _ in 0..50 {
        let bytes: Vec<u8> = (0..RECORD_BYTES).map(|_| rng.draw() as u8).collect();
        assert_eq!(pack(&unpack(&bytes)), bytes);
    }
}

/// What the counts of sheet A's record cover, by hand; all else keeps its bytes.
#[test]
fn reading_changes_only_what_the_counts_cover() {
    let mut bytes = vec![FILL; RECORD_BYTES];
    assert_eq!(read_entry(SHEET_A, &mut bytes, &mut [0; 8]), 0);
    let covered = [
        // Form, keys, count of secrets, and one of them.
        0..24,
        // Count of commands, and five of them.
        204..208 + 5 * 24,
        // Count of messages, and one with two entries.
        6_352..6_360 + 2 * 8,
        // Count of letters, and ten of them.
        10_580..10_594,
    ];
    let fresh = pack(&sheet_a());
    for place in 0..RECORD_BYTES {
        let wanted = match covered.iter().any(|range| range.contains(&place)) {
            true => fresh[place],
            false => FILL,
        };
        assert_eq!(bytes[place], wanted, "{place}");
    }
}

#[test]
fn a_refused_sheet_leaves_the_record_as_it_was() {
    let mut rng = Rng::new(2);
    let mut refused = 0;
    for place in 0..4_000 {
        let sheet = match place % 2 {
            0 => damaged_sheet(&mut rng),
            _ => noise(&mut rng),
        };
        let before = old(&mut rng);
        let mut record = before.clone();
        let numbers = open(&sheet, &mut record);
        match read(&sheet) {
            Ok(_) => assert_eq!(numbers, [0, 0]),
            Err(refusal) => {
                assert_eq!(numbers, [refusal.number, refusal.line]);
                assert_eq!(record, before);
                refused += 1;
            }
        }
    }
    assert!(refused > 3_000, "{refused}");
}

// What follows from the note.

fn random_record(rng: &mut Rng, kind: usize) -> Record {
    match kind % 5 {
        0 => random_passing(rng),
        1 | 2 => damaged(rng),
        3 => damaged_again(rng),
        _ => arbitrary(rng),
    }
}

/// "Reading the written sheet gives the same record in all that its counts cover". What the other record
/// had elsewhere stays.
#[test]
fn a_written_sheet_is_read_as_the_record() {
    let mut rng = Rng::new(3);
    for _ in 0..2_000 {
        let record = random_passing(&mut rng);
        let (numbers, output) = filled(&record, LONGEST);
        assert_eq!(numbers[0], 0);
        let sheet = &output[..numbers[1] as usize];
        let before = old(&mut rng);
        let mut again = before.clone();
        assert_eq!(open(sheet, &mut again), [0, 0]);
        assert_eq!(again, laid_over(&record, &before));
        assert_eq!(listing(&again), listing(&record));
        // Sheets and records say the same job, and run to the same end.
        let job = job_of(&record);
        assert_eq!(read(sheet), Ok(job.clone()));
        assert_eq!(sheet_of(&job), sheet);
        let (mut sent, mut sent_again) = (vec![0; 2_000], vec![0; 2_000]);
        let numbers = run_sheet(sheet, &mut sent);
        assert_eq!(run(&job, &mut sent_again), numbers);
        assert_eq!(sent, sent_again);
    }
}

/// "and writing an accepted sheet's record gives the same bytes", whatever stood in the record before.
#[test]
fn an_accepted_sheet_is_written_as_it_was() {
    let mut rng = Rng::new(4);
    for place in 0..2_000 {
        let sheet = accepted(&mut rng, Shape::ALL[place % 4]);
        let mut record = old(&mut rng);
        assert_eq!(open(&sheet, &mut record), [0, 0]);
        let written = ([0, sheet.len() as u32], sheet.clone());
        assert_eq!(filled(&record, sheet.len()), written);
        let job = read(&sheet).unwrap();
        assert_eq!(job_of(&record), job);
        assert_eq!(listing(&record), listing(&record_of(&job)));
    }
}

/// By both sentences about reading and writing, a record gets 54 exactly if no accepted sheet's record
/// agrees with it in all that its counts cover. The only sheet whose record could is the text of its
/// numbers, so it passes exactly if that text is read as the same numbers. A count above its places agrees
/// with no sheet's.
fn passes_by_reading(record: &Record) -> bool {
    let places = [
        (record.secret_count, record.secrets.len()),
        (record.command_count, record.commands.len()),
        (record.message_count, record.messages.len()),
        (record.letter_count, record.letters.len()),
    ];
    let entries = record.messages().iter();
    let entries = entries.map(|message| (message.entry_count, message.entries.len()));
    let mut counts = places.into_iter().chain(entries);
    counts.all(|(count, places)| count as usize <= places)
        && read(&text(record)).is_ok_and(|job| listing(&record_of(&job)) == listing(record))
}

#[test]
fn refusal_54_is_what_no_sheet_can_say() {
    for corner in corners() {
        let passes = corner.numbers[0] != 54;
        assert_eq!(passes_by_reading(&corner.record), passes);
    }
    let mut rng = Rng::new(5);
    let mut passed = 0;
    for place in 0..20_000 {
        let record = random_record(&mut rng, place);
        let passes = passes_by_reading(&record);
        assert_eq!(number(&record) != 54, passes, "{}", listing(&record));
        passed += usize::from(passes);
    }
    assert!((4_500..12_000).contains(&passed), "{passed}");
}

/// 54 is the record's alone, 55 comes exactly where the sheet is longer than the memory, a refusal writes
/// nothing, and no sheet is longer than there may be.
#[test]
fn memory_decides_nothing_but_55() {
    let mut rng = Rng::new(6);
    for place in 0..10_000 {
        let record = random_record(&mut rng, place);
        let lent = memory_length(&mut rng, &record);
        let (numbers, output) = filled(&record, lent);
        let (with_plenty, sheet) = filled(&record, LONGEST);
        assert!(matches!(with_plenty[0], 0 | 54));
        let fits = with_plenty[0] == 54 || with_plenty[1] as usize <= lent;
        assert_eq!(numbers, if fits { with_plenty } else { [55, 0] });
        let written = numbers[1] as usize;
        assert_eq!(output[..written], sheet[..written]);
        assert!(output[written..].iter().all(|&byte| byte == FILL));
    }
}

/// Beyond the counts anything may stand: the answer and the sheet are the same over any other record.
#[test]
fn what_the_counts_do_not_cover_decides_nothing() {
    let mut rng = Rng::new(7);
    for place in 0..10_000 {
        let record = random_record(&mut rng, place);
        // Of a count above its places none is covered, and none is looked at.
        let other = laid_over(&record, &old(&mut rng));
        assert_eq!(filled(&other, 400), filled(&record, 400));
        assert_eq!(faults(&other), faults(&record));
    }
}

// The limits, at and one beyond.

fn with(record: &Record, change: impl Fn(&mut Record)) -> u32 {
    let mut record = record.clone();
    change(&mut record);
    number(&record)
}

/// Numbers above a limit: just above, with low bits within it, and the highest.
fn above(limit: u32) -> [u32; 6] {
    [
        limit + 1,
        limit + (1 << 8).max(limit + 1),
        limit + (1 << 16),
        1 << 24,
        1 << 31,
        u32::MAX,
    ]
}

/// There are at most K secrets, and at most K entries in a message, for each K.
#[test]
fn secrets_and_entries_are_at_most_k() {
    let full = longest();
    for keys in 1..=8 {
        let few = |r: &mut Record| {
            r.keys = keys;
            r.secret_count = keys;
            r.messages.iter_mut().for_each(|m| m.entry_count = keys);
        };
        assert_eq!(with(&full, few), 55);
        for count in above(keys) {
            let secrets = |r: &mut Record| {
                few(r);
                r.secret_count = count;
            };
            let entries = |r: &mut Record| {
                few(r);
                r.messages[31].entry_count = count;
            };
            assert_eq!(with(&full, secrets), 54);
            assert_eq!(with(&full, entries), 54);
        }
    }
    for count in 0..=8 {
        assert_eq!(with(&full, |r| r.secret_count = count), 55);
        assert_eq!(with(&full, |r| r.messages[0].entry_count = count), 55);
    }
}

#[test]
fn commands_messages_and_letters_have_their_limits() {
    let full = longest();
    let mut roomy = full.clone();
    roomy.commands.fill(coded(13, 0, 0, 0, 0, 0));
    for count in 1..=64 {
        assert_eq!(with(&roomy, |r| r.command_count = count), 55);
    }
    for count in (65..=257).chain(above(256)).chain([0]) {
        assert_eq!(with(&roomy, |r| r.command_count = count), 54);
    }
    for count in 0..=32 {
        assert_eq!(with(&full, |r| r.message_count = count), 55);
    }
    for count in above(32) {
        assert_eq!(with(&full, |r| r.message_count = count), 54);
    }
    for count in 1..=1_024 {
        assert_eq!(with(&full, |r| r.letter_count = count), 55);
    }
    for count in above(1_024).into_iter().chain([0]) {
        assert_eq!(with(&full, |r| r.letter_count = count), 54);
    }
}

#[test]
fn form_and_keys_have_their_limits() {
    let full = longest();
    for form in above(1).into_iter().chain([0, 2, 3]) {
        assert_eq!(with(&full, |r| r.form = form), 54);
    }
    for keys in above(8).into_iter().chain([0, 16]) {
        assert_eq!(with(&full, |r| r.keys = keys), 54);
    }
}

/// A count above its places gets 54 before any place is looked at, with nothing wrong in any place, and with
/// everything.
#[test]
fn a_count_above_its_places_looks_at_none() {
    let wrong = unpack(&[0xff; RECORD_BYTES]);
    for record in [longest(), laid_over(&smallest(), &wrong)] {
        let counts: [fn(&mut Record) -> &mut u32; 5] = [
            |r| &mut r.secret_count,
            |r| &mut r.command_count,
            |r| &mut r.message_count,
            |r| &mut r.letter_count,
            |r| {
                r.message_count = 1;
                &mut r.messages[0].entry_count
            },
        ];
        for count in counts {
            let mut record = record.clone();
            *count(&mut record) = u32::MAX;
            assert_eq!(number(&record), 54);
            let faults = faults(&record);
            assert_eq!(faults.len(), 1, "{faults:?}");
        }
    }
}

/// Keys below K, in each kind of line, for each K.
#[test]
fn keys_are_below_k() {
    for keys in 1..=8 {
        let mut record = smallest();
        record.keys = keys;
        record.secret_count = 1;
        record.secrets[0].owner = 0;
        record.secrets[0].key = keys - 1;
        record.message_count = 1;
        record.messages[0].entry_count = 1;
        record.messages[0].entries[0].key = keys - 1;
        record.commands[0] = coded(8, 0, 0, keys - 1, 0, 0);
        assert_eq!(number(&record), 55);
        for key in above(keys - 1) {
            assert_eq!(with(&record, |r| r.secrets[0].key = key), 54);
            assert_eq!(with(&record, |r| r.messages[0].entries[0].key = key), 54);
            assert_eq!(with(&record, |r| r.commands[0].k = key), 54);
        }
    }
}

/// "keys don't rise": every two keys of secrets and of a message.
#[test]
fn keys_rise() {
    for first in 0..8 {
        for second in 0..8 {
            let mut record = longest();
            record.secret_count = 2;
            record.secrets[0].key = first;
            record.secrets[1].key = second;
            let wanted = if first < second { 55 } else { 54 };
            assert_eq!(number(&record), wanted);
            let mut record = longest();
            record.messages[17].entry_count = 2;
            record.messages[17].entries[0].key = first;
            record.messages[17].entries[1].key = second;
            assert_eq!(number(&record), wanted);
        }
    }
    // Each place of eight.
    for place in 1..8 {
        assert_eq!(with(&longest(), |r| r.secrets[place].key -= 1), 54);
        let entry = |r: &mut Record| r.messages[31].entries[place].key -= 1;
        assert_eq!(with(&longest(), entry), 54);
    }
}

/// Every word with every operand at its limit and above it; an operand that the word lacks has the limit
/// 0; n has none.
#[test]
fn operands_have_their_limits() {
    for (word, (_, operands)) in (0..).zip(WORDS) {
        for operand in OPERANDS {
            let limit = match operand {
                _ if !operands.contains(&operand) => 0,
                Operand::V | Operand::W => 7,
                Operand::K => 2,
                Operand::T => 4,
                Operand::N => u32::MAX,
            };
            let set = |number: u32| {
                let mut record = sheet_a();
                record.keys = 3;
                record.command_count = 4;
                let mut command = coded(word, 0, 0, 0, 0, 0);
                match operand {
                    Operand::V => command.v = number,
                    Operand::W => command.w = number,
                    Operand::K => command.k = number,
                    Operand::T => command.t = number,
                    Operand::N => command.n = number as i32,
                }
                record.commands[3] = command;
                record
            };
            for within in [0, limit / 2, limit] {
                assert_eq!(number(&set(within)), 55, "{word} {operand:?} {within}");
            }
            if limit < u32::MAX {
                for above in above(limit) {
                    assert_eq!(number(&set(above)), 54, "{word} {operand:?} {above}");
                }
            }
        }
    }
    for word in above(14) {
        assert_eq!(with(&sheet_a(), |r| r.commands[3].word = word), 54);
    }
}

/// "a target exceeds the count of commands": for each count, also where reading would say 4.
#[test]
fn targets_are_at_most_the_count() {
    for count in 1..=64 {
        let mut record = smallest();
        record.command_count = count;
        for place in 0..count as usize {
            record.commands[place] = coded(13, 0, 0, 0, 0, 0);
        }
        for (target, wanted) in [(0, 55), (count, 55), (count + 1, 54), (65, 54)] {
            let jump = coded(11, 0, 0, 0, target, 0);
            let tests = [coded(9, 7, 0, 0, target, 0), coded(10, 7, 0, 0, target, 0)];
            for command in tests.into_iter().chain([jump]) {
                let last = count as usize - 1;
                for place in [0, last] {
                    assert_eq!(with(&record, |r| r.commands[place] = command), wanted);
                }
            }
        }
    }
}

/// "a turn letter is neither `L` nor `H`": every byte at the first place, one between, and the last; and
/// behind the last nothing is tested.
#[test]
fn letters_are_l_and_h() {
    let mut record = every_word();
    record.letter_count = 9;
    record.letters[..9].copy_from_slice(b"LHLLHHLHL");
    for byte in 0..=255 {
        let wanted = if byte == b'L' || byte == b'H' { 55 } else { 54 };
        for place in [0, 4, 8] {
            assert_eq!(with(&record, |r| r.letters[place] = byte), wanted);
        }
        assert_eq!(with(&record, |r| r.letters[9] = byte), 55);
    }
}

#[test]
fn a_secret_of_form_1_has_no_owner() {
    for owner in above(0).into_iter().chain([65, 66]) {
        for place in [0, 7] {
            assert_eq!(with(&longest(), |r| r.secrets[place].owner = owner), 54);
        }
        let beyond = |r: &mut Record| {
            r.secret_count = 7;
            r.secrets[7].owner = owner;
        };
        assert_eq!(with(&longest(), beyond), 55);
    }
}

// The generators.

#[test]
fn passing_records_pass() {
    let mut rng = Rng::new(8);
    let records: Vec<Record> = (0..3_000).map(|_| random_passing(&mut rng)).collect();
    for record in &records {
        assert_eq!(faults(record).len(), 0, "{}", listing(record));
    }
    let often = |limit: &dyn Fn(&Record) -> bool| records.iter().filter(|r| limit(r)).count() > 20;
    assert!(often(&|r| text(r).len() == LONGEST_OF_FORM_1));
    assert!(often(&|r| text(r).len() < 50));
    assert!(often(
        &|r| r.command_count == 64 && r.commands[63] != coded(0, 7, 0, 0, 0, i32::MIN)
    ));
    assert!(often(&|r| r.message_count == 32));
    assert!(often(&|r| r.message_count == 0));
    assert!(often(&|r| r.letter_count == 1_024));
    assert!(often(&|r| r.letter_count == 1));
    assert!(often(&|r| r.secret_count == 0));
    assert!(often(&|r| r.secret_count == r.keys));
    assert!(often(&|r| r.messages().iter().any(|m| m.entry_count == 0)));
    for keys in 1..=8 {
        assert!(often(&|r| r.keys == keys), "{keys} keys");
    }
    for word in 0..15 {
        assert!(often(&|r| r.commands().iter().any(|c| c.word == word)));
    }
    let beyond = |r: &Record| r.commands[r.command_count as usize].word > 14;
    assert!(often(&beyond));
}

/// Every kind of fault stands alone in many damaged records. More secrets than keys are never alone, since
/// so many keys cannot rise below K: only a count above the places is.
#[test]
fn damaged_records_have_every_fault_alone() {
    let mut rng = Rng::new(9);
    let mut alone: BTreeMap<Fault, usize> = BTreeMap::new();
    let mut harmless = 0;
    for _ in 0..10_000 {
        let faults = faults(&damaged(&mut rng));
        harmless += usize::from(faults.is_empty());
        if let (1, Some(&fault)) = (faults.len(), faults.first()) {
            *alone.entry(fault).or_default() += 1;
        }
    }
    println!("{alone:?}, {harmless} harmless");
    assert_eq!(alone.len(), 18);
    assert!(alone.values().all(|&count| count > 50), "{alone:?}");
    assert!(harmless > 500, "{harmless}");
}

#[test]
fn arbitrary_records_pass_at_times() {
    let mut rng = Rng::new(10);
    let records: Vec<Record> = (0..3_000).map(|_| arbitrary(&mut rng)).collect();
    let passing = records.iter().filter(|r| faults(r).is_empty()).count();
    assert!((30..2_000).contains(&passing), "{passing}");
    let again: Vec<Record> = (0..3_000).map(|_| damaged_again(&mut rng)).collect();
    let several = again.iter().filter(|r| faults(r).len() > 1).count();
    assert!(several > 1_000, "{several}");
}

#[test]
fn memory_is_often_just_enough_and_at_times_too_little() {
    let mut rng = Rng::new(11);
    let mut counts = [0; 4];
    for _ in 0..3_000 {
        let record = random_passing(&mut rng);
        let lent = memory_length(&mut rng, &record);
        let length = text(&record).len();
        counts[0] += usize::from(lent == length);
        counts[1] += usize::from(lent + 1 == length);
        counts[2] += usize::from(lent == 0);
        counts[3] += usize::from(lent > length);
    }
    assert!(counts.iter().all(|&count| count > 150), "{counts:?}");
}

/// Sheets of jobs and records of jobs are the same text.
#[test]
fn a_job_s_record_is_written_as_the_job_s_sheet() {
    let mut rng = Rng::new(12);
    for place in 0..500 {
        let job = accepted_job(&mut rng, Shape::ALL[place % 4]);
        assert_eq!(text(&record_of(&job)), sheet_of(&job));
        assert_eq!(job_of(&record_of(&job)), job);
    }
}
