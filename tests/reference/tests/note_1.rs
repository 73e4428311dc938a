//! Note 1 of document 02 against the model: its corners, its memories, the lines in a sheet, and
//! what the generators reach.

mod examples;

use examples::examples;
use reference::corners::log::{
    corners, BAD_ROWS, EXAMPLES, LONG, LONG_REFUSED, REFUSED, REFUSED_EXAMPLES, TOO_SHORT, WRITTEN,
};
use reference::generate::log::{
    accepted, accepted_log, damaged, export_of, memory_length, noise, Log,
};
use reference::generate::Rng;
use reference::log::{answer_line, c_entry, csv, lines, read, Message, Refusal, LENT};

/// Two keys, a message with both and one with the second.
const EXPORT: &[u8] = b"2,5\r\n-40,7\r\n,300\r\n";
const LINES: &[u8] = b"msg=2:-40,5:7\nmsg=5:300\n";

/// What the output memory holds before a call.
const FILL: u8 = 0xaa;

fn filled_csv(export: &[u8], lent: usize) -> ([u32; 3], Vec<u8>) {
    let mut output = vec![FILL; lent];
    let numbers = csv(export, &mut output);
    (numbers, output)
}

/// The start of an export, for the message of a test that fails.
fn start(export: &[u8]) -> String {
    export[..export.len().min(200)].escape_ascii().to_string()
}

// The corners, and the lent memories.

/// The worked examples of the note stand in these tables, with everything beside them.
#[test]
fn every_corner_gives_what_the_note_says() {
    let corners = corners();
    let count = EXAMPLES.len() + WRITTEN.len() + TOO_SHORT.len() + LONG.len();
    let refused = REFUSED_EXAMPLES.len() + REFUSED.len() + BAD_ROWS.len() + LONG_REFUSED.len();
    assert_eq!(corners.len(), count + refused);
    for corner in corners {
        let (numbers, output) = filled_csv(&corner.export, corner.lent);
        let (lines, rest) = output.split_at(corner.lines.len());
        let (found, wanted) = (lines.escape_ascii(), corner.lines.escape_ascii());
        assert_eq!(numbers, corner.numbers, "{}", start(&corner.export));
        assert_eq!(found.to_string(), wanted.to_string());
        assert!(rest.iter().all(|&byte| byte == FILL));
    }
}

#[test]
fn the_fullest_export_needs_all_that_beltlog_lends() {
    let fullest = corners()
        .into_iter()
        .find(|corner| corner.lines.len() == LENT);
    let export = fullest.expect("the fullest export is a corner").export;
    assert_eq!((export.len(), LENT), (3_121, 3_712));
    assert_eq!(filled_csv(&export, LENT).0, [0, 0, 3_712]);
    assert_eq!(
        filled_csv(&export, LENT - 1),
        ([43, 0, 0], vec![FILL; LENT - 1])
    );
}

#[test]
fn c_entry_writes_three_numbers_low_byte_first() {
    let (mut output, mut answer) = ([FILL; 24], [FILL; 12]);
    assert_eq!(c_entry(EXPORT, &mut output, &mut answer), 0);
    assert_eq!(answer, [0, 0, 0, 0, 0, 0, 0, 0, 24, 0, 0, 0]);
    assert_eq!(output, LINES);
    assert_eq!(c_entry(b"2,5\r\n,\r\n\"\r\n", &mut output, &mut answer), 41);
    assert_eq!(answer, [41, 0, 0, 0, 3, 0, 0, 0, 0, 0, 0, 0]);
    assert_eq!(output, LINES);
    let long = [b"0\r\n".as_slice(), &b"2147483647\r\n".repeat(32)].concat();
    let mut output = [FILL; 544];
    assert_eq!(c_entry(&long, &mut output, &mut answer), 0);
    assert_eq!(answer, [0, 0, 0, 0, 0, 0, 0, 0, 32, 2, 0, 0]);
}

#[test]
fn c_entry_refuses_answer_memory_of_another_length_before_anything_else() {
    for length in [0, 1, 11, 13, 24, 28] {
        for export in [EXPORT, b"", &[b'"'; 4_000]] {
            let mut output = [FILL; 24];
            let mut answer = vec![FILL; length];
            assert_eq!(c_entry(export, &mut output, &mut answer), 10);
            assert_eq!(output, [FILL; 24]);
            assert!(answer.iter().all(|&byte| byte == FILL));
        }
    }
}

/// The exports of `examples/`, and what `beltlog` is to print for each.
#[test]
fn the_examples_give_what_stands_beside_them() {
    let examples = examples("csv", "beltlog");
    assert!(examples.len() > 30, "{}", examples.len());
    for example in examples {
        let name = example.name;
        let (numbers, output) = filled_csv(&example.text, LENT);
        assert_eq!(output[..numbers[2] as usize], example.lines, "{name}");
        assert_eq!(answer_line(numbers), example.answer, "{name}");
    }
}

// What follows from the note.

/// The entries of a log's message, without the empty fields.
fn entries(log: &Log, message: &[Option<i32>]) -> Message {
    let places = log.keys.iter().zip(message);
    places
        .filter_map(|(&key, entry)| Some((key, (*entry)?)))
        .collect()
}

/// "We want `msg` lines out": put into a sheet with eight keys, they are its messages.
#[test]
fn lines_are_the_messages_of_a_sheet() {
    let mut rng = Rng::new(1);
    for _ in 0..2_000 {
        let log = accepted_log(&mut rng);
        let messages = read(&export_of(&log)).expect("generated exports are accepted");
        let wanted: Vec<Message> = log.messages.iter().map(|m| entries(&log, m)).collect();
        assert_eq!(messages, wanted);
        let (head, turns) = (b"sheet=1\nkeys=8\ndo=stop\n", b"turns=L\n");
        let sheet = [head.as_slice(), &lines(&messages), turns].concat();
        let job = reference::read(&sheet).expect("the sheet is accepted");
        let all_keys = |line: &Vec<Option<i32>>| {
            let present = |(key, entry): (usize, &Option<i32>)| Some((key, (*entry)?));
            line.iter().enumerate().filter_map(present).collect()
        };
        let found: Vec<Message> = job.messages.iter().map(all_keys).collect();
        assert_eq!(found, wanted);
    }
}

/// 8, 41 and 42 are the export's alone, 43 comes exactly where the text is longer than the memory,
/// and a refusal writes nothing.
#[test]
fn memory_decides_nothing_but_43() {
    let mut rng = Rng::new(2);
    for place in 0..9_000 {
        let export = random_export(&mut rng, place % 3);
        let lent = memory_length(&mut rng, &export);
        let (numbers, output) = filled_csv(&export, lent);
        let (with_plenty, text) = filled_csv(&export, LENT);
        let needed = with_plenty[2] as usize;
        let fits = with_plenty[0] != 0 || needed <= lent;
        assert_eq!(numbers, if fits { with_plenty } else { [43, 0, 0] });
        let written = numbers[2] as usize;
        assert_eq!(output[..written], text[..written]);
        assert!(output[written..].iter().all(|&byte| byte == FILL));
    }
}

/// "Rows go from the top": the rows above a refused one are accepted by themselves, and nothing
/// behind its end matters.
#[test]
fn the_first_row_at_fault_decides_alone() {
    let mut rng = Rng::new(3);
    let mut tried = 0;
    for _ in 0..9_000 {
        let export = damaged(&mut rng);
        let Err(Refusal { number, row }) = read(&export) else {
            continue;
        };
        let above = ends_of_rows(&export, row as usize - 1);
        assert!(above == 0 || read(&export[..above]).is_ok());
        if number != 8 {
            let end = ends_of_rows(&export, row as usize);
            let other = [&export[..end], &noise(&mut rng)].concat();
            let same_row = end > above;
            assert!(!same_row || read(&other) == Err(Refusal { number, row }));
            tried += usize::from(same_row && row > 1);
        }
    }
    assert!(tried > 1_000, "{tried}");
}

/// The place behind the end of so many rows; 0 if there are not so many.
fn ends_of_rows(export: &[u8], count: usize) -> usize {
    let is_end = |place: &usize| export[..*place].ends_with(b"\r\n");
    let mut ends = (1..=export.len()).filter(is_end);
    count
        .checked_sub(1)
        .and_then(|last| ends.nth(last))
        .unwrap_or(0)
}

// The generators.

fn random_export(rng: &mut Rng, kind: usize) -> Vec<u8> {
    match kind {
        0 => accepted(rng),
        1 => damaged(rng),
        _ => noise(rng),
    }
}

/// How often each number occurs in 10,000 exports, with the bytes lent chosen for each.
fn counts(seed: u64, kind: usize) -> [usize; 44] {
    let mut rng = Rng::new(seed);
    let mut counts = [0; 44];
    for _ in 0..10_000 {
        let export = random_export(&mut rng, kind);
        let lent = memory_length(&mut rng, &export);
        counts[filled_csv(&export, lent).0[0] as usize] += 1;
    }
    counts
}

#[test]
fn accepted_exports_are_accepted() {
    let counts = counts(4, 0);
    println!("accepted: {} {}", counts[0], counts[43]);
    assert_eq!(counts[0] + counts[43], 10_000);
    assert!(counts[43] >= 1_000);
}

#[test]
fn damaged_exports_reach_every_refusal() {
    let counts = counts(5, 1);
    println!("damaged: {counts:?}");
    for (number, least) in [(0, 500), (8, 500), (41, 2_000), (42, 1_000)] {
        assert!(counts[number] >= least, "{number}: {counts:?}");
    }
}

#[test]
fn noise_gets_past_the_first_row() {
    let counts = counts(6, 2);
    println!("noise: {counts:?}");
    for number in [0, 41, 42, 43] {
        assert!(counts[number] >= 100, "{number}: {counts:?}");
    }
}

#[test]
fn accepted_logs_reach_the_limits() {
    let mut rng = Rng::new(7);
    let logs: Vec<Log> = (0..2_000).map(|_| accepted_log(&mut rng)).collect();
    let often = |limit: &dyn Fn(&Log) -> bool| logs.iter().filter(|log| limit(log)).count() > 5;
    for count in 1..=8 {
        assert!(often(&|log| log.keys.len() == count), "{count} keys");
    }
    for count in 0..=32 {
        assert!(
            often(&|log| log.messages.len() == count),
            "{count} messages"
        );
    }
    assert!(often(
        &|log| lines(&read(&export_of(log)).unwrap()).len() == LENT
    ));
    for value in [None, Some(i32::MIN), Some(-1), Some(0), Some(i32::MAX)] {
        assert!(often(&|log| log
            .messages
            .iter()
            .flatten()
            .any(|&v| v == value)));
    }
}

/// Each cause of 41, in the row that is refused, and in rows that only it spoils.
#[test]
fn damaged_exports_have_every_cause_of_41() {
    let mut rng = Rng::new(8);
    let mut causes = [0; 5];
    for _ in 0..9_000 {
        let export = damaged(&mut rng);
        let Err(Refusal { number: 41, row }) = read(&export) else {
            continue;
        };
        let end = ends_of_rows(&export, row as usize);
        let above = ends_of_rows(&export, row as usize - 1);
        let ended = end > above;
        let text = if ended {
            &export[above..end - 2]
        } else {
            &export[above..]
        };
        let has = |byte: u8| text.contains(&byte);
        let strays = [has(b'"'), has(b'\r'), has(b'\n'), !ended];
        let count = strays.iter().filter(|&&stray| stray).count();
        for (place, stray) in strays.into_iter().enumerate() {
            causes[place] += usize::from(stray && count == 1);
        }
        causes[4] += usize::from(count == 0);
    }
    println!("quote mark, carriage return, line feed, unfinished, fields: {causes:?}");
    assert!(causes.iter().all(|&count| count > 100), "{causes:?}");
}
