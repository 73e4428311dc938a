//! Document 01 against the model: its corners, its memories, and what the generators reach.

use reference::corners::calls::{CALLS, LONG_CALLS};
use reference::corners::clamps::{CLAMPS, ENDS, LONG_CLAMPS, REFUSED_CLAMPS};
use reference::corners::{
    corners, honest_corners, owner_corners, Corner, ARITHMETIC, EXAMPLES, LONG, REFUSED,
    REFUSED_BODIES, RUNS,
};
use reference::generate::{
    accepted, accepted_job, damaged, memory_length, noise, secret_pair, sheet_of, Rng, Shape,
};
use reference::model::{class, Class, Form, Owner, Secret, ANSWER_BYTES, HIGH, LENT, NUMBERS};
use reference::{
    c_entry, in_secret_column, printed, read, run_sheet, Command, Job, Level, Refusal,
};
use std::fs;
use std::path::Path;

/// An open key, a secret one, and one line sent.
const SHEET: &[u8] = b"sheet=1\nkeys=2\nsecret=1:-4\ndo=receive\ndo=set 7 12\ndo=put 0 7\n\
do=send\nmsg=0:5,1:-6\nturns=LHLLL\n";
const SENT: &[u8] = b"sent=0004 +0000000012 -0000000006\n";

/// What the output memory holds before a run.
const FILL: u8 = 0xaa;

fn filled_run(sheet: &[u8], lent: usize) -> ([u32; NUMBERS], Vec<u8>) {
    let mut output = vec![FILL; lent];
    let numbers = run_sheet(sheet, &mut output);
    (numbers, output)
}

fn check(corner: &Corner) {
    let sheet = String::from_utf8_lossy(&corner.sheet);
    let found = printed(&corner.sheet, corner.lent);
    let (found, wanted) = (
        String::from_utf8_lossy(&found),
        String::from_utf8_lossy(&corner.printed),
    );
    assert_eq!(found, wanted, "{} bytes lent to {sheet}", corner.lent);
}

// Reading, and the corners byte for byte.

#[test]
fn a_sheet_is_read_as_written() {
    let (dummy, owner) = (-4, Owner::H);
    let job = Job {
        form: Form::One,
        keys: 2,
        secrets: vec![None, Some(Secret { dummy, owner })],
        commands: vec![
            Command::Receive,
            Command::Set(7, 12),
            Command::Put(0, 7),
            Command::Send,
        ],
        messages: vec![vec![Some(5), Some(-6)]],
        turns: [Level::Low, HIGH, Level::Low, Level::Low, Level::Low].to_vec(),
    };
    assert_eq!(read(SHEET), Ok(job));
}

/// P1 to P11 and "Others" stand in the tables of `corners`, with everything beside them.
#[test]
fn every_corner_prints_what_the_document_says() {
    let corners = corners();
    let runs = EXAMPLES.len() + RUNS.len() + CALLS.len() + CLAMPS.len();
    let arithmetic = ARITHMETIC.len() + ENDS.len();
    let refused = REFUSED.len() + REFUSED_CLAMPS.len() + REFUSED_BODIES.len();
    let long = LONG.len() + LONG_CALLS.len() + LONG_CLAMPS.len();
    let honest = honest_corners().len();
    let owners = owner_corners().len();
    assert_eq!(
        corners.len(),
        runs + arithmetic + refused + long + honest + owners
    );
    corners.iter().for_each(check);
}

/// The sheets of `examples/`, and what `runsheet` is to print for each.
#[test]
fn the_examples_print_what_stands_beside_them() {
    let folder = Path::new(env!("CARGO_MANIFEST_DIR")).join("../../examples");
    let texts = fs::read_dir(folder.join("runsheet")).expect("the folder of the texts is there");
    let mut count = 0;
    for text in texts {
        let text = text.expect("the folder can be read").path();
        let name = text.file_name().expect("a text has a name");
        let sheet = fs::read(folder.join(name)).expect("the sheet can be read");
        let wanted = fs::read(&text).expect("the text can be read");
        assert_eq!(printed(&sheet, LENT), wanted, "{name:?}");
        count += 1;
    }
    assert!(count > 80, "{count}");
}

// The lent memories.

#[test]
fn output_is_touched_by_sent_lines_only() {
    let (numbers, output) = filled_run(SHEET, 100);
    assert_eq!(numbers, [0, 0, 5, 4, 34, 1, 0]);
    assert_eq!(&output[..34], SENT);
    assert_eq!(output[34..], [FILL; 66]);
    let (numbers, output) = filled_run(SHEET, 33);
    assert_eq!(numbers, [32, 0, 4, 3, 0, 1, 0]);
    assert_eq!(output, [FILL; 33]);
    let (numbers, output) = filled_run(b"sheet=1\nkeys=0\n", 40);
    assert_eq!(numbers, [4, 2, 0, 0, 0, 0, 0]);
    assert_eq!(output, [FILL; 40]);
}

/// 309 lines of 106 bytes fit in 32,768 bytes; the 310th does not.
#[test]
fn a_run_can_fill_the_bytes_of_runsheet() {
    let mut sheet = b"sheet=1\nkeys=8\ndo=send\ndo=jump 0\nturns=".to_vec();
    sheet.extend([b'L'; 1024]);
    sheet.push(b'\n');
    let (numbers, output) = filled_run(&sheet, LENT);
    assert_eq!(numbers, [32, 0, 618, 618, 32_754, 0, 0]);
    assert!(output[..32_754].ends_with(b" ...........\n"));
    assert_eq!(output[32_754..], [FILL; 14]);
    let (numbers, _) = filled_run(&sheet, 512 * 106);
    assert_eq!(numbers, [31, 0, 1024, 1024, 54_272, 0, 0]);
}

#[test]
fn c_entry_writes_seven_numbers_low_byte_first() {
    let mut output = [FILL; 34];
    let mut answer = [FILL; ANSWER_BYTES];
    assert_eq!(c_entry(SHEET, &mut output, &mut answer), 0);
    let numbers: [u8; 28] = [
        0, 0, 0, 0, 0, 0, 0, 0, 5, 0, 0, 0, 4, 0, 0, 0, 34, 0, 0, 0, 1, 0, 0, 0, 0, 0, 0, 0,
    ];
    assert_eq!(answer, numbers);
    assert_eq!(output, SENT);

    let long = [b'\n'; 300];
    let sheet = [&long[..], b"\x00"].concat();
    assert_eq!(c_entry(&sheet, &mut output, &mut answer), 2);
    assert_eq!(answer[..8], [2, 0, 0, 0, 45, 1, 0, 0]);
    assert_eq!(answer[8..], [0; 20]);
    assert_eq!(output, SENT);
}

#[test]
fn c_entry_refuses_answer_memory_of_another_length_before_anything_else() {
    for length in [0, 1, 24, 27, 29, 48] {
        for sheet in [SHEET, b"", &[0; 16_385]] {
            let mut output = [FILL; 34];
            let mut answer = vec![FILL; length];
            assert_eq!(c_entry(sheet, &mut output, &mut answer), 10);
            assert_eq!(output, [FILL; 34]);
            assert!(answer.iter().all(|&byte| byte == FILL));
        }
    }
}

// Two definitions by themselves.

#[test]
fn every_byte_is_in_its_class() {
    let count = |wanted: Class| (0..=255).filter(|&byte| class(byte) == wanted).count();
    assert_eq!(count(Class::Digit), 10);
    assert_eq!(count(Class::SmallLetter), 26);
    assert_eq!(count(Class::CapitalLetter), 26);
    assert_eq!(count(Class::Other), 95 - 10 - 26 - 26 - 5);
    assert_eq!(count(Class::Forbidden), 256 - 95 - 1);
    let single = [
        (45, Class::Minus),
        (44, Class::Comma),
        (58, Class::Colon),
        (61, Class::Equals),
        (32, Class::Space),
        (10, Class::LineFeed),
    ];
    for (byte, wanted) in single {
        assert_eq!((class(byte), count(wanted)), (wanted, 1));
    }
    for byte in 0..=255 {
        let forbidden = byte != 10 && !(32..=126).contains(&byte);
        assert_eq!(class(byte) == Class::Forbidden, forbidden);
    }
    assert_eq!(class(48), Class::Digit);
    assert_eq!(class(97), Class::SmallLetter);
    assert_eq!(class(65), Class::CapitalLetter);
}

#[test]
fn secret_columns_are_the_eleven_characters_of_secret_keys() {
    let job = read(SHEET).expect("the sheet is accepted");
    let columns = |written: usize| -> Vec<usize> {
        (0..100)
            .filter(|&place| in_secret_column(&job, place, written))
            .collect()
    };
    assert_eq!(columns(0), []);
    assert_eq!(columns(34), (22..=32).collect::<Vec<_>>());
    assert_eq!(columns(68), (22..=32).chain(56..=66).collect::<Vec<_>>());
}

// The generators.

#[test]
fn the_random_numbers_are_those_of_splitmix64() {
    let mut rng = Rng::new(0);
    assert_eq!(rng.draw(), 0xe220_a839_7b1d_cdaf);
    assert_eq!(rng.draw(), 0x6e78_9e6a_a1b9_65f4);
}

#[test]
fn accepted_sheets_are_accepted_and_read_back() {
    let mut rng = Rng::new(1);
    for shape in Shape::ALL {
        for _ in 0..500 {
            let job = accepted_job(&mut rng, shape);
            assert_eq!(read(&sheet_of(&job)), Ok(job));
        }
    }
}

#[test]
fn long_runs_are_long() {
    let mut rng = Rng::new(2);
    for _ in 0..200 {
        let sheet = accepted(&mut rng, Shape::LongRun);
        let (numbers, _) = filled_run(&sheet, LENT);
        assert_eq!((numbers[0], numbers[2]), (31, 1024));
    }
}

#[test]
fn large_sheets_reach_the_limits() {
    let mut rng = Rng::new(3);
    let jobs: Vec<Job> = (0..200)
        .map(|_| accepted_job(&mut rng, Shape::Large))
        .collect();
    let often = |limit: &dyn Fn(&&Job) -> bool| jobs.iter().filter(limit).count() > 50;
    assert!(often(&|job| job.keys == 8));
    assert!(often(&|job| job.commands.len() == 64));
    assert!(often(&|job| job.messages.len() == 32));
    assert!(often(&|job| job.turns.len() == 1024));
}

/// How often each first number occurs in 10,000 sheets, with the bytes lent chosen for each.
fn counts(seed: u64, mut sheet: impl FnMut(&mut Rng) -> Vec<u8>) -> [usize; 33] {
    let mut rng = Rng::new(seed);
    let mut counts = [0; 33];
    for _ in 0..10_000 {
        let sheet = sheet(&mut rng);
        let lent = memory_length(&mut rng, &sheet);
        let (numbers, _) = filled_run(&sheet, lent);
        counts[numbers[0] as usize] += 1;
    }
    counts
}

#[test]
fn damaged_sheets_reach_every_refusal() {
    let counts = counts(4, damaged);
    println!("damaged: {counts:?}");
    for number in 1..=9 {
        assert!(counts[number] >= 250, "refusal {number}: {counts:?}");
    }
}

#[test]
fn accepted_sheets_reach_every_ending() {
    for shape in Shape::ALL {
        let counts = counts(5, |rng| accepted(rng, shape));
        println!("{shape:?}: {counts:?}");
        assert_eq!(counts[0] + counts[31] + counts[32], 10_000);
        assert!(counts[31] >= 1_000 && counts[32] >= 1_000, "{counts:?}");
        assert!(shape == Shape::LongRun || counts[0] >= 1_000, "{counts:?}");
    }
}

#[test]
fn noise_gets_past_the_first_lines() {
    let counts = counts(6, noise);
    println!("noise: {counts:?}");
    for number in [0, 2, 3, 4, 5, 6, 7, 9] {
        assert!(counts[number] >= 20, "{number}: {counts:?}");
    }
}

/// The counts of every answer, checked against the sheet and the output itself.
#[test]
fn counts_agree_with_turns_and_output() {
    let mut rng = Rng::new(7);
    for round in 0..4_000 {
        let sheet = accepted(&mut rng, Shape::ALL[round % 4]);
        let lent = memory_length(&mut rng, &sheet);
        let job = read(&sheet).expect("generated sheets are accepted");
        let ([ending, line, positions, low_steps, written, taken, clamped], output) =
            filled_run(&sheet, lent);
        let used = &job.turns[..positions as usize];
        let low = used.iter().filter(|&&letter| letter == Level::Low).count();
        assert_eq!((line, low_steps as usize), (0, low));
        assert!(clamped <= low_steps);
        assert!(taken as usize <= job.messages.len());
        assert!(ending != 31 || used.len() == job.turns.len());
        let written = written as usize;
        assert!(ending != 32 || lent - written < job.line_length());
        assert_eq!(written % job.line_length(), 0);
        assert!(output[written..].iter().all(|&byte| byte == FILL));
        for line in output[..written].chunks(job.line_length()) {
            assert!(line.starts_with(b"sent=") && line.ends_with(b"\n"));
        }
    }
}

/// The claim about two whole runs: what is reported, all seven numbers, and what is sent, the secret
/// columns aside, does not depend on the secrets.
#[test]
fn secret_pairs_answer_alike() {
    let mut rng = Rng::new(8);
    let mut different_columns = 0;
    for _ in 0..4_000 {
        let (first, second) = secret_pair(&mut rng);
        assert_ne!(first, second);
        let job = read(&first).expect("the first sheet is accepted");
        check_pair(&job, &read(&second).expect("the second sheet is accepted"));
        let lent = memory_length(&mut rng, &first);
        let (numbers, output) = filled_run(&first, lent);
        let (other_numbers, other_output) = filled_run(&second, lent);
        assert_eq!(numbers, other_numbers);
        for place in 0..lent {
            let secret = in_secret_column(&job, place, numbers[4] as usize);
            assert!(secret || output[place] == other_output[place]);
        }
        different_columns += usize::from(output != other_output);
    }
    // The secret columns do show the secrets, in many pairs.
    println!("pairs whose outputs differ: {different_columns} of 4000");
    assert!(different_columns > 1_000, "{different_columns}");
}

/// Two jobs that differ in secret entries of their messages only.
fn check_pair(first: &Job, second: &Job) {
    assert_eq!(first.secrets, second.secrets);
    assert_eq!(first.commands, second.commands);
    assert_eq!(first.turns, second.turns);
    assert_eq!(first.messages.len(), second.messages.len());
    for (line, other) in first.messages.iter().zip(&second.messages) {
        for key in 0..first.keys {
            assert!(first.secrets[key].is_some() || line[key] == other[key]);
        }
    }
}

#[test]
fn random_bytes_never_stop_the_model() {
    let mut rng = Rng::new(9);
    for _ in 0..10_000 {
        let sheet = noise(&mut rng);
        if let Err(Refusal { number, line }) = read(&sheet) {
            assert!((1..=9).contains(&number));
            assert_eq!(line == 0, number == 1);
            let feeds = sheet.iter().filter(|&&byte| byte == b'\n').count();
            assert!(line as usize <= feeds + 1);
        }
    }
}
