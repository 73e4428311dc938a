//! Note 3 of document 02 against the model: its worked examples, the four commands at the ends of the
//! range, which turns are counted, and what the generators reach. The corners of the note stand with
//! the others, in `document.rs`.

use reference::corners::clamps::{
    BOTH, HIGH_ALONE, LONG_CLAMPS, LOW_ALONE, NEITHER, QUOTIENTS, REACHED, SUMS, UNSEEN,
};
use reference::corners::{Run, EXAMPLES};
use reference::generate::{
    accepted_job, damaged, memory_length, noise, secret_pair, sheet_of, Rng, Shape,
};
use reference::model::{run, run_by, CallRule, Form, Unreported, ANSWER_BYTES, LENT, NUMBERS};
use reference::{c_entry, printed, read, run_sheet, Command, Job, Level};

/// What the memories hold before a run.
const FILL: u8 = 0xaa;

/// The seventh number of an answer.
fn clamped(numbers: [u32; NUMBERS]) -> u32 {
    numbers[NUMBERS - 1]
}

/// The clamped results of the low execution, and what the answer does not say.
fn ran(job: &Job, lent: usize) -> (u32, Unreported) {
    let (numbers, unreported) = run_by(CallRule::SameKind, job, &mut vec![FILL; lent]);
    (clamped(numbers), unreported)
}

fn ran_corner(&(lent, sheet, _): &Run) -> (u32, Unreported) {
    let job = read(sheet.as_bytes()).expect("the sheet is accepted");
    ran(&job, lent)
}

/// The clamped results of the low execution after so many of the letters.
fn clamped_by(job: &Job, letters: usize, lent: usize) -> u32 {
    let mut job = job.clone();
    job.turns.truncate(letters);
    ran(&job, lent).0
}

// The worked examples.

/// 2147483647 + 1 and again + 1 are clamped, and then 2147483647 - 1 is not.
#[test]
fn sums_are_counted_as_they_are_made() {
    let job = read(SUMS.1.as_bytes()).expect("the sheet is accepted");
    let counts: Vec<u32> = (1..=8).map(|count| clamped_by(&job, count, LENT)).collect();
    assert_eq!(counts, [0, 0, 1, 2, 2, 2, 2, 2]);
}

#[test]
fn each_execution_has_a_count_of_its_own() {
    let counts = |corner: &Run| {
        let (low, unreported) = ran_corner(corner);
        (low, unreported.clamped())
    };
    assert_eq!(counts(&UNSEEN), (0, 1));
    assert_eq!(counts(&LOW_ALONE), (1, 0));
    assert_eq!(counts(&HIGH_ALONE), (0, 1));
    assert_eq!(counts(&BOTH), (1, 1));
    assert_eq!(counts(&NEITHER), (0, 0));
}

/// What is only nearly clamped is told apart.
#[test]
fn zero_divisors_and_results_at_an_end_are_looked_at() {
    let nearly = |corner: &Run| {
        let (_, unreported) = ran_corner(corner);
        (unreported.low_at_an_end, unreported.low_zero_divisors)
    };
    assert_eq!(nearly(&SUMS), (0, 0));
    assert_eq!(nearly(&REACHED), (1, 0));
    assert_eq!(nearly(&NEITHER), (1, 0));
    assert_eq!(nearly(&QUOTIENTS), (0, 1));
}

/// "the answers in P1 to P8 and P11 gain a 0".
#[test]
fn the_examples_of_document_01_gain_a_0() {
    for (lent, sheet, text) in EXAMPLES {
        assert_eq!(printed(sheet.as_bytes(), *lent), text.as_bytes(), "{sheet}");
        let end = text.lines().last().expect("an end line");
        let numbers: Vec<&str> = end.strip_prefix("end=").expect("end=").split(' ').collect();
        assert_eq!((numbers.len(), numbers[6]), (7, "0"), "{sheet}");
    }
    let a = "sent=0006 +0000001500 +0000001480\nend=0 0 9 5 34 1 0\n";
    assert_eq!(printed(EXAMPLES[0].1.as_bytes(), LENT), a.as_bytes());
    assert_eq!(printed(b"", LENT), b"end=2 1 0 0 0 0 0\n");
}

// The four commands.

/// Numbers whose sums, differences, products and quotients come to the ends of the range and beyond.
const NEAR_THE_ENDS: [i32; 25] = [
    i32::MIN,
    i32::MIN + 1,
    i32::MIN + 2,
    -1_073_741_825,
    -1_073_741_824,
    -65_536,
    -46_341,
    -46_340,
    -32_768,
    -3,
    -2,
    -1,
    0,
    1,
    2,
    3,
    32_768,
    46_340,
    46_341,
    65_536,
    715_827_883,
    1_073_741_823,
    1_073_741_824,
    i32::MAX - 1,
    i32::MAX,
];

/// Whether a command says that its exact result lay outside the range.
fn says_clamped(v: i32, command: fn(usize, usize) -> Command, w: i32) -> bool {
    let job = Job {
        form: Form::One,
        keys: 1,
        secrets: vec![None],
        commands: vec![Command::Set(0, v), Command::Set(1, w), command(0, 1)],
        messages: Vec::new(),
        turns: vec![Level::Low; 3],
    };
    let numbers = run(&job, &mut []);
    assert_eq!(numbers[..6], [0, 0, 3, 3, 0, 0]);
    assert!(clamped(numbers) <= 1);
    clamped(numbers) == 1
}

/// "Each of `add`, `sub`, `mul` and `div` shall say whether its exact result lay outside the range":
/// exactly where Rust's own arithmetic in 32 bits has no result. "a zero divisor doesn't count".
fn check_commands(v: i32, w: i32) {
    let outside = [
        v.checked_add(w).is_none(),
        v.checked_sub(w).is_none(),
        v.checked_mul(w).is_none(),
        w != 0 && v.checked_div(w).is_none(),
    ];
    let commands = [Command::Add, Command::Sub, Command::Mul, Command::Div];
    for (command, outside) in commands.into_iter().zip(outside) {
        assert_eq!(says_clamped(v, command, w), outside, "{v} {w}");
    }
}

#[test]
fn each_command_says_whether_its_exact_result_lay_outside_the_range() {
    for v in NEAR_THE_ENDS {
        NEAR_THE_ENDS.iter().for_each(|&w| check_commands(v, w));
    }
    let mut rng = Rng::new(31);
    for _ in 0..20_000 {
        check_commands(rng.draw() as i32, rng.draw() as i32);
        let near = rng.draw() as i32 >> 16;
        check_commands(rng.pick(&NEAR_THE_ENDS).wrapping_add(near), near);
    }
}

/// Of all quotients only one lies outside.
#[test]
fn of_div_only_the_lowest_number_by_minus_one_is_clamped() {
    for v in NEAR_THE_ENDS {
        for w in NEAR_THE_ENDS {
            let outside = (v, w) == (i32::MIN, -1);
            assert_eq!(says_clamped(v, Command::Div, w), outside, "{v} {w}");
        }
    }
}

// Which turns are counted.

/// An L turn adds one or nothing, an H turn nothing: neither what the high execution clamps nor a turn
/// that passes idle. A turn that is not taken adds nothing either.
#[test]
fn only_low_turns_add_and_each_at_most_one() {
    let mut rng = Rng::new(32);
    let mut added_by_low = 0;
    for round in 0..600 {
        let job = accepted_job(&mut rng, [Shape::Small, Shape::Medium][round % 2]);
        let lent = memory_length(&mut rng, &sheet_of(&job));
        let mut before = 0;
        for (place, &letter) in job.turns.iter().enumerate() {
            let now = clamped_by(&job, place + 1, lent);
            let added = now.checked_sub(before).expect("nothing is taken away");
            assert!(added <= u32::from(letter == Level::Low));
            added_by_low += added;
            before = now;
        }
    }
    println!("clamped results in 600 sheets: {added_by_low}");
    assert!(added_by_low > 20, "{added_by_low}");
}

/// "the clamped results of the low execution alone": without its H turns a run counts the same, and
/// the same low steps, bytes and messages.
#[test]
fn without_its_high_turns_a_run_counts_the_same() {
    let mut rng = Rng::new(33);
    let mut told = 0;
    for round in 0..4_000 {
        let job = accepted_job(&mut rng, Shape::ALL[round % 4]);
        let lent = memory_length(&mut rng, &sheet_of(&job));
        let numbers = run(&job, &mut vec![FILL; lent]);
        let mut alone = job.clone();
        alone.turns.truncate(numbers[2] as usize);
        alone.turns.retain(|&letter| letter == Level::Low);
        if alone.turns.is_empty() {
            continue;
        }
        assert_eq!(run(&alone, &mut vec![FILL; lent])[3..], numbers[3..]);
        told += usize::from(ran(&job, lent).1.clamped() > 0);
    }
    println!("sheets whose high execution clamps: {told} of 4000");
    assert!(told > 200, "{told}");
}

/// "which is 0 on a refusal of the sheet".
#[test]
fn a_refusal_has_a_line_and_nothing_else() {
    let mut rng = Rng::new(34);
    for round in 0..4_000 {
        let sheet = match round % 4 {
            0 => noise(&mut rng),
            _ => damaged(&mut rng),
        };
        if let Err(refusal) = read(&sheet) {
            let wanted = [refusal.number, refusal.line, 0, 0, 0, 0, 0];
            assert_eq!(run_sheet(&sheet, &mut [FILL; 100]), wanted);
        }
    }
}

/// "The secrecy rule covers the new number": the high executions of two sheets that differ in secret
/// entries only clamp differently often, and the answers are equal.
#[test]
fn the_secrecy_rule_covers_the_new_number() {
    let mut rng = Rng::new(35);
    let mut different = 0;
    for _ in 0..4_000 {
        let (first, second) = secret_pair(&mut rng);
        let lent = memory_length(&mut rng, &first);
        let counts = |sheet: &[u8]| ran(&read(sheet).expect("it is accepted"), lent);
        let ((low, high), (other_low, other_high)) = (counts(&first), counts(&second));
        assert_eq!(low, other_low);
        different += usize::from(high.clamped() != other_high.clamped());
    }
    println!("pairs whose high executions clamp differently often: {different} of 4000");
    assert!(different > 80, "{different}");
}

// The answer memory.

/// "The C answer memory becomes 28 bytes, and 10 follows that." The count here is 1007.
#[test]
fn the_seventh_number_stands_behind_the_six() {
    let (pieces, text) = LONG_CLAMPS[3];
    assert_eq!(text, "end=31 0 1024 1024 0 0 1007\n");
    let pieces = pieces.iter().map(|(text, count)| text.repeat(*count));
    let sheet: Vec<u8> = pieces.flatten().collect();
    let mut answer = [FILL; ANSWER_BYTES];
    assert_eq!(c_entry(&sheet, &mut [], &mut answer), 31);
    assert_eq!(answer[24..], [239, 3, 0, 0]);

    let mut six = [FILL; 24];
    assert_eq!(c_entry(&sheet, &mut [], &mut six), 10);
    assert_eq!(six, [FILL; 24]);
}

// The generators.

/// Of 2,000 sheets of a shape: those whose high execution clamps and whose low one does not, the
/// reverse, those whose low one clamps, divides by zero, and just reaches an end.
#[test]
fn clamped_results_occur_in_every_shape() {
    let mut rng = Rng::new(36);
    for (shape, least) in [
        (Shape::Small, [5, 15, 25, 10, 30]),
        (Shape::Medium, [15, 50, 90, 40, 90]),
        (Shape::Large, [30, 90, 200, 100, 200]),
        (Shape::LongRun, [10, 18, 150, 300, 55]),
    ] {
        let mut counts = [0; 5];
        for _ in 0..2_000 {
            let job = accepted_job(&mut rng, shape);
            let lent = memory_length(&mut rng, &sheet_of(&job));
            let (low, unreported) = ran(&job, lent);
            let high = unreported.clamped();
            let occurs = [
                low == 0 && high > 0,
                low > 0 && high == 0,
                low > 0,
                unreported.low_zero_divisors > 0,
                unreported.low_at_an_end > 0,
            ];
            for (count, occurs) in counts.iter_mut().zip(occurs) {
                *count += usize::from(occurs);
            }
        }
        println!("{shape:?}: {counts:?} of 2000");
        let enough = counts
            .iter()
            .zip(least)
            .all(|(&count, least)| count >= least);
        assert!(enough, "{shape:?}: {counts:?}");
    }
}
