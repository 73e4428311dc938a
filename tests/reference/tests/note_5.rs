//! Note 5 of document 02 against the model: its corners, its memories, the lines in a sheet, the
//! dialect's own meaning against the plain run of the translation, and what the generators reach.
//! Wrong readings of the note are in `note_5_readings.rs`.

mod examples;

use examples::{examples, folder};
use reference::block_run::{difference, tree, Body, Part};
use reference::blocks::{answer_line, blocks, c_entry, do_lines, translated, LENT, MOST_DEPTH};
use reference::corners::blocks::{
    corners, BAD_NUMBERS, EXAMPLES, FAULTS, FAULTS_BEHIND_ELSE, FAULTS_OUTSIDE, KEYS_BEYOND,
    KEY_BEYOND_KEYS, LONG, LONG_REFUSED, NO_COMMANDS, REFUSED, REFUSED_EXAMPLES, TOO_SHORT,
    WRITTEN,
};
use reference::generate::block_damage::{boundary, damaged, noise};
use reference::generate::blocks::{accepted, memory_length, messages, Program};
use reference::generate::Rng;
use reference::model::{Form, MOST_COMMANDS};
use reference::plain::{Plain, Step};
use reference::{printed, read, Command, Job, Level, Refusal};
use std::fs;

/// A loop over messages with a choice in it.
const TEXT: &[u8] =
    b"receive\nhas 0 0\nwhile 0\nread 1 1\nif 1\nsend\nelse\ndrop 0\nend\nreceive\n\
    has 0 0\nend\n";
const LINES: &[u8] =
    b"do=receive\ndo=has 0 0\ndo=ifzero 0 11\ndo=read 1 1\ndo=ifzero 1 7\ndo=send\n\
    do=jump 8\ndo=drop 0\ndo=receive\ndo=has 0 0\ndo=jump 2\n";

/// What the output memory holds before a call.
const FILL: u8 = 0xaa;

fn filled(text: &[u8], keys: u32, lent: usize) -> ([u32; 3], Vec<u8>) {
    let mut output = vec![FILL; lent];
    let numbers = blocks(text, keys, &mut output);
    (numbers, output)
}

/// The start of a text, for the message of a test that fails.
fn start(text: &[u8]) -> String {
    text[..text.len().min(300)].escape_ascii().to_string()
}

// The corners, and the lent memories.

/// The worked examples of the note stand in these tables, with everything beside them.
#[test]
fn every_corner_gives_what_the_note_says() {
    let corners = corners();
    let written = EXAMPLES.len() + WRITTEN.len() + LONG.len();
    let lines = NO_COMMANDS.len() + BAD_NUMBERS.len() + KEYS_BEYOND.len() + KEY_BEYOND_KEYS.len();
    let texts = TOO_SHORT.len() + REFUSED_EXAMPLES.len() + REFUSED.len() + LONG_REFUSED.len();
    let pairs = [FAULTS, FAULTS_OUTSIDE, FAULTS_BEHIND_ELSE].map(|f| f.len() * (f.len() + 7));
    let pairs: usize = pairs.iter().sum();
    assert_eq!(corners.len(), written + lines + texts + pairs);
    for corner in corners {
        let (numbers, output) = filled(&corner.text, corner.keys, corner.lent);
        assert_eq!(numbers, corner.numbers, "{}", start(&corner.text));
        let (lines, rest) = output.split_at(corner.lines.len());
        let (found, wanted) = (lines.escape_ascii(), corner.lines.escape_ascii());
        assert_eq!(found.to_string(), wanted.to_string());
        assert!(rest.iter().all(|&byte| byte == FILL));
    }
}

#[test]
fn the_corners_show_every_answer() {
    let corners = corners();
    let count = |number| corners.iter().filter(|c| c.numbers[0] == number).count();
    for number in [0, 2, 4, 6, 51, 52, 53] {
        assert!(count(number) >= 10, "{number}");
    }
}

#[test]
fn the_longest_lines_need_all_that_blocks_lends() {
    let text = b"set 7 -2147483648\n".repeat(64);
    assert_eq!(LENT, 1_344);
    assert_eq!(filled(&text, 1, LENT).0, [0, 0, 1_344]);
    assert_eq!(
        filled(&text, 1, LENT - 1),
        ([53, 0, 0], vec![FILL; LENT - 1])
    );
}

#[test]
fn c_entry_writes_three_numbers_low_byte_first() {
    let (mut output, mut answer) = ([FILL; 124], [FILL; 12]);
    assert_eq!(c_entry(TEXT, 2, &mut output, &mut answer), 0);
    assert_eq!(answer, [0, 0, 0, 0, 0, 0, 0, 0, 123, 0, 0, 0]);
    assert_eq!(output, [LINES, &[FILL]].concat().as_slice());
    assert_eq!(c_entry(b"send\nif 0\n", 2, &mut output, &mut answer), 51);
    assert_eq!(answer, [51, 0, 0, 0, 3, 0, 0, 0, 0, 0, 0, 0]);
    assert_eq!(output, [LINES, &[FILL]].concat().as_slice());
    let mut output = [FILL; 520];
    let long = b"send\n".repeat(300);
    let last = [long.as_slice(), b"nope\n"].concat();
    assert_eq!(c_entry(&last, 2, &mut output, &mut answer), 6);
    assert_eq!(answer, [6, 0, 0, 0, 45, 1, 0, 0, 0, 0, 0, 0]);
    assert_eq!(c_entry(&long[..320], 2, &mut output, &mut answer), 0);
    assert_eq!(answer, [0, 0, 0, 0, 0, 0, 0, 0, 0, 2, 0, 0]);
}

#[test]
fn c_entry_refuses_answer_memory_of_another_length_before_anything_else() {
    for length in [0, 1, 11, 13, 24, 28] {
        for (text, keys) in [(TEXT, 2), (b"", 2), (b"\0", 2), (TEXT, 0), (b"end\n", 9)] {
            let mut output = [FILL; 200];
            let mut answer = vec![FILL; length];
            assert_eq!(c_entry(text, keys, &mut output, &mut answer), 10);
            assert_eq!(output, [FILL; 200]);
            assert!(answer.iter().all(|&byte| byte == FILL));
        }
    }
}

/// The programs of `examples/`, and what `blocks` is to print for each. K is 2, or the number at the end
/// of the name behind `keys_`.
#[test]
fn the_examples_give_what_stands_beside_them() {
    let examples = examples("blocks", "blocks");
    assert!(examples.len() > 45, "{}", examples.len());
    for example in examples {
        let name = example.name;
        let keys = name.rsplit_once("keys_").map_or("2", |(_, keys)| keys);
        let keys = keys.parse().expect("a K is a number");
        let (numbers, output) = filled(&example.text, keys, LENT);
        assert_eq!(output[..numbers[2] as usize], example.lines, "{name}");
        assert_eq!(answer_line(numbers), example.answer, "{name}");
    }
}

/// The sheet with the lines of `average.blocks` sends the mean of four speeds, and all bags.
#[test]
fn the_average_is_sent() {
    let folder = folder();
    let sheet = fs::read(folder.join("average.txt")).expect("the sheet is there");
    let job = read(&sheet).expect("the sheet is accepted");
    let text = fs::read(folder.join("average.blocks")).expect("the program is there");
    assert_eq!(Ok(&job.commands), translated(&text, 2).as_ref());
    assert_eq!(difference(&tree(&text, 2), &job, &job.messages, 100), None);
    let speeds = [1_500, 1_480, 1_510, 1_490];
    let (mean, bags) = (speeds.iter().sum::<i32>() / 4, 12 + 9 + 15 + 11 + 8);
    let sent = format!("sent=0120 +{mean:010} +{bags:010}\nend=0 0 121 61 34 5 0\n");
    assert_eq!(printed(&sheet, 34), sent.as_bytes());
}

/// 4 "at line 0, before all else": whatever the text and the memory are.
#[test]
fn keys_beyond_their_limit_come_first() {
    for (text, keys, lent) in [(TEXT, 0, 200), (b"", 9, 0), (b"\xff", u32::MAX, 3)] {
        assert_eq!(filled(text, keys, lent), ([4, 0, 0], vec![FILL; lent]));
    }
    for keys in 1..=8 {
        assert_eq!(filled(b"drop 0\n", keys, 10).0, [0, 0, 10]);
    }
}

// What follows from the note.

/// A job of these commands alone, for plain runs.
fn job_of(commands: Vec<Command>, keys: usize) -> Job {
    Job {
        form: Form::One,
        keys,
        secrets: vec![None; keys],
        commands,
        messages: Vec::new(),
        turns: vec![Level::Low],
    }
}

fn translation(program: &Program) -> Vec<Command> {
    translated(&program.text, program.keys).expect("generated programs are accepted")
}

/// "so every plain run of the translation agrees with it step by step": the same variables, fields,
/// calls and sends after every step, and both have stopped at the same step.
#[test]
fn the_plain_run_of_the_translation_agrees_step_by_step() {
    let mut rng = Rng::new(1);
    for _ in 0..6_000 {
        let program = accepted(&mut rng);
        let keys = program.keys as usize;
        let body = tree(&program.text, keys);
        let job = job_of(translation(&program), keys);
        for _ in 0..2 {
            let messages = messages(&mut rng, keys);
            let found = difference(&body, &job, &messages, 300);
            assert_eq!(found, None, "{}", start(&program.text));
        }
    }
}

/// The corners have programs that the generator may not come to.
#[test]
fn the_corners_agree_step_by_step() {
    let mut rng = Rng::new(2);
    let mut tried = 0;
    for corner in corners().iter().filter(|c| c.numbers[0] == 0) {
        let keys = corner.keys as usize;
        let body = tree(&corner.text, keys);
        let job = job_of(translated(&corner.text, corner.keys).unwrap(), keys);
        let messages = messages(&mut rng, keys);
        assert_eq!(difference(&body, &job, &messages, 300), None);
        tried += 1;
    }
    assert!(tried >= 40, "{tried}");
}

/// What the step-by-step comparison would not tell: programs that stop soon, loops never taken, tests
/// that go one way only.
#[test]
fn random_programs_go_every_way() {
    let mut rng = Rng::new(3);
    let mut ways = [0; 7];
    for _ in 0..2_000 {
        let program = accepted(&mut rng);
        let job = job_of(translation(&program), program.keys as usize);
        let messages = messages(&mut rng, job.keys);
        for (way, happens) in ways.iter_mut().zip(ways_of(&job, &messages)) {
            *way += usize::from(happens);
        }
    }
    println!("taken, passed over, jumps, rounds, stops, goes on, sends: {ways:?}");
    assert!(ways.iter().all(|&count| count >= 200), "{ways:?}");
}

/// Whether a plain run of 300 steps enters a block, passes one over, jumps ahead, jumps back twice,
/// stops, never stops, and sends something.
fn ways_of(job: &Job, messages: &[Vec<Option<i32>>]) -> [bool; 7] {
    let mut plain = Plain::new(job, messages);
    let (mut ways, mut rounds) = ([false; 7], 0);
    for _ in 0..300 {
        let place = plain.place();
        let seen = plain.seen();
        match job.commands.get(place) {
            Some(&Command::IfZero(v, _)) => ways[usize::from(seen.variables[v] == 0)] = true,
            Some(&Command::Jump(t)) if t > place => ways[2] = true,
            Some(&Command::Jump(_)) => rounds += 1,
            _ => {}
        }
        let entries =
            |step| matches!(step, Step::Sends(fields) if fields.iter().any(|f| f.is_some()));
        ways[6] |= entries(plain.step());
    }
    let stopped = plain.seen().stopped;
    (ways[3], ways[4], ways[5]) = (rounds >= 2, stopped, !stopped);
    ways
}

/// "Out come `do` lines": in a sheet with this K they are accepted, and are exactly the commands of the
/// translation, with every target in their range.
#[test]
fn the_lines_stand_in_a_sheet() {
    let mut rng = Rng::new(4);
    for _ in 0..6_000 {
        let program = accepted(&mut rng);
        let commands = translation(&program);
        let head = format!("sheet=1\nkeys={}\n", program.keys);
        let sheet = [head.as_bytes(), &do_lines(&commands), b"turns=L\n"].concat();
        let job = read(&sheet).expect("the sheet is accepted");
        assert_eq!(job.commands, commands);
        let count = commands.len();
        assert!((1..=MOST_COMMANDS).contains(&count));
        let targets = commands.iter().filter_map(|command| command.target());
        assert!(targets.into_iter().all(|target| target <= count));
    }
}

/// Every command of a text is its own line, in their order; there is a test for each `if` and `while`,
/// a jump for each `else` and `while`, and nothing else.
#[test]
fn nothing_is_lost_and_nothing_is_added() {
    let mut rng = Rng::new(5);
    for _ in 0..4_000 {
        let program = accepted(&mut rng);
        let text = String::from_utf8(program.text.clone()).unwrap();
        let first = |line: &str| line.split(' ').next().unwrap().to_string();
        let count = |word: &str| text.lines().filter(|line| first(line) == word).count();
        let in_blocks =
            |line: &&str| matches!(first(line).as_str(), "if" | "while" | "else" | "end");
        let own: Vec<&str> = text.lines().filter(|line| !in_blocks(line)).collect();
        let lines = String::from_utf8(do_lines(&translation(&program))).unwrap();
        let lines: Vec<&str> = lines.lines().map(|line| &line[3..]).collect();
        let made = |line: &&&str| matches!(first(line).as_str(), "ifzero" | "jump");
        let kept: Vec<&str> = lines.iter().filter(|l| !made(l)).copied().collect();
        assert_eq!(kept, own);
        let of = |word: &str| lines.iter().filter(|line| first(line) == word).count();
        assert_eq!(of("ifzero"), count("if") + count("while"));
        assert_eq!(of("jump"), count("else") + count("while"));
        assert_eq!(count("end"), count("if") + count("while"));
    }
}

/// All numbers but 53 are the text's and K's alone, 53 comes exactly where there are too many commands
/// or the lines are longer than the memory, and a refusal writes nothing.
#[test]
fn memory_decides_nothing_but_53() {
    let mut rng = Rng::new(6);
    for place in 0..12_000 {
        let program = random_program(&mut rng, place % 4);
        let lent = memory_length(&mut rng, &program);
        let (numbers, output) = filled(&program.text, program.keys, lent);
        let (with_plenty, text) = filled(&program.text, program.keys, LENT);
        let needed = with_plenty[2] as usize;
        let fits = with_plenty[0] != 0 || needed <= lent;
        assert_eq!(numbers, if fits { with_plenty } else { [53, 0, 0] });
        let written = numbers[2] as usize;
        assert_eq!(output[..written], text[..written]);
        assert!(output[written..].iter().all(|&byte| byte == FILL));
    }
}

/// "line by line": the lines above a refused one, with an `end` for each block that they leave open,
/// pass, and nothing behind its end matters but 2.
#[test]
fn the_first_line_at_fault_decides_alone() {
    let mut rng = Rng::new(7);
    let mut tried = 0;
    for place in 0..12_000 {
        let program = random_program(&mut rng, place % 4);
        let refusal = translated(&program.text, program.keys);
        let Err(Refusal { number, line }) = refusal else {
            continue;
        };
        let lines: Vec<&[u8]> = program.text.split_inclusive(|&b| b == b'\n').collect();
        if number == 2 || line == 0 || line as usize > lines.len() {
            continue;
        }
        let (above, rest) = lines.split_at(line as usize - 1);
        let above = above.concat();
        assert!(
            passes_when_closed(&above, program.keys),
            "{}",
            start(&above)
        );
        let behind = b"nope\nset 8 0\nend\nelse\nif 0\n";
        let other = [above.as_slice(), rest[0], behind].concat();
        assert_eq!(
            translated(&other, program.keys),
            Err(Refusal { number, line })
        );
        tried += 1;
    }
    assert!(tried > 2_000, "{tried}");
}

fn passes_when_closed(above: &[u8], keys: u32) -> bool {
    let closed = |count| [above, b"send\n", b"end\n".repeat(count).as_slice()].concat();
    (0..=MOST_DEPTH).any(|count| translated(&closed(count), keys).is_ok())
}

/// A tree written out is the text again, so that the two readers of a text cannot both lose a line.
#[test]
fn a_tree_has_every_line() {
    fn write(body: &Body, text: &mut String) {
        for part in body {
            match part {
                Part::Command(command) => {
                    let line = do_lines(&[*command]);
                    *text += std::str::from_utf8(&line[3..]).unwrap();
                }
                Part::While(v, body) => {
                    *text += &format!("while {v}\n");
                    write(body, text);
                    *text += "end\n";
                }
                Part::If(v, first, second) => {
                    *text += &format!("if {v}\n");
                    write(first, text);
                    if let Some(second) = second {
                        *text += "else\n";
                        write(second, text);
                    }
                    *text += "end\n";
                }
            }
        }
    }
    let mut rng = Rng::new(8);
    for _ in 0..2_000 {
        let program = accepted(&mut rng);
        let mut text = String::new();
        write(&tree(&program.text, program.keys as usize), &mut text);
        assert_eq!(text.as_bytes(), program.text);
    }
}

// The generators.

fn random_program(rng: &mut Rng, kind: usize) -> Program {
    match kind {
        0 => accepted(rng),
        1 => damaged(rng),
        2 => boundary(rng),
        _ => noise(rng),
    }
}

/// How often each number occurs in 10,000 programs, with the bytes lent chosen for each.
fn counts(seed: u64, kind: usize) -> [usize; 54] {
    let mut rng = Rng::new(seed);
    let mut counts = [0; 54];
    for _ in 0..10_000 {
        let program = random_program(&mut rng, kind);
        let lent = memory_length(&mut rng, &program);
        counts[filled(&program.text, program.keys, lent).0[0] as usize] += 1;
    }
    counts
}

#[test]
fn accepted_programs_are_accepted() {
    let counts = counts(9, 0);
    println!("accepted: {} {}", counts[0], counts[53]);
    assert_eq!(counts[0] + counts[53], 10_000);
    assert!(counts[53] >= 1_000);
}

#[test]
fn damaged_programs_reach_every_refusal() {
    let counts = counts(10, 1);
    println!("damaged: {counts:?}");
    for (number, least) in [
        (0, 500),
        (2, 500),
        (4, 500),
        (6, 500),
        (51, 1_000),
        (52, 300),
        (53, 100),
    ] {
        assert!(counts[number] >= least, "{number}: {counts:?}");
    }
}

#[test]
fn programs_at_the_limits_fall_on_both_sides() {
    let counts = counts(11, 2);
    println!("boundary: {counts:?}");
    for (number, least) in [
        (0, 500),
        (51, 200),
        (52, 200),
        (53, 2_000),
        (6, 100),
        (4, 100),
    ] {
        assert!(counts[number] >= least, "{number}: {counts:?}");
    }
}

#[test]
fn noise_gets_past_the_first_line() {
    let counts = counts(12, 3);
    println!("noise: {counts:?}");
    for (number, least) in [
        (0, 100),
        (2, 500),
        (4, 100),
        (6, 300),
        (51, 2_000),
        (53, 50),
    ] {
        assert!(counts[number] >= least, "{number}: {counts:?}");
    }
}

/// Whether more than a few of 3,000 accepted programs are such.
fn often(such: impl Fn(&Program) -> bool) -> bool {
    let mut rng = Rng::new(13);
    let programs = (0..3_000).map(|_| accepted(&mut rng));
    programs.filter(|program| such(program)).count() > 5
}

#[test]
fn accepted_programs_reach_the_limits() {
    for depth in 0..=8 {
        assert!(often(|program| depth_of(program) == depth), "{depth} deep");
    }
    for count in (1..=20).chain(60..=64) {
        let such = |program: &Program| translation(program).len() == count;
        assert!(often(such), "{count} commands");
    }
    for keys in 1..=8 {
        assert!(often(|program| program.keys == keys), "{keys} keys");
    }
}

/// Every command, and every kind of block, empty or not.
#[test]
fn accepted_programs_have_every_line() {
    let words = [
        "set", "add", "sub", "mul", "div", "read", "has", "put", "drop", "receive", "send", "stop",
        "if", "while", "else", "end",
    ];
    let has = |program: &Program, text: &str| {
        let all = [b"\n".as_slice(), &program.text].concat();
        all.windows(text.len()).any(|part| part == text.as_bytes())
    };
    for word in words {
        assert!(
            often(|program| has(program, &format!("\n{word}"))),
            "{word}"
        );
    }
    let empty = [
        "if 0\nend\n",
        "while 1\nend\n",
        "if 2\nelse\n",
        "\nelse\nend\n",
        "\nelse\nif",
    ];
    for lines in empty {
        assert!(often(|program| has(program, lines)), "{lines:?}");
    }
}

fn depth_of(program: &Program) -> usize {
    let (mut depth, mut most) = (0, 0);
    for line in program.text.split(|&byte| byte == b'\n') {
        match line {
            [b'i', b'f', b' ', ..] | [b'w', b'h', ..] => depth += 1,
            b"end" => depth -= 1,
            _ => {}
        }
        most = most.max(depth);
    }
    most
}

/// Each of the three causes of 51, the two of 4 and the two of 53, among programs of every kind.
#[test]
fn random_programs_have_every_cause() {
    let mut rng = Rng::new(14);
    let mut causes = [0; 7];
    for place in 0..12_000 {
        let program = random_program(&mut rng, place % 4);
        let lent = memory_length(&mut rng, &program);
        let [number, line, _] = filled(&program.text, program.keys, lent).0;
        let lines: Vec<&[u8]> = program.text.split(|&byte| byte == b'\n').collect();
        let words = (line as usize)
            .checked_sub(1)
            .and_then(|place| lines.get(place));
        let begins = |word: &str| words.is_some_and(|words| words.starts_with(word.as_bytes()));
        let happens = [
            number == 51 && begins("else"),
            number == 51 && begins("end"),
            number == 51 && words == Some(&&b""[..]),
            number == 4 && line == 0,
            number == 4 && line > 0,
            number == 53 && translation(&program).len() > MOST_COMMANDS,
            number == 53 && translation(&program).len() <= MOST_COMMANDS,
        ];
        for (cause, happens) in causes.iter_mut().zip(happens) {
            *cause += usize::from(happens);
        }
    }
    println!("else, end, missing end, K, a number, too many, too little memory: {causes:?}");
    assert!(causes.iter().all(|&count| count >= 200), "{causes:?}");
}
