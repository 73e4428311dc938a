//! Note 4 of document 02 against the model: its corners, the plain run by itself, the claim on random
//! programs, and for every weaker reading of the note a program for which it is false. What the
//! monitor prints for the corners stands with the others, in `document.rs`.

use reference::corners::honest::{
    Spoilt, ABSENT, DOUBLES, EITHER, HONEST, LONG_HONEST, LUCKY, OPEN, ORDER, SENDS, SHORT, SPOILT,
    STOPS,
};
use reference::corners::{corner_of, honest_corners, long_corner, Corner, EXAMPLES};
use reference::generate::honest::{job, job_with, Care};
use reference::generate::{accepted_job, sheet_of, Rng, Shape};
use reference::model::{run, Form, Owner, Secret, HIGH, LENT, NUMBERS};
use reference::plain::{
    dummied, lines, open_entries, plain_run, steps_of, Compared, Lines, Step, MOST_STEPS,
};
use reference::{read, Command, Job, Level};
use std::fs;
use std::path::Path;

/// What the output memory holds before a run.
const FILL: u8 = 0xaa;

/// A job, the two plain runs of its N steps, and what the one on real messages sends.
struct Tried {
    job: Job,
    compared: Compared,
    sent: Vec<u8>,
}

impl Tried {
    fn of(job: Job) -> Tried {
        let steps = steps_of(&job).expect("the turns are N times LH");
        let compared = Compared::of(&job, steps);
        let sent = lines(&compared.real);
        Tried {
            job,
            compared,
            sent,
        }
    }

    fn sheet(sheet: &str) -> Tried {
        Tried::of(read(sheet.as_bytes()).expect("the sheet is accepted"))
    }

    fn honest(&self) -> bool {
        self.compared.honest(&self.job)
    }

    /// The monitor's answer and its output memory.
    fn monitor(&self, lent: usize) -> ([u32; NUMBERS], Vec<u8>) {
        let mut output = vec![FILL; lent];
        let numbers = run(&self.job, &mut output);
        (numbers, output)
    }

    /// "the monitor sends exactly what the plain run on real messages sends": these lines, and behind
    /// them every byte as it was.
    fn loses_nothing(&self, lent: usize) -> bool {
        let (numbers, output) = self.monitor(lent);
        let mut wanted = self.sent.clone();
        wanted.resize(lent, FILL);
        numbers[4] as usize == self.sent.len() && output == wanted
    }
}

// The corners.

/// The lines of a text without the last one, `end=` and the numbers.
fn sent_lines(printed: &str) -> String {
    let lines = printed.split_inclusive('\n');
    lines.filter(|line| !line.starts_with("end=")).collect()
}

fn check_honest(corner: Corner) {
    let (sheet, printed) = (text(&corner.sheet), text(&corner.printed));
    let tried = Tried::sheet(sheet);
    assert!(tried.honest(), "{sheet}");
    assert_eq!(text(&tried.sent), sent_lines(printed), "{sheet}");
    assert!(tried.loses_nothing(corner.lent), "{sheet}");
    assert!(tried.loses_nothing(corner.lent + 1_000), "{sheet}");
}

fn text(bytes: &[u8]) -> &str {
    std::str::from_utf8(bytes).expect("the bytes are text")
}

/// The program is not honest, and the monitor sends something else than the plain run.
fn check_spoilt(((lent, sheet, printed), plain): &Spoilt) {
    let tried = Tried::sheet(sheet);
    assert!(!tried.honest(), "{sheet}");
    assert_eq!(text(&tried.sent), *plain, "{sheet}");
    assert_ne!(sent_lines(printed), *plain, "{sheet}");
    assert!(!tried.loses_nothing(*lent), "{sheet}");
}

#[test]
fn honest_programs_lose_nothing() {
    HONEST.iter().map(corner_of).for_each(check_honest);
    LONG_HONEST.iter().map(long_corner).for_each(check_honest);
    // The worked example, with exactly the memory that it needs.
    let printed = "sent=0008 +0000000001 +0000000010\nsent=0020 +0000000002 +0000000000\n";
    assert_eq!(text(&Tried::sheet(DOUBLES.1).sent), printed);
    assert_eq!(DOUBLES.0, printed.len());
}

/// P1, P2 and P3, and P4, whose two steps send nothing.
#[test]
fn sheet_a_is_honest() {
    EXAMPLES[..4].iter().map(corner_of).for_each(check_honest);
}

#[test]
fn other_programs_may_send_something_else() {
    SPOILT.iter().for_each(check_spoilt);
    // P8: a secret decides whether the program sends.
    check_spoilt(&(EXAMPLES[8], "sent=0006 +0000000009\n"));
}

/// Honest as they are, these programs have one byte too little.
#[test]
fn memory_must_hold_all_the_lines() {
    for ((lent, sheet, printed), plain) in SHORT {
        let tried = Tried::sheet(sheet);
        assert!(tried.honest());
        assert_eq!(text(&tried.sent), *plain);
        assert_eq!(tried.sent.len(), lent + 1);
        assert!(plain.starts_with(&sent_lines(printed)));
        assert!(!tried.loses_nothing(*lent));
        assert!(tried.loses_nothing(lent + 1));
    }
}

/// The note says what is enough, not what is needed.
#[test]
fn a_program_may_lose_nothing_by_luck() {
    let tried = Tried::sheet(LUCKY.1);
    assert!(!tried.honest());
    assert!(tried.loses_nothing(LUCKY.0));
}

/// What `docs/SHEETS.md` says of these examples.
#[test]
fn the_examples_are_honest_or_not() {
    for (name, honest) in [
        ("sheet_a", true),
        ("honest", true),
        ("late_send_mended", true),
        ("late_send", false),
        ("confidential_1480", false),
        ("p8", false),
    ] {
        let tried = example(name);
        assert_eq!(tried.honest(), honest, "{name}");
        assert_eq!(tried.loses_nothing(LENT), honest, "{name}");
    }
    let alone = "sent=0010 +0000001500 +0000002960\n";
    assert_eq!(text(&example("late_send").sent), alone);
}

fn example(name: &str) -> Tried {
    let folder = Path::new(env!("CARGO_MANIFEST_DIR")).join("../../examples");
    let sheet = fs::read_to_string(folder.join(name).with_extension("txt"));
    Tried::sheet(&sheet.expect("the sheet can be read"))
}

#[test]
fn the_corners_reach_both_ends_of_n() {
    let steps = |corner: &Corner| steps_of(&read(&corner.sheet).ok()?);
    let mut found: Vec<usize> = honest_corners().iter().filter_map(steps).collect();
    assert_eq!(found.len(), honest_corners().len());
    found.sort_unstable();
    assert_eq!((found[0], found[found.len() - 1]), (1, 512));
}

/// The longest lines, at 503 of 512 steps, and memory that holds just these.
#[test]
fn nearly_every_step_may_send() {
    let mut commands = vec![Command::Send; 63];
    commands[0] = Command::Receive;
    commands.push(Command::Jump(1));
    let job = Job {
        form: Form::One,
        keys: 8,
        secrets: vec![
            Some(Secret {
                dummy: 0,
                owner: Owner::H
            });
            8
        ],
        commands,
        messages: vec![(1..=8).map(Some).collect()],
        turns: [Level::Low, HIGH].repeat(MOST_STEPS),
    };
    let tried = Tried::of(job);
    assert_eq!(tried.sent.len(), 503 * 106);
    assert!(tried.honest() && tried.loses_nothing(503 * 106));
    assert!(!tried.loses_nothing(503 * 106 - 1));
}

// The plain run by itself.

/// N is what stands behind `turns`, and nothing but N times LH is.
#[test]
fn turns_are_n_times_lh() {
    let mut job = read(DOUBLES.1.as_bytes()).expect("the sheet is accepted");
    let mut steps = |turns: &str| {
        let letter = |letter| {
            if letter == 'L' {
                Level::Low
            } else {
                HIGH
            }
        };
        job.turns = turns.chars().map(letter).collect();
        steps_of(&job)
    };
    assert_eq!(steps("LH"), Some(1));
    assert_eq!(steps("LHLHLH"), Some(3));
    assert_eq!(steps(&"LH".repeat(512)), Some(512));
    assert_eq!(steps(&"LH".repeat(513)), None);
    for turns in ["", "L", "H", "HL", "LHL", "LHHL", "LLHH", "LHLL"] {
        assert_eq!(steps(turns), None, "{turns}");
    }
}

#[test]
fn the_steps_of_a_plain_run_are_what_it_does() {
    let job = read(
        b"sheet=1\nkeys=2\nsecret=1:300\ndo=send\ndo=receive\ndo=drop 0\ndo=send\ndo=receive\n\
          do=send\ndo=stop\ndo=send\nmsg=0:1,1:5\nturns=LH\n",
    )
    .expect("the sheet is accepted");
    let steps = |secret| {
        vec![
            Step::Sends(vec![None, None]),
            Step::Receives,
            Step::Works,
            Step::Sends(vec![None, Some(secret)]),
            // No line is left, and no dummy either.
            Step::Receives,
            Step::Sends(vec![None, None]),
            Step::Works,
            Step::Stopped,
            Step::Stopped,
        ]
    };
    assert_eq!(plain_run(&job, &job.messages, 9), steps(5));
    assert_eq!(plain_run(&job, &dummied(&job), 9), steps(300));
    assert_eq!(plain_run(&job, &job.messages, 4), steps(5)[..4]);
    let sent = "sent=0000 ........... ...........\nsent=0006 ........... +0000000005\n\
                sent=0010 ........... ...........\n";
    assert_eq!(text(&lines(&steps(5))), sent);
}

#[test]
fn every_secret_key_of_each_line_holds_its_dummy() {
    let job = read(
        b"sheet=1\nkeys=3\nsecret=0:-4\nsecret=2:0\ndo=stop\nmsg=0:1,1:2,2:3\nmsg=1:5\nmsg=\n\
          turns=LH\n",
    )
    .expect("the sheet is accepted");
    let line = |open| vec![Some(-4), open, Some(0)];
    assert_eq!(dummied(&job), [line(Some(2)), line(Some(5)), line(None)]);
}

/// A monitor without secret keys and without H turns is one execution with the real messages, and
/// its positions are the steps. So each plain run can be held to the paired model, whether honest or
/// not.
#[test]
fn a_plain_run_is_what_a_low_execution_does_on_open_messages() {
    let mut rng = Rng::new(41);
    for round in 0..3_000 {
        let mut job = job_with(&mut rng, Care::ALL[round % 3]);
        let steps = steps_of(&job).expect("the turns are N times LH");
        if round % 2 == 0 {
            job.messages = dummied(&job);
        }
        let plain = plain_run(&job, &job.messages, steps);
        job.secrets = vec![None; job.keys];
        job.turns = vec![Level::Low; steps];
        check_alone(&job, &plain);
    }
}

/// All that is reported of a run of the low execution alone, out of the plain run.
fn check_alone(job: &Job, plain: &[Step]) {
    let mut output = vec![FILL; job.line_length() * plain.len()];
    let [ending, _, positions, low_steps, written, taken, _] = run(job, &mut output);
    let count = |fits: fn(&&Step) -> bool| plain.iter().filter(fits).count();
    let working = count(|step| **step != Step::Stopped);
    let received = count(|step| **step == Step::Receives);
    assert_eq!((positions, low_steps), (working as u32, working as u32));
    assert_eq!(taken as usize, received.min(job.messages.len()));
    assert!(ending == 0 || (ending, working) == (31, plain.len()));
    let sent: Vec<u8> = lines(plain);
    assert_eq!(written as usize, sent.len());
    for (found, wanted) in output[..sent.len()]
        .chunks(job.line_length())
        .zip(sent.chunks(job.line_length()))
    {
        assert_eq!(2 * position(found), position(wanted));
        assert_eq!(found[9..], wanted[9..]);
    }
}

/// The four digits of a sent line.
fn position(line: &[u8]) -> usize {
    text(&line[5..9]).parse().expect("a position")
}

#[test]
fn a_longer_plain_run_goes_on_where_a_shorter_one_ends() {
    let mut rng = Rng::new(42);
    let mut stopped = 0;
    for _ in 0..1_000 {
        let job = job(&mut rng);
        let whole = plain_run(&job, &job.messages, MOST_STEPS);
        let steps = rng.between(1, MOST_STEPS);
        assert_eq!(plain_run(&job, &job.messages, steps), whole[..steps]);
        if let Some(first) = whole.iter().position(|step| *step == Step::Stopped) {
            assert!(whole[first..].iter().all(|step| *step == Step::Stopped));
            stopped += 1;
        }
    }
    println!("plain runs that stop: {stopped} of 1000");
    assert!(stopped > 200, "{stopped}");
}

#[test]
fn without_secret_keys_every_program_is_honest() {
    let mut rng = Rng::new(43);
    for round in 0..1_000 {
        let mut job = accepted_job(&mut rng, Shape::ALL[round % 4]);
        job.secrets = vec![None; job.keys];
        job.turns = [Level::Low, HIGH].repeat(rng.between(1, MOST_STEPS));
        let tried = Tried::of(job);
        assert_eq!(tried.compared.real, tried.compared.dummied);
        assert!(tried.honest() && tried.loses_nothing(tried.sent.len()));
    }
}

// The claim on random programs.

/// Of so many random jobs, those for which `counts` holds.
fn count_jobs(seed: u64, rounds: usize, mut counts: impl FnMut(&mut Rng, &Tried) -> bool) -> usize {
    let mut rng = Rng::new(seed);
    let mut found = 0;
    for _ in 0..rounds {
        let tried = Tried::of(job(&mut rng));
        found += usize::from(counts(&mut rng, &tried));
    }
    found
}

/// With exactly the memory that is needed, with more, and with one byte fewer. The note says nothing of
/// the ending, but 32 means that a line was not sent.
#[test]
fn honest_random_programs_lose_nothing() {
    let honest = count_jobs(44, 8_000, |rng, tried| {
        if !tried.honest() {
            return false;
        }
        let needed = tried.sent.len();
        for lent in [needed, needed + 1 + rng.below(200)] {
            assert!(tried.loses_nothing(lent), "{:?}", tried.job);
            assert!(matches!(tried.monitor(lent).0[0], 0 | 31));
        }
        if needed > 0 {
            assert_eq!(tried.monitor(needed - 1).0[0], 32);
        }
        true
    });
    println!("honest programs: {honest} of 8000");
    assert!(honest > 3_000, "{honest}");
}

#[test]
fn honest_programs_send_what_no_dummy_shows() {
    let telling = count_jobs(45, 8_000, |_, tried| {
        tried.honest() && tried.sent != lines(&tried.compared.dummied)
    });
    println!("honest programs with other secret columns than the dummies: {telling} of 8000");
    assert!(telling > 700, "{telling}");
}

/// Programs without a fault are honest, by the way they are made.
#[test]
fn careful_programs_are_honest() {
    let mut rng = Rng::new(46);
    let mut honest = |care| {
        let honest = |_: &usize| Tried::of(job_with(&mut rng, care)).honest();
        (0..4_000).filter(honest).count()
    };
    assert_eq!(honest(Care::Honest), 4_000);
    let others = [honest(Care::OneFault), honest(Care::None)];
    println!("honest with one fault, and by chance: {others:?} of 4000");
    assert!(
        others.iter().all(|&count| (1_000..3_600).contains(&count)),
        "{others:?}"
    );
}

#[test]
fn random_jobs_are_accepted_and_read_back() {
    let mut rng = Rng::new(47);
    let mut ends = [0; 2];
    for round in 0..3_000 {
        let job = job_with(&mut rng, Care::ALL[round % 3]);
        let steps = steps_of(&job).expect("the turns are N times LH");
        ends[0] += usize::from(steps == 1);
        ends[1] += usize::from(steps == MOST_STEPS);
        assert_eq!(read(&sheet_of(&job)), Ok(job));
    }
    println!("one step, 512 steps: {ends:?} of 3000");
    assert!(ends[0] > 40 && ends[1] > 40, "{ends:?}");
}

// Weaker readings. Each lets a program pass for honest that is not, and for it the claim is false.

/// What another reading takes for honest.
type Reading = fn(&Job, usize) -> bool;

/// The calls of a plain run, without the steps between them.
fn calls(steps: &[Step]) -> Vec<&Step> {
    let call = |step: &&Step| matches!(step, Step::Receives | Step::Sends(_));
    steps.iter().filter(call).collect()
}

/// Whether two calls are of one kind, and send the same open entries.
fn alike(job: &Job, real: &Step, dummied: &Step) -> bool {
    match (real, dummied) {
        (Step::Receives, Step::Receives) => true,
        (Step::Sends(real), Step::Sends(dummied)) => {
            open_entries(job, real).eq(open_entries(job, dummied))
        }
        _ => false,
    }
}

/// Calls at the same steps, of either kind; where both send, the same open entries.
fn by_calls_of_either_kind(job: &Job, steps: usize) -> bool {
    let compared = Compared::of(job, steps);
    let call = |step: &Step| matches!(step, Step::Receives | Step::Sends(_));
    let places = |steps: &[Step]| -> Vec<bool> { steps.iter().map(call).collect() };
    places(&compared.real) == places(&compared.dummied) && compared.same_open_entries(job)
}

/// The same calls in the same order, at whatever steps.
fn by_order(job: &Job, steps: usize) -> bool {
    let compared = Compared::of(job, steps);
    let (real, dummied) = (calls(&compared.real), calls(&compared.dummied));
    let pairs = real.iter().zip(&dummied);
    real.len() == dummied.len()
        && pairs
            .into_iter()
            .all(|(real, dummied)| alike(job, real, dummied))
}

/// The same sends at the same steps, whatever is received.
fn by_sends(job: &Job, steps: usize) -> bool {
    let compared = Compared::of(job, steps);
    let send = |step: &Step| matches!(step, Step::Sends(_));
    let places = |steps: &[Step]| -> Vec<bool> { steps.iter().map(send).collect() };
    places(&compared.real) == places(&compared.dummied) && compared.same_open_entries(job)
}

/// The same calls at the same steps, whatever is sent at open keys.
fn by_calls_alone(job: &Job, steps: usize) -> bool {
    Compared::of(job, steps).same_calls()
}

/// An absent open entry and 0 taken for the same.
fn by_values(job: &Job, steps: usize) -> bool {
    let value = |entries: &[Option<i32>]| -> Vec<i32> {
        let open = open_entries(job, entries);
        open.map(|entry| entry.unwrap_or(0)).collect()
    };
    let compared = Compared::of(job, steps);
    let mut pairs = compared.real.iter().zip(&compared.dummied);
    let same = pairs.all(|steps| match steps {
        (Step::Sends(real), Step::Sends(dummied)) => value(real) == value(dummied),
        _ => true,
    });
    same && compared.same_calls()
}

/// Dummies in place of the entries that are there, and no others.
fn by_dummies_for_entries(job: &Job, steps: usize) -> bool {
    let mut messages = dummied(job);
    for (line, real) in messages.iter_mut().zip(&job.messages) {
        for (entry, real) in line.iter_mut().zip(real) {
            *entry = real.and(*entry);
        }
    }
    with_messages(job, steps, &messages).honest(job)
}

fn with_messages(job: &Job, steps: usize, messages: &Lines) -> Compared {
    Compared {
        real: plain_run(job, &job.messages, steps),
        dummied: plain_run(job, messages, steps),
    }
}

/// Not all N steps, but those before one of the runs has stopped.
fn until_one_has_stopped(job: &Job, steps: usize) -> bool {
    let mut compared = Compared::of(job, steps);
    let works = |run: &[Step]| run.iter().filter(|step| **step != Step::Stopped).count();
    let both = works(&compared.real).min(works(&compared.dummied));
    compared.real.truncate(both);
    compared.dummied.truncate(both);
    compared.honest(job)
}

/// Every weaker reading, and the counterexample of each. The last is no weaker one but another: its
/// plain run on dummies has other messages.
const WEAKER: [(&str, Reading, Spoilt); 7] = [
    ("calls of either kind", by_calls_of_either_kind, EITHER),
    ("the order of the calls", by_order, ORDER),
    ("sends alone", by_sends, SENDS),
    ("calls alone", by_calls_alone, OPEN),
    ("absent is 0", by_values, ABSENT),
    ("until one has stopped", until_one_has_stopped, STOPS),
    ("dummies for entries", by_dummies_for_entries, OPEN),
];

#[test]
fn by_every_weaker_reading_the_claim_is_false() {
    for (words, reading, ((lent, sheet, _), _)) in WEAKER {
        let tried = Tried::sheet(sheet);
        assert!(reading(&tried.job, tried.compared.real.len()), "{words}");
        assert!(!tried.honest() && !tried.loses_nothing(lent), "{words}");
    }
}

/// The random programs have counterexamples too, against every one of them.
#[test]
fn random_programs_tell_every_weaker_reading() {
    for (words, reading, _) in WEAKER {
        let found = count_jobs(48, 4_000, |_, tried| {
            let steps = tried.compared.real.len();
            let lent = tried.job.line_length() * steps;
            reading(&tried.job, steps) && !tried.honest() && !tried.loses_nothing(lent)
        });
        println!("counterexamples to \"{words}\": {found} of 4000");
        assert!(found >= 5, "{words}: {found}");
    }
}

/// They are weaker: what is honest passes by each of them too.
#[test]
fn honest_programs_pass_by_every_weaker_reading() {
    let honest = count_jobs(49, 2_000, |_, tried| {
        let steps = tried.compared.real.len();
        let passes = |(words, reading, _): &(&str, Reading, Spoilt)| {
            assert!(reading(&tried.job, steps), "{words}");
        };
        if tried.honest() {
            WEAKER[..6].iter().for_each(passes);
        }
        tried.honest()
    });
    assert!(honest > 1_000, "{honest}");
}
