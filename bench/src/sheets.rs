//! The sheets of the comparison: the same 500 of each form every time.

use reference::generate::{accepted_by, accepted_job_by, sheet_of, Rng, Shape};
use reference::model::{
    Command, Form, Job, Level, LENT, LOWEST, MOST_COMMANDS, MOST_KEYS, MOST_MESSAGES, MOST_TURNS,
};
use reference::run_sheet;

const SEED: u64 = 2026;
/// Half of the sheets of a form are long, half short.
const HALF: usize = 250;
/// So many sheets have turns of each kind.
const OF_A_KIND: usize = 50;
/// A long run uses at least this many positions.
const LONG_POSITIONS: u32 = 1_000;

/// Some sheets, and what their runs come to; or some exports, programs or records, which have no positions.
pub struct Group {
    pub name: String,
    pub texts: Vec<Vec<u8>>,
    pub bytes: usize,
    pub positions: u64,
}

impl Group {
    pub fn new(name: &str) -> Group {
        Group {
            name: name.to_string(),
            texts: Vec::new(),
            bytes: 0,
            positions: 0,
        }
    }

    /// A group whose texts are of this form: of form 2 its name begins with `two`.
    pub fn of_form(form: Form, name: &str) -> Group {
        match form {
            Form::One => Group::new(name),
            Form::Two => Group::new(&format!("two {name}")),
        }
    }

    pub fn add(&mut self, text: Vec<u8>, positions: u32) {
        self.bytes += text.len();
        self.positions += u64::from(positions);
        self.texts.push(text);
    }
}

/// The sheets of a form: the long half, then the short one.
pub fn halves(form: Form) -> Vec<Group> {
    vec![long(form), short(form)]
}

/// The long half: runs that use at least 1,000 positions, by the reference model.
pub fn long(form: Form) -> Group {
    let mut rng = Rng::new(SEED);
    let mut long = Group::of_form(form, "long");
    while long.texts.len() < HALF {
        let sheet = accepted_by(form, &mut rng, Shape::LongRun);
        let positions = positions(&sheet);
        if positions >= LONG_POSITIONS {
            long.add(sheet, positions);
        }
    }
    long
}

/// The short half: small, medium and large sheets in turn, as their programs end.
pub fn short(form: Form) -> Group {
    let mut rng = Rng::new(SEED + 1);
    let mut short = Group::of_form(form, "short");
    while short.texts.len() < HALF {
        let shape = [Shape::Small, Shape::Medium, Shape::Large][short.texts.len() % 3];
        let sheet = accepted_by(form, &mut rng, shape);
        let positions = positions(&sheet);
        if positions < LONG_POSITIONS {
            short.add(sheet, positions);
        }
    }
    short
}

/// The largest sheet: as many lines of every kind as the rules allow, each as long as it can be. The
/// program stops at once, so that reading is nearly all of the work. Of form 1 the letters are all `L`;
/// of form 2 they come in rounds, and so do the owners, so that each of them is read.
pub fn largest(form: Form) -> Group {
    let entries: Vec<String> = (0..MOST_KEYS)
        .map(|key| format!("{key}:{LOWEST}"))
        .collect();
    let (number, owners, round) = match form {
        Form::One => (1, ["", ""], "L"),
        Form::Two => (2, [":A", ":B"], "LAB"),
    };
    let secrets: String = (0..)
        .zip(&entries)
        .map(|(key, entry)| format!("secret={entry}{}\n", owners[key % 2]))
        .collect();
    let commands = format!("do=set 7 {LOWEST}\n").repeat(MOST_COMMANDS - 1);
    let messages = format!("msg={}\n", entries.join(",")).repeat(MOST_MESSAGES);
    let turns: String = round.chars().cycle().take(MOST_TURNS).collect();
    let head = format!("sheet={number}\nkeys={MOST_KEYS}\n");
    let sheet = format!("{head}{secrets}do=stop\n{commands}{messages}turns={turns}\n");
    let positions = positions(sheet.as_bytes());
    let mut largest = Group::of_form(form, "largest");
    largest.add(sheet.into_bytes(), positions);
    largest
}

/// Long runs by the kind of their turns: a letter that can be foretold costs a processor less than
/// one that cannot, and calls cost more than other commands.
pub fn kinds(form: Form) -> Vec<Group> {
    let round = match form {
        Form::One => "LH",
        Form::Two => "LAB",
    };
    vec![
        kind(form, round, |_, job| job.turns = rounds(job.form)),
        kind(form, "all L", |_, job| {
            job.turns = vec![Level::Low; MOST_TURNS];
        }),
        kind(form, "random", |rng, job| job.turns = random(rng, job.form)),
        kind(form, "runs", |rng, job| job.turns = runs(rng, job.form)),
        kind(form, "calls", |rng, job| {
            job.turns = random(rng, job.form);
            job.commands = vec![Command::Receive, Command::Send, Command::Jump(0)];
        }),
    ]
}

/// Sheets whose jobs are changed so, and whose runs are long then too.
fn kind(form: Form, name: &str, change: fn(&mut Rng, &mut Job)) -> Group {
    let mut rng = Rng::new(SEED + 2);
    let mut sheets = Group::of_form(form, name);
    while sheets.texts.len() < OF_A_KIND {
        let mut job = accepted_job_by(form, &mut rng, Shape::LongRun);
        change(&mut rng, &mut job);
        let sheet = sheet_of(&job);
        let positions = positions(&sheet);
        if positions >= LONG_POSITIONS {
            sheets.add(sheet, positions);
        }
    }
    sheets
}

/// The executions of a form, the low one first.
fn levels(form: Form) -> Vec<Level> {
    let owners = form.owners().iter().copied();
    [Level::Low]
        .into_iter()
        .chain(owners.map(Level::Of))
        .collect()
}

/// As many letters as there may be, each execution's in turn.
fn rounds(form: Form) -> Vec<Level> {
    levels(form).into_iter().cycle().take(MOST_TURNS).collect()
}

/// As many letters, of any execution.
fn random(rng: &mut Rng, form: Form) -> Vec<Level> {
    let levels = levels(form);
    (0..MOST_TURNS).map(|_| rng.pick(&levels)).collect()
}

/// Letters in long runs of one and the same.
fn runs(rng: &mut Rng, form: Form) -> Vec<Level> {
    let mut turns = Vec::new();
    while turns.len() < MOST_TURNS {
        for level in levels(form) {
            turns.extend(vec![level; rng.between(20, 60)]);
        }
    }
    turns.truncate(MOST_TURNS);
    turns
}

/// The positions that a run uses.
fn positions(sheet: &[u8]) -> u32 {
    run_sheet(sheet, &mut vec![0; LENT])[2]
}

#[cfg(test)]
mod tests {
    use super::Form;

    #[test]
    fn half_of_each_form_are_long() {
        for form in Form::ALL {
            let first_line = format!("sheet={}\n", form.number());
            for group in super::halves(form) {
                assert_eq!(group.texts.len(), 250);
                let long = group.name.ends_with("long");
                for sheet in &group.texts {
                    assert!(sheet.starts_with(first_line.as_bytes()));
                    assert_eq!(super::positions(sheet) >= 1_000, long);
                }
            }
        }
    }
}
