//! A sheet turned into the other form, as a straightforward Rust program: safe, idiomatic, not tuned. It reads with
//! the program that runs sheets, changes the job, and writes it with the one that saves records. It answers what Note
//! 9 of document 02 demands, but does not say why it refuses a sheet on reading.

use crate::plain::{read, Form, Job, Owner};
use crate::plain_record::sheet_of;

/// Turns a sheet into one of form 2: the three numbers, or nothing if the sheet is not accepted.
pub fn to_two(sheet: &[u8], output: &mut [u8]) -> Option<[u32; 3]> {
    let job = read(sheet)?;
    Some(match job.form {
        Form::One => turn(job, Form::Two, Owner::A, [b'H', b'A'], output),
        Form::Two => [48, 0, 0],
    })
}

/// The reverse.
pub fn to_one(sheet: &[u8], output: &mut [u8]) -> Option<[u32; 3]> {
    let job = read(sheet)?;
    Some(match job.form {
        Form::One => [48, 0, 0],
        Form::Two if of_b(&job) => [47, 0, 0],
        Form::Two => turn(job, Form::One, Owner::H, [b'A', b'H'], output),
    })
}

fn of_b(job: &Job) -> bool {
    let mut secrets = job.secrets.iter().flatten();
    secrets.any(|secret| secret.owner == Owner::B) || job.turns.contains(&b'B')
}

/// Writes the job in this form, with this owner and one letter in place of another.
fn turn(
    mut job: Job,
    form: Form,
    owner: Owner,
    [old, new]: [u8; 2],
    output: &mut [u8],
) -> [u32; 3] {
    let letter = |&letter: &u8| if letter == old { new } else { letter };
    let turns: Vec<u8> = job.turns.iter().map(letter).collect();
    for secret in job.secrets.iter_mut().flatten() {
        secret.owner = owner;
    }
    let sheet = sheet_of(&Job {
        form,
        turns: &turns,
        ..job
    });
    match output.get_mut(..sheet.len()) {
        Some(place) => {
            place.copy_from_slice(&sheet);
            [0, 0, sheet.len() as u32]
        }
        None => [49, 0, 0],
    }
}

#[cfg(test)]
mod tests {
    use reference::corners::forms::{corners, damaged};
    use reference::forms::convert;
    use reference::generate::forms::{memory_length, sheet};
    use reference::generate::Rng;
    use reference::model::Form;

    fn check(sheet: &[u8], form: Form, lent: usize) {
        let (mut output, mut wanted) = (vec![b'~'; lent], vec![b'~'; lent]);
        let numbers = convert(sheet, form, &mut wanted);
        let read = matches!(numbers[0], 0 | 47..=49);
        let found = match form {
            Form::One => super::to_one(sheet, &mut output),
            Form::Two => super::to_two(sheet, &mut output),
        };
        let text = sheet.escape_ascii();
        assert_eq!(found, read.then_some(numbers), "{form:?} {text}");
        assert!(output == wanted, "{form:?} {text}");
    }

    #[test]
    fn it_turns_what_the_reference_turns_and_refuses_what_it_refuses() {
        for corner in corners() {
            check(&corner.sheet, corner.form, corner.lent);
        }
        let mut rng = Rng::new(1);
        for _ in 0..20_000 {
            let sheet = sheet(&mut rng);
            for form in Form::ALL {
                let lent = memory_length(&mut rng, &sheet, form);
                check(&sheet, form, lent);
            }
        }
    }

    #[test]
    fn it_looks_at_every_byte() {
        for sheet in damaged() {
            check(&sheet, Form::One, 150);
            check(&sheet, Form::Two, 150);
        }
    }
}
