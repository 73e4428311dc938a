//! The sheets that are turned into the other form: the same 50 every time, there and back.

use crate::records::opened;
use crate::sheets::Group;
use pavebox::FORM_ANSWER_BYTES;
use reference::forms;
use reference::model::Form;

/// The sheets of the full records of form 1, and those of form 2 that they become.
pub fn turned(form: Form) -> Group {
    let old = opened(Form::One);
    let mut turned = Group::of_form(form, "turned");
    for sheet in old.texts {
        let sheet = match form {
            Form::One => sheet,
            Form::Two => forms::turned(&sheet, Form::Two).expect("a sheet of form 1 can be turned"),
        };
        turned.add(sheet, 0);
    }
    turned
}

/// An entry of the archive that turns a sheet.
type Entry = fn(&[u8], &mut [u8], &mut [u8]) -> u32;

/// What an entry answers: the three numbers.
pub fn called(entry: Entry, sheet: &[u8], output: &mut [u8]) -> [u32; 3] {
    let mut answer = [0; FORM_ANSWER_BYTES];
    entry(sheet, output, &mut answer);
    let number = |place: usize| {
        let four = [0, 1, 2, 3].map(|behind| answer[4 * place + behind]);
        u32::from_le_bytes(four)
    };
    [0, 1, 2].map(number)
}

#[cfg(test)]
mod tests {
    use super::Form;
    use reference::forms;

    #[test]
    fn each_becomes_the_other_and_has_eight_secrets() {
        let [old, new] = Form::ALL.map(super::turned);
        assert_eq!((old.texts.len(), new.texts.len()), (50, 50));
        assert_eq!(old.bytes + 50 * 8 * 2, new.bytes);
        for (old, new) in old.texts.iter().zip(&new.texts) {
            assert_eq!(forms::turned(old, Form::Two).as_ref(), Ok(new));
            assert_eq!(forms::turned(new, Form::One).as_ref(), Ok(old));
        }
    }
}
