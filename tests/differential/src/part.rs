//! What is compared: one function of the archive, its corners and its random cases.

use crate::compare::{compare, Case, Difference, Entry, Left};
use crate::tally::{Tally, Wanted};
use reference::generate::Rng;

/// A line of progress stands after this many cases.
const PROGRESS: u64 = 100_000;

pub struct Part {
    pub name: &'static str,
    pub entry: Entry,
    /// The length of an answer memory, and lengths that are refused.
    pub answer_bytes: usize,
    pub wrong_lengths: &'static [usize],
    /// A length for the output memory.
    pub memory_length: fn(&mut Rng, &[u8], Option<u32>) -> usize,
    pub corners: fn() -> Vec<Corner>,
    /// The texts of Note 6, and such with faults at every place.
    pub texts: fn() -> Vec<Texts>,
    /// What a call has left, as the text of a corner has it.
    pub text: fn(&Left) -> Vec<u8>,
    /// Compares one random case; its place among them is given.
    pub random: fn(&mut Rng, u64, &mut Tally) -> Result<(), Difference>,
    pub wanted: Wanted,
}

/// A hand-written case.
pub struct Corner {
    pub lent: usize,
    /// The number that is given, if the entry is given one.
    pub number: Option<u32>,
    pub input: Vec<u8>,
    pub text: Vec<u8>,
}

/// Inputs without an answer beside them: what each gets, the model says.
pub struct Texts {
    /// The bytes lent to each.
    pub lent: usize,
    /// The number that is given with each, if the entry is given one.
    pub number: Option<u32>,
    pub inputs: Vec<Vec<u8>>,
}

impl Part {
    /// Every corner, every text, and then so many random cases.
    pub fn run(&'static self, count: u64, seed: u64) -> Result<Tally, Difference> {
        let mut rng = Rng::new(seed);
        let mut tally = Tally::new(&self.wanted);
        for corner in (self.corners)() {
            self.run_corner(&mut rng, &corner, &mut tally)?;
        }
        self.run_texts(seed, &mut tally)?;
        for place in 0..count {
            if place > 0 && place % PROGRESS == 0 {
                println!("{place} cases");
            }
            (self.random)(&mut rng, place, &mut tally)?;
        }
        Ok(tally)
    }

    /// A corner: as it stands in its table, with the text that the table has, then with random
    /// lengths of memory, and with every wrong length of answer memory.
    fn run_corner(
        &'static self,
        rng: &mut Rng,
        corner: &Corner,
        tally: &mut Tally,
    ) -> Result<(), Difference> {
        let case = self.case(rng, &corner.input, corner.lent, self.answer_bytes);
        let case = case.with_number(corner.number);
        let left = compare(&case)?;
        let found = (self.text)(&left);
        if found != corner.text {
            let (found, wanted) = (found.escape_ascii(), corner.text.escape_ascii());
            return Err(case.differs(format!("the corner has {wanted}, the archive {found}")));
        }
        tally.count_corner(left.returned);
        let again = self.compare_with_number(rng, &corner.input, corner.number)?;
        tally.count_corner(again.returned);
        for &length in self.wrong_lengths {
            let case = self.case(rng, &corner.input, corner.lent, length);
            let case = case.with_number(corner.number);
            tally.count_corner(compare(&case)?.returned);
        }
        Ok(())
    }

    /// Each text once. Their random numbers are their own: the random cases of a seed are the same, however
    /// many texts there are.
    fn run_texts(&'static self, seed: u64, tally: &mut Tally) -> Result<(), Difference> {
        let mut rng = Rng::new(seed);
        for texts in (self.texts)() {
            for input in &texts.inputs {
                let case = self.case(&mut rng, input, texts.lent, self.answer_bytes);
                let left = compare(&case.with_number(texts.number))?;
                tally.count_corner(left.returned);
            }
        }
        Ok(())
    }

    /// These bytes with random lengths of memory.
    pub fn compare_once(&'static self, rng: &mut Rng, input: &[u8]) -> Result<Left, Difference> {
        self.compare_with_number(rng, input, None)
    }

    /// The same with this number, if the entry is given one.
    pub fn compare_with_number(
        &'static self,
        rng: &mut Rng,
        input: &[u8],
        number: Option<u32>,
    ) -> Result<Left, Difference> {
        let lent = (self.memory_length)(rng, input, number);
        let length = if rng.chance(1, 16) {
            rng.pick(self.wrong_lengths)
        } else {
            self.answer_bytes
        };
        compare(&self.case(rng, input, lent, length).with_number(number))
    }

    /// A call on these bytes with memories of these lengths.
    pub fn case(&'static self, rng: &mut Rng, input: &[u8], lent: usize, length: usize) -> Case {
        Case::new(&self.entry, rng, input, lent, length)
    }
}
