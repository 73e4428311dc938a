//! The programs with blocks of the comparison: the same 50 every time.

use crate::sheets::Group;
use reference::generate::blocks::{program_of, Shape};
use reference::generate::Rng;
use reference::model::MOST_COMMANDS;

const SEED: u64 = 2026;
const COUNT: usize = 50;
/// The K that is given with each: none has a key that is beyond it.
pub const KEYS: u32 = 8;

/// Programs that give 64 commands, as many as there may be; every second one has most of them in blocks
/// in blocks.
pub fn full() -> Group {
    let mut rng = Rng::new(SEED);
    let mut full = Group::new("blocks");
    for place in 0..COUNT {
        let shape = [Shape::Full, Shape::Deep][place % 2];
        full.add(program_of(&mut rng, shape, MOST_COMMANDS).text, 0);
    }
    full
}

#[cfg(test)]
mod tests {
    use reference::blocks::translated;

    #[test]
    fn all_are_accepted_and_have_64_commands() {
        for text in super::full().texts {
            let commands = translated(&text, super::KEYS).expect("it is accepted");
            assert_eq!(commands.len(), 64);
        }
    }
}
