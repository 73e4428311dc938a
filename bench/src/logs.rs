//! The exports of the comparison: the same 50 every time.

use crate::sheets::Group;
use reference::generate::log::{export_of, Log};
use reference::generate::Rng;
use reference::model::{MOST_KEYS, MOST_MESSAGES};

const SEED: u64 = 2026;
const COUNT: usize = 50;

/// Full exports: every key, as many messages as there may be, and each number as long as it can be,
/// so 3,121 bytes each.
pub fn full() -> Group {
    let mut rng = Rng::new(SEED);
    let mut full = Group::new("log");
    for _ in 0..COUNT {
        // From -1,000,000,000 down, so ten digits and a sign; the lowest comes too.
        let mut longest = || Some(i32::MIN + rng.below(1_147_483_649) as i32);
        let mut row = || (0..MOST_KEYS).map(|_| longest()).collect();
        let log = Log {
            keys: (0..MOST_KEYS).collect(),
            messages: (0..MOST_MESSAGES).map(|_| row()).collect(),
        };
        full.add(export_of(&log), 0);
    }
    full
}

#[cfg(test)]
mod tests {
    #[test]
    fn no_export_is_longer() {
        let full = super::full();
        assert!(full.texts.iter().all(|export| export.len() == 3_121));
        assert_eq!(full.bytes, 50 * 3_121);
    }
}
