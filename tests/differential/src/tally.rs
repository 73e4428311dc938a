//! How often each number occurred, and how often a case was telling.

use std::collections::BTreeMap;
use std::fmt;

/// What the random cases of a part have to show.
pub struct Wanted {
    /// Every number that must occur.
    pub numbers: &'static [u32],
    /// Every way in which cases must be telling.
    pub tellings: &'static [&'static Telling],
}

/// A way in which a case is telling.
pub struct Telling {
    /// What such a case is, in words that follow a count of cases.
    pub words: &'static str,
    /// Of so many cases that could be telling at least one must be.
    pub one_of: u64,
}

pub struct Tally {
    wanted: &'static Wanted,
    corners: BTreeMap<u32, u64>,
    random: BTreeMap<u32, u64>,
    /// One for each way, in the order of `wanted`.
    shares: Vec<Share>,
}

/// The cases that could be telling in one way, and those that are.
#[derive(Clone, Copy, Default)]
struct Share {
    asked: u64,
    telling: u64,
}

impl Tally {
    pub fn new(wanted: &'static Wanted) -> Tally {
        Tally {
            wanted,
            corners: BTreeMap::new(),
            random: BTreeMap::new(),
            shares: vec![Share::default(); wanted.tellings.len()],
        }
    }

    /// A call on a corner or a text, whatever the lengths of its memories.
    pub fn count_corner(&mut self, returned: u32) {
        *self.corners.entry(returned).or_default() += 1;
    }

    /// A random case.
    pub fn count_random(&mut self, returned: u32) {
        *self.random.entry(returned).or_default() += 1;
    }

    /// A random case that could be telling in a way, and whether it is. A way that the part does not
    /// want would be counted for nothing.
    pub fn count_telling(&mut self, way: &Telling, telling: bool) {
        let same = |wanted: &&Telling| wanted.words == way.words;
        let place = self.wanted.tellings.iter().position(same);
        let share = &mut self.shares[place.expect("the part wants it")];
        share.asked += 1;
        share.telling += u64::from(telling);
    }

    /// Whether the random cases have shown enough. The corners do not count here: they show every
    /// number by themselves, and would hide a generator that misses one.
    pub fn check(&self) -> Result<(), String> {
        for &number in self.wanted.numbers {
            if count(&self.random, number) == 0 {
                return Err(format!("{number} never occurred in a random case"));
            }
        }
        for (way, share) in self.ways() {
            if share.telling == 0 || share.telling * way.one_of < share.asked {
                return Err(format!("only {}", share.of(way)));
            }
        }
        Ok(())
    }

    fn ways(&self) -> impl Iterator<Item = (&Telling, &Share)> {
        let ways = self.wanted.tellings.iter().copied();
        ways.zip(&self.shares)
    }
}

impl Share {
    fn of(&self, way: &Telling) -> String {
        let (telling, asked) = (self.telling, self.asked);
        format!("{telling} of {asked} {}", way.words)
    }
}

fn count(counts: &BTreeMap<u32, u64>, number: u32) -> u64 {
    counts.get(&number).copied().unwrap_or(0)
}

impl fmt::Display for Tally {
    fn fmt(&self, text: &mut fmt::Formatter) -> fmt::Result {
        writeln!(text, "{:>10} {:>10} {:>10}", "number", "corners", "random")?;
        for &number in self.wanted.numbers {
            let (corners, random) = (count(&self.corners, number), count(&self.random, number));
            writeln!(text, "{number:>10} {corners:>10} {random:>10}")?;
        }
        for (way, share) in self.ways() {
            writeln!(text, "{}", share.of(way))?;
        }
        Ok(())
    }
}

#[cfg(test)]
mod tests {
    use super::*;

    static OFTEN: Telling = Telling {
        words: "cases tell",
        one_of: 10,
    };
    static SELDOM: Telling = Telling {
        words: "cases tell more",
        one_of: 300,
    };
    static WANTED: Wanted = Wanted {
        numbers: &[0, 31, 8],
        tellings: &[&OFTEN, &SELDOM],
    };

    /// Corners that show every number, and random cases that show all but one.
    fn numbers(missing: Option<u32>) -> Tally {
        let mut tally = Tally::new(&WANTED);
        for &number in WANTED.numbers {
            tally.count_corner(number);
            if Some(number) != missing {
                tally.count_random(number);
            }
        }
        tally
    }

    fn count_tellings(tally: &mut Tally, way: &Telling, asked: u64, telling: u64) {
        for place in 0..asked {
            tally.count_telling(way, place < telling);
        }
    }

    /// So many of so many cases tell, in each way.
    fn tally(missing: Option<u32>, often: (u64, u64), seldom: (u64, u64)) -> Tally {
        let mut tally = numbers(missing);
        count_tellings(&mut tally, &OFTEN, often.0, often.1);
        count_tellings(&mut tally, &SELDOM, seldom.0, seldom.1);
        tally
    }

    #[test]
    fn each_number_once_and_as_many_telling_cases_as_are_wanted_are_enough() {
        assert_eq!(tally(None, (10, 1), (300, 1)).check(), Ok(()));
        assert_eq!(tally(None, (5_000, 500), (6_000, 20)).check(), Ok(()));
    }

    #[test]
    fn a_number_that_only_the_corners_show_is_missing() {
        for &number in WANTED.numbers {
            let message = format!("{number} never occurred in a random case");
            let tally = tally(Some(number), (10, 1), (300, 1));
            assert_eq!(tally.check(), Err(message));
        }
    }

    #[test]
    fn cases_that_hardly_tell_are_too_few() {
        for (asked, telling) in [(0, 0), (1, 0), (11, 1), (5_000, 0), (5_000, 499)] {
            let message = format!("only {telling} of {asked} cases tell");
            let tally = tally(None, (asked, telling), (300, 1));
            assert_eq!(tally.check(), Err(message));
        }
    }

    #[test]
    fn each_way_has_a_count_and_a_floor_of_its_own() {
        for (asked, telling) in [(0, 0), (1, 0), (301, 1), (6_000, 0), (6_000, 19)] {
            let message = format!("only {telling} of {asked} cases tell more");
            let tally = tally(None, (10, 10), (asked, telling));
            assert_eq!(tally.check(), Err(message));
        }
    }

    #[test]
    fn every_count_is_printed() {
        let printed = tally(None, (10, 4), (300, 7)).to_string();
        assert!(printed.ends_with("\n4 of 10 cases tell\n7 of 300 cases tell more\n"));
    }

    #[test]
    #[should_panic(expected = "the part wants it")]
    fn a_way_that_is_not_wanted_is_not_counted_for_nothing() {
        let other = Telling {
            words: "cases tell something else",
            one_of: 10,
        };
        numbers(None).count_telling(&other, true);
    }
}
