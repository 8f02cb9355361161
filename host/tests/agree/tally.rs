//! How often each number of each function was seen, and each way of making an input.

use std::collections::BTreeMap;
use std::fmt;

/// The numbers that document 01 and the header let each function give.
pub const ALLOWED: [(&str, &[u32]); 8] = [
    ("cut", &[0, 1, 2, 3, 4]),
    ("cut_standard", &[0, 2, 3, 4]),
    ("card_size", &[0, 2]),
    ("check", &[0, 5, 6, 7, 8, 9, 10, 11, 12]),
    ("open", &[0, 5, 6, 7, 8, 9, 10, 11, 12]),
    ("join", &[0, 4, 5, 6, 7, 13, 14]),
    ("sha256", &[0, 2, 4]),
    ("fingerprint", &[0, 2, 3, 4]),
];

#[derive(Default)]
pub struct Tally {
    numbers: BTreeMap<(&'static str, u32), u64>,
    ways: BTreeMap<(&'static str, &'static str), u64>,
}

impl Tally {
    pub fn add(&mut self, function: &'static str, way: &'static str, number: u32) {
        *self.numbers.entry((function, number)).or_default() += 1;
        *self.ways.entry((function, way)).or_default() += 1;
    }

    pub fn merge(&mut self, other: Tally) {
        for (key, count) in other.numbers {
            *self.numbers.entry(key).or_default() += count;
        }
        for (key, count) in other.ways {
            *self.ways.entry(key).or_default() += count;
        }
    }

    pub fn calls(&self) -> u64 {
        self.numbers.values().sum()
    }

    fn count(&self, function: &'static str, number: u32) -> u64 {
        self.numbers.get(&(function, number)).copied().unwrap_or(0)
    }

    /// Every number that a function may give was seen at least so often, and no other.
    pub fn assert_covered(&self, at_least: u64) {
        for (function, numbers) in ALLOWED {
            for &number in numbers {
                let count = self.count(function, number);
                assert!(
                    count >= at_least,
                    "{function} gave {number} only {count} times"
                );
            }
        }
        let expected: usize = ALLOWED.iter().map(|(_, numbers)| numbers.len()).sum();
        assert_eq!(
            self.numbers.len(),
            expected,
            "a function gave a number that it may not"
        );
    }

    /// Each of these ways of calling a function was gone.
    pub fn assert_gone(&self, function: &'static str, ways: impl Iterator<Item = &'static str>) {
        for way in ways {
            assert!(
                self.ways.contains_key(&(function, way)),
                "{function}: never {way}"
            );
        }
    }
}

impl fmt::Display for Tally {
    fn fmt(&self, f: &mut fmt::Formatter) -> fmt::Result {
        for (function, numbers) in ALLOWED {
            let seen = |&n| format!("{n}: {}", self.count(function, n));
            let seen: Vec<String> = numbers.iter().map(seen).collect();
            writeln!(f, "  {function:<12} {}", seen.join(", "))?;
        }
        write!(f, "  {} ways of making an input", self.ways.len())
    }
}
