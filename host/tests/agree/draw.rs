//! The seeded generator, and settings from the environment.

use std::io::Write;

/// A number that an environment variable gives.
pub fn setting(name: &str) -> Option<u64> {
    let value = std::env::var(name).ok()?;
    let number = value.parse();
    Some(number.unwrap_or_else(|_| panic!("{name} is no number: {value}")))
}

/// The seed of this run.
pub fn seed() -> u64 {
    setting("RUWEKIHA_SEED").unwrap_or(1)
}

/// Prints a line past the harness, which keeps to itself what passing tests print.
pub fn say(line: String) {
    writeln!(std::io::stderr(), "{line}").expect("stderr is open");
}

/// SplitMix64: small, and the same everywhere.
pub struct Draw(u64);

impl Draw {
    /// The draws of one case under a seed; any case can be drawn by itself.
    pub fn of_case(seed: u64, case: u64) -> Draw {
        let start = Draw(seed).next() ^ Draw(case.wrapping_mul(0xd134_2543_de82_ef95)).next();
        Draw(start)
    }

    pub fn next(&mut self) -> u64 {
        self.0 = self.0.wrapping_add(0x9e37_79b9_7f4a_7c15);
        let mut z = self.0;
        z = (z ^ (z >> 30)).wrapping_mul(0xbf58_476d_1ce4_e5b9);
        z = (z ^ (z >> 27)).wrapping_mul(0x94d0_49bb_1331_11eb);
        z ^ (z >> 31)
    }

    /// From 0 to n - 1.
    pub fn below(&mut self, n: usize) -> usize {
        (self.next() % n as u64) as usize
    }

    /// From a to b, both among them.
    pub fn between(&mut self, a: usize, b: usize) -> usize {
        a + self.below(b - a + 1)
    }

    /// True once in so many times.
    pub fn once_in(&mut self, times: usize) -> bool {
        self.below(times) == 0
    }

    pub fn one_of<T: Copy>(&mut self, choices: &[T]) -> T {
        choices[self.below(choices.len())]
    }

    pub fn bytes(&mut self, n: usize) -> Vec<u8> {
        let mut bytes: Vec<u8> = (0..n.div_ceil(8))
            .flat_map(|_| self.next().to_le_bytes())
            .collect();
        bytes.truncate(n);
        bytes
    }

    /// A byte that is not 0: what changes a byte that it is added to.
    pub fn change(&mut self) -> u8 {
        self.between(1, 255) as u8
    }

    /// The numbers below n in some order.
    pub fn shuffled(&mut self, n: usize) -> Vec<usize> {
        let mut order: Vec<usize> = (0..n).collect();
        for k in (1..n).rev() {
            order.swap(k, self.below(k + 1));
        }
        order
    }
}
