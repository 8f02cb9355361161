//! Each function called on both sides with the same input, and everything that comes back compared.

use crate::draw::Draw;
use crate::guarded::{Guarded, GuardedWord};
use crate::tally::Tally;
use ruwekiha::raw;
use ruwekiha::second::Second;

/// How an input was made, and the number that it must give where that is known.
#[derive(Clone, Copy, Debug)]
pub struct Way(pub &'static str, pub Option<u32>);

/// The number, the values beside it, and the final bytes of each lent buffer that may be written.
pub struct Outcome {
    pub number: u32,
    pub values: Vec<u64>,
    pub buffers: Vec<Vec<u8>>,
}

pub struct Caller<'a> {
    pub second: &'a Second,
    pub tally: Tally,
    /// Where buffers lie and what they hold before.
    draw: Draw,
}

/// A cut of either side, as a function of its three slices.
type Cutter<'f> = &'f dyn Fn(&[u8], &mut [u8], &mut [u8]) -> u32;

/// A hash or a fingerprint of either side.
type Summary<'f> = &'f dyn Fn(&[u8], &mut [u8]) -> u32;

/// What a cut is asked for.
#[derive(Clone, Debug)]
pub struct Cut {
    pub m: u32,
    pub n: u32,
    pub seed: u32,
    pub number: u64,
    pub block: Vec<u8>,
    pub fragments_len: usize,
    pub check_len: usize,
}

impl<'a> Caller<'a> {
    pub fn new(second: &'a Second, draw: Draw) -> Caller<'a> {
        let tally = Tally::default();
        Caller {
            second,
            tally,
            draw,
        }
    }

    fn lend(&mut self, bytes: &[u8]) -> Guarded {
        Guarded::new(bytes, self.draw.next() as usize)
    }

    /// A buffer to be written, with bytes in it that show whether it was.
    fn room(&mut self, length: usize) -> Vec<u8> {
        let start = self.draw.below(1 << 32);
        (start..start + length)
            .map(|k| (k as u8).wrapping_mul(41) ^ (k >> 8) as u8)
            .collect()
    }

    /// Ends a call: the lent inputs are as they were, the two outcomes the same, and the number is the one aimed at.
    fn settle(
        &mut self,
        function: &'static str,
        Way(name, aim): Way,
        inputs: Vec<(Guarded, &[u8])>,
        [proved, second]: [Outcome; 2],
    ) -> Outcome {
        for (lent, before) in inputs {
            assert_eq!(
                lent.back(),
                before,
                "{function}, {name}: an input was written"
            );
        }
        if let Some(difference) = proved.difference(&second) {
            panic!("{function}, {name}: {difference}");
        }
        if let Some(number) = aim {
            assert_eq!(proved.number, number, "{function}, {name}: aimed at right");
        }
        self.tally.add(function, name, proved.number);
        proved
    }

    pub fn cut(&mut self, way: Way, c: &Cut) -> Outcome {
        let (m, n, seed, number, second) = (c.m, c.n, c.seed, c.number, self.second);
        let proved: Cutter = &|b, f, k| raw::cut(m, n, seed, number, b, f, k);
        let other: Cutter = &|b, f, k| second.cut((m, n), seed, number, b, f, k);
        self.cut_by("cut", way, c, [proved, other])
    }

    /// The counts in what is asked for are not looked at.
    pub fn cut_standard(&mut self, way: Way, c: &Cut) -> Outcome {
        let (seed, number, second) = (c.seed, c.number, self.second);
        let proved: Cutter = &|b, f, k| raw::cut_standard(seed, number, b, f, k);
        let other: Cutter = &|b, f, k| second.cut_standard(seed, number, b, f, k);
        self.cut_by("cut_standard", way, c, [proved, other])
    }

    fn cut_by(&mut self, function: &'static str, way: Way, c: &Cut, by: [Cutter; 2]) -> Outcome {
        let (mut records, mut check) = (self.room(c.fragments_len), self.room(c.check_len));
        let block = self.lend(&c.block);
        let (mut r, mut k) = (self.lend(&records), self.lend(&check));
        let number = by[0](block.lent(), r.lent_mut(), k.lent_mut());
        let proved = Outcome::new(number, [], [r.back(), k.back()]);
        let number = by[1](&c.block, &mut records, &mut check);
        let second = Outcome::new(number, [], [records, check]);
        self.settle(function, way, vec![(block, &c.block)], [proved, second])
    }

    pub fn card_size(&mut self, way: Way, length: u64) -> Outcome {
        let mut size = GuardedWord::new();
        let number = raw::card_size(length, size.lent());
        let proved = Outcome::new(number, [size.back()], []);
        let (number, size) = self.second.card_size(length);
        let second = Outcome::new(number, [size], []);
        self.settle("card_size", way, vec![], [proved, second])
    }

    pub fn check(&mut self, way: Way, wanted: u64, check: &[u8], record: &[u8]) -> Outcome {
        let (c, r, mut value) = (self.lend(check), self.lend(record), GuardedWord::new());
        let number = raw::check(wanted, c.lent(), r.lent(), value.lent());
        let proved = Outcome::new(number, [value.back()], []);
        let (number, value) = self.second.check(wanted, check, record);
        let second = Outcome::new(number, [value], []);
        self.settle(
            "check",
            way,
            vec![(c, check), (r, record)],
            [proved, second],
        )
    }

    pub fn open(&mut self, way: Way, wanted: u64, check: &[u8], record: &[u8]) -> Outcome {
        let (c, r) = (self.lend(check), self.lend(record));
        let (mut start, mut length) = (GuardedWord::new(), GuardedWord::new());
        let number = raw::open(wanted, c.lent(), r.lent(), start.lent(), length.lent());
        let proved = Outcome::new(number, [start.back(), length.back()], []);
        let (number, start, length) = self.second.open(wanted, check, record);
        let second = Outcome::new(number, [start, length], []);
        self.settle("open", way, vec![(c, check), (r, record)], [proved, second])
    }

    pub fn join(
        &mut self,
        way: Way,
        wanted: u64,
        check: &[u8],
        records: &[u8],
        length: usize,
    ) -> Outcome {
        let before = self.room(length);
        let (c, r, mut o) = (self.lend(check), self.lend(records), self.lend(&before));
        let (mut read, mut indexes) = (GuardedWord::new(), GuardedWord::new());
        let (i, x) = (read.lent(), indexes.lent());
        let number = raw::join(wanted, c.lent(), r.lent(), o.lent_mut(), i, x);
        let proved = Outcome::new(number, [read.back(), indexes.back()], [o.back()]);
        let mut out = before;
        let (number, read, indexes) = self.second.join(wanted, check, records, &mut out);
        let second = Outcome::new(number, [read, indexes], [out]);
        self.settle(
            "join",
            way,
            vec![(c, check), (r, records)],
            [proved, second],
        )
    }

    pub fn sha256(&mut self, way: Way, body: &[u8], length: usize) -> Outcome {
        let second = self.second;
        let other: Summary = &|b, d| second.sha256(b, d);
        self.summary_by("sha256", way, body, length, [&raw::sha256, other])
    }

    pub fn fingerprint(&mut self, way: Way, seed: u32, body: &[u8], length: usize) -> Outcome {
        let second = self.second;
        let proved: Summary = &|b, c| raw::fingerprint(seed, b, c);
        let other: Summary = &|b, c| second.fingerprint(seed, b, c);
        self.summary_by("fingerprint", way, body, length, [proved, other])
    }

    fn summary_by(
        &mut self,
        function: &'static str,
        way: Way,
        body: &[u8],
        length: usize,
        by: [Summary; 2],
    ) -> Outcome {
        let mut result = self.room(length);
        let (b, mut r) = (self.lend(body), self.lend(&result));
        let number = by[0](b.lent(), r.lent_mut());
        let proved = Outcome::new(number, [], [r.back()]);
        let number = by[1](body, &mut result);
        let second = Outcome::new(number, [], [result]);
        self.settle(function, way, vec![(b, body)], [proved, second])
    }
}

impl Outcome {
    pub fn new<const V: usize, const B: usize>(
        number: u32,
        values: [u64; V],
        buffers: [Vec<u8>; B],
    ) -> Outcome {
        let (values, buffers) = (values.into(), buffers.into());
        Outcome {
            number,
            values,
            buffers,
        }
    }

    /// In few words where what the second implementation gave differs from this.
    fn difference(&self, second: &Outcome) -> Option<String> {
        let (ours, theirs) = ((self.number, &self.values), (second.number, &second.values));
        if ours != theirs {
            return Some(format!("proved {ours:?}, second {theirs:?}"));
        }
        for (k, (a, b)) in self.buffers.iter().zip(&second.buffers).enumerate() {
            if a != b {
                let place = a.iter().zip(b).position(|(x, y)| x != y);
                return Some(format!("buffer {k} of {} bytes from {place:?} on", a.len()));
            }
        }
        None
    }
}
