//! A block that was cut: what the damaged inputs are made of.

use crate::calls::{Caller, Cut, Way};
use crate::draw::Draw;
use ruwekiha::second::code::body_length;
use ruwekiha::second::columns::Column;
use ruwekiha::second::records::check_length;
use ruwekiha::second::Second;

pub struct Scene {
    pub m: usize,
    pub n: usize,
    pub seed: u32,
    pub number: u64,
    pub block: Vec<u8>,
    /// F.
    pub size: usize,
    pub check: Vec<u8>,
    pub records: Vec<Vec<u8>>,
}

impl Scene {
    /// Cuts a drawn block on both sides.
    pub fn draw(draw: &mut Draw, caller: &mut Caller) -> Scene {
        let (m, n, length) = shape(draw);
        let block = block(draw, length);
        Scene::of(caller, (m, n), seed(draw), number(draw), block)
    }

    pub fn of(
        caller: &mut Caller,
        (m, n): (usize, usize),
        seed: u32,
        number: u64,
        block: Vec<u8>,
    ) -> Scene {
        let asked = asked((m, n), seed, number, block);
        let mut outcome = caller.cut(Way("honest", Some(0)), &asked);
        let check = outcome.buffers.pop().unwrap();
        let size = body_length(asked.block.len(), m);
        let records = outcome.buffers[0]
            .chunks(18 + size)
            .map(<[u8]>::to_vec)
            .collect();
        Scene {
            m,
            n,
            seed,
            number,
            block: asked.block,
            size,
            check,
            records,
        }
    }

    /// The same of another block, by the second implementation alone, so that the block may be longer than a cut takes.
    pub fn with_block(&self, second: &Second, block: Vec<u8>) -> Scene {
        let size = body_length(block.len(), self.m);
        let mut records = vec![0; self.n * (18 + size)];
        second.write_records(self.m, self.n, self.number, &block, &mut records);
        let records: Vec<Vec<u8>> = records.chunks(18 + size).map(<[u8]>::to_vec).collect();
        let bodies: Vec<&[u8]> = records.iter().map(|r| &r[18..]).collect();
        let (seed, length) = (self.seed_column(), block.len());
        let check = second.check_of(self.m, seed, self.number, length, &bodies);
        Scene {
            block,
            size,
            check,
            records,
            ..*self
        }
    }

    pub fn body(&self, index: usize) -> &[u8] {
        &self.records[index][18..]
    }

    /// Where a hash stands in the check record.
    pub fn hash_place(&self, index: usize) -> usize {
        22 + 32 * index
    }

    /// Where a fingerprint stands in the check record.
    pub fn print_place(&self, index: usize) -> usize {
        22 + 32 * self.n + 3 * index
    }

    pub fn seed_column(&self) -> Column {
        self.check[19..22].try_into().unwrap()
    }
}

/// A cut that is done.
pub fn asked((m, n): (usize, usize), seed: u32, number: u64, block: Vec<u8>) -> Cut {
    Cut {
        m: m as u32,
        n: n as u32,
        seed,
        number,
        fragments_len: n * (18 + body_length(block.len(), m)),
        check_len: check_length(m, n),
        block,
    }
}

/// Counts and a length; mostly few and short, so that most of the time goes into different inputs and not into long ones.
fn shape(draw: &mut Draw) -> (usize, usize, usize) {
    loop {
        let (m, n) = counts(draw);
        let length = length(draw, m);
        // A long block in many long bodies is a hundred times the usual work: now and then.
        if n * body_length(length, m) < 300_000 || draw.once_in(20) {
            return (m, n, length);
        }
    }
}

fn counts(draw: &mut Draw) -> (usize, usize) {
    let n = match draw.below(20) {
        0 => draw.one_of(&[1, 2, 63, 64]),
        1 => draw.between(1, 64),
        2..=3 => draw.between(1, 24),
        4..=6 => return (8, 12),
        _ => draw.between(1, 7),
    };
    let m = match draw.below(6) {
        0 => 1,
        1 => n,
        _ => draw.between(1, n),
    };
    (m, n)
}

fn length(draw: &mut Draw, m: usize) -> usize {
    match draw.below(100) {
        0 => draw.one_of(&[65_536, 65_535, 65_534, longest_whole(m)]),
        1 => draw.below(65_537),
        2..=6 => draw.below(9_000),
        7..=24 => draw.below(1_200),
        25..=29 => 0,
        // Around whole stripes, where F steps and the fill is empty or full.
        30..=59 => (3 * m * draw.between(1, 3) + draw.below(3)).saturating_sub(1),
        _ => draw.below(100),
    }
}

/// The longest block with no fill.
fn longest_whole(m: usize) -> usize {
    65_536 / (3 * m) * (3 * m)
}

/// Random bytes, or all alike, or random with zeros at the end.
fn block(draw: &mut Draw, length: usize) -> Vec<u8> {
    match draw.below(10) {
        0 => vec![draw.one_of(&[0, 1, 0xff]); length],
        1 => {
            let mut block = draw.bytes(length);
            block[length / 2..].fill(0);
            block
        }
        _ => draw.bytes(length),
    }
}

pub fn seed(draw: &mut Draw) -> u32 {
    match draw.below(3) {
        0 => draw.one_of(&[0, 1, 255, 256, 65_535, 65_536, 16_777_214, 16_777_215]),
        _ => draw.below(1 << 24) as u32,
    }
}

pub fn number(draw: &mut Draw) -> u64 {
    match draw.below(3) {
        0 => draw.one_of(&[0, 1, 7, 1 << 32, 1 << 63, u32::MAX as u64, u64::MAX]),
        _ => draw.next(),
    }
}
