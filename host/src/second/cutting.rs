//! Cutting a block, with any counts and with the standard ones, and the card-size planner.

use super::code::{body_length, combine};
use super::columns::{fingerprint, of_seed, Column};
use super::records::{check_length, counts_fit, fragment_head, Check};
use super::{Second, LARGEST_SEED, LONGEST_BLOCK};

/// The standard setting.
pub const STANDARD: (u32, u32) = (8, 12);

impl Second {
    /// 1, 2, 3 or 4 with both buffers as they were, or 0 with the records in one and the check record in the other.
    pub fn cut(
        &self,
        (m, n): (u32, u32),
        seed: u32,
        number: u64,
        block: &[u8],
        fragments: &mut [u8],
        check: &mut [u8],
    ) -> u32 {
        if !counts_fit(m, n) {
            return 1;
        }
        if block.len() > LONGEST_BLOCK {
            return 2;
        }
        if seed > LARGEST_SEED {
            return 3;
        }
        let (m, n) = (m as usize, n as usize);
        let size = body_length(block.len(), m);
        if fragments.len() != n * (18 + size) || check.len() != check_length(m, n) {
            return 4;
        }
        self.write_records(m, n, number, block, fragments);
        let bodies: Vec<&[u8]> = fragments.chunks(18 + size).map(|r| &r[18..]).collect();
        let record = self.check_of(m, of_seed(seed), number, block.len(), &bodies);
        check.copy_from_slice(&record);
        0
    }

    pub fn cut_standard(
        &self,
        seed: u32,
        number: u64,
        block: &[u8],
        fragments: &mut [u8],
        check: &mut [u8],
    ) -> u32 {
        self.cut(STANDARD, seed, number, block, fragments, check)
    }

    /// The records of this block, of whatever length.
    pub fn write_records(&self, m: usize, n: usize, number: u64, block: &[u8], out: &mut [u8]) {
        let size = body_length(block.len(), m);
        let mut padded = block.to_vec();
        padded.resize(m * size, 0);
        let first: Vec<&[u8]> = (0..m).map(|j| &padded[j * size..][..size]).collect();
        let plain = self.plain(m);
        for (i, record) in out.chunks_mut(18 + size).enumerate().take(n) {
            let (head, body) = record.split_at_mut(18);
            head.copy_from_slice(&fragment_head(number, i, size));
            if i < m {
                body.copy_from_slice(first[i]);
            } else {
                let row = plain.row(&self.products, i as u8);
                combine(&self.products, &row, &first, body);
            }
        }
    }

    /// The check record of these bodies, whatever they are.
    pub fn check_of(
        &self,
        m: usize,
        seed: Column,
        number: u64,
        length: usize,
        bodies: &[&[u8]],
    ) -> Vec<u8> {
        let hashes: Vec<[u8; 32]> = bodies.iter().map(|b| self.hash.digest(b)).collect();
        let print = |b: &&[u8]| fingerprint(&self.products, seed, b);
        let check = Check {
            number,
            length,
            m,
            n: bodies.len(),
            seed,
            hashes: hashes.iter().map(|h| &h[..]).collect(),
            prints: bodies[..m].iter().map(print).collect(),
        };
        check.write()
    }

    /// The number and 18 + F in the standard setting, or 2 and 0.
    pub fn card_size(&self, length: u64) -> (u32, u64) {
        if length > LONGEST_BLOCK as u64 {
            return (2, 0);
        }
        (
            0,
            18 + body_length(length as usize, STANDARD.0 as usize) as u64,
        )
    }
}

#[cfg(test)]
mod tests {
    use super::Second;

    /// Document 01's worked block: 01 to 06 at 2 of 4.
    #[test]
    fn worked_block() {
        let (mut records, mut check) = ([0; 84], [0; 156]);
        let block = [1, 2, 3, 4, 5, 6];
        let number = Second::new().cut((2, 4), 256, 7, &block, &mut records, &mut check);
        assert_eq!(number, 0);
        let bodies: Vec<&[u8]> = records.chunks(21).map(|r| &r[18..]).collect();
        let expected = [[1, 2, 3], [4, 5, 6], [0x0b, 0x0c, 0x09], [0x0e, 0x0b, 0x0c]];
        assert_eq!(bodies, expected);
    }
}
