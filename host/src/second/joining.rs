//! Joining a block from any m of its records.

use super::code::{combine, Basis};
use super::records::{Check, Fragment};
use super::Second;

/// What a join answers: the number, the records read, and the different indexes accepted.
pub type Joined = (u32, u64, u64);

impl Second {
    pub fn join(&self, wanted: u64, check: &[u8], records: &[u8], out: &mut [u8]) -> Joined {
        let check = match Check::wanted(wanted, check) {
            Ok(check) => check,
            Err(reason) => return (reason, 0, 0),
        };
        let stride = 18 + check.size();
        let (count, over) = (records.len() / stride, records.len() % stride);
        if out.len() != check.length || over != 0 || count > check.n {
            return (4, 0, 0);
        }
        let (used, read) = self.first_usable(&check, records);
        let indexes = used.len() as u64;
        if used.len() < check.m {
            return (13, read, indexes);
        }
        let block = self.padded_block(&used, check.size());
        let (block, fill) = block.split_at(check.length);
        if fill.iter().any(|&b| b != 0) {
            return (14, read, indexes);
        }
        out.copy_from_slice(block);
        (0, read, indexes)
    }

    /// The first m accepted fragments with different indexes, or all that there are, and how many records were read for them.
    fn first_usable<'a>(&self, check: &Check, records: &'a [u8]) -> (Vec<Fragment<'a>>, u64) {
        let mut used: Vec<Fragment> = Vec::new();
        let mut read = 0;
        for record in records.chunks(18 + check.size()) {
            if used.len() == check.m {
                break;
            }
            read += 1;
            match self.judge(check, record) {
                Ok(new) if used.iter().all(|old| old.index != new.index) => used.push(new),
                _ => {}
            }
        }
        (used, read)
    }

    /// Bodies 0 to m - 1, end to end, from any m.
    fn padded_block(&self, used: &[Fragment], size: usize) -> Vec<u8> {
        let points: Vec<u8> = used.iter().map(|f| f.index as u8).collect();
        let bodies: Vec<&[u8]> = used.iter().map(|f| f.body).collect();
        let basis = Basis::new(&self.products, &points);
        let mut padded = vec![0; used.len() * size];
        // With empty bodies there is nothing to put together, and no part of length 0 to ask for.
        for (t, body) in padded.chunks_mut(size.max(1)).enumerate() {
            let row = basis.row(&self.products, t as u8);
            combine(&self.products, &row, &bodies, body);
        }
        padded
    }
}

#[cfg(test)]
mod tests {
    use super::Second;

    /// Document 01's worked block, joined from its last two records; from one of them twice; from none.
    #[test]
    fn worked_block() {
        let second = Second::new();
        let (mut records, mut check, mut out) = ([0; 84], [0; 156], [9; 6]);
        let block = [1, 2, 3, 4, 5, 6];
        second.cut((2, 4), 256, 7, &block, &mut records, &mut check);
        let twice = records[63..].repeat(2);
        assert_eq!(second.join(7, &check, &twice, &mut out), (13, 2, 1));
        assert_eq!(second.join(7, &check, &[], &mut out), (13, 0, 0));
        assert_eq!(out, [9; 6]);
        assert_eq!(second.join(7, &check, &records[42..], &mut out), (0, 2, 2));
        assert_eq!(out, block);
    }
}
