//! The two records, taken apart and put together field by field, from the front.

use super::code::body_length;
use super::columns::Column;
use super::{LONGEST_BLOCK, MOST};

pub struct Check<'a> {
    pub number: u64,
    pub length: usize,
    pub m: usize,
    pub n: usize,
    pub seed: Column,
    pub hashes: Vec<&'a [u8]>,
    pub prints: Vec<Column>,
}

/// The length of a check record.
pub fn check_length(m: usize, n: usize) -> usize {
    22 + 32 * n + 3 * m
}

/// m from 1 to n, n from 1 to 64.
pub fn counts_fit(m: u32, n: u32) -> bool {
    (1..=MOST as u32).contains(&n) && (1..=n).contains(&m)
}

/// Splits a big-endian number of so many bytes off the front.
fn number(rest: &mut &[u8], bytes: usize) -> u64 {
    let (field, behind) = rest.split_at(bytes);
    *rest = behind;
    field.iter().fold(0, |n, &b| n << 8 | b as u64)
}

impl<'a> Check<'a> {
    /// The check record, or 5 or 6.
    pub fn read(record: &'a [u8]) -> Result<Check<'a>, u32> {
        let mut rest = record.strip_prefix(b"LCK").ok_or(5u32)?;
        if rest.len() < 2 || number(&mut rest, 2) != 1 {
            return Err(5);
        }
        if record.len() < 22 {
            return Err(6);
        }
        let block = number(&mut rest, 8);
        let length = number(&mut rest, 4) as usize;
        let (m, n) = (number(&mut rest, 1), number(&mut rest, 1));
        if !counts_fit(m as u32, n as u32) || length > LONGEST_BLOCK {
            return Err(6);
        }
        let (m, n) = (m as usize, n as usize);
        if record.len() != check_length(m, n) {
            return Err(6);
        }
        let (seed, rest) = rest.split_at(3);
        let (hashes, prints) = rest.split_at(32 * n);
        Ok(Check {
            number: block,
            length,
            m,
            n,
            seed: seed.try_into().unwrap(),
            hashes: hashes.chunks(32).collect(),
            prints: prints.chunks(3).map(|c| c.try_into().unwrap()).collect(),
        })
    }

    /// The check record of the wanted block, or 5, 6 or 7.
    pub fn wanted(wanted: u64, record: &'a [u8]) -> Result<Check<'a>, u32> {
        let check = Check::read(record)?;
        if check.number == wanted {
            Ok(check)
        } else {
            Err(7)
        }
    }

    pub fn write(&self) -> Vec<u8> {
        let mut out = b"LCK\0\x01".to_vec();
        out.extend(self.number.to_be_bytes());
        out.extend((self.length as u32).to_be_bytes());
        out.extend([self.m as u8, self.n as u8]);
        out.extend(self.seed);
        out.extend(self.hashes.concat());
        out.extend(self.prints.concat());
        out
    }

    /// F.
    pub fn size(&self) -> usize {
        body_length(self.length, self.m)
    }
}

pub struct Fragment<'a> {
    pub number: u64,
    pub index: usize,
    pub body: &'a [u8],
}

impl<'a> Fragment<'a> {
    /// The fragment record with a body of `size` bytes, or 8.
    pub fn read(record: &'a [u8], size: usize) -> Result<Fragment<'a>, u32> {
        let mut rest = record.strip_prefix(b"LFR").ok_or(8u32)?;
        if record.len() < 18 || number(&mut rest, 2) != 1 {
            return Err(8);
        }
        let block = number(&mut rest, 8);
        let index = number(&mut rest, 1) as usize;
        if number(&mut rest, 4) != size as u64 || rest.len() != size {
            return Err(8);
        }
        Ok(Fragment {
            number: block,
            index,
            body: rest,
        })
    }
}

/// What stands before the body.
pub fn fragment_head(number: u64, index: usize, size: usize) -> Vec<u8> {
    let mut out = b"LFR\0\x01".to_vec();
    out.extend(number.to_be_bytes());
    out.push(index as u8);
    out.extend((size as u32).to_be_bytes());
    out
}
