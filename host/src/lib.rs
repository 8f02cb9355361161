//! Ruwekiha for Rust: cut a block into n fragment records and a check record so that any m of the records give it back, check one
//! record by itself, join the block.
//!
//! The functions are the proved ones of the archive that `host/archive` writes. No call asks anything of its caller: whatever
//! the bytes and numbers are, an answer comes back, and on a refusal each lent buffer holds what it held. [`raw`] gives the same
//! answers as document 01's plain numbers; [`second`] is another implementation, to hold them against.
//!
//! ```
//! let (block, number, seed) = ([1, 2, 3, 4, 5, 6], 7, 256);
//! let size = ruwekiha::record_length(block.len(), 2);
//! let (mut records, mut check) = (vec![0; 4 * size], vec![0; ruwekiha::check_length(2, 4)]);
//! ruwekiha::cut(2, 4, seed, number, &block, &mut records, &mut check).unwrap();
//! let mut joined = [0; 6];
//! ruwekiha::join(number, &check, &records[2 * size..], &mut joined).unwrap();
//! assert_eq!(joined, block);
//! ```

mod answers;
pub mod raw;
pub mod second;

pub use answers::{Counts, NotJoined, Reason, Refusal, Verdict};

/// The counts of the standard setting: any 8 of 12.
pub const STANDARD_M: u32 = 8;
pub const STANDARD_N: u32 = 12;

/// How long each fragment record of a block of `length` bytes is, cut for any m of them. No cut takes an m of 0.
pub const fn record_length(length: usize, m: u32) -> usize {
    let stripe = if m == 0 { 3 } else { 3 * m as usize };
    18 + 3 * length.div_ceil(stripe)
}

/// How long a check record is.
pub const fn check_length(m: u32, n: u32) -> usize {
    22 + 32 * n as usize + 3 * m as usize
}

/// Cuts a block for n heads. `fragments` has n times [`record_length`] bytes and gets the records in the order of their indexes;
/// `check` has [`check_length`] bytes.
pub fn cut(
    m: u32,
    n: u32,
    seed: u32,
    number: u64,
    block: &[u8],
    fragments: &mut [u8],
    check: &mut [u8],
) -> Result<(), Refusal> {
    Refusal::or_done(raw::cut(m, n, seed, number, block, fragments, check))
}

/// Cuts a block in the standard setting.
pub fn cut_standard(
    seed: u32,
    number: u64,
    block: &[u8],
    fragments: &mut [u8],
    check: &mut [u8],
) -> Result<(), Refusal> {
    Refusal::or_done(raw::cut_standard(seed, number, block, fragments, check))
}

/// How many bytes a card has to hold for a block of `length` bytes in the standard setting.
pub fn card_size(length: u64) -> Result<u64, Refusal> {
    let mut size = 0;
    Refusal::or_done(raw::card_size(length, &mut size)).map(|()| size)
}

/// Checks one fragment record of the wanted block against its check record.
pub fn check(wanted: u64, check: &[u8], record: &[u8]) -> Verdict {
    let mut value = 0;
    let number = raw::check(wanted, check, record, &mut value);
    Verdict::of(number, value)
}

/// The body of an accepted record, as a part of it; [`check`] tells more about a refused one.
pub fn open<'a>(wanted: u64, check: &[u8], record: &'a [u8]) -> Result<&'a [u8], Refusal> {
    let (mut start, mut length) = (0, 0);
    let number = raw::open(wanted, check, record, &mut start, &mut length);
    Refusal::or_done(number).map(|()| &record[start as usize..][..length as usize])
}

/// Joins the wanted block from at most n records end to end. `out` has exactly the block's length.
pub fn join(
    wanted: u64,
    check: &[u8],
    records: &[u8],
    out: &mut [u8],
) -> Result<Counts, NotJoined> {
    let (mut read, mut indexes) = (0, 0);
    let number = raw::join(wanted, check, records, out, &mut read, &mut indexes);
    let counts = Counts { read, indexes };
    match Refusal::or_done(number) {
        Ok(()) => Ok(counts),
        Err(refusal) => Err(NotJoined { refusal, counts }),
    }
}

/// The SHA-256 of a body of at most 65,538 bytes.
pub fn sha256(body: &[u8]) -> Result<[u8; 32], Refusal> {
    let mut digest = [0; 32];
    Refusal::or_done(raw::sha256(body, &mut digest)).map(|()| digest)
}

/// The fingerprint at a seed of a body of at most 65,538 bytes, a multiple of 3.
pub fn fingerprint(seed: u32, body: &[u8]) -> Result<[u8; 3], Refusal> {
    let mut column = [0; 3];
    Refusal::or_done(raw::fingerprint(seed, body, &mut column)).map(|()| column)
}
