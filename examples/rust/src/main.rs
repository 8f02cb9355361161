//! Cuts a block for twelve heads, checks one fragment, loses four, and joins the block from the other eight.
//!
//! At the top of the repository, after `host/archive`:
//!
//!     cargo run --release --manifest-path examples/rust/Cargo.toml

use ruwekiha::{Counts, Reason, Verdict};
use std::error::Error;

const HEADS: usize = ruwekiha::STANDARD_N as usize;
const CHECK: usize = ruwekiha::check_length(ruwekiha::STANDARD_M, ruwekiha::STANDARD_N);
const SEED: u32 = 1_234_567;
const NUMBER: u64 = 7;

fn main() -> Result<(), Box<dyn Error>> {
    let block: Vec<u8> = (0..100u32).map(|k| (k * k + 17) as u8).collect();
    let size = ruwekiha::card_size(block.len() as u64)? as usize;
    let (mut records, mut check) = (vec![0; HEADS * size], [0; CHECK]);
    ruwekiha::cut_standard(SEED, NUMBER, &block, &mut records, &mut check)?;
    println!(
        "a block of {} bytes: {HEADS} records of {size} bytes, a check record of {CHECK}",
        block.len()
    );
    check_one(&check, &records[9 * size..][..size])?;

    let lost = [0, 3, 5, 10];
    let heads = records.chunks(size).enumerate();
    let left: Vec<&[u8]> = heads
        .filter(|(i, _)| !lost.contains(i))
        .map(|(_, r)| r)
        .collect();
    println!("lost the records of heads 0, 3, 5 and 10");

    let mut joined = vec![0; block.len()];
    let Counts { read, indexes } = ruwekiha::join(NUMBER, &check, &left.concat(), &mut joined)?;
    println!(
        "joined from the other {}: {read} read, {indexes} indexes",
        left.len()
    );
    if joined != block {
        return Err("another block came back".into());
    }
    println!("the block is back");
    Ok(())
}

fn check_one(check: &[u8], record: &[u8]) -> Result<(), Box<dyn Error>> {
    match ruwekiha::check(NUMBER, check, record) {
        Verdict::Accepted { index } => println!("record 9: accepted, index {index}"),
        Verdict::Refused(reason) => return Err(reason.refusal().into()),
    }
    let mut changed = record.to_vec();
    *changed.last_mut().ok_or("an empty record")? ^= 1;
    match ruwekiha::check(NUMBER, check, &changed) {
        Verdict::Refused(reason @ Reason::Hash) => {
            let number = reason.refusal().number();
            println!("record 9 with one bit changed: refused {number}");
            Ok(())
        }
        other => Err(format!("a changed fragment: {other:?}").into()),
    }
}
