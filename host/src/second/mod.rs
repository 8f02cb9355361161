//! A second implementation of document 01, written from the document alone. It shares no table, formula or code with the
//! proved crates, and goes another way wherever there is one:
//!
//! | what | the proved crates | here |
//! |---|---|---|
//! | product of bytes | sum of places in a table of powers of 03 | long multiplication and long division, bit by bit |
//! | inverse | a power of 03 | the byte whose product is 1, found by looking |
//! | coefficients | Lagrange's quotients of products | the powers of the points as a matrix, inverted by elimination |
//! | product of columns | Horner's rule with a shift | all nine products, then long division by x^3 + x + 1 |
//! | fingerprint | Horner's rule from the end, a table for each seed | a sum from the front with a running power |
//! | hash | a ring of 16 words, rotations of rotations, the standard's constants | all 64 words first, the standard's formulas, constants from roots |
//! | records | fields at places | fields split off the front, one after the other |
//!
//! Each operation takes what its C form takes and answers in numbers, so that the two can be called alike and compared.

pub mod alone;
pub mod bytes;
pub mod checking;
pub mod code;
pub mod columns;
pub mod cutting;
pub mod hash;
pub mod joining;
pub mod records;

use bytes::Products;
use code::Basis;
use hash::Sha256;
use std::sync::OnceLock;

pub const MOST: usize = 64;
pub const LONGEST_BLOCK: usize = 65_536;
pub const LONGEST_BODY: usize = 65_538;
pub const LARGEST_SEED: u32 = 16_777_215;

/// What is computed once: all products, the hash's constants, and for each m what the points 0 to m - 1 need.
pub struct Second {
    pub products: Products,
    pub hash: Sha256,
    plain: [OnceLock<Basis>; MOST + 1],
}

impl Second {
    pub fn new() -> Second {
        Second {
            products: Products::new(),
            hash: Sha256::new(),
            plain: [const { OnceLock::new() }; MOST + 1],
        }
    }

    /// The basis for the points 0 to m - 1.
    fn plain(&self, m: usize) -> &Basis {
        let points: Vec<u8> = (0..m as u8).collect();
        self.plain[m].get_or_init(|| Basis::new(&self.products, &points))
    }
}

impl Default for Second {
    fn default() -> Self {
        Second::new()
    }
}
