//! Columns as polynomials over the bytes, reduced by long division by x^3 + x + 1, and fingerprints as sums of powers.

use super::bytes::Products;

pub type Column = [u8; 3];

pub fn plus(u: Column, v: Column) -> Column {
    [u[0] ^ v[0], u[1] ^ v[1], u[2] ^ v[2]]
}

pub fn times(p: &Products, u: Column, v: Column) -> Column {
    let mut long = [0u8; 5];
    for i in 0..3 {
        for j in 0..3 {
            long[i + j] ^= p.of(u[i], v[j]);
        }
    }
    for top in [4, 3] {
        let lead = long[top];
        long[top] ^= lead;
        long[top - 2] ^= lead;
        long[top - 3] ^= lead;
    }
    [long[0], long[1], long[2]]
}

/// c0 + c1 y + c2 y^2 + .., with a running power of y.
pub fn fingerprint(p: &Products, y: Column, body: &[u8]) -> Column {
    let mut sum = [0; 3];
    let mut power = [1, 0, 0];
    for chunk in body.chunks(3) {
        let mut column = [0; 3];
        column[..chunk.len()].copy_from_slice(chunk);
        sum = plus(sum, times(p, column, power));
        power = times(p, power, y);
    }
    sum
}

pub fn of_seed(seed: u32) -> Column {
    let [high, c, b, a] = seed.to_be_bytes();
    if high != 0 {
        [0; 3]
    } else {
        [a, b, c]
    }
}
