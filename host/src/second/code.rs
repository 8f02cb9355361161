//! The m-of-n code: the polynomial through points is found by solving the linear equations for its coefficients.

use super::bytes::Products;

/// F: the least multiple of 3 of which m cover the block.
pub fn body_length(length: usize, m: usize) -> usize {
    length.div_ceil(3 * m) * 3
}

/// For some points, the inverse of the matrix of their powers: what turns values at the points into coefficients.
pub struct Basis {
    rows: Vec<Vec<u8>>,
}

impl Basis {
    /// The points have to be different.
    pub fn new(p: &Products, points: &[u8]) -> Basis {
        let m = points.len();
        let mut rows = with_identity(p, points);
        for column in 0..m {
            let pivot = (column..m).find(|&r| rows[r][column] != 0);
            rows.swap(column, pivot.expect("different points"));
            let scale = p.row(p.inverse(rows[column][column]));
            let lead: Vec<u8> = rows[column].iter().map(|&v| scale[v as usize]).collect();
            for row in &mut rows {
                subtract(p, row, &lead, column);
            }
            rows[column] = lead;
        }
        Basis {
            rows: rows.iter().map(|row| row[m..].to_vec()).collect(),
        }
    }

    /// How much the value at each of the points counts at t: the powers of t times the matrix.
    pub fn row(&self, p: &Products, t: u8) -> Vec<u8> {
        let mut sum = vec![0; self.rows.len()];
        for (power, row) in powers(p, t).zip(&self.rows) {
            let by = p.row(power);
            for (s, &v) in sum.iter_mut().zip(row) {
                *s ^= by[v as usize];
            }
        }
        sum
    }
}

/// For each point its powers, and beside them the identity.
fn with_identity(p: &Products, points: &[u8]) -> Vec<Vec<u8>> {
    let m = points.len();
    let beside = |i| (0..m).map(move |j| (i == j) as u8);
    let row = |(i, &x): (usize, &u8)| powers(p, x).take(m).chain(beside(i)).collect();
    points.iter().enumerate().map(row).collect()
}

/// Takes the lead row from a row as often as leaves 0 in the column.
fn subtract(p: &Products, row: &mut [u8], lead: &[u8], column: usize) {
    let by = p.row(row[column]);
    for (v, &l) in row[column..].iter_mut().zip(&lead[column..]) {
        *v ^= by[l as usize];
    }
}

fn powers(p: &Products, x: u8) -> impl Iterator<Item = u8> + '_ {
    std::iter::successors(Some(1u8), move |&v| Some(p.of(v, x)))
}

/// Puts into `sum` the sum of the bodies, each multiplied by its place in the row.
pub fn combine(p: &Products, row: &[u8], bodies: &[&[u8]], sum: &mut [u8]) {
    sum.fill(0);
    for (&by, body) in row.iter().zip(bodies) {
        let products = p.row(by);
        for (s, &b) in sum.iter_mut().zip(body.iter()) {
            *s ^= products[b as usize];
        }
    }
}

#[cfg(test)]
mod tests {
    use super::*;

    /// Document 01's coefficients.
    #[test]
    fn coefficients() {
        let p = Products::new();
        let row = |m: u8, i| Basis::new(&p, &(0..m).collect::<Vec<u8>>()).row(&p, i);
        assert_eq!(row(2, 2), [3, 2]);
        assert_eq!(row(3, 3), [1, 1, 1]);
        assert_eq!(row(3, 4), [0x0f, 8, 6]);
        assert_eq!(row(3, 1), [0, 1, 0]);
    }

    /// Document 01's lengths.
    #[test]
    fn lengths() {
        let cases = [
            (0, 1, 0),
            (1, 1, 3),
            (6, 2, 3),
            (7, 2, 6),
            (65_536, 8, 8_193),
        ];
        for (length, m, size) in cases {
            assert_eq!(body_length(length, m), size);
        }
        assert_eq!(body_length(65_536, 1), 65_538);
    }
}
