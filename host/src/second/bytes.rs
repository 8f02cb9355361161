//! Bytes as polynomials over two elements: products by long multiplication and long division.

/// The remainder of a polynomial of degree below 15 by x^8 + x^4 + x^3 + x + 1.
fn remainder(mut p: u16) -> u8 {
    for shift in (0..7).rev() {
        if p >> (shift + 8) & 1 == 1 {
            p ^= 0x11b << shift;
        }
    }
    p as u8
}

fn long_product(a: u8, b: u8) -> u8 {
    let mut sum = 0u16;
    for digit in 0..8 {
        if a >> digit & 1 == 1 {
            sum ^= (b as u16) << digit;
        }
    }
    remainder(sum)
}

/// All products, each by long multiplication.
pub struct Products {
    rows: Vec<[u8; 256]>,
}

impl Products {
    pub fn new() -> Products {
        let row = |a: usize| std::array::from_fn(|b| long_product(a as u8, b as u8));
        Products {
            rows: (0..256).map(row).collect(),
        }
    }

    pub fn of(&self, a: u8, b: u8) -> u8 {
        self.rows[a as usize][b as usize]
    }

    pub fn row(&self, a: u8) -> &[u8; 256] {
        &self.rows[a as usize]
    }

    /// The byte whose product with `a` is 1, found by looking; 0 where there is none.
    pub fn inverse(&self, a: u8) -> u8 {
        (0..=255).find(|&b| self.of(a, b) == 1).unwrap_or(0)
    }
}

impl Default for Products {
    fn default() -> Self {
        Products::new()
    }
}
