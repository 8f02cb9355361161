//! SHA-256 as the standard writes it down: all 64 words of the schedule first, then the turns, each function by the standard's own
//! formula; and the constants computed from the primes' roots.

fn is_prime(n: u64) -> bool {
    n >= 2 && (2..n).take_while(|d| d * d <= n).all(|d| n % d != 0)
}

/// The first 32 bits of the fraction of the k-th root of n.
fn root_fraction(n: u64, k: u32) -> u32 {
    // The largest r with r^k <= n 2^(32 k), digit by digit; its lowest 32 bits are the fraction.
    let power = |r: u128| (0..k).try_fold(1u128, |p, _| p.checked_mul(r));
    let bound = (n as u128) << (32 * k);
    let mut r = 0u128;
    for bit in (0..40).rev() {
        let next = r | 1 << bit;
        if power(next).is_some_and(|p| p <= bound) {
            r = next;
        }
    }
    r as u32
}

/// The exclusive or of x rotated by each count.
fn rotations(x: u32, counts: [u32; 3]) -> u32 {
    counts.iter().fold(0, |sum, &n| sum ^ x.rotate_right(n))
}

/// The words of a block's schedule.
fn schedule(block: &[u8]) -> [u32; 64] {
    let mut w = [0; 64];
    for (word, bytes) in w.iter_mut().zip(block.chunks(4)) {
        *word = u32::from_be_bytes(bytes.try_into().unwrap());
    }
    for t in 16..64 {
        let (x, y) = (w[t - 15], w[t - 2]);
        let s0 = x.rotate_right(7) ^ x.rotate_right(18) ^ (x >> 3);
        let s1 = y.rotate_right(17) ^ y.rotate_right(19) ^ (y >> 10);
        let sum = w[t - 16].wrapping_add(s0);
        w[t] = sum.wrapping_add(w[t - 7]).wrapping_add(s1);
    }
    w
}

/// One turn, with the sum of its constant and its word.
fn turn([a, b, c, d, e, f, g, h]: [u32; 8], given: u32) -> [u32; 8] {
    let choose = (e & f) ^ (!e & g);
    let most = (a & b) ^ (a & c) ^ (b & c);
    let first = h
        .wrapping_add(rotations(e, [6, 11, 25]))
        .wrapping_add(choose)
        .wrapping_add(given);
    let second = rotations(a, [2, 13, 22]).wrapping_add(most);
    [
        first.wrapping_add(second),
        a,
        b,
        c,
        d.wrapping_add(first),
        e,
        f,
        g,
    ]
}

pub struct Sha256 {
    start: [u32; 8],
    k: [u32; 64],
}

impl Sha256 {
    pub fn new() -> Sha256 {
        let primes: Vec<u64> = (2..).filter(|&n| is_prime(n)).take(64).collect();
        Sha256 {
            start: std::array::from_fn(|i| root_fraction(primes[i], 2)),
            k: std::array::from_fn(|i| root_fraction(primes[i], 3)),
        }
    }

    fn block(&self, state: &mut [u32; 8], block: &[u8]) {
        let mut v = *state;
        for (k, w) in self.k.iter().zip(schedule(block)) {
            v = turn(v, k.wrapping_add(w));
        }
        for (s, v) in state.iter_mut().zip(v) {
            *s = s.wrapping_add(v);
        }
    }

    pub fn digest(&self, message: &[u8]) -> [u8; 32] {
        let mut state = self.start;
        let mut blocks = message.chunks_exact(64);
        for block in &mut blocks {
            self.block(&mut state, block);
        }
        let mut end = blocks.remainder().to_vec();
        end.push(0x80);
        while end.len() % 64 != 56 {
            end.push(0);
        }
        end.extend((message.len() as u64 * 8).to_be_bytes());
        for block in end.chunks(64) {
            self.block(&mut state, block);
        }
        let mut out = [0; 32];
        for (bytes, word) in out.chunks_mut(4).zip(state) {
            bytes.copy_from_slice(&word.to_be_bytes());
        }
        out
    }
}

impl Default for Sha256 {
    fn default() -> Self {
        Sha256::new()
    }
}

#[cfg(test)]
mod tests {
    use super::Sha256;

    /// FIPS 180-4's own first word of each list of constants, and NIST's digest of "abc".
    #[test]
    fn constants_and_abc() {
        let h = Sha256::new();
        assert_eq!((h.start[0], h.start[7]), (0x6a09e667, 0x5be0cd19));
        assert_eq!((h.k[0], h.k[63]), (0x428a2f98, 0xc67178f2));
        let hex: String = h
            .digest(b"abc")
            .iter()
            .map(|b| format!("{b:02x}"))
            .collect();
        assert_eq!(
            hex,
            "ba7816bf8f01cfea414140de5dae2223b00361a396177a9cb410ff61f20015ad"
        );
    }
}
