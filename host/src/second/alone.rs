//! The hash and the fingerprint on their own, into a buffer that has to have the result's length.

use super::columns::{fingerprint, of_seed};
use super::{Second, LARGEST_SEED, LONGEST_BODY};

impl Second {
    pub fn sha256(&self, body: &[u8], digest: &mut [u8]) -> u32 {
        if body.len() > LONGEST_BODY {
            return 2;
        }
        give(&self.hash.digest(body), digest)
    }

    pub fn fingerprint(&self, seed: u32, body: &[u8], column: &mut [u8]) -> u32 {
        if body.len() > LONGEST_BODY {
            return 2;
        }
        if seed > LARGEST_SEED {
            return 3;
        }
        if body.len() % 3 != 0 {
            return 4;
        }
        give(&fingerprint(&self.products, of_seed(seed), body), column)
    }
}

fn give(result: &[u8], buffer: &mut [u8]) -> u32 {
    if buffer.len() != result.len() {
        return 4;
    }
    buffer.copy_from_slice(result);
    0
}

#[cfg(test)]
mod tests {
    use super::Second;

    /// Document 01's fingerprints.
    #[test]
    fn fingerprints() {
        let second = Second::new();
        let print = |seed, body: [u8; 6]| {
            let mut column = [9; 3];
            assert_eq!(second.fingerprint(seed, &body, &mut column), 0);
            column
        };
        assert_eq!(print(0, [1, 2, 3, 4, 5, 6]), [1, 2, 3]);
        assert_eq!(print(1, [1, 2, 3, 4, 5, 6]), [5, 7, 5]);
        assert_eq!(print(256, [1, 2, 3, 4, 5, 6]), [7, 0, 6]);
        assert_eq!(print(256, [1, 3, 3, 5, 5, 6]), [7, 0, 6]);
    }
}
