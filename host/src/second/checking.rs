//! Checking one fragment, and opening an accepted one.

use super::columns::{fingerprint, plus, Column};
use super::records::{Check, Fragment};
use super::Second;

impl Second {
    /// The number, and the index of an accepted fragment or, with 9, the block number found; 0 with any other.
    pub fn check(&self, wanted: u64, check: &[u8], record: &[u8]) -> (u32, u64) {
        let check = match Check::wanted(wanted, check) {
            Ok(check) => check,
            Err(reason) => return (reason, 0),
        };
        match self.judge(&check, record) {
            Ok(fragment) => (0, fragment.index as u64),
            Err(refused) => refused,
        }
    }

    /// The number, and where the body lies in the record: start and length, or 0 and 0.
    pub fn open(&self, wanted: u64, check: &[u8], record: &[u8]) -> (u32, u64, u64) {
        match self.check(wanted, check, record) {
            (0, _) => (0, 18, record.len() as u64 - 18),
            (reason, _) => (reason, 0, 0),
        }
    }

    /// An accepted fragment of this check record's block, or 8 to 12 with its value.
    pub(super) fn judge<'a>(
        &self,
        check: &Check,
        record: &'a [u8],
    ) -> Result<Fragment<'a>, (u32, u64)> {
        let fragment = Fragment::read(record, check.size()).map_err(|reason| (reason, 0))?;
        if fragment.number != check.number {
            return Err((9, fragment.number));
        }
        if fragment.index >= check.n {
            return Err((10, 0));
        }
        if self.hash.digest(fragment.body) != check.hashes[fragment.index] {
            return Err((11, 0));
        }
        if fingerprint(&self.products, check.seed, fragment.body)
            != self.called_for(check, fragment.index)
        {
            return Err((12, 0));
        }
        Ok(fragment)
    }

    /// The combination of the check record's fingerprints by a body's own coefficients.
    fn called_for(&self, check: &Check, index: usize) -> Column {
        let row = self.plain(check.m).row(&self.products, index as u8);
        let scaled = |(&by, print): (&u8, &Column)| print.map(|b| self.products.of(by, b));
        row.iter().zip(&check.prints).map(scaled).fold([0; 3], plus)
    }
}
