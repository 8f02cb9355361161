//! Bad input through the C interface: null with length 0 in the place of each buffer.

use crate::calls::Caller;
use crate::draw::Draw;
use crate::guarded::{Guarded, GuardedWord};
use crate::scene::Scene;
use ruwekiha::raw::c;
use ruwekiha::second::Second;
use std::ptr::{null, null_mut};

/// A buffer to lend, or null with length 0.
struct Part {
    lent: Option<Guarded>,
    before: Vec<u8>,
}

impl Part {
    const NULL: Part = Part {
        lent: None,
        before: vec![],
    };

    fn of(bytes: &[u8]) -> Part {
        Part {
            lent: Some(Guarded::new(bytes, 0)),
            before: bytes.to_vec(),
        }
    }

    fn read(&self) -> (*const u8, usize) {
        let lent = self.lent.as_ref().map(Guarded::lent);
        lent.map_or((null(), 0), |g| (g.as_ptr(), g.len()))
    }

    fn write(&mut self) -> (*mut u8, usize) {
        let lent = self.lent.as_mut().map(Guarded::lent_mut);
        lent.map_or((null_mut(), 0), |g| (g.as_mut_ptr(), g.len()))
    }

    /// What it holds now; a null part holds nothing.
    fn back(self) -> Vec<u8> {
        self.lent.map_or(vec![], Guarded::back)
    }

    fn unchanged(self) {
        let before = self.before.clone();
        assert_eq!(self.back(), before, "an input was written");
    }
}

/// Document 01's worked block, at 2 of 4, or an empty one.
pub fn scene(length: usize) -> Scene {
    let second = Second::new();
    let mut caller = Caller::new(&second, Draw::of_case(0, 0));
    Scene::of(
        &mut caller,
        (2, 4),
        256,
        7,
        [1, 2, 3, 4, 5, 6][..length].to_vec(),
    )
}

fn cut(block: Part, mut fragments: Part, mut check: Part) -> (u32, Vec<u8>, Vec<u8>) {
    let ((b, bn), (f, fn_), (k, kn)) = (block.read(), fragments.write(), check.write());
    // SAFETY: each pointer is null with length 0 or a buffer of the length beside it.
    let number = unsafe { c::rwk_cut(2, 4, 256, 7, b, bn, f, fn_, k, kn) };
    block.unchanged();
    (number, fragments.back(), check.back())
}

fn cut_standard(block: Part, mut fragments: Part, mut check: Part) -> (u32, Vec<u8>, Vec<u8>) {
    let ((b, bn), (f, fn_), (k, kn)) = (block.read(), fragments.write(), check.write());
    // SAFETY: as in `cut`.
    let number = unsafe { c::rwk_cut_standard(256, 7, b, bn, f, fn_, k, kn) };
    block.unchanged();
    (number, fragments.back(), check.back())
}

fn check(check: Part, record: Part) -> (u32, u64) {
    let ((k, kn), (r, rn), mut value) = (check.read(), record.read(), GuardedWord::new());
    // SAFETY: as in `cut`; the value is a live word.
    let number = unsafe { c::rwk_check(7, k, kn, r, rn, value.lent()) };
    check.unchanged();
    record.unchanged();
    (number, value.back())
}

fn open(check: Part, record: Part) -> (u32, u64, u64) {
    let ((k, kn), (r, rn)) = (check.read(), record.read());
    let (mut start, mut length) = (GuardedWord::new(), GuardedWord::new());
    // SAFETY: as in `check`, with two words.
    let number = unsafe { c::rwk_open(7, k, kn, r, rn, start.lent(), length.lent()) };
    check.unchanged();
    record.unchanged();
    (number, start.back(), length.back())
}

fn join(check: Part, records: Part, mut out: Part) -> (u32, u64, u64, Vec<u8>) {
    let ((k, kn), (r, rn), (o, on)) = (check.read(), records.read(), out.write());
    let (mut read, mut indexes) = (GuardedWord::new(), GuardedWord::new());
    // SAFETY: as in `open`.
    let number = unsafe { c::rwk_join(7, k, kn, r, rn, o, on, read.lent(), indexes.lent()) };
    check.unchanged();
    records.unchanged();
    (number, read.back(), indexes.back(), out.back())
}

fn sha256(body: Part, mut digest: Part) -> (u32, Vec<u8>) {
    let ((b, bn), (d, dn)) = (body.read(), digest.write());
    // SAFETY: as in `cut`.
    let number = unsafe { c::rwk_sha256(b, bn, d, dn) };
    body.unchanged();
    (number, digest.back())
}

fn fingerprint(body: Part, mut column: Part) -> (u32, Vec<u8>) {
    let ((b, bn), (k, kn)) = (body.read(), column.write());
    // SAFETY: as in `cut`.
    let number = unsafe { c::rwk_fingerprint(256, b, bn, k, kn) };
    body.unchanged();
    (number, column.back())
}

#[test]
fn null_to_cut() {
    let (none, block) = (|| Part::NULL, || Part::of(&[1, 2, 3, 4, 5, 6]));
    let nines = |length| Part::of(&vec![9; length]);
    let empty = scene(0);
    assert_eq!(
        cut(none(), nines(72), nines(156)),
        (0, empty.records.concat(), empty.check)
    );
    assert_eq!(cut(block(), none(), nines(156)), (4, vec![], vec![9; 156]));
    assert_eq!(cut(block(), nines(84), none()), (4, vec![9; 84], vec![]));
    assert_eq!(cut(none(), nines(72), none()), (4, vec![9; 72], vec![]));
    assert_eq!(cut(none(), none(), nines(156)), (4, vec![], vec![9; 156]));
    assert_eq!(cut(none(), none(), none()), (4, vec![], vec![]));
    let (number, records, check) = cut_standard(none(), nines(216), nines(430));
    assert_eq!(
        (number, &records[..5], &check[..5]),
        (0, &b"LFR\0\x01"[..], &b"LCK\0\x01"[..])
    );
    assert_eq!(
        cut_standard(block(), none(), nines(430)),
        (4, vec![], vec![9; 430])
    );
    assert_eq!(
        cut_standard(block(), nines(252), none()),
        (4, vec![9; 252], vec![])
    );
    assert_eq!(cut_standard(none(), none(), none()), (4, vec![], vec![]));
}

#[test]
fn null_to_check_open_join() {
    let (scene, empty) = (scene(6), scene(0));
    let none = || Part::NULL;
    let (k, r) = (|| Part::of(&scene.check), || Part::of(&scene.records[3]));
    assert_eq!(check(none(), r()), (5, 0));
    assert_eq!(check(k(), none()), (8, 0));
    assert_eq!(check(none(), none()), (5, 0));
    assert_eq!(open(none(), r()), (5, 0, 0));
    assert_eq!(open(k(), none()), (8, 0, 0));
    assert_eq!(open(none(), none()), (5, 0, 0));
    let (all, out) = (|| Part::of(&scene.records.concat()), || Part::of(&[9; 6]));
    assert_eq!(join(k(), all(), out()), (0, 2, 2, vec![1, 2, 3, 4, 5, 6]));
    assert_eq!(join(none(), all(), out()), (5, 0, 0, vec![9; 6]));
    assert_eq!(join(k(), none(), out()), (13, 0, 0, vec![9; 6]));
    assert_eq!(join(k(), all(), none()), (4, 0, 0, vec![]));
    assert_eq!(join(none(), none(), none()), (5, 0, 0, vec![]));
    let (k, all) = (
        || Part::of(&empty.check),
        || Part::of(&empty.records.concat()),
    );
    assert_eq!(join(k(), all(), none()), (0, 2, 2, vec![]));
    assert_eq!(join(k(), none(), none()), (13, 0, 0, vec![]));
}

#[test]
fn null_to_hash_and_fingerprint() {
    let (none, nines) = (|| Part::NULL, |length| Part::of(&vec![9; length]));
    let (number, digest) = sha256(none(), nines(32));
    assert_eq!((number, &digest[..4]), (0, &[0xe3, 0xb0, 0xc4, 0x42][..]));
    assert_eq!(sha256(nines(3), none()), (4, vec![]));
    assert_eq!(sha256(none(), none()), (4, vec![]));
    assert_eq!(fingerprint(none(), nines(3)), (0, vec![0; 3]));
    assert_eq!(fingerprint(nines(3), none()), (4, vec![]));
    assert_eq!(fingerprint(none(), none()), (4, vec![]));
}
