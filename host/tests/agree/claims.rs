//! What check, open and join take first, the wanted number and the check record, damaged so that 5, 6 or 7 comes back.

use crate::draw::Draw;
use crate::scene::Scene;

#[derive(Clone)]
pub struct Claim {
    pub wanted: u64,
    pub check: Vec<u8>,
}

impl Claim {
    pub fn honest(scene: &Scene) -> Claim {
        Claim {
            wanted: scene.number,
            check: scene.check.clone(),
        }
    }

    /// Makes the check record as long as its counts ask for.
    fn fit(&mut self) {
        let (m, n) = (self.check[17] as usize, self.check[18] as usize);
        self.check.resize(22 + 32 * n + 3 * m, 0x33);
    }
}

pub type Damage = fn(&mut Draw, &mut Claim);

/// Each damage, and the number that it gives to an honest claim.
pub const DAMAGES: [(&str, u32, Damage); 15] = [
    ("check under 5 bytes", 5, under_five),
    ("check's mark", 5, mark),
    ("check's version", 5, version),
    ("check under 22 bytes", 6, under_head),
    ("check's m is 0", 6, m_zero),
    ("check's m over n", 6, m_over),
    ("check's n over 64", 6, n_over),
    ("check's n is 0", 6, n_zero),
    ("check's counts, the length not", 6, counts),
    ("check's L over 65,536", 6, length_over),
    ("check one byte short", 6, one_short),
    ("check one byte long", 6, one_long),
    ("check much too long", 6, far_too_long),
    ("check's number", 7, number),
    ("another number wanted", 7, wanted),
];

fn under_five(draw: &mut Draw, claim: &mut Claim) {
    claim.check.truncate(draw.below(5));
}

fn mark(draw: &mut Draw, claim: &mut Claim) {
    claim.check[draw.below(3)] ^= draw.change();
}

fn version(draw: &mut Draw, claim: &mut Claim) {
    claim.check[3 + draw.below(2)] ^= draw.change();
}

fn under_head(draw: &mut Draw, claim: &mut Claim) {
    claim.check.truncate(draw.between(5, 21));
}

fn m_zero(_: &mut Draw, claim: &mut Claim) {
    claim.check[17] = 0;
    claim.fit();
}

fn m_over(draw: &mut Draw, claim: &mut Claim) {
    let n = claim.check[18] as usize;
    claim.check[17] = if draw.once_in(2) {
        n + 1
    } else {
        draw.between(n + 1, 255)
    } as u8;
    claim.fit();
}

fn n_over(draw: &mut Draw, claim: &mut Claim) {
    claim.check[18] = if draw.once_in(2) {
        65
    } else {
        draw.between(65, 255)
    } as u8;
    claim.fit();
}

fn n_zero(draw: &mut Draw, claim: &mut Claim) {
    claim.check[18] = 0;
    claim.check[17] = draw.below(2) as u8;
    claim.fit();
}

/// Other counts, most of them sound, and the length as it was.
fn counts(draw: &mut Draw, claim: &mut Claim) {
    let before = claim.check.len();
    let (m, n) = (claim.check[17], claim.check[18]);
    while claim.check.len() == before {
        claim.check[17] = draw.one_of(&[m, m.wrapping_add(1), m.wrapping_sub(1), half(n)]);
        claim.check[18] = draw.one_of(&[n, n.wrapping_add(1), n.wrapping_sub(1), half(m)]);
        claim.fit();
    }
    claim.check.resize(before, 0);
}

fn half(x: u8) -> u8 {
    x / 2 + 1
}

fn length_over(draw: &mut Draw, claim: &mut Claim) {
    let over = [
        65_537,
        65_538,
        1 << 17,
        1 << 24,
        u32::MAX,
        65_536 + (draw.next() as u32 >> 1),
    ];
    // The last of them is over by at least one unless the draw is 0.
    let length = draw.one_of(&over).max(65_537);
    claim.check[13..17].copy_from_slice(&length.to_be_bytes());
}

fn one_short(_: &mut Draw, claim: &mut Claim) {
    claim.check.pop();
}

fn one_long(draw: &mut Draw, claim: &mut Claim) {
    claim.check.push(draw.next() as u8);
}

fn far_too_long(draw: &mut Draw, claim: &mut Claim) {
    let more = draw.one_of(&[3, 32, 35, 256, 65_536]);
    claim.check.resize(claim.check.len() + more, 0);
}

/// One bit of the 64.
fn number(draw: &mut Draw, claim: &mut Claim) {
    claim.check[5 + draw.below(8)] ^= 1 << draw.below(8);
}

fn wanted(draw: &mut Draw, claim: &mut Claim) {
    claim.wanted ^= 1 << draw.below(64);
}

/// Some bits anywhere.
pub fn flip(draw: &mut Draw, bytes: &mut [u8]) {
    for _ in 0..draw.between(1, 4) {
        if !bytes.is_empty() {
            let place = draw.below(bytes.len());
            bytes[place] ^= 1 << draw.below(8);
        }
    }
}

/// Bytes of no record, now and then with a mark and a version before them.
pub fn absurd(draw: &mut Draw, mark: &[u8; 3]) -> Vec<u8> {
    let length = draw.one_of(&[0, 1, 4, 5, 17, 18, 21, 22, 57, 100, 400, 2_000]);
    let length = draw.below(length + 1);
    let mut bytes = draw.bytes(length);
    if length >= 5 && draw.once_in(2) {
        bytes[..3].copy_from_slice(mark);
        bytes[3..5].copy_from_slice(&[0, 1]);
    }
    bytes
}
