//! Cuts that are refused, and the functions that stand alone.

use crate::calls::{Caller, Cut, Way};
use crate::draw::Draw;
use crate::scene::{asked, number, seed, Scene};

type Fault = fn(&mut Draw, &mut Cut);

/// Each fault by itself, and the number that it gives.
pub const FAULTS: [(&str, u32, Fault); 4] = [
    ("counts", 1, counts),
    ("a long block", 2, long_block),
    ("a large seed", 3, large_seed),
    ("a length", 4, length),
];

fn counts(draw: &mut Draw, cut: &mut Cut) {
    let (m, n) = (cut.m, cut.n);
    let most = u32::MAX;
    // Those with 256 more would be sound if only their last byte were looked at.
    (cut.m, cut.n) = draw.one_of(&[
        (0, n),
        (n + 1, n),
        (m, 65),
        (65, 65),
        (m, 0),
        (0, 0),
        (m, most),
        (most, most),
        (most, n),
        (m + 256, n + 256),
        (m, n + 256),
        (m + 256, n),
        (m + 65_536, n + 65_536),
        (255, 255),
    ]);
}

fn long_block(draw: &mut Draw, cut: &mut Cut) {
    let length = draw.one_of(&[65_537, 65_538, 65_539, 65_792, 131_072]);
    cut.block.resize(length, 0x5a);
}

fn large_seed(draw: &mut Draw, cut: &mut Cut) {
    cut.seed = draw.one_of(&[1 << 24, u32::MAX, cut.seed | 1 << 24, cut.seed | 1 << 31]);
}

fn length(draw: &mut Draw, cut: &mut Cut) {
    let (f, c) = (cut.fragments_len, cut.check_len);
    let record = f / cut.n as usize;
    (cut.fragments_len, cut.check_len) = draw.one_of(&[
        (f - 1, c),
        (f + 1, c),
        (f, c - 1),
        (f, c + 1),
        (f - record, c),
        (f + record, c),
        (f, c - 32),
        (f, c + 32),
        (0, c),
        (f, 0),
        (0, 0),
        (f + 1, c - 1),
    ]);
}

/// One fault or several; of several the first in the order is given, which for a cut is the least.
pub fn refused_cut(draw: &mut Draw, caller: &mut Caller, scene: &Scene) {
    let counts = (scene.m, scene.n);
    let mut cut = asked(counts, scene.seed, scene.number, scene.block.clone());
    let way = spoil(draw, &mut cut, &FAULTS);
    caller.cut(way, &cut);
}

/// In the standard setting, half of them honest.
pub fn standard_cut(draw: &mut Draw, caller: &mut Caller, scene: &Scene) {
    let mut cut = asked((8, 12), scene.seed, scene.number, scene.block.clone());
    if draw.once_in(2) {
        caller.cut_standard(Way("honest", Some(0)), &cut);
        return;
    }
    let way = spoil(draw, &mut cut, &FAULTS[1..]);
    caller.cut_standard(way, &cut);
}

fn spoil(draw: &mut Draw, cut: &mut Cut, faults: &[(&'static str, u32, Fault)]) -> Way {
    if !draw.once_in(4) {
        let (name, number, fault) = faults[draw.below(faults.len())];
        fault(draw, cut);
        return Way(name, Some(number));
    }
    let mut least = None;
    for (_, number, fault) in faults.iter().rev() {
        if draw.once_in(2) {
            // From the last to the first: a length is counted from the counts that were sound.
            fault(draw, cut);
            least = Some(*number);
        }
    }
    Way("several faults", least.or(Some(0)))
}

pub fn card_size(draw: &mut Draw, caller: &mut Caller) {
    let length = match draw.below(3) {
        0 => draw.one_of(&[
            0,
            1,
            24,
            25,
            65_535,
            65_536,
            65_537,
            1 << 32,
            1 << 63,
            u64::MAX,
        ]),
        1 => draw.below(70_000) as u64,
        // Short in their last 32 bits alone.
        _ => draw.next() << 32 | draw.below(65_537) as u64,
    };
    let aim = if length > 65_536 { 2 } else { 0 };
    caller.card_size(Way("any length", Some(aim)), length);
}

/// A body for the hash or the fingerprint: now and then one at the bound or over it.
fn body(draw: &mut Draw, scene: &Scene) -> Vec<u8> {
    match draw.below(40) {
        0..=1 => vec![0xa7; draw.one_of(&[65_539, 65_540, 65_541, 70_000])],
        2 if draw.once_in(8) => {
            let length = draw.between(65_530, 65_538);
            draw.bytes(length)
        }
        3..=9 => scene.body(draw.below(scene.n)).to_vec(),
        10..=12 => {
            let length = draw.below(2_000);
            draw.bytes(length)
        }
        // One block of the hash and two have their edges below 130.
        _ => {
            let length = draw.below(140);
            draw.bytes(length)
        }
    }
}

pub fn hash(draw: &mut Draw, caller: &mut Caller, scene: &Scene) {
    let body = body(draw, scene);
    let length = if draw.once_in(8) {
        draw.one_of(&[0, 3, 31, 33, 64])
    } else {
        32
    };
    let number = match (body.len(), length) {
        (65_539.., _) => 2,
        (_, 32) => 0,
        _ => 4,
    };
    caller.sha256(Way("any body", Some(number)), &body, length);
}

pub fn print(draw: &mut Draw, caller: &mut Caller, scene: &Scene) {
    let mut body = body(draw, scene);
    if !draw.once_in(8) && body.len() < 65_539 {
        body.truncate(body.len() / 3 * 3);
    }
    let mut seed = seed(draw);
    if draw.once_in(8) {
        seed = draw.one_of(&[1 << 24, u32::MAX, seed | 1 << 24, seed | 1 << 31]);
    }
    let length = if draw.once_in(8) {
        draw.one_of(&[0, 2, 4, 32])
    } else {
        3
    };
    let number = match (body.len(), seed, length) {
        (65_539.., _, _) => 2,
        (_, 16_777_216.., _) => 3,
        (l, _, 3) if l % 3 == 0 => 0,
        _ => 4,
    };
    caller.fingerprint(Way("any body", Some(number)), seed, &body, length);
}

/// A cut with other numbers of the same shape, for records that belong elsewhere.
pub fn sibling(draw: &mut Draw, caller: &mut Caller, scene: &Scene, number_too: bool) -> Scene {
    let number = if number_too {
        number(draw)
    } else {
        scene.number
    };
    let block = draw.bytes(scene.block.len());
    Scene::of(caller, (scene.m, scene.n), scene.seed, number, block)
}
