//! Bad input through the C interface: lengths one off, and numbers at the ends of their types. The numbers expected stand here as
//! document 01 has them; the guards and the second implementation look on.

use crate::calls::{Caller, Cut, Way};
use crate::draw::Draw;
use crate::nulls::scene;
use crate::scene::asked;
use ruwekiha::second::Second;

#[test]
fn lengths_one_off() {
    let second = Second::new();
    let mut caller = Caller::new(&second, Draw::of_case(0, 1));
    let scene = scene(6);
    let mut cut = |block: usize, fragments_len: usize, check_len: usize, aim: u32| {
        let block = vec![0x5a; block];
        let asked = Cut {
            fragments_len,
            check_len,
            ..asked((2, 4), 256, 7, block)
        };
        caller.cut(Way("one off", Some(aim)), &asked);
    };
    for (fragments, check) in [(83, 156), (85, 156), (84, 155), (84, 157), (85, 155)] {
        cut(6, fragments, check, 4);
    }
    cut(5, 84, 156, 0);
    cut(7, 84, 156, 4);
    cut(65_536, 4 * (18 + 32_769), 156, 0);
    cut(65_537, 4 * (18 + 32_769), 156, 2);
    let with = |aim| Way("one off", Some(aim));
    let off = |bytes: &[u8]| [bytes[..bytes.len() - 1].to_vec(), [bytes, &[0]].concat()];
    for check in off(&scene.check) {
        caller.check(with(6), 7, &check, &scene.records[0]);
        caller.open(with(6), 7, &check, &scene.records[0]);
        caller.join(with(6), 7, &check, &scene.records.concat(), 6);
    }
    for record in off(&scene.records[0]) {
        caller.check(with(8), 7, &scene.check, &record);
        caller.open(with(8), 7, &scene.check, &record);
        caller.join(with(4), 7, &scene.check, &record, 6);
    }
    for length in [5, 7] {
        caller.join(with(4), 7, &scene.check, &scene.records.concat(), length);
    }
}

#[test]
fn summaries_one_off() {
    let second = Second::new();
    let mut caller = Caller::new(&second, Draw::of_case(0, 2));
    let with = |aim| Way("one off", Some(aim));
    for (length, room, aim) in [
        (6, 31, 4),
        (6, 33, 4),
        (65_538, 32, 0),
        (65_539, 32, 2),
        (65_539, 31, 2),
    ] {
        caller.sha256(with(aim), &vec![0x5a; length], room);
    }
    for (length, room, aim) in [
        (6, 2, 4),
        (6, 4, 4),
        (5, 3, 4),
        (7, 3, 4),
        (65_538, 3, 0),
        (65_539, 3, 2),
        (65_541, 3, 2),
    ] {
        caller.fingerprint(with(aim), 16_777_215, &vec![0x5a; length], room);
    }
    for (seed, length, aim) in [(1 << 24, 65_539, 2), (1 << 24, 5, 3), (u32::MAX, 6, 3)] {
        caller.fingerprint(with(aim), seed, &vec![0x5a; length], 3);
    }
}

/// Every pair of counts from a list of ends and their neighbours.
#[test]
fn ends_of_counts() {
    let second = Second::new();
    let mut caller = Caller::new(&second, Draw::of_case(0, 3));
    let most = u32::MAX;
    let small = [0, 1, 2, 63, 64, 65, 127, 128, 255, 256, 257, 320];
    let counts = [&small[..], &[65_535, 65_536, 1 << 31, most - 1, most]].concat();
    for (&m, &n) in counts
        .iter()
        .flat_map(|m| counts.iter().map(move |n| (m, n)))
    {
        let sound = 1 <= m && m <= n && n <= 64;
        // Where the counts are unsound no length would fit; the buffers are those of 1 of 1.
        let fitting = if sound {
            (m as usize, n as usize)
        } else {
            (1, 1)
        };
        let asked = asked(fitting, 1, u64::MAX, vec![0x5a; 10]);
        let aim = if sound { 0 } else { 1 };
        caller.cut(Way("ends", Some(aim)), &Cut { m, n, ..asked });
    }
}

#[test]
fn ends_of_seeds() {
    let second = Second::new();
    let mut caller = Caller::new(&second, Draw::of_case(0, 4));
    for seed in [0, 1, 16_777_214, 16_777_215, 16_777_216, 1 << 31, u32::MAX] {
        let way = Way("ends", Some(if seed < 1 << 24 { 0 } else { 3 }));
        for number in [0, 1, u32::MAX as u64, 1 << 32, 1 << 63, u64::MAX] {
            caller.cut(way, &asked((2, 4), seed, number, vec![0x5a; 10]));
            caller.cut_standard(way, &asked((8, 12), seed, number, vec![0x5a; 10]));
        }
        caller.fingerprint(way, seed, &[1, 2, 3, 4, 5, 6], 3);
    }
}

#[test]
fn ends_of_numbers() {
    let second = Second::new();
    let mut caller = Caller::new(&second, Draw::of_case(0, 5));
    for length in [
        0,
        1,
        65_535,
        65_536,
        65_537,
        1 << 31,
        1 << 32,
        (1 << 32) + 1,
        1 << 63,
        u64::MAX,
    ] {
        let aim = if length <= 65_536 { 0 } else { 2 };
        caller.card_size(Way("ends", Some(aim)), length);
    }
    let scene = scene(6);
    let (way, check, record) = (Way("ends", Some(7)), &scene.check, &scene.records[0]);
    for wanted in [0, 6, 8, (1 << 32) + 7, (1 << 63) + 7, u64::MAX] {
        caller.check(way, wanted, check, record);
        caller.open(way, wanted, check, record);
        caller.join(way, wanted, check, &scene.records.concat(), 6);
    }
}
