//! What check and open take: a claim and one fragment record, honest, damaged, damaged and mended, or absurd.

use crate::calls::{Caller, Way};
use crate::claims::{absurd, flip, Claim, DAMAGES};
use crate::cuts::sibling;
use crate::draw::Draw;
use crate::scene::Scene;
use ruwekiha::second::code::body_length;
use ruwekiha::second::columns::{plus, times, Column};
use ruwekiha::second::Second;

/// A claim and a record with its index, before anything was done to them.
pub struct Offer<'a> {
    pub scene: &'a Scene,
    pub index: usize,
    pub claim: Claim,
    pub record: Vec<u8>,
}

type Make = fn(&mut Draw, &Second, &mut Offer) -> Option<u32>;

/// Each way of making an offer, which tells the number that must come back, where it knows.
pub const WAYS: [(&str, Make); 24] = [
    ("honest", |_, _, _| Some(0)),
    ("record under 18 bytes", under_head),
    ("record's mark", mark),
    ("record's version", version),
    ("record's F", size_field),
    ("record one byte off", one_off),
    ("record's F and length, both", longer),
    ("check's L, so that F differs", other_length),
    ("record's number", number),
    ("record's index over n", index_over),
    ("record's index, of another", index_other),
    ("body's byte", body_byte),
    ("check's hash", hash_bit),
    ("check's hash of another", hash_of_another),
    ("two hashes swapped", hashes_swapped),
    ("body's byte and its hash", mended_hash),
    ("body by a multiple of x + seed and its hash", mended_print),
    ("check's fingerprint", print_bit),
    ("check's seed", seed_column),
    ("several fields", several),
    ("check and record swapped", swapped),
    ("bits of the record", record_bits),
    ("bits of both", bits),
    ("absurd", absurd_both),
];

/// Makes one offer; a third of them with a damaged claim too, whose number then comes first.
fn offer<'a>(draw: &mut Draw, second: &Second, scene: &'a Scene) -> (Offer<'a>, Way) {
    let index = draw.below(scene.n);
    let claim = Claim::honest(scene);
    let record = scene.records[index].clone();
    let mut offer = Offer {
        scene,
        index,
        claim,
        record,
    };
    if draw.once_in(3) {
        let (name, number, damage) = draw.one_of(&DAMAGES);
        damage(draw, &mut offer.claim);
        if draw.once_in(2) {
            flip(draw, &mut offer.record);
        }
        return (offer, Way(name, Some(number)));
    }
    let (name, make) = draw.one_of(&WAYS);
    let aim = make(draw, second, &mut offer);
    (offer, Way(name, aim))
}

pub fn check(draw: &mut Draw, caller: &mut Caller, scene: &Scene) {
    let (offer, way) = offer(draw, caller.second, scene);
    caller.check(way, offer.claim.wanted, &offer.claim.check, &offer.record);
}

pub fn open(draw: &mut Draw, caller: &mut Caller, scene: &Scene) {
    let (offer, way) = offer(draw, caller.second, scene);
    caller.open(way, offer.claim.wanted, &offer.claim.check, &offer.record);
}

/// A sound record of another cut of the same shape, of the same number or another.
pub fn foreign(draw: &mut Draw, caller: &mut Caller, scene: &Scene) {
    let other = draw.once_in(2);
    let sibling = sibling(draw, caller, scene, other);
    let index = draw.below(scene.n);
    let way = Way("record of another cut", None);
    caller.check(way, scene.number, &scene.check, &sibling.records[index]);
    caller.open(way, scene.number, &sibling.check, &scene.records[index]);
}

fn under_head(draw: &mut Draw, _: &Second, o: &mut Offer) -> Option<u32> {
    o.record.truncate(draw.below(18));
    Some(8)
}

fn mark(draw: &mut Draw, _: &Second, o: &mut Offer) -> Option<u32> {
    o.record[draw.below(3)] ^= draw.change();
    Some(8)
}

fn version(draw: &mut Draw, _: &Second, o: &mut Offer) -> Option<u32> {
    o.record[3 + draw.below(2)] ^= draw.change();
    Some(8)
}

fn size_field(draw: &mut Draw, _: &Second, o: &mut Offer) -> Option<u32> {
    o.record[14 + draw.below(4)] ^= draw.change();
    Some(8)
}

fn one_off(draw: &mut Draw, _: &Second, o: &mut Offer) -> Option<u32> {
    if draw.once_in(2) {
        o.record.pop();
    } else {
        o.record.push(draw.next() as u8);
    }
    Some(8)
}

/// A record that is sound by itself, with a body of another length.
fn longer(draw: &mut Draw, _: &Second, o: &mut Offer) -> Option<u32> {
    let size = o.scene.size;
    let other = draw.one_of(&[size + 1, size + 3, size.saturating_sub(3), 0, 65_538]);
    o.record.resize(18 + other, 0x77);
    o.record[14..18].copy_from_slice(&(other as u32).to_be_bytes());
    Some(if other == size { 0 } else { 8 })
}

/// Another L: its body length may still be the same.
fn other_length(draw: &mut Draw, _: &Second, o: &mut Offer) -> Option<u32> {
    let length = draw.one_of(&[
        0,
        1,
        o.scene.block.len() + 1,
        o.scene.block.len() / 2,
        65_536,
    ]);
    let length = length.min(65_536);
    o.claim.check[13..17].copy_from_slice(&(length as u32).to_be_bytes());
    Some(if body_length(length, o.scene.m) == o.scene.size {
        0
    } else {
        8
    })
}

/// One bit of the 64.
fn number(draw: &mut Draw, _: &Second, o: &mut Offer) -> Option<u32> {
    o.record[5 + draw.below(8)] ^= 1 << draw.below(8);
    Some(9)
}

fn index_over(draw: &mut Draw, _: &Second, o: &mut Offer) -> Option<u32> {
    let n = o.scene.n;
    o.record[13] = draw.one_of(&[n, n + 1, (n + 255) / 2, 255]) as u8;
    Some(10)
}

/// Accepted where the other body has the same bytes.
fn index_other(draw: &mut Draw, _: &Second, o: &mut Offer) -> Option<u32> {
    let other = draw.below(o.scene.n);
    o.record[13] = other as u8;
    let same = o.scene.body(other) == o.scene.body(o.index);
    Some(if same { 0 } else { 11 })
}

fn body_byte(draw: &mut Draw, _: &Second, o: &mut Offer) -> Option<u32> {
    if o.scene.size == 0 {
        return Some(0);
    }
    o.record[18 + draw.below(o.scene.size)] ^= draw.change();
    Some(11)
}

fn hash_bit(draw: &mut Draw, _: &Second, o: &mut Offer) -> Option<u32> {
    o.claim.check[o.scene.hash_place(o.index) + draw.below(32)] ^= draw.change();
    Some(11)
}

fn hash_of_another(draw: &mut Draw, _: &Second, o: &mut Offer) -> Option<u32> {
    let other = draw.below(o.scene.n);
    o.claim.check[o.scene.hash_place(other) + draw.below(32)] ^= draw.change();
    Some(if other == o.index { 11 } else { 0 })
}

fn hashes_swapped(draw: &mut Draw, _: &Second, o: &mut Offer) -> Option<u32> {
    let other = draw.below(o.scene.n);
    let (a, b) = (o.scene.hash_place(o.index), o.scene.hash_place(other));
    (0..32).for_each(|k| o.claim.check.swap(a + k, b + k));
    let same = o.scene.body(other) == o.scene.body(o.index);
    Some(if same { 0 } else { 11 })
}

/// Puts the hash of the record's body into the check record.
fn mend_hash(second: &Second, o: &mut Offer) {
    let at = o.scene.hash_place(o.index);
    o.claim.check[at..at + 32].copy_from_slice(&second.hash.digest(&o.record[18..]));
}

/// At seed column 0 only the first column counts; at any other every byte does.
fn mended_hash(draw: &mut Draw, second: &Second, o: &mut Offer) -> Option<u32> {
    if o.scene.size == 0 {
        return Some(0);
    }
    let at = draw.below(o.scene.size);
    o.record[18 + at] ^= draw.change();
    mend_hash(second, o);
    Some(if o.scene.seed != 0 || at < 3 { 12 } else { 0 })
}

/// Another body with the same fingerprint at this seed: a column times the seed's at one place, itself at the next.
fn mended_print(draw: &mut Draw, second: &Second, o: &mut Offer) -> Option<u32> {
    if o.scene.size < 6 {
        return Some(0);
    }
    let at = 18 + 3 * draw.below(o.scene.size / 3 - 1);
    let more: Column = [draw.change(), draw.next() as u8, draw.next() as u8];
    let before = times(&second.products, more, o.scene.seed_column());
    add_column(&mut o.record[at..at + 3], before);
    add_column(&mut o.record[at + 3..at + 6], more);
    mend_hash(second, o);
    Some(0)
}

fn add_column(place: &mut [u8], column: Column) {
    let sum = plus([place[0], place[1], place[2]], column);
    place.copy_from_slice(&sum);
}

/// A head below m answers for its own fingerprint alone, any other for all of them.
fn print_bit(draw: &mut Draw, _: &Second, o: &mut Offer) -> Option<u32> {
    let j = draw.below(o.scene.m);
    o.claim.check[o.scene.print_place(j) + draw.below(3)] ^= draw.change();
    Some(if o.index >= o.scene.m || o.index == j {
        12
    } else {
        0
    })
}

/// Bodies of at most one column have the same fingerprint at every seed.
fn seed_column(draw: &mut Draw, _: &Second, o: &mut Offer) -> Option<u32> {
    o.claim.check[19 + draw.below(3)] ^= draw.change();
    (o.scene.size <= 3).then_some(0)
}

/// One fault for each of 8 to 12; the least of those made is given.
fn several(draw: &mut Draw, second: &Second, o: &mut Offer) -> Option<u32> {
    let makes: [(u32, Make); 5] = [
        (12, print_bit),
        (11, hash_bit),
        (10, index_over),
        (9, number),
        (8, version),
    ];
    // Only a head that answers for all fingerprints is sure to meet the fault in one of them.
    let first = if o.index >= o.scene.m { 0 } else { 1 };
    let mut least = 0;
    for (number, make) in &makes[first..] {
        if draw.once_in(2) {
            make(draw, second, o);
            least = *number;
        }
    }
    Some(least)
}

fn swapped(_: &mut Draw, _: &Second, o: &mut Offer) -> Option<u32> {
    std::mem::swap(&mut o.claim.check, &mut o.record);
    Some(5)
}

fn record_bits(draw: &mut Draw, _: &Second, o: &mut Offer) -> Option<u32> {
    flip(draw, &mut o.record);
    None
}

fn bits(draw: &mut Draw, _: &Second, o: &mut Offer) -> Option<u32> {
    flip(draw, &mut o.record);
    flip(draw, &mut o.claim.check);
    None
}

fn absurd_both(draw: &mut Draw, _: &Second, o: &mut Offer) -> Option<u32> {
    if draw.once_in(2) {
        o.claim.check = absurd(draw, b"LCK");
    }
    o.record = absurd(draw, b"LFR");
    None
}
