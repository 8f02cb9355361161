//! What join takes: a claim, records end to end and an output.

use crate::calls::{Caller, Way};
use crate::claims::{absurd, flip, Claim, DAMAGES};
use crate::draw::Draw;
use crate::scene::Scene;

/// A join before it is asked for.
pub struct Join<'a> {
    pub scene: &'a Scene,
    pub claim: Claim,
    pub records: Vec<Vec<u8>>,
    /// What is left over behind the last record.
    pub rest: Vec<u8>,
    pub out_len: usize,
}

type Make = fn(&mut Draw, &mut Join) -> Option<u32>;

/// Each way of making a join, which tells the number that must come back, where it knows.
pub const WAYS: [(&str, Make); 20] = [
    ("the first m", first),
    ("the last m", last),
    ("any m in any order", any),
    ("all n in any order", all),
    ("some of them twice", twice),
    ("refused ones among them", refused_among),
    ("too many refused", too_many_refused),
    ("too few, some twice", too_few),
    ("one again and again", one_again),
    ("none", none),
    ("one over n", over),
    ("many over n", many_over),
    ("a part of a record behind", part_behind),
    ("a part of a record missing", part_missing),
    ("output one byte off", output_off),
    ("output far off", output_far_off),
    ("output and records off", both_off),
    ("another L of the same F", other_length),
    ("bits anywhere", bits),
    ("absurd", absurd_all),
];

pub fn join(draw: &mut Draw, caller: &mut Caller, scene: &Scene) {
    let records = scene.records.clone();
    let (claim, out_len) = (Claim::honest(scene), scene.block.len());
    let mut join = Join {
        scene,
        claim,
        records,
        rest: vec![],
        out_len,
    };
    if draw.once_in(4) {
        let (name, number, damage) = draw.one_of(&DAMAGES);
        let (_, make) = draw.one_of(&WAYS[..18]);
        make(draw, &mut join);
        join.claim = Claim::honest(scene);
        damage(draw, &mut join.claim);
        call(caller, Way(name, Some(number)), &join);
        return;
    }
    let (name, make) = draw.one_of(&WAYS);
    let aim = make(draw, &mut join);
    call(caller, Way(name, aim), &join);
}

fn call(caller: &mut Caller, way: Way, join: &Join) {
    let mut records = join.records.concat();
    records.extend(&join.rest);
    let Claim { wanted, check } = &join.claim;
    let outcome = caller.join(way, *wanted, check, &records, join.out_len);
    let whole = *wanted == join.scene.number && *check == join.scene.check;
    if whole && outcome.number == 0 {
        assert_eq!(
            outcome.buffers[0], join.scene.block,
            "{way:?}: another block came back"
        );
    }
}

/// A check record whose L is that of a block with a fill, over records whose fill is as drawn.
pub fn filled(draw: &mut Draw, caller: &mut Caller, scene: &Scene) {
    let whole = scene.m * scene.size;
    let length = scene.block.len();
    let mut block = scene.block.clone();
    block.resize(whole, 0);
    let zero = whole == length || draw.once_in(4);
    if !zero {
        block[draw.between(length, whole - 1)] = draw.change();
    }
    let mut other = scene.with_block(caller.second, block);
    other.check[13..17].copy_from_slice(&(length as u32).to_be_bytes());
    let (claim, records) = (Claim::honest(&other), other.records.clone());
    let mut join = Join {
        scene: &other,
        claim,
        records,
        rest: vec![],
        out_len: length,
    };
    any(draw, &mut join);
    let number = if zero { 0 } else { 14 };
    let records = join.records.concat();
    let way = Way("a fill byte", Some(number));
    caller.join(way, scene.number, &other.check, &records, length);
}

/// Keeps the records of these indexes, in this order.
fn keep(join: &mut Join, order: &[usize]) {
    join.records = order
        .iter()
        .map(|&i| join.scene.records[i].clone())
        .collect();
}

fn first(_: &mut Draw, join: &mut Join) -> Option<u32> {
    join.records.truncate(join.scene.m);
    Some(0)
}

fn last(_: &mut Draw, join: &mut Join) -> Option<u32> {
    join.records.drain(..join.scene.n - join.scene.m);
    Some(0)
}

fn any(draw: &mut Draw, join: &mut Join) -> Option<u32> {
    let order = draw.shuffled(join.scene.n);
    keep(join, &order[..join.scene.m]);
    Some(0)
}

fn all(draw: &mut Draw, join: &mut Join) -> Option<u32> {
    let order = draw.shuffled(join.scene.n);
    keep(join, &order);
    Some(0)
}

/// m different ones, and as many more of these as there is room for, in any order.
fn twice(draw: &mut Draw, join: &mut Join) -> Option<u32> {
    let (m, n) = (join.scene.m, join.scene.n);
    let mut order = draw.shuffled(n);
    order.truncate(m);
    while order.len() < n {
        let again = order[draw.below(m)];
        order.insert(draw.below(order.len() + 1), again);
    }
    keep(join, &order);
    Some(0)
}

/// Damages a record so that it is refused, its length kept.
fn refuse(draw: &mut Draw, n: usize, record: &mut [u8]) {
    match draw.below(5) {
        0 => record[draw.below(5)] ^= draw.change(),
        1 => record[5 + draw.below(8)] ^= draw.change(),
        2 => record[13] = draw.between(n, 255) as u8,
        3 => record[14 + draw.below(4)] ^= draw.change(),
        _ if record.len() > 18 => record[draw.between(18, record.len() - 1)] ^= draw.change(),
        _ => record.fill(0),
    }
}

fn refuse_some(draw: &mut Draw, join: &mut Join, count: usize) {
    let n = join.scene.n;
    all(draw, join);
    for place in draw.shuffled(n).into_iter().take(count) {
        refuse(draw, n, &mut join.records[place]);
    }
}

fn refused_among(draw: &mut Draw, join: &mut Join) -> Option<u32> {
    let count = draw.between(0, join.scene.n - join.scene.m);
    refuse_some(draw, join, count);
    Some(0)
}

fn too_many_refused(draw: &mut Draw, join: &mut Join) -> Option<u32> {
    let (m, n) = (join.scene.m, join.scene.n);
    let count = draw.between(n - m + 1, n);
    refuse_some(draw, join, count);
    Some(13)
}

fn too_few(draw: &mut Draw, join: &mut Join) -> Option<u32> {
    let (m, n) = (join.scene.m, join.scene.n);
    let mut order = draw.shuffled(n);
    order.truncate(draw.below(m));
    let repeats = if order.is_empty() {
        0
    } else {
        draw.below(n - order.len() + 1)
    };
    for _ in 0..repeats {
        let again = draw.one_of(&order);
        order.push(again);
    }
    keep(join, &order);
    Some(13)
}

fn one_again(draw: &mut Draw, join: &mut Join) -> Option<u32> {
    let index = draw.below(join.scene.n);
    let times = draw.between(1, join.scene.n);
    keep(join, &vec![index; times]);
    Some(if join.scene.m == 1 { 0 } else { 13 })
}

fn none(_: &mut Draw, join: &mut Join) -> Option<u32> {
    join.records.clear();
    Some(13)
}

fn over(draw: &mut Draw, join: &mut Join) -> Option<u32> {
    let again = join.records[draw.below(join.scene.n)].clone();
    join.records.push(again);
    Some(4)
}

fn many_over(draw: &mut Draw, join: &mut Join) -> Option<u32> {
    let again = join.records.clone();
    join.records.extend(again);
    let more = join.records[draw.below(join.scene.n)].clone();
    join.records.push(more);
    Some(4)
}

fn part_behind(draw: &mut Draw, join: &mut Join) -> Option<u32> {
    join.records.truncate(draw.below(join.scene.n + 1));
    let part = draw.one_of(&[1, 17, 17 + join.scene.size, join.scene.size / 2 + 1]);
    join.rest = draw.bytes(part);
    Some(4)
}

fn part_missing(draw: &mut Draw, join: &mut Join) -> Option<u32> {
    let size = join.scene.size;
    let end = join.records.last_mut().unwrap();
    end.truncate(draw.between(1, 17 + size));
    Some(4)
}

fn output_off(draw: &mut Draw, join: &mut Join) -> Option<u32> {
    all(draw, join);
    join.out_len = match join.out_len {
        0 => 1,
        length if draw.once_in(2) => length - 1,
        length => length + 1,
    };
    Some(4)
}

fn output_far_off(draw: &mut Draw, join: &mut Join) -> Option<u32> {
    let length = join.scene.block.len();
    join.out_len = draw.one_of(&[0, 2 * length, join.scene.m * join.scene.size, 1_000]);
    Some(if join.out_len == length { 0 } else { 4 })
}

fn both_off(draw: &mut Draw, join: &mut Join) -> Option<u32> {
    part_behind(draw, join);
    output_off(draw, join);
    Some(4)
}

/// The block is then longer, with zero bytes of the fill, or shorter, and its last bytes are fill.
fn other_length(draw: &mut Draw, join: &mut Join) -> Option<u32> {
    let (m, size) = (join.scene.m, join.scene.size);
    if size == 0 {
        return Some(0);
    }
    let length = draw.between(m * size - 3 * m + 1, m * size).min(65_536);
    let cut = join.scene.block.get(length..).unwrap_or(&[]);
    let number = if cut.iter().all(|&b| b == 0) { 0 } else { 14 };
    join.claim.check[13..17].copy_from_slice(&(length as u32).to_be_bytes());
    join.out_len = length;
    any(draw, join);
    Some(number)
}

fn bits(draw: &mut Draw, join: &mut Join) -> Option<u32> {
    all(draw, join);
    for _ in 0..draw.between(1, 3) {
        let place = draw.below(join.scene.n);
        flip(draw, &mut join.records[place]);
    }
    if draw.once_in(3) {
        flip(draw, &mut join.claim.check);
    }
    None
}

fn absurd_all(draw: &mut Draw, join: &mut Join) -> Option<u32> {
    if draw.once_in(3) {
        join.claim.check = absurd(draw, b"LCK");
    }
    let stride = 18 + join.scene.size;
    join.records = (0..draw.below(join.scene.n + 2))
        .map(|_| absurd(draw, b"LFR"))
        .collect();
    if draw.once_in(2) {
        join.records.iter_mut().for_each(|r| r.resize(stride, 0x42));
    }
    None
}
