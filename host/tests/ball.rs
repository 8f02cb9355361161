//! The program `ball` on many inputs, its output held against a text made with the second implementation.

#[path = "agree/draw.rs"]
#[allow(dead_code)]
mod draw;

use ruwekiha::second::code::body_length;
use ruwekiha::second::records::check_length;
use ruwekiha::second::Second;
use std::fmt::Write as _;
use std::io::{ErrorKind, Write as _};
use std::process::{Command, Stdio};

const PROGRAM: &str = concat!(env!("CARGO_MANIFEST_DIR"), "/../target/bin/ball");

/// What document 01 has the program print for these bytes.
fn expected(second: &Second, input: &[u8]) -> String {
    if input.len() < 13 {
        return "REF 4\n".into();
    }
    if input.len() > 525 {
        return "REF 2\n".into();
    }
    let (head, block) = input.split_at(13);
    let (m, n) = (head[0] as u32, head[1] as u32);
    let seed = head[2] as u32 | (head[3] as u32) << 8 | (head[4] as u32) << 16;
    let number = u64::from_be_bytes(head[5..].try_into().unwrap());
    // Counts out of bounds are refused before any length is looked at.
    let size = body_length(block.len(), m.max(1) as usize);
    let mut records = vec![0; n as usize * (18 + size)];
    let mut check = vec![0; check_length(m as usize, n as usize)];
    match second.cut((m, n), seed, number, block, &mut records, &mut check) {
        0 => {}
        refusal => return format!("REF {refusal}\n"),
    }
    let mut text = format!("LCK 1 {number} {} {m} {n}\n", block.len());
    for (index, record) in records.chunks(18 + size).enumerate() {
        let mut print = [0; 3];
        assert_eq!(second.fingerprint(seed, &record[18..], &mut print), 0);
        let [a, b, c] = print;
        writeln!(text, "LFR {index} {size} {a:02X}{b:02X}{c:02X}").unwrap();
    }
    let last = &records[(n - m) as usize * (18 + size)..];
    let mut out = vec![0; block.len()];
    let (done, read, _) = second.join(number, &check, last, &mut out);
    writeln!(text, "DEC {done} {read} {}", block.len()).unwrap();
    text
}

/// What the program prints for bytes that come in parts.
fn printed(parts: &[&[u8]]) -> String {
    let mut child = Command::new(PROGRAM)
        .stdin(Stdio::piped())
        .stdout(Stdio::piped())
        .spawn()
        .unwrap_or_else(|e| panic!("{PROGRAM}: {e}; `host/archive` proves and builds it"));
    let mut stdin = child.stdin.take().unwrap();
    for (k, part) in parts.iter().enumerate() {
        if k > 0 {
            std::thread::sleep(std::time::Duration::from_millis(20));
        }
        match stdin.write_all(part) {
            // It need not read what it will refuse anyway.
            Err(e) if e.kind() == ErrorKind::BrokenPipe => {}
            done => done.unwrap(),
        }
    }
    drop(stdin);
    let output = child.wait_with_output().unwrap();
    assert!(
        output.status.code().is_some(),
        "the program was ended by a signal"
    );
    String::from_utf8(output.stdout).expect("plain text")
}

fn agree(second: &Second, input: &[u8]) {
    assert_eq!(
        printed(&[input]),
        expected(second, input),
        "for the bytes {input:02x?}"
    );
}

fn input(m: u8, n: u8, seed: [u8; 3], number: u64, block: &[u8]) -> Vec<u8> {
    let mut bytes = vec![m, n];
    bytes.extend(seed);
    bytes.extend(number.to_be_bytes());
    bytes.extend(block);
    bytes
}

#[test]
fn worked_example() {
    let input = input(2, 4, [0, 1, 0], 7, &[1, 2, 3, 4, 5, 6]);
    let text = "LCK 1 7 6 2 4\nLFR 0 3 010203\nLFR 1 3 040506\nLFR 2 3 0B0C09\nLFR 3 3 0E0B0C\nDEC 0 2 6\n";
    assert_eq!(printed(&[&input]), text);
    assert_eq!(expected(&Second::new(), &input), text);
}

/// The three rules and their order: each length around the two edges, with counts that a cut takes and counts that it refuses.
#[test]
fn refusals_and_their_edges() {
    let second = Second::new();
    for (m, n) in [
        (1, 1),
        (8, 12),
        (64, 64),
        (0, 0),
        (0, 4),
        (5, 4),
        (2, 65),
        (255, 255),
    ] {
        let bytes = input(m, n, [1, 2, 3], u64::MAX, &[0xa5; 1_000]);
        for length in [0, 1, 2, 12, 13, 14, 37, 524, 525, 526, 527, 1_013] {
            agree(&second, &bytes[..length]);
        }
    }
    let text = |length: usize, m| printed(&[&input(m, 4, [0; 3], 1, &[7; 600])[..length]]);
    assert_eq!(
        (text(12, 2), text(526, 2)),
        ("REF 4\n".into(), "REF 2\n".into())
    );
    assert_eq!(
        (text(12, 0), text(526, 0)),
        ("REF 4\n".into(), "REF 2\n".into())
    );
    assert_eq!(
        (text(13, 0), text(525, 5)),
        ("REF 1\n".into(), "REF 1\n".into())
    );
    let far = input(2, 4, [0; 3], 1, &[7; 200_000]);
    agree(&second, &far);
}

/// Input that does not come all at once.
#[test]
fn input_in_parts() {
    let second = Second::new();
    let bytes = input(8, 12, [9, 8, 7], 99, &[0x3c; 512]);
    for cut in [1, 5, 12, 13, 14, 300, 524] {
        let (first, rest) = bytes.split_at(cut);
        assert_eq!(
            printed(&[first, rest]),
            expected(&second, &bytes),
            "in parts at {cut}"
        );
    }
    let over = [&bytes[..], &[1]].concat();
    assert_eq!(printed(&[&over[..525], &over[525..]]), "REF 2\n");
}

/// Every m and n that a cut takes, each with a block, a seed and a number.
#[test]
fn many_inputs() {
    let second = Second::new();
    let seed = draw::seed();
    draw::say(format!("ball: seed {seed}"));
    let mut draw = draw::Draw::of_case(seed, 0);
    for (m, n) in (1..=64).flat_map(|n| (1..=n).map(move |m| (m, n))) {
        let length = if draw.once_in(4) {
            draw.below(513)
        } else {
            draw.below(40)
        };
        let block = draw.bytes(length);
        let seed = std::array::from_fn(|_| draw.next() as u8);
        agree(&second, &input(m, n, seed, draw.next(), &block));
    }
}
