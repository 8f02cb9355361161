//! How fast the proved functions are beside the second implementation, and beside OpenSSL's hash without the processor's SHA
//! instructions, in one run. The two sides take turns, and medians are given. It is no test.
//!
//! Rates are in MB/s of block: check, hash and fingerprint go over m fragments, as many as make up a block.

use ruwekiha::second::Second;
use ruwekiha::{check_length, raw, record_length};
use std::cell::RefCell;
use std::hint::black_box;
use std::process::Command;

const COUNTS: [(u32, u32); 2] = [(8, 12), (32, 64)];
const LENGTHS: [usize; 3] = [512, 4_096, 65_536];
const TURNS: usize = 11;
const TURN: f64 = 0.012;
const SEED: u32 = 0x0a_5c_31;
const NUMBER: u64 = 7;

fn main() {
    let second = Second::new();
    println!(
        "MB/s of block, and in brackets the ratio to the second implementation in the same run\n"
    );
    println!("| m of n | L | cut | check | join | hash | fingerprint |");
    println!("|---|---|---|---|---|---|---|");
    for (m, n) in COUNTS {
        for length in LENGTHS {
            let cells = Block::cut(m, n, length).cells(&second);
            println!("| {m} of {n} | {length} | {} |", cells.join(" | "));
        }
    }
    beside_openssl();
}

/// A block with its records: all of them, and the last m, from which a join has to compute.
struct Block {
    m: u32,
    n: u32,
    block: Vec<u8>,
    records: Vec<u8>,
    check: Vec<u8>,
    stride: usize,
    /// Where cuts and joins write.
    room: RefCell<Room>,
}

struct Room {
    records: Vec<u8>,
    check: Vec<u8>,
    out: Vec<u8>,
}

impl Block {
    fn cut(m: u32, n: u32, length: usize) -> Block {
        let block: Vec<u8> = (0..length).map(|i| (i * 7 + i / 251) as u8).collect();
        let stride = record_length(length, m);
        let mut records = vec![0; n as usize * stride];
        let mut check = vec![0; check_length(m, n)];
        let done = ruwekiha::cut(m, n, SEED, NUMBER, &block, &mut records, &mut check);
        done.expect("a refusal would be measured");
        let room = Room {
            records: records.clone(),
            check: check.clone(),
            out: block.clone(),
        };
        Block {
            m,
            n,
            block,
            records,
            check,
            stride,
            room: RefCell::new(room),
        }
    }

    fn last(&self) -> &[u8] {
        &self.records[(self.n - self.m) as usize * self.stride..]
    }

    fn each(&self) -> impl Iterator<Item = &[u8]> {
        self.last().chunks(self.stride)
    }

    /// One cell for each operation.
    fn cells(&self, second: &Second) -> Vec<String> {
        let sides: [(Work, Work); 5] = [
            (&|| self.our_cut(), &|| self.their_cut(second)),
            (&|| self.our_check(), &|| self.their_check(second)),
            (&|| self.our_join(), &|| self.their_join(second)),
            (&|| self.our_hash(), &|| self.their_hash(second)),
            (&|| self.our_print(), &|| self.their_print(second)),
        ];
        let cell = |(ours, theirs)| {
            let (rate, ratio) = taking_turns(self.block.len(), ours, theirs);
            format!("{rate:.1} ({ratio:.2})")
        };
        sides.into_iter().map(cell).collect()
    }

    fn our_cut(&self) -> u32 {
        let Room { records, check, .. } = &mut *self.room.borrow_mut();
        raw::cut(self.m, self.n, SEED, NUMBER, &self.block, records, check)
    }

    fn their_cut(&self, second: &Second) -> u32 {
        let Room { records, check, .. } = &mut *self.room.borrow_mut();
        second.cut((self.m, self.n), SEED, NUMBER, &self.block, records, check)
    }

    fn our_check(&self) -> u32 {
        let check = |record| raw::check(NUMBER, &self.check, record, &mut 0);
        self.each().map(check).sum()
    }

    fn their_check(&self, second: &Second) -> u32 {
        let check = |record| second.check(NUMBER, &self.check, record).0;
        self.each().map(check).sum()
    }

    fn our_join(&self) -> u32 {
        let out = &mut self.room.borrow_mut().out;
        raw::join(NUMBER, &self.check, self.last(), out, &mut 0, &mut 0)
    }

    fn their_join(&self, second: &Second) -> u32 {
        let out = &mut self.room.borrow_mut().out;
        second.join(NUMBER, &self.check, self.last(), out).0
    }

    fn our_hash(&self) -> u32 {
        let hash = |record: &[u8]| raw::sha256(&record[18..], black_box(&mut [0; 32]));
        self.each().map(hash).sum()
    }

    fn their_hash(&self, second: &Second) -> u32 {
        let hash = |record: &[u8]| second.sha256(&record[18..], black_box(&mut [0; 32]));
        self.each().map(hash).sum()
    }

    fn our_print(&self) -> u32 {
        let print = |record: &[u8]| raw::fingerprint(SEED, &record[18..], black_box(&mut [0; 3]));
        self.each().map(print).sum()
    }

    fn their_print(&self, second: &Second) -> u32 {
        let print = |record: &[u8]| second.fingerprint(SEED, &record[18..], black_box(&mut [0; 3]));
        self.each().map(print).sum()
    }
}

/// Something that goes over a whole block once and gives 0.
type Work<'a> = &'a dyn Fn() -> u32;

/// The median rate of the first and the median ratio of both.
fn taking_turns(bytes: usize, ours: Work, theirs: Work) -> (f64, f64) {
    assert_eq!((ours(), theirs()), (0, 0), "a refusal would be measured");
    let mut rates = Vec::new();
    let mut ratios = Vec::new();
    for _ in 0..TURNS {
        let (a, b) = (rate(bytes, TURN, ours), rate(bytes, TURN, theirs));
        rates.push(a);
        ratios.push(a / b);
    }
    (median(rates), median(ratios))
}

/// Megabytes in a second of the processor's time.
fn rate(bytes: usize, seconds: f64, work: Work) -> f64 {
    let began = processor_time();
    let mut times = 0;
    loop {
        for _ in 0..8 {
            black_box(work());
        }
        times += 8;
        let passed = processor_time() - began;
        if passed >= seconds {
            return (times * bytes) as f64 / passed / 1e6;
        }
    }
}

/// What this process has used, in seconds: OpenSSL counts the same, and what else the machine does then counts for neither.
fn processor_time() -> f64 {
    extern "C" {
        fn clock() -> std::ffi::c_long;
    }
    // SAFETY: C's own function, which takes nothing and touches nothing; POSIX has it in millionths.
    unsafe { clock() as f64 / 1e6 }
}

fn median(mut values: Vec<f64>) -> f64 {
    values.sort_by(f64::total_cmp);
    values[values.len() / 2]
}

/// The largest block in the standard setting, and the hash of its bodies, beside OpenSSL on the same bodies.
fn beside_openssl() {
    let block = Block::cut(8, 12, 65_536);
    let size = block.stride - 18;
    let hash = || rate(8 * size, 0.5, &|| block.our_hash());
    let cut = || rate(65_536, 0.5, &|| block.our_cut());
    let (mut theirs, mut hashes, mut cuts) = (vec![], vec![], vec![]);
    for _ in 0..7 {
        // Ours before and after theirs, which takes a second: the machine may be another meanwhile.
        let (hash_before, cut_before) = (hash(), cut());
        let openssl = openssl(size);
        cuts.push((cut_before + cut()) / 2.0 / openssl);
        hashes.push((hash_before + hash()) / 2.0 / openssl);
        theirs.push(openssl);
    }
    println!("\nOpenSSL's SHA-256 without SHA instructions on bodies of {size} bytes, and ratios to it in the same run,");
    println!("each a median with the lowest and the highest of seven:\n");
    println!("- OpenSSL: {} MB/s", spread(theirs, 1));
    println!(
        "- the proved hash of the same bodies: {}",
        spread(hashes, 2)
    );
    println!(
        "- the cut of 65,536 bytes at 8 of 12, in MB/s of block: {}",
        spread(cuts, 2)
    );
}

fn spread(values: Vec<f64>, digits: usize) -> String {
    let least = values.iter().copied().fold(f64::INFINITY, f64::min);
    let most = values.iter().copied().fold(0.0, f64::max);
    format!(
        "{:.digits$} ({least:.digits$} to {most:.digits$})",
        median(values)
    )
}

/// What `openssl speed` says, whose last line ends in thousands of bytes a second, as 393216.00k.
fn openssl(size: usize) -> f64 {
    let run = Command::new("openssl")
        .args([
            "speed",
            "-bytes",
            &size.to_string(),
            "-seconds",
            "1",
            "sha256",
        ])
        .env("OPENSSL_ia32cap", "~0x200000200000000:~0x20000000")
        .output()
        .expect("openssl runs");
    let said = String::from_utf8_lossy(&run.stdout);
    let last = said.split_whitespace().last();
    let rate = last.and_then(|word| word.strip_suffix('k')?.parse::<f64>().ok());
    rate.expect("openssl speed ends in a rate") / 1e3
}
