//! The safe interface: each answer as its enum or struct, on a block that is cut, checked, opened and joined.

use ruwekiha::{Counts, NotJoined, Reason, Refusal, Verdict};

const NUMBER: u64 = 7;

/// Document 01's worked block at 2 of 4.
fn cut() -> (Vec<u8>, Vec<u8>) {
    let mut records = vec![0; 4 * ruwekiha::record_length(6, 2)];
    let mut check = vec![0; ruwekiha::check_length(2, 4)];
    let block = [1, 2, 3, 4, 5, 6];
    ruwekiha::cut(2, 4, 256, NUMBER, &block, &mut records, &mut check).unwrap();
    (records, check)
}

#[test]
fn cutting() {
    let (records, check) = cut();
    assert_eq!((records.len(), check.len()), (84, 156));
    assert_eq!(records[81..], [0x0e, 0x0b, 0x0c]);
    let mut room = (vec![9; 84], vec![9; 156]);
    let mut refused = |m, n, seed, block: &[u8]| {
        let done = ruwekiha::cut(m, n, seed, NUMBER, block, &mut room.0, &mut room.1);
        assert_eq!(room, (vec![9; 84], vec![9; 156]));
        done.unwrap_err()
    };
    assert_eq!(refused(0, 4, 0, &[]), Refusal::Counts);
    assert_eq!(refused(2, 4, 0, &[0; 65_537]), Refusal::TooLong);
    assert_eq!(refused(2, 4, 1 << 24, &[]), Refusal::Seed);
    assert_eq!(refused(2, 4, 0, &[]), Refusal::Length);
}

#[test]
fn standard_setting() {
    let (m, n) = (ruwekiha::STANDARD_M, ruwekiha::STANDARD_N);
    let block: Vec<u8> = (0..100).collect();
    let card = ruwekiha::card_size(100).unwrap() as usize;
    assert_eq!(card, ruwekiha::record_length(100, m));
    assert_eq!(ruwekiha::card_size(65_537), Err(Refusal::TooLong));
    let mut named = (vec![0; 12 * card], vec![0; ruwekiha::check_length(m, n)]);
    let mut plain = named.clone();
    ruwekiha::cut(m, n, 5, NUMBER, &block, &mut named.0, &mut named.1).unwrap();
    ruwekiha::cut_standard(5, NUMBER, &block, &mut plain.0, &mut plain.1).unwrap();
    assert_eq!(named, plain);
}

#[test]
fn checking_and_opening() {
    let (records, check) = cut();
    let record = &records[63..];
    assert_eq!(
        ruwekiha::check(NUMBER, &check, record),
        Verdict::Accepted { index: 3 }
    );
    let body = ruwekiha::open(NUMBER, &check, record).unwrap();
    assert_eq!(
        body.as_ptr(),
        record[18..].as_ptr(),
        "the body is a part of the record"
    );
    assert_eq!(body, [0x0e, 0x0b, 0x0c]);
    let changed = |place: usize, to: u8| {
        let mut record = record.to_vec();
        record[place] = to;
        let opened = ruwekiha::open(NUMBER, &check, &record).map(<[u8]>::to_vec);
        match ruwekiha::check(NUMBER, &check, &record) {
            Verdict::Accepted { .. } => panic!("byte {place} does not count"),
            Verdict::Refused(reason) => {
                assert_eq!(opened, Err(reason.refusal()));
                reason
            }
        }
    };
    assert_eq!(changed(0, b'l'), Reason::FragmentShape);
    assert_eq!(
        changed(5, 1),
        Reason::OtherNumber {
            found: (1 << 56) + NUMBER
        }
    );
    assert_eq!(changed(13, 4), Reason::NoSuchHead);
    assert_eq!(changed(18, 0), Reason::Hash);
}

#[test]
fn refused_check_records() {
    let (records, check) = cut();
    let with = |wanted, check: &[u8]| ruwekiha::check(wanted, check, &records[..21]);
    assert_eq!(
        with(NUMBER, &check[..4]),
        Verdict::Refused(Reason::CheckMark)
    );
    assert_eq!(
        with(NUMBER, &check[..21]),
        Verdict::Refused(Reason::CheckShape)
    );
    assert_eq!(with(8, &check), Verdict::Refused(Reason::OtherBlock));
    let mut prints = check.clone();
    prints[150] ^= 1;
    assert_eq!(with(NUMBER, &prints), Verdict::Refused(Reason::Fingerprint));
}

#[test]
fn joining() {
    let (records, mut check) = cut();
    let mut out = [9; 6];
    let two = Counts {
        read: 2,
        indexes: 2,
    };
    assert_eq!(
        ruwekiha::join(NUMBER, &check, &records[42..], &mut out),
        Ok(two)
    );
    assert_eq!(out, [1, 2, 3, 4, 5, 6]);
    let too_few = NotJoined {
        refusal: Refusal::TooFew,
        counts: Counts {
            read: 1,
            indexes: 1,
        },
    };
    assert_eq!(
        ruwekiha::join(NUMBER, &check, &records[63..], &mut out),
        Err(too_few)
    );
    // L of 5: the block's last byte is then fill.
    check[16] = 5;
    let fill = NotJoined {
        refusal: Refusal::Fill,
        counts: two,
    };
    assert_eq!(
        ruwekiha::join(NUMBER, &check, &records[42..], &mut out[..5]),
        Err(fill)
    );
}

#[test]
fn hash_and_fingerprint() {
    assert_eq!(
        ruwekiha::sha256(b"abc").unwrap()[..4],
        [0xba, 0x78, 0x16, 0xbf]
    );
    assert_eq!(ruwekiha::sha256(&[0; 65_539]), Err(Refusal::TooLong));
    assert_eq!(
        ruwekiha::fingerprint(256, &[1, 2, 3, 4, 5, 6]),
        Ok([7, 0, 6])
    );
    assert_eq!(ruwekiha::fingerprint(256, &[1, 2]), Err(Refusal::Length));
    assert_eq!(ruwekiha::fingerprint(1 << 24, &[]), Err(Refusal::Seed));
}

#[test]
fn numbers_and_back() {
    for number in 0..20 {
        let refusal = Refusal::from_number(number);
        assert_eq!(
            refusal.map(Refusal::number),
            (1..=14).contains(&number).then_some(number)
        );
    }
}
