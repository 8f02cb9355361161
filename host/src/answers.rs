//! What comes back, as document 01's table has it.

use std::fmt;

/// Document 01's refusals, by its numbers.
#[derive(Clone, Copy, Debug, PartialEq, Eq, Hash)]
#[repr(u32)]
pub enum Refusal {
    Counts = 1,
    TooLong = 2,
    Seed = 3,
    Length = 4,
    CheckMark = 5,
    CheckShape = 6,
    OtherBlock = 7,
    FragmentShape = 8,
    OtherNumber = 9,
    NoSuchHead = 10,
    Hash = 11,
    Fingerprint = 12,
    TooFew = 13,
    Fill = 14,
}

impl Refusal {
    pub const ALL: [Refusal; 14] = [
        Refusal::Counts,
        Refusal::TooLong,
        Refusal::Seed,
        Refusal::Length,
        Refusal::CheckMark,
        Refusal::CheckShape,
        Refusal::OtherBlock,
        Refusal::FragmentShape,
        Refusal::OtherNumber,
        Refusal::NoSuchHead,
        Refusal::Hash,
        Refusal::Fingerprint,
        Refusal::TooFew,
        Refusal::Fill,
    ];

    pub fn number(self) -> u32 {
        self as u32
    }

    /// The refusal with this number; none for 0 and for what document 01 does not have.
    pub fn from_number(number: u32) -> Option<Refusal> {
        Refusal::ALL.into_iter().find(|r| r.number() == number)
    }

    pub(crate) fn or_done(number: u32) -> Result<(), Refusal> {
        match (number, Refusal::from_number(number)) {
            (0, _) => Ok(()),
            (_, Some(refusal)) => Err(refusal),
            _ => unreachable!("document 01 has no number {number}"),
        }
    }
}

impl fmt::Display for Refusal {
    fn fmt(&self, f: &mut fmt::Formatter) -> fmt::Result {
        let meaning = match self {
            Refusal::Counts => "m or n out of bounds",
            Refusal::TooLong => "block or body too long",
            Refusal::Seed => "seed over 16,777,215",
            Refusal::Length => "a buffer or a body has another length than it must",
            Refusal::CheckMark => "check record too short, or with another mark or version",
            Refusal::CheckShape => "check record with counts or lengths out of bounds",
            Refusal::OtherBlock => "check record of another block",
            Refusal::FragmentShape => "fragment record with another mark, version or length",
            Refusal::OtherNumber => "fragment of another block",
            Refusal::NoSuchHead => "fragment index not below n",
            Refusal::Hash => "hash differs",
            Refusal::Fingerprint => "body doesn't match the fingerprints",
            Refusal::TooFew => "fewer than m accepted fragments",
            Refusal::Fill => "a fill byte isn't zero",
        };
        write!(f, "refused {}: {meaning}", self.number())
    }
}

impl std::error::Error for Refusal {}

/// What a check answers.
#[derive(Clone, Copy, Debug, PartialEq, Eq)]
pub enum Verdict {
    Accepted { index: u8 },
    Refused(Reason),
}

/// Why a fragment is refused, in document 01's order.
#[derive(Clone, Copy, Debug, PartialEq, Eq)]
pub enum Reason {
    CheckMark,
    CheckShape,
    OtherBlock,
    FragmentShape,
    OtherNumber { found: u64 },
    NoSuchHead,
    Hash,
    Fingerprint,
}

impl Reason {
    /// The same refusal without what was found.
    pub fn refusal(self) -> Refusal {
        match self {
            Reason::CheckMark => Refusal::CheckMark,
            Reason::CheckShape => Refusal::CheckShape,
            Reason::OtherBlock => Refusal::OtherBlock,
            Reason::FragmentShape => Refusal::FragmentShape,
            Reason::OtherNumber { .. } => Refusal::OtherNumber,
            Reason::NoSuchHead => Refusal::NoSuchHead,
            Reason::Hash => Refusal::Hash,
            Reason::Fingerprint => Refusal::Fingerprint,
        }
    }
}

impl Verdict {
    /// From the number of a check and the value beside it.
    pub(crate) fn of(number: u32, value: u64) -> Verdict {
        let reason = match number {
            0 => return Verdict::Accepted { index: value as u8 },
            5 => Reason::CheckMark,
            6 => Reason::CheckShape,
            7 => Reason::OtherBlock,
            8 => Reason::FragmentShape,
            9 => Reason::OtherNumber { found: value },
            10 => Reason::NoSuchHead,
            11 => Reason::Hash,
            12 => Reason::Fingerprint,
            _ => unreachable!("a check gives no {number}"),
        };
        Verdict::Refused(reason)
    }
}

/// How many records a join read, and how many different indexes it accepted.
#[derive(Clone, Copy, Debug, PartialEq, Eq)]
pub struct Counts {
    pub read: u64,
    pub indexes: u64,
}

/// Why a block was not joined; the counts are 0 but for `TooFew` and `Fill`.
#[derive(Clone, Copy, Debug, PartialEq, Eq)]
pub struct NotJoined {
    pub refusal: Refusal,
    pub counts: Counts,
}

impl fmt::Display for NotJoined {
    fn fmt(&self, f: &mut fmt::Formatter) -> fmt::Result {
        let Counts { read, indexes } = self.counts;
        write!(
            f,
            "{}; {read} records read, {indexes} indexes",
            self.refusal
        )
    }
}

impl std::error::Error for NotJoined {}
