//! The numbers with which a call is turned back.

use std::error::Error;
use std::fmt;

/// Why a call was rejected; the discriminant is the number that document 01 or 02 gives it.
#[derive(Clone, Copy, Debug, PartialEq, Eq, Hash)]
#[repr(u8)]
pub enum Rejection {
    /// The state's length is no 2,112 × Z with Z from 2 to 8.
    StateLength = 1,
    /// The plan's length is not 3 × Z, or its shards are not well-formed.
    Plan = 2,
    /// Kind 8 to 31.
    KindKept = 3,
    /// Kind 0 or above 31.
    KindUnknown = 4,
    /// The log ends inside a step.
    BytesEnd = 5,
    /// A number's fifth byte goes on, or a number of several bytes ends in byte 0.
    NumberBytes = 6,
    /// A number out of range.
    Range = 7,
    /// An output is too short.
    OutputShort = 8,
    /// The state is not well-formed.
    NotWellFormed = 9,
    /// The index is not installed; for install, in the sequencer.
    NotInstalled = 10,
    /// The host is no member of the configuration.
    NoMember = 11,
    /// The acting replica has the wrong mode; for add, the orderer's.
    ActingMode = 12,
    /// The other replica has the wrong mode, or the source of an inherit or the peer of a catch-up is no member.
    OtherMode = 13,
    /// Adopt by the orderer.
    ByOrderer = 14,
    /// The history holds the entry already.
    EntryHeld = 15,
    /// The history holds 56 entries.
    HistoryFull = 16,
    /// An issue for a shard that has another sequencer.
    OtherSequencer = 17,
    /// The length is not above the stable length.
    NotAboveStable = 18,
    /// A history is shorter than the length, or two are not alike that far.
    NotAlike = 19,
    /// The place is not stable, or holds no issue for the shard.
    NoStableIssue = 20,
    /// The issue's index is not the next one.
    NotNextIndex = 21,
    /// An earlier issue in the history has the same shard and index.
    EarlierIssue = 22,
    /// Another issue in the history has the same shard and index.
    IndexIssued = 23,
    /// No replica of the shard's newest configuration is immutable.
    NotWedged = 24,
}

impl Rejection {
    /// All rejections, in the order of their numbers.
    pub const ALL: [Rejection; 24] = [
        Rejection::StateLength,
        Rejection::Plan,
        Rejection::KindKept,
        Rejection::KindUnknown,
        Rejection::BytesEnd,
        Rejection::NumberBytes,
        Rejection::Range,
        Rejection::OutputShort,
        Rejection::NotWellFormed,
        Rejection::NotInstalled,
        Rejection::NoMember,
        Rejection::ActingMode,
        Rejection::OtherMode,
        Rejection::ByOrderer,
        Rejection::EntryHeld,
        Rejection::HistoryFull,
        Rejection::OtherSequencer,
        Rejection::NotAboveStable,
        Rejection::NotAlike,
        Rejection::NoStableIssue,
        Rejection::NotNextIndex,
        Rejection::EarlierIssue,
        Rejection::IndexIssued,
        Rejection::NotWedged,
    ];

    /// Its number, 1 to 24.
    pub const fn number(self) -> u64 {
        self as u64
    }

    /// The rejection with this number, if there is one.
    pub fn from_number(number: u64) -> Option<Rejection> {
        let place = usize::try_from(number.checked_sub(1)?).ok()?;
        Self::ALL.get(place).copied()
    }
}

impl fmt::Display for Rejection {
    fn fmt(&self, f: &mut fmt::Formatter<'_>) -> fmt::Result {
        write!(f, "rejection {}: {self:?}", self.number())
    }
}

impl Error for Rejection {}

/// The number of an answer: 0, or that of the rejection.
pub fn number_of<T>(answer: &Result<T, Rejection>) -> u64 {
    answer.as_ref().err().map_or(0, |rejection| rejection.number())
}
