//! The refusals, each with the numbers that the library gives.

use crate::raw;
use std::fmt;

/// Why the library answered with nothing. Places count from 0. When several hold, the first in this
/// order is told.
#[derive(Clone, Copy, Debug, PartialEq, Eq, Hash)]
#[non_exhaustive]
pub enum Refusal {
    /// 1: a run is not of its shape: ends that fall or miss the last byte, counts that differ.
    BadShape,
    /// 2: more than 16,777,216 words or pieces, 268,435,456 word bytes, 65,536 alphabet symbols,
    /// 1,048,576 alphabet bytes, or 255 bytes of prefix or suffix.
    TooMany,
    /// 3: no words.
    EmptyCorpus,
    /// 4: a frequency is 0.
    ZeroFrequency {
        /// The first such word.
        word: u64,
    },
    /// 5: a word is not above its predecessor in byte order.
    OutOfOrder {
        /// The first such word.
        word: u64,
    },
    /// 6: the sum over all words of frequency times units is 2^53 or more.
    TooHeavy,
    /// 7: the work room is too small.
    WorkRoom {
        /// The bytes that it needs.
        needed: u64,
    },
    /// 8: the seeds alone exceed the room for pieces or for their ends.
    SeedRoom,
    /// 9: the vocabulary size is below the alphabet length.
    VocabTooSmall {
        /// The vocabulary size asked for.
        requested: u64,
        /// The alphabet length, which is the least size.
        alphabet: u64,
    },
    /// 10: the full answer exceeds an output room, or 2^32 - 1 piece bytes.
    OutputRoom,
    /// 11: there is no piece with this number.
    NoSuchId,
    /// 12: there are more reports than the list has places for.
    ChangeRoom,
}

impl Refusal {
    /// The number that the C functions return for it.
    pub fn number(&self) -> u64 {
        match self {
            Refusal::BadShape => 1,
            Refusal::TooMany => 2,
            Refusal::EmptyCorpus => 3,
            Refusal::ZeroFrequency { .. } => 4,
            Refusal::OutOfOrder { .. } => 5,
            Refusal::TooHeavy => 6,
            Refusal::WorkRoom { .. } => 7,
            Refusal::SeedRoom => 8,
            Refusal::VocabTooSmall { .. } => 9,
            Refusal::OutputRoom => 10,
            Refusal::NoSuchId => 11,
            Refusal::ChangeRoom => 12,
        }
    }

    /// The refusal with this number, its values read from the start of an answer run. `None` for 0,
    /// for a number that is no refusal, and for an answer run too short to tell.
    pub fn from_answer(number: u64, answer: &[u8]) -> Option<Refusal> {
        if answer.len() < 16 {
            return None;
        }
        let (first, second) = (raw::number::<8>(answer, 0), raw::number::<8>(answer, 1));
        Some(match number {
            1 => Refusal::BadShape,
            2 => Refusal::TooMany,
            3 => Refusal::EmptyCorpus,
            4 => Refusal::ZeroFrequency { word: first },
            5 => Refusal::OutOfOrder { word: first },
            6 => Refusal::TooHeavy,
            7 => Refusal::WorkRoom { needed: first },
            8 => Refusal::SeedRoom,
            9 => Refusal::VocabTooSmall { requested: first, alphabet: second },
            10 => Refusal::OutputRoom,
            11 => Refusal::NoSuchId,
            12 => Refusal::ChangeRoom,
            _ => return None,
        })
    }

    /// What a C function returned, as a result: the three numbers given, or the refusal.
    pub(crate) fn judge(number: u64, answer: &[u8]) -> Result<[u64; 3], Refusal> {
        if number == 0 {
            return Ok([0, 1, 2].map(|n| raw::number::<8>(answer, n)));
        }
        match Refusal::from_answer(number, answer) {
            Some(refusal) => Err(refusal),
            None => panic!("the library linked returns {number}, which this crate does not know"),
        }
    }
}

impl fmt::Display for Refusal {
    fn fmt(&self, f: &mut fmt::Formatter<'_>) -> fmt::Result {
        match self {
            Refusal::BadShape => write!(f, "a run is not of its shape"),
            Refusal::TooMany => write!(f, "a count or a length is over its limit"),
            Refusal::EmptyCorpus => write!(f, "there are no words"),
            Refusal::ZeroFrequency { word } => write!(f, "word {word} has frequency 0"),
            Refusal::OutOfOrder { word } => write!(f, "word {word} is not above its predecessor"),
            Refusal::TooHeavy => write!(f, "frequencies times units reach 2^53"),
            Refusal::WorkRoom { needed } => write!(f, "the work room needs {needed} bytes"),
            Refusal::SeedRoom => write!(f, "the seeds exceed their rooms"),
            Refusal::VocabTooSmall { requested, alphabet } => {
                write!(f, "a vocabulary of {requested} cannot hold the alphabet of {alphabet}")
            }
            Refusal::OutputRoom => write!(f, "the answer exceeds an output room"),
            Refusal::NoSuchId => write!(f, "there is no piece with this number"),
            Refusal::ChangeRoom => write!(f, "the list is too short for the reports"),
        }
    }
}

impl std::error::Error for Refusal {}
