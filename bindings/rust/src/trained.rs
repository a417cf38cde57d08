//! Training with rooms of its own, and what comes of it.

use crate::raw;
use crate::refusal::Refusal;
use crate::table::{Seeding, Settings, Table};

/// The most piece bytes that an answer can have: ends are numbers of 4 bytes.
const MOST_PIECE_BYTES: usize = u32::MAX as usize;

/// The bytes of piece room that are set aside for each merge at first.
const GUESSED_PIECE: usize = 16;

/// A trained vocabulary: pieces by number, first the alphabet, then one for each merge.
#[derive(Clone, Debug, PartialEq, Eq)]
pub struct Trained {
    pieces: Vec<u8>,
    ends: Vec<u8>,
    alphabet_len: usize,
    merges: Vec<(u32, u32)>,
    savings: Vec<u64>,
}

impl Trained {
    /// How many pieces there are.
    pub fn len(&self) -> usize {
        self.ends.len() / 4
    }

    /// Whether there are none.
    pub fn is_empty(&self) -> bool {
        self.ends.is_empty()
    }

    /// The spelling of a number, if there is such a piece.
    pub fn piece(&self, number: u32) -> Option<&[u8]> {
        let number = number as usize;
        if number >= self.len() {
            return None;
        }
        Some(&self.pieces[self.end_before(number)..self.end_before(number + 1)])
    }

    /// All spellings, by number.
    pub fn pieces(&self) -> impl ExactSizeIterator<Item = &[u8]> + '_ {
        (0..self.len()).map(|n| &self.pieces[self.end_before(n)..self.end_before(n + 1)])
    }

    /// How many pieces are seeds; merge `i` makes piece `alphabet_len() + i`.
    pub fn alphabet_len(&self) -> usize {
        self.alphabet_len
    }

    /// The two numbers that each merge joins, in order.
    pub fn merges(&self) -> &[(u32, u32)] {
        &self.merges
    }

    /// The saving of each merge: the weighted count that its pair had when it was chosen.
    pub fn savings(&self) -> &[u64] {
        &self.savings
    }

    /// The bytes of all pieces end to end, as the reader takes them ([`crate::piece`]).
    pub fn piece_bytes(&self) -> &[u8] {
        &self.pieces
    }

    /// The ends of all pieces, 4 bytes each, as the reader takes them.
    pub fn piece_ends(&self) -> &[u8] {
        &self.ends
    }

    fn end_before(&self, number: usize) -> usize {
        match number {
            0 => 0,
            n => raw::number::<4>(&self.ends, n - 1) as usize,
        }
    }
}

/// Trains a vocabulary.
///
/// The library works in rooms that it is lent; here they are allocated. The work room has the size
/// that the library itself asks for: 512 bytes for each unit of a word and each alphabet symbol, and
/// 32,768 more. The rooms for ends, merges and savings have the size that no answer can exceed. For
/// the piece room that bound can be far too much, so it starts with 16 bytes for each merge and is
/// made four times as large as long as the answer does not fit, up to the bound: the seeds' bytes and
/// the longest word with its marks for each merge, or 2^32 - 1.
///
/// # Errors
/// Each refusal of 1 to 6 and 9 as the library tells it. [`Refusal::WorkRoom`] means that so much memory
/// cannot be had, [`Refusal::OutputRoom`] that the answer has over 2^32 - 1 piece bytes.
/// [`Refusal::TooMany`] is also told of an alphabet whose bytes exceed what a 4-byte end can say.
pub fn train(table: &Table, settings: &Settings) -> Result<Trained, Refusal> {
    let alphabet = Alphabet::new(&settings.alphabet)?;
    let input = raw::Input {
        words: &table.words,
        word_ends: &table.ends,
        frequencies: &table.frequencies,
        alphabet: &alphabet.bytes,
        alphabet_ends: &alphabet.ends,
        prefix: &settings.prefix,
        suffix: &settings.suffix,
        seeding: match settings.seeding {
            Seeding::Bytes => 0,
            Seeding::Chars => 1,
        },
        vocab_size: settings.vocab_size,
        min_frequency: settings.min_frequency,
        max_piece_length: settings.max_piece_length.unwrap_or(u64::MAX),
    };
    let needed = work_needed(&input)?;
    let bounds = Bounds::new(table, &input, needed);
    let mut rooms = Lent {
        work: zeros(needed).ok_or(Refusal::WorkRoom { needed })?,
        pieces: vec![0; bounds.first_guess()],
        ends: vec![0; 4 * (bounds.seeds + bounds.merges)],
        merges: vec![0; 8 * bounds.merges],
        savings: vec![0; 8 * bounds.merges],
    };
    loop {
        match rooms.train(&input) {
            Err(Refusal::SeedRoom | Refusal::OutputRoom) if rooms.pieces.len() < bounds.piece_bytes => {
                let larger = rooms.pieces.len().saturating_mul(4).min(bounds.piece_bytes);
                rooms.pieces = vec![0; larger];
            }
            Err(refusal) => return Err(refusal),
            Ok(counts) => return Ok(rooms.into_trained(counts)),
        }
    }
}

/// Asks the library for the size of the work room by lending it none. It judges the table first, so
/// that refusals 1 to 6 come from here.
fn work_needed(input: &raw::Input<'_>) -> Result<u64, Refusal> {
    let mut none = Lent { work: vec![], pieces: vec![], ends: vec![], merges: vec![], savings: vec![] };
    match none.train(input) {
        Err(Refusal::WorkRoom { needed }) => Ok(needed),
        Err(refusal) => Err(refusal),
        Ok(_) => unreachable!("an empty work room is always too small"),
    }
}

/// So many zeros, if there is memory for them.
fn zeros(length: u64) -> Option<Vec<u8>> {
    let length = usize::try_from(length).ok()?;
    let mut room = Vec::new();
    room.try_reserve_exact(length).ok()?;
    room.resize(length, 0);
    Some(room)
}

/// What no answer exceeds.
struct Bounds {
    seeds: usize,
    merges: usize,
    seed_bytes: usize,
    piece_bytes: usize,
}

impl Bounds {
    fn new(table: &Table, input: &raw::Input<'_>, needed: u64) -> Bounds {
        let symbols = input.alphabet_ends.len() / 4;
        let units = (needed as usize - 32_768) / 512 - symbols;
        let marks = input.prefix.len() + input.suffix.len();
        // A merge shortens the words by a symbol at least.
        let merges = units.min(input.vocab_size as usize);
        // The byte values, the alphabet, and each unit bare and decorated.
        let seeds = 256 + symbols + 2 * units;
        let seed_bytes = 256 + input.alphabet.len() + 2 * input.words.len() + units * marks;
        // A joined piece is a part of a decorated word without the prefixes inside.
        let longest = table.longest + marks;
        let piece_bytes = seed_bytes.saturating_add(merges.saturating_mul(longest)).min(MOST_PIECE_BYTES);
        Bounds { seeds, merges, seed_bytes, piece_bytes }
    }

    fn first_guess(&self) -> usize {
        (self.seed_bytes + GUESSED_PIECE * self.merges).min(self.piece_bytes)
    }
}

/// The rooms, owned.
struct Lent {
    work: Vec<u8>,
    pieces: Vec<u8>,
    ends: Vec<u8>,
    merges: Vec<u8>,
    savings: Vec<u8>,
}

impl Lent {
    /// Piece count, alphabet length and merge count, or the refusal.
    fn train(&mut self, input: &raw::Input<'_>) -> Result<[u64; 3], Refusal> {
        let mut answer = [0; raw::ANSWER_BYTES];
        let rooms = raw::Rooms {
            work: &mut self.work,
            pieces: &mut self.pieces,
            piece_ends: &mut self.ends,
            merges: &mut self.merges,
            savings: &mut self.savings,
            answer: &mut answer,
        };
        let returned = raw::train(input, rooms);
        Refusal::judge(returned, &answer)
    }

    fn into_trained(mut self, [count, alphabet, merges]: [u64; 3]) -> Trained {
        let (count, merges) = (count as usize, merges as usize);
        self.ends.truncate(4 * count);
        self.ends.shrink_to_fit();
        let bytes = if count == 0 { 0 } else { raw::number::<4>(&self.ends, count - 1) };
        self.pieces.truncate(bytes as usize);
        self.pieces.shrink_to_fit();
        let number = |n| raw::number::<4>(&self.merges, n) as u32;
        Trained {
            alphabet_len: alphabet as usize,
            merges: (0..merges).map(|i| (number(2 * i), number(2 * i + 1))).collect(),
            savings: (0..merges).map(|i| raw::number::<8>(&self.savings, i)).collect(),
            pieces: self.pieces,
            ends: self.ends,
        }
    }
}

/// The initial alphabet, laid out as the library reads it.
struct Alphabet {
    bytes: Vec<u8>,
    ends: Vec<u8>,
}

impl Alphabet {
    fn new(symbols: &[Vec<u8>]) -> Result<Alphabet, Refusal> {
        let mut alphabet = Alphabet { bytes: Vec::new(), ends: Vec::new() };
        for symbol in symbols {
            alphabet.bytes.extend_from_slice(symbol);
            let end = u32::try_from(alphabet.bytes.len()).map_err(|_| Refusal::TooMany)?;
            alphabet.ends.extend_from_slice(&end.to_le_bytes());
        }
        Ok(alphabet)
    }
}
