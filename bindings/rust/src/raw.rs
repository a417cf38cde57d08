//! The C door as it is, over slices: the same runs, the same numbers, nothing added.
//!
//! These functions are safe: a slice is a valid run, and two slices of which one is mutable never
//! overlap. For every input the library returns, and says what is in every lent byte;
//! `include/rindovesh.h` has the full text.

/// The least length of an answer run.
pub const ANSWER_BYTES: usize = 64;

/// What training reads: seven runs and four numbers. Numbers in runs are little-endian.
#[derive(Clone, Copy, Debug, Default)]
pub struct Input<'a> {
    /// The bytes of all words, end to end.
    pub words: &'a [u8],
    /// Where each word ends, 4 bytes each.
    pub word_ends: &'a [u8],
    /// How often each word occurs, 8 bytes each.
    pub frequencies: &'a [u8],
    /// The bytes of the initial alphabet's symbols, end to end.
    pub alphabet: &'a [u8],
    /// Where each symbol ends, 4 bytes each.
    pub alphabet_ends: &'a [u8],
    /// Put before each unit but a word's first; empty for none.
    pub prefix: &'a [u8],
    /// Put after each word's last unit; empty for none.
    pub suffix: &'a [u8],
    /// 0 cuts words into bytes, 1 into characters.
    pub seeding: u64,
    /// How many pieces are wanted.
    pub vocab_size: u64,
    /// A pair that occurs less often is not joined; 0 acts as 1.
    pub min_frequency: u64,
    /// The longest joined piece in bytes; `u64::MAX` restricts nothing.
    pub max_piece_length: u64,
}

/// What training writes: the work room, the four output rooms, the answer run.
#[derive(Debug)]
pub struct Rooms<'a> {
    /// At least [`work_bytes`] long; all 0 at the end.
    pub work: &'a mut [u8],
    /// The bytes of all pieces, end to end.
    pub pieces: &'a mut [u8],
    /// Where each piece ends, 4 bytes each.
    pub piece_ends: &'a mut [u8],
    /// The numbers that each merge joins, left then right, 4 bytes each.
    pub merges: &'a mut [u8],
    /// The saving of each merge, 8 bytes each.
    pub savings: &'a mut [u8],
    /// The numbers given, 8 bytes each; at least [`ANSWER_BYTES`] long.
    pub answer: &'a mut [u8],
}

/// The bytes that the work room needs, for so many units of all words and symbols of the alphabet.
pub const fn work_bytes(units: u64, symbols: u64) -> u64 {
    512 * (units + symbols) + 32_768
}

/// Trains. Returns 0 or the refusal's number.
#[rustfmt::skip]
pub fn train(input: &Input<'_>, rooms: Rooms<'_>) -> u64 {
    let Input { words, word_ends, frequencies, alphabet, alphabet_ends, prefix, suffix, .. } = *input;
    let Rooms { work, pieces, piece_ends, merges, savings, answer } = rooms;
    // SAFETY: each pointer and length is a slice's, and the mutable slices overlap nothing.
    unsafe {
        door::rindovesh_train(
            words.as_ptr(), words.len(),
            word_ends.as_ptr(), word_ends.len(),
            frequencies.as_ptr(), frequencies.len(),
            alphabet.as_ptr(), alphabet.len(),
            alphabet_ends.as_ptr(), alphabet_ends.len(),
            prefix.as_ptr(), prefix.len(),
            suffix.as_ptr(), suffix.len(),
            input.seeding, input.vocab_size, input.min_frequency, input.max_piece_length,
            work.as_mut_ptr(), work.len(),
            pieces.as_mut_ptr(), pieces.len(),
            piece_ends.as_mut_ptr(), piece_ends.len(),
            merges.as_mut_ptr(), merges.len(),
            savings.as_mut_ptr(), savings.len(),
            answer.as_mut_ptr(), answer.len(),
        )
    }
}

/// Finds a piece by its number: start and length go to the answer run. Returns 0 or the refusal's
/// number.
#[rustfmt::skip]
pub fn piece(pieces: &[u8], piece_ends: &[u8], number: u64, answer: &mut [u8]) -> u64 {
    // SAFETY: as in `train`.
    unsafe {
        door::rindovesh_piece(
            pieces.as_ptr(), pieces.len(),
            piece_ends.as_ptr(), piece_ends.len(),
            number,
            answer.as_mut_ptr(), answer.len(),
        )
    }
}

/// Rewrites the pair `(left, right)` to `joined` in a word of 4-byte symbols, with reports of 16
/// bytes; rewrites, symbols kept and reports go to the answer run. Returns 0 or the refusal's number.
#[rustfmt::skip]
pub fn merge_symbols(
    symbols: &mut [u8],
    left: u32,
    right: u32,
    joined: u32,
    changes: &mut [u8],
    answer: &mut [u8],
) -> u64 {
    // SAFETY: as in `train`.
    unsafe {
        door::rindovesh_merge_symbols(
            symbols.as_mut_ptr(), symbols.len(),
            left, right, joined,
            changes.as_mut_ptr(), changes.len(),
            answer.as_mut_ptr(), answer.len(),
        )
    }
}

/// The `n`th number of a run of little-endian numbers of `WIDTH` bytes.
pub(crate) fn number<const WIDTH: usize>(run: &[u8], n: usize) -> u64 {
    let mut bytes = [0; 8];
    bytes[..WIDTH].copy_from_slice(&run[WIDTH * n..WIDTH * (n + 1)]);
    u64::from_le_bytes(bytes)
}

/// The declarations of `include/rindovesh.h`.
#[rustfmt::skip]
mod door {
    extern "C" {
        pub fn rindovesh_train(
            words: *const u8, words_len: usize,
            word_ends: *const u8, word_ends_len: usize,
            frequencies: *const u8, frequencies_len: usize,
            alphabet: *const u8, alphabet_len: usize,
            alphabet_ends: *const u8, alphabet_ends_len: usize,
            prefix: *const u8, prefix_len: usize,
            suffix: *const u8, suffix_len: usize,
            seeding: u64, vocab_size: u64, min_frequency: u64, max_piece_length: u64,
            work: *mut u8, work_len: usize,
            pieces: *mut u8, pieces_len: usize,
            piece_ends: *mut u8, piece_ends_len: usize,
            merges: *mut u8, merges_len: usize,
            savings: *mut u8, savings_len: usize,
            answer: *mut u8, answer_len: usize,
        ) -> u64;
        pub fn rindovesh_piece(
            pieces: *const u8, pieces_len: usize,
            piece_ends: *const u8, piece_ends_len: usize,
            number: u64,
            answer: *mut u8, answer_len: usize,
        ) -> u64;
        pub fn rindovesh_merge_symbols(
            symbols: *mut u8, symbols_len: usize,
            left: u32, right: u32, joined: u32,
            changes: *mut u8, changes_len: usize,
            answer: *mut u8, answer_len: usize,
        ) -> u64;
    }
}
