//! Rindovesh trains byte-pair vocabularies, and carries a proof that it does so by the rule. This crate
//! is the safe Rust side of its C door: owned tables and answers, refusals as an enum, no `unsafe` for
//! its user. The library itself is `libdoor.a`, which the build finds in `RINDOVESH_LIB_DIR`.
//!
//! ```
//! use rindovesh::{train, Refusal, Seeding, Settings, Table};
//!
//! # fn main() -> Result<(), Refusal> {
//! let table = Table::from_pairs([("cab", 4), ("aab", 3), ("ab", 2)])?;
//! let mut settings = Settings::new(Seeding::Chars, 64);
//! settings.min_frequency = 2;
//! settings.suffix = b"</w>".to_vec();
//!
//! let trained = train(&table, &settings)?;
//! let merges: Vec<String> = trained
//!     .merges()
//!     .iter()
//!     .map(|&(left, right)| [left, right].map(|n| String::from_utf8_lossy(trained.piece(n).unwrap())).join(" "))
//!     .collect();
//! assert_eq!(merges, ["a b</w>", "c ab</w>", "a ab</w>"]);
//! assert_eq!(trained.savings(), [9, 4, 3]);
//!
//! settings.vocab_size = 3;
//! assert_eq!(train(&table, &settings), Err(Refusal::VocabTooSmall { requested: 3, alphabet: 4 }));
//! # Ok(())
//! # }
//! ```
#![deny(unsafe_op_in_unsafe_fn)]
#![deny(missing_docs)]

pub mod raw;
mod refusal;
mod table;
mod trained;

pub use refusal::Refusal;
pub use table::{Seeding, Settings, Table};
pub use trained::{train, Trained};

/// A piece of a stored table by its number: the part of the caller's own bytes.
///
/// The whole table is looked at before a piece is handed out, so a damaged one never is.
/// [`Trained::piece`] needs no such look.
///
/// # Errors
/// [`Refusal::BadShape`] if the ends are not of the pieces' shape, [`Refusal::NoSuchId`] if the number
/// is at or past the piece count.
///
/// ```
/// let (bytes, ends) = (b"aab", [1, 0, 0, 0, 3, 0, 0, 0]);
/// assert_eq!(rindovesh::piece(bytes, &ends, 1), Ok(&b"ab"[..]));
/// assert_eq!(rindovesh::piece(bytes, &ends, 2), Err(rindovesh::Refusal::NoSuchId));
/// ```
pub fn piece<'a>(pieces: &'a [u8], piece_ends: &[u8], number: u64) -> Result<&'a [u8], Refusal> {
    let mut answer = [0; raw::ANSWER_BYTES];
    let returned = raw::piece(pieces, piece_ends, number, &mut answer);
    let [start, length, _] = Refusal::judge(returned, &answer)?;
    Ok(&pieces[start as usize..(start + length) as usize])
}

/// How the count of a pair changes where a pair beside it is rewritten.
#[derive(Clone, Copy, Debug, PartialEq, Eq, Hash)]
pub struct Report {
    /// The left symbol of the pair.
    pub left: u32,
    /// The right symbol of the pair.
    pub right: u32,
    /// 1 where the pair is gained, -1 where it is lost.
    pub change: i64,
}

/// Rewrites the pair `(left, right)` to `joined` in a word, and tells how often it did so and how the
/// counts of the pairs around it change.
///
/// ```
/// let mut word = vec![1, 1, 1];
/// let (rewrites, reports) = rindovesh::merge_symbols(&mut word, 1, 1, 2);
/// assert_eq!((word, rewrites), (vec![2, 1], 1));
/// let told: Vec<_> = reports.iter().map(|q| (q.left, q.right, q.change)).collect();
/// assert_eq!(told, [(1, 1, -1), (2, 1, 1)]);
/// ```
pub fn merge_symbols(word: &mut Vec<u32>, left: u32, right: u32, joined: u32) -> (u64, Vec<Report>) {
    let mut symbols: Vec<u8> = word.iter().flat_map(|symbol| symbol.to_le_bytes()).collect();
    // An occurrence has two symbols and at most four reports.
    let mut changes = vec![0; 16 * 2 * word.len()];
    let mut answer = [0; raw::ANSWER_BYTES];
    let returned = raw::merge_symbols(&mut symbols, left, right, joined, &mut changes, &mut answer);
    let [rewrites, kept, reports] =
        Refusal::judge(returned, &answer).expect("the runs are whole and the list has room for every report");
    word.truncate(kept as usize);
    for (place, symbol) in word.iter_mut().enumerate() {
        *symbol = raw::number::<4>(&symbols, place) as u32;
    }
    let report = |i| Report {
        left: raw::number::<4>(&changes, 4 * i) as u32,
        right: raw::number::<4>(&changes, 4 * i + 1) as u32,
        change: raw::number::<8>(&changes, 2 * i + 1) as i64,
    };
    (rewrites, (0..reports as usize).map(report).collect())
}
