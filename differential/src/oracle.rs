//! What the original says of a table, and what is expected of the library: pieces, alphabet length and
//! merges are the original's, savings and refusals are document 01's (`model`).

use crate::model;
use crate::task::Task;
use original::bpe::{BpeTrainer, BpeTrainerBuilder};
use original::corpus::WordCounts;
use original::error::TrainError;
use original::vocab::{Seeding, TrainedVocab};
use std::cell::RefCell;
use std::rc::Rc;

/// The bytes of an answer, as the output rooms hold them.
#[derive(Default, Clone, PartialEq)]
pub struct Answer {
    pub pieces: Vec<u8>,
    pub piece_ends: Vec<u8>,
    pub merges: Vec<u8>,
    pub savings: Vec<u8>,
    /// Piece count, alphabet length and merge count.
    pub counts: [u64; 3],
}

/// What is expected of a table if its rooms are large enough.
pub struct Expected {
    /// Refusals 1 to 6, which do not look at the rooms.
    pub early: Option<model::Refused>,
    /// What the work room needs.
    pub work: u64,
    /// What the seeds need of the rooms for pieces and ends.
    pub seed_bytes: u64,
    pub seed_ends: u64,
    /// The answer, or refusal 9.
    pub answer: Result<Answer, model::Refused>,
}

impl Expected {
    /// One of the refusals 1 to 7, whatever the rooms.
    pub fn refused(refused: model::Refused) -> Expected {
        Expected { early: Some(refused.clone()), work: 0, seed_bytes: 0, seed_ends: 0, answer: Err(refused) }
    }
}

/// The words as the original takes them.
pub fn word_counts(task: &Task) -> WordCounts {
    let mut counts = WordCounts::new();
    for (word, frequency) in task.word_list() {
        counts.add_n(&word, frequency);
    }
    counts
}

/// The original's trainer with a task's settings.
pub fn trainer(task: &Task) -> BpeTrainer {
    let seeding = if task.seeding == 0 { Seeding::Bytes } else { Seeding::Chars };
    let mut builder: BpeTrainerBuilder = BpeTrainer::builder()
        .vocab_size(task.vocab_size as usize)
        .min_frequency(task.min_frequency)
        .initial_alphabet(task.alphabet_list())
        .seeding(seeding);
    if let Ok(limit) = usize::try_from(task.max_piece_length) {
        if limit != usize::MAX {
            builder = builder.max_token_length(limit);
        }
    }
    if !task.prefix.is_empty() {
        builder = builder.continuing_subword_prefix(task.prefix.clone());
    }
    if !task.suffix.is_empty() {
        builder = builder.end_of_word_suffix(task.suffix.clone());
    }
    builder.build()
}

thread_local! {
    /// The last task with what is expected of it: many cases differ in their rooms alone.
    static LAST: RefCell<Option<(Task, Rc<Expected>)>> = const { RefCell::new(None) };
}

/// What is expected of a task. An error says where the original and the plain model disagree.
pub fn expect(task: &Task) -> Result<Rc<Expected>, String> {
    let known = LAST.with_borrow(|last| match last {
        Some((known, expected)) if known == task => Some(expected.clone()),
        _ => None,
    });
    if let Some(expected) = known {
        return Ok(expected);
    }
    let expected = Rc::new(work_out(task)?);
    LAST.set(Some((task.clone(), expected.clone())));
    Ok(expected)
}

fn work_out(task: &Task) -> Result<Expected, String> {
    if let Some(early) = model::refusal(task) {
        return Ok(Expected::refused(early));
    }
    let seeded = model::seed(task);
    let answer = match original_says(task)? {
        Original::Trained(vocab) => Ok(checked(task, &seeded, &vocab)?),
        Original::TooSmall(requested, alphabet) if alphabet == seeded.pieces.len() as u64 => {
            Err((9, vec![requested, alphabet]))
        }
        Original::TooSmall(_, alphabet) => return Err(format!("alphabet length {alphabet} in the original")),
        // Only the empty word: the original drops it and has no words left (docs/DIFFERENCES.md).
        Original::Nothing if task.vocab_size < seeded.pieces.len() as u64 => {
            Err((9, vec![task.vocab_size, seeded.pieces.len() as u64]))
        }
        Original::Nothing => Ok(answer(&seeded.pieces, seeded.pieces.len(), &[], &[])),
    };
    Ok(Expected {
        early: None,
        work: model::work_needed(task),
        seed_bytes: seeded.pieces.iter().map(Vec::len).sum::<usize>() as u64,
        seed_ends: 4 * seeded.pieces.len() as u64,
        answer,
    })
}

enum Original {
    Trained(TrainedVocab),
    TooSmall(u64, u64),
    Nothing,
}

fn original_says(task: &Task) -> Result<Original, String> {
    match trainer(task).train(&word_counts(task)) {
        Ok(vocab) => Ok(Original::Trained(vocab)),
        Err(TrainError::VocabTooSmall { requested, alphabet }) => {
            Ok(Original::TooSmall(requested as u64, alphabet as u64))
        }
        Err(TrainError::EmptyCorpus) if task.words.is_empty() => Ok(Original::Nothing),
        Err(other) => Err(format!("the original says {other:?}")),
    }
}

/// The original's answer with the savings of a recount, which must go the original's way.
fn checked(task: &Task, seeded: &model::Seeded, vocab: &TrainedVocab) -> Result<Answer, String> {
    if vocab.alphabet_len() != seeded.pieces.len() || vocab.pieces()[..vocab.alphabet_len()] != seeded.pieces[..] {
        return Err("the seeds of the original are not those of document 01".into());
    }
    let merges = model::merges(task, seeded);
    if !merges.iter().map(|m| &m.pair).eq(vocab.merges()) {
        return Err(format!("the merges of the original, {:?}, are not those of a recount", vocab.merges()));
    }
    if !merges.iter().map(|m| &m.piece).eq(&vocab.pieces()[vocab.alphabet_len()..]) {
        return Err("the joined pieces of the original are not those of document 01".into());
    }
    let savings: Vec<u64> = merges.iter().map(|m| m.saving).collect();
    Ok(answer(vocab.pieces(), vocab.alphabet_len(), vocab.merges(), &savings))
}

/// An answer in bytes.
pub fn answer(pieces: &[Vec<u8>], alphabet: usize, merges: &[(u32, u32)], savings: &[u64]) -> Answer {
    let mut end = 0u32;
    let mut ends = Vec::with_capacity(4 * pieces.len());
    for piece in pieces {
        end += piece.len() as u32;
        ends.extend(end.to_le_bytes());
    }
    Answer {
        pieces: pieces.concat(),
        piece_ends: ends,
        merges: merges.iter().flat_map(|(l, r)| [l.to_le_bytes(), r.to_le_bytes()].concat()).collect(),
        savings: savings.iter().flat_map(|s| s.to_le_bytes()).collect(),
        counts: [pieces.len() as u64, alphabet as u64, merges.len() as u64],
    }
}
