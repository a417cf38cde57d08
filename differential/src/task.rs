//! What is handed to the trainer: the seven runs that are only read, and the four settings.

use rindovesh::raw;
use std::fmt;

/// A word with its frequency.
pub type Word = (Vec<u8>, u64);

/// `u64::MAX`, the length limit that restricts nothing.
pub const NO_LIMIT: u64 = u64::MAX;

#[derive(Clone, PartialEq, Eq, Default)]
pub struct Task {
    pub words: Vec<u8>,
    pub word_ends: Vec<u8>,
    pub frequencies: Vec<u8>,
    pub alphabet: Vec<u8>,
    pub alphabet_ends: Vec<u8>,
    pub prefix: Vec<u8>,
    pub suffix: Vec<u8>,
    pub seeding: u64,
    pub vocab_size: u64,
    pub min_frequency: u64,
    pub max_piece_length: u64,
}

impl Task {
    /// The words as they come, with Bytes seeding, size 300, and nothing else.
    pub fn of<W: AsRef<[u8]>>(words: &[(W, u64)]) -> Task {
        let mut task = Task { vocab_size: 300, max_piece_length: NO_LIMIT, ..Task::default() };
        for (word, frequency) in words {
            put(&mut task.words, &mut task.word_ends, word.as_ref());
            task.frequencies.extend(frequency.to_le_bytes());
        }
        task
    }

    /// The same with other words.
    pub fn with_words(&self, words: &[Word]) -> Task {
        let new = Task::of(words);
        Task { words: new.words, word_ends: new.word_ends, frequencies: new.frequencies, ..self.clone() }
    }

    /// The same with another initial alphabet.
    pub fn with_alphabet<S: AsRef<[u8]>>(&self, symbols: &[S]) -> Task {
        let mut task = Task { alphabet: vec![], alphabet_ends: vec![], ..self.clone() };
        for symbol in symbols {
            put(&mut task.alphabet, &mut task.alphabet_ends, symbol.as_ref());
        }
        task
    }

    pub fn input(&self) -> raw::Input<'_> {
        raw::Input {
            words: &self.words,
            word_ends: &self.word_ends,
            frequencies: &self.frequencies,
            alphabet: &self.alphabet,
            alphabet_ends: &self.alphabet_ends,
            prefix: &self.prefix,
            suffix: &self.suffix,
            seeding: self.seeding,
            vocab_size: self.vocab_size,
            min_frequency: self.min_frequency,
            max_piece_length: self.max_piece_length,
        }
    }

    /// The words of a table that has its shape.
    pub fn word_list(&self) -> Vec<Word> {
        let words = parts(&self.words, &self.word_ends);
        words.into_iter().map(<[u8]>::to_vec).zip(numbers(&self.frequencies, 8)).collect()
    }

    /// The symbols of an initial alphabet that has its shape.
    pub fn alphabet_list(&self) -> Vec<Vec<u8>> {
        parts(&self.alphabet, &self.alphabet_ends).into_iter().map(<[u8]>::to_vec).collect()
    }
}

fn put(bytes: &mut Vec<u8>, ends: &mut Vec<u8>, part: &[u8]) {
    bytes.extend_from_slice(part);
    ends.extend((bytes.len() as u32).to_le_bytes());
}

/// The little-endian numbers of a run; bytes past the last whole one are left out.
pub fn numbers(run: &[u8], width: usize) -> Vec<u64> {
    let number = |bytes: &[u8]| bytes.iter().rev().fold(0, |n, &b| n << 8 | u64::from(b));
    run.chunks_exact(width).map(number).collect()
}

/// The parts of a run between its ends.
pub fn parts<'a>(run: &'a [u8], ends: &[u8]) -> Vec<&'a [u8]> {
    let mut from = 0;
    let part = |end: u64| {
        let part = &run[from..end as usize];
        from = end as usize;
        part
    };
    numbers(ends, 4).into_iter().map(part).collect()
}

/// A run as hexadecimal digits; a long one is cut off.
pub fn hex(run: &[u8]) -> String {
    const MOST: usize = 64;
    let digits: String = run.iter().take(MOST).map(|b| format!("{b:02x}")).collect();
    match run.len() {
        0 => "-".into(),
        n if n > MOST => format!("{digits}.. ({n} bytes)"),
        _ => digits,
    }
}

impl fmt::Debug for Task {
    fn fmt(&self, f: &mut fmt::Formatter<'_>) -> fmt::Result {
        let (prefix, suffix) = (hex(&self.prefix), hex(&self.suffix));
        let Task { seeding, vocab_size, min_frequency, max_piece_length, .. } = self;
        writeln!(
            f,
            "seeding {seeding} size {vocab_size} minimum {min_frequency} limit {max_piece_length} prefix {prefix} suffix {suffix}"
        )?;
        writeln!(f, "words {} ends {}", hex(&self.words), shown(&self.word_ends, 4))?;
        writeln!(f, "frequencies {}", shown(&self.frequencies, 8))?;
        write!(f, "alphabet {} ends {}", hex(&self.alphabet), shown(&self.alphabet_ends, 4))
    }
}

/// The first numbers of a run, with its length in bytes where they are not all of it.
fn shown(run: &[u8], width: usize) -> String {
    const MOST: usize = 16;
    let list = numbers(&run[..run.len().min(MOST * width)], width);
    match run.len() == list.len() * width {
        true => format!("{list:?}"),
        false => format!("{list:?}.. ({} bytes)", run.len()),
    }
}
