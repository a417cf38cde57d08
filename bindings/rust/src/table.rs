//! What is trained on: the word table and the settings.

use crate::refusal::Refusal;

/// The most word bytes that the library takes.
const MOST_BYTES: usize = 268_435_456;

/// Words with their frequencies, laid out as the library reads them.
#[derive(Clone, Debug, Default, PartialEq, Eq)]
pub struct Table {
    pub(crate) words: Vec<u8>,
    pub(crate) ends: Vec<u8>,
    pub(crate) frequencies: Vec<u8>,
    /// The longest word, for the bound on a piece's length.
    pub(crate) longest: usize,
}

impl Table {
    /// A table of words in rising byte order, with a frequency for each. The order is the caller's
    /// word: training looks and answers [`Refusal::OutOfOrder`] where it is broken.
    ///
    /// # Errors
    /// [`Refusal::BadShape`] if the two counts differ, [`Refusal::TooMany`] if the words have over
    /// 268,435,456 bytes.
    pub fn new<W: AsRef<[u8]>>(words: &[W], frequencies: &[u64]) -> Result<Table, Refusal> {
        if words.len() != frequencies.len() {
            return Err(Refusal::BadShape);
        }
        let mut table = Table::default();
        for (word, &frequency) in words.iter().zip(frequencies) {
            table.push(word.as_ref(), frequency)?;
        }
        Ok(table)
    }

    /// A table of words in any order, which are sorted here.
    ///
    /// # Errors
    /// [`Refusal::OutOfOrder`] with the place among the sorted words if one comes twice,
    /// [`Refusal::TooMany`] if the words have over 268,435,456 bytes.
    pub fn from_pairs<W: AsRef<[u8]>>(pairs: impl IntoIterator<Item = (W, u64)>) -> Result<Table, Refusal> {
        let mut pairs: Vec<(W, u64)> = pairs.into_iter().collect();
        pairs.sort_by(|(v, _), (w, _)| v.as_ref().cmp(w.as_ref()));
        if let Some(place) = pairs.windows(2).position(|two| two[0].0.as_ref() == two[1].0.as_ref()) {
            return Err(Refusal::OutOfOrder { word: place as u64 + 1 });
        }
        let mut table = Table::default();
        for (word, frequency) in &pairs {
            table.push(word.as_ref(), *frequency)?;
        }
        Ok(table)
    }

    /// How many words there are.
    pub fn len(&self) -> usize {
        self.ends.len() / 4
    }

    /// Whether there are none.
    pub fn is_empty(&self) -> bool {
        self.ends.is_empty()
    }

    fn push(&mut self, word: &[u8], frequency: u64) -> Result<(), Refusal> {
        // Ends have 4 bytes; the library's own limit is below what they can say.
        if word.len() > MOST_BYTES - self.words.len() {
            return Err(Refusal::TooMany);
        }
        self.words.extend_from_slice(word);
        self.ends.extend_from_slice(&(self.words.len() as u32).to_le_bytes());
        self.frequencies.extend_from_slice(&frequency.to_le_bytes());
        self.longest = self.longest.max(word.len());
        Ok(())
    }
}

/// How a word is cut into the units that training starts from.
#[derive(Clone, Copy, Debug, Default, PartialEq, Eq, Hash)]
pub enum Seeding {
    /// Each byte is a unit, and all 256 byte values are seeds.
    #[default]
    Bytes,
    /// A well-formed UTF-8 word is cut into its characters, any other word into bytes.
    Chars,
}

/// The settings of a training run. [`Settings::new`] has everything off but seeding and size.
#[derive(Clone, Debug, Default, PartialEq, Eq)]
pub struct Settings {
    /// How words are cut.
    pub seeding: Seeding,
    /// How many pieces are wanted, at most 16,777,216. There are fewer if nothing is left to join.
    pub vocab_size: u64,
    /// A pair that occurs less often is not joined; 0 acts as 1.
    pub min_frequency: u64,
    /// The longest joined piece in bytes.
    pub max_piece_length: Option<u64>,
    /// Put before each unit but a word's first; empty for none.
    pub prefix: Vec<u8>,
    /// Put after each word's last unit; empty for none.
    pub suffix: Vec<u8>,
    /// Symbols that are seeds whether or not a word has them.
    pub alphabet: Vec<Vec<u8>>,
}

impl Settings {
    /// Seeding and size, with no minimum, limit, prefix, suffix or alphabet.
    pub fn new(seeding: Seeding, vocab_size: u64) -> Settings {
        Settings { seeding, vocab_size, ..Settings::default() }
    }
}
