//! Document 01 done plainly, without a thought to speed: the refusals in their order, seeding, and
//! training by recount. It shares no code with the library or the original.

use crate::task::{numbers, parts, Task};
use std::collections::{BTreeSet, HashMap};

/// A refusal's number and the numbers that it gives.
pub type Refused = (u64, Vec<u64>);

/// Refusals 1 to 6, which look at the table and the settings alone: the first that holds.
pub fn refusal(task: &Task) -> Option<Refused> {
    if bad_shape(task) {
        return Some((1, vec![]));
    }
    if too_many(task) {
        return Some((2, vec![]));
    }
    if task.word_ends.is_empty() {
        return Some((3, vec![]));
    }
    if let Some(word) = numbers(&task.frequencies, 8).iter().position(|&f| f == 0) {
        return Some((4, vec![word as u64]));
    }
    let words = parts(&task.words, &task.word_ends);
    if let Some(before) = words.windows(2).position(|two| two[0] >= two[1]) {
        return Some((5, vec![before as u64 + 1]));
    }
    let weight = |(word, f): (&&[u8], u64)| u128::from(f) * units(task.seeding, word).len() as u128;
    let sum: u128 = words.iter().zip(numbers(&task.frequencies, 8)).map(weight).sum();
    if sum >= 1 << 53 {
        return Some((6, vec![]));
    }
    None
}

fn bad_shape(task: &Task) -> bool {
    task.seeding > 1
        || task.frequencies.len() % 8 != 0
        || task.word_ends.len() / 4 != task.frequencies.len() / 8
        || !shaped(task.words.len(), &task.word_ends)
        || !shaped(task.alphabet.len(), &task.alphabet_ends)
}

/// The shape rules of ends over a run of so many bytes.
pub fn shaped(length: usize, ends: &[u8]) -> bool {
    let list = numbers(ends, 4);
    ends.len() % 4 == 0
        && list.windows(2).all(|two| two[0] <= two[1])
        && list.last().copied().unwrap_or(0) == length as u64
}

fn too_many(task: &Task) -> bool {
    task.word_ends.len() / 4 > 16_777_216
        || task.vocab_size > 16_777_216
        || task.words.len() > 268_435_456
        || task.alphabet_ends.len() / 4 > 65_536
        || task.alphabet.len() > 1_048_576
        || task.prefix.len() > 255
        || task.suffix.len() > 255
}

/// What refusal 7 asks for, of a table that passes 1 to 6.
pub fn work_needed(task: &Task) -> u64 {
    let words = parts(&task.words, &task.word_ends);
    let all: usize = words.iter().map(|word| units(task.seeding, word).len()).sum();
    512 * (all + task.alphabet_ends.len() / 4) as u64 + 32_768
}

/// The units of a word.
pub fn units(seeding: u64, word: &[u8]) -> Vec<&[u8]> {
    let bytes = || word.chunks(1).collect();
    if seeding != 1 {
        return bytes();
    }
    let (mut units, mut rest) = (Vec::new(), word);
    while !rest.is_empty() {
        // "any other word is cut into bytes as a whole"
        let Some(length) = character(rest) else { return bytes() };
        let (unit, behind) = rest.split_at(length);
        units.push(unit);
        rest = behind;
    }
    units
}

/// The length of the character at the front, by the table of RFC 3629 section 4.
fn character(run: &[u8]) -> Option<usize> {
    let tail = |low: u8, high: u8, place: usize| run.get(place).is_some_and(|b| (low..=high).contains(b));
    let plain = |place: usize| tail(0x80, 0xBF, place);
    let (length, fits) = match run[0] {
        0x00..=0x7F => (1, true),
        0xC2..=0xDF => (2, plain(1)),
        0xE0 => (3, tail(0xA0, 0xBF, 1) && plain(2)),
        0xE1..=0xEC | 0xEE..=0xEF => (3, plain(1) && plain(2)),
        0xED => (3, tail(0x80, 0x9F, 1) && plain(2)),
        0xF0 => (4, tail(0x90, 0xBF, 1) && plain(2) && plain(3)),
        0xF1..=0xF3 => (4, plain(1) && plain(2) && plain(3)),
        0xF4 => (4, tail(0x80, 0x8F, 1) && plain(2) && plain(3)),
        _ => (0, false),
    };
    fits.then_some(length)
}

/// The pieces before the first merge, and the kept words in their numbers with their frequencies.
pub struct Seeded {
    pub pieces: Vec<Vec<u8>>,
    pub words: Vec<(Vec<u32>, u64)>,
}

/// Seeds a table that passes 1 to 6.
pub fn seed(task: &Task) -> Seeded {
    let words = task.word_list();
    let mut seeds = Seeds::default();
    let first: Vec<Vec<u8>> = match task.seeding {
        0 => (0..=255).map(|byte| vec![byte]).collect(),
        _ => {
            let all: BTreeSet<&[u8]> = words.iter().flat_map(|(word, _)| units(task.seeding, word)).collect();
            all.into_iter().map(<[u8]>::to_vec).collect()
        }
    };
    for piece in first.into_iter().chain(task.alphabet_list()) {
        seeds.intern(piece);
    }
    let mut kept = Vec::new();
    for (word, frequency) in &words {
        let cut = units(task.seeding, word);
        let decorate = |(place, unit): (usize, &&[u8])| {
            let prefix: &[u8] = if place > 0 { &task.prefix } else { &[] };
            let suffix: &[u8] = if place + 1 == cut.len() { &task.suffix } else { &[] };
            [prefix, unit, suffix].concat()
        };
        let symbols: Vec<u32> = cut.iter().enumerate().map(decorate).map(|piece| seeds.intern(piece)).collect();
        if symbols.len() > 1 {
            kept.push((symbols, *frequency));
        }
    }
    Seeded { pieces: seeds.pieces, words: kept }
}

#[derive(Default)]
struct Seeds {
    pieces: Vec<Vec<u8>>,
    numbers: HashMap<Vec<u8>, u32>,
}

impl Seeds {
    fn intern(&mut self, piece: Vec<u8>) -> u32 {
        let next = self.pieces.len() as u32;
        let number = *self.numbers.entry(piece.clone()).or_insert(next);
        if number == next {
            self.pieces.push(piece);
        }
        number
    }
}

/// A merge by demand 3, with its saving.
pub struct Merge {
    pub pair: (u32, u32),
    pub saving: u64,
    pub piece: Vec<u8>,
}

/// All merges, recounting before each one.
pub fn merges(task: &Task, seeded: &Seeded) -> Vec<Merge> {
    let mut pieces = seeded.pieces.clone();
    let mut words = seeded.words.clone();
    let mut list = Vec::new();
    while (pieces.len() as u64) < task.vocab_size {
        let Some((pair, saving)) = choose(task, &pieces, &words) else { break };
        if saving < task.min_frequency.max(1) {
            break;
        }
        let joined = pieces.len() as u32;
        words.iter_mut().for_each(|(word, _)| *word = rewrite(word, pair, joined));
        let piece = join(&pieces, pair, &task.prefix);
        pieces.push(piece.clone());
        list.push(Merge { pair, saving, piece });
    }
    list
}

/// The pair within the limit with the greatest count, among equals the lowest.
fn choose(task: &Task, pieces: &[Vec<u8>], words: &[(Vec<u32>, u64)]) -> Option<((u32, u32), u64)> {
    let mut counts: HashMap<(u32, u32), u64> = HashMap::new();
    for (word, frequency) in words {
        for two in word.windows(2) {
            *counts.entry((two[0], two[1])).or_default() += frequency;
        }
    }
    let within = |pair| join(pieces, pair, &task.prefix).len() as u64 <= task.max_piece_length;
    let fitting = counts.into_iter().filter(|&(pair, _)| within(pair));
    fitting.max_by(|(p, n), (q, m)| n.cmp(m).then(q.cmp(p)))
}

fn join(pieces: &[Vec<u8>], (left, right): (u32, u32), prefix: &[u8]) -> Vec<u8> {
    let right = &pieces[right as usize][..];
    [&pieces[left as usize][..], right.strip_prefix(prefix).unwrap_or(right)].concat()
}

/// A word in which the pair has become one symbol, left to right.
fn rewrite(word: &[u32], pair: (u32, u32), joined: u32) -> Vec<u32> {
    let mut new = Vec::with_capacity(word.len());
    let mut at = 0;
    while at < word.len() {
        let here = at + 1 < word.len() && (word[at], word[at + 1]) == pair;
        new.push(if here { joined } else { word[at] });
        at += if here { 2 } else { 1 };
    }
    new
}
