//! Tasks: random ones over all settings, and ones that are damaged so that a refusal holds.

use crate::model;
use crate::random::Random;
use crate::task::{numbers, Task, Word, NO_LIMIT};
use crate::training::{Size, Sizes};

/// The bound of refusal 6.
pub const WEIGHT: u64 = 1 << 53;

/// How large a random table may be.
#[derive(Clone, Copy)]
pub struct Scale {
    pub words: u64,
    pub units: u64,
}

/// A table that refusals 1 to 6 let pass.
pub fn task(random: &mut Random, scale: Scale) -> Task {
    let units = unit_kind(random);
    let words = words(random, &units, scale);
    let mut task = Task::of(&words);
    task.seeding = random.below(2);
    if random.once_in(3) {
        task.prefix = affix(random, &units);
    }
    if random.once_in(3) {
        task.suffix = affix(random, &units);
    }
    if random.once_in(3) {
        task = task.with_alphabet(&alphabet(random, &units, &task));
    }
    task.min_frequency = match random.below(8) {
        0..=3 => 0,
        4..=6 => random.below(5),
        _ => random.below(WEIGHT),
    };
    task.max_piece_length = match random.below(8) {
        0..=3 => NO_LIMIT,
        4..=6 => random.below(9),
        _ => random.below(40),
    };
    weigh(random, &mut task);
    task.vocab_size = size(random, &task);
    task
}

/// The units that a table's words are made of.
fn unit_kind(random: &mut Random) -> Vec<Vec<u8>> {
    let text = |list: &[&str]| list.iter().map(|unit| unit.as_bytes().to_vec()).collect();
    match random.below(8) {
        0 | 1 => text(&["a", "b"]),
        2 => text(&["a"]),
        3 => text(&["a", "b", "c", "d", "e"]),
        4 => text(&["a", "é", "€", "😀", "\u{301}", "ñ"]),
        5 => text(&["a", "#", "##", "</w>", "b"]),
        6 => {
            let mut list: Vec<Vec<u8>> = text(&["a", "é", "€", "😀"]);
            list.extend([
                vec![0xFF],
                vec![0xC3],
                vec![0x80],
                vec![0xED, 0xA0, 0x80],
                vec![0xF0, 0x9F],
                vec![0xC0, 0x80],
            ]);
            list
        }
        _ => {
            let n = 1 + random.place(4);
            (0..n).map(|_| random.bytes(1)).collect()
        }
    }
}

fn words(random: &mut Random, units: &[Vec<u8>], scale: Scale) -> Vec<Word> {
    let mut words: Vec<Vec<u8>> = (0..=random.below(scale.words))
        .map(|_| (0..=random.below(scale.units)).flat_map(|_| random.pick(units).clone()).collect())
        .collect();
    if random.once_in(20) {
        words.push(vec![]);
    }
    words.sort();
    words.dedup();
    words.into_iter().map(|word| (word, 1)).collect()
}

fn affix(random: &mut Random, units: &[Vec<u8>]) -> Vec<u8> {
    match random.below(6) {
        0 | 1 => b"##".to_vec(),
        2 => b"</w>".to_vec(),
        3 => random.pick(units).clone(),
        4 => {
            let n = 1 + random.place(3);
            random.bytes(n)
        }
        _ => {
            let n = *random.pick(&[1, 8, 254, 255]);
            vec![random.number() as u8; n]
        }
    }
}

/// Symbols with repeats and empty ones, some of which the words spell anyway.
fn alphabet(random: &mut Random, units: &[Vec<u8>], task: &Task) -> Vec<Vec<u8>> {
    (0..=random.below(6))
        .map(|_| match random.below(6) {
            0 => vec![],
            1 => random.pick(units).clone(),
            2 => [random.pick(units).clone(), random.pick(units).clone()].concat(),
            3 => [&task.prefix[..], &random.pick(units)[..], &task.suffix].concat(),
            4 => [&random.pick(units)[..], &task.suffix].concat(),
            _ => {
                let n = random.place(4);
                random.bytes(n)
            }
        })
        .collect()
}

/// Frequencies of several kinds whose weight stays below the bound.
fn weigh(random: &mut Random, task: &mut Task) {
    let mut words = task.word_list();
    let lengths: Vec<u64> = words.iter().map(|(word, _)| model::units(task.seeding, word).len() as u64).collect();
    let kind = random.below(6);
    let count = words.len() as u64;
    for ((_, frequency), &length) in words.iter_mut().zip(&lengths) {
        *frequency = match kind {
            0 => 1,
            1 | 2 => 1 + random.below(4),
            3 => 1 + random.below(1000),
            // each word has an equal share of the weight
            _ => 1 + random.below(((WEIGHT - 1) / count / length.max(1)).max(1)),
        };
    }
    if kind == 5 {
        // A word of one unit takes what is left, so that the weight is one below the bound.
        let others: u64 = words.iter().zip(&lengths).map(|((_, f), n)| f * n).sum();
        if let Some(place) = lengths.iter().position(|&n| n == 1) {
            words[place].1 += WEIGHT - 1 - others;
        }
    }
    *task = task.with_words(&words);
}

/// A vocabulary size around the number of seeds, or well above.
fn size(random: &mut Random, task: &Task) -> u64 {
    let seeds = model::seed(task).pieces.len() as u64;
    match random.below(10) {
        0 => seeds,
        1 => seeds.saturating_sub(1 + random.below(3)),
        2..=5 => seeds + 1 + random.below(6),
        6..=8 => seeds + random.below(60),
        _ => 16_777_216,
    }
}

/// Rooms of random sizes: mostly exact or roomy, now and then short.
pub fn sizes(random: &mut Random) -> Sizes {
    let size = |random: &mut Random| match random.below(12) {
        0..=4 => Size::Answer(0),
        5..=9 => Size::Answer(1 + random.below(90) as i64),
        10 => Size::Answer(4096),
        _ if random.once_in(3) => Size::Answer(-1 - random.below(6) as i64),
        _ => Size::Answer(0),
    };
    Sizes {
        work: size(random),
        pieces: size(random),
        piece_ends: size(random),
        merges: size(random),
        savings: size(random),
        answer: *random.pick(&[64, 64, 64, 64, 65, 71, 72, 200]),
    }
}

/// A way to make a refusal hold: its number, and what it does to a task and its rooms.
pub struct Damage {
    pub number: u64,
    pub apply: fn(&mut Random, &mut Task, &mut Sizes),
}

macro_rules! damages {
    ($($number:literal $apply:expr;)*) => {
        &[$(Damage { number: $number, apply: $apply }),*]
    };
}

/// All of them. None needs the others to be absent, so that any two can be applied.
pub const DAMAGES: &[Damage] = damages! {
    1 |_, t, _| t.seeding = 2;
    1 |_, t, _| t.seeding = u64::MAX;
    1 |_, t, _| t.seeding = 1 << 32;
    1 |r, t, _| t.word_ends.extend(vec![0; 1 + r.place(3)]);
    1 |r, t, _| t.alphabet_ends.extend(vec![0; 1 + r.place(3)]);
    1 |r, t, _| t.frequencies.extend(vec![1; 1 + r.place(7)]);
    1 |_, t, _| t.frequencies.extend([1; 8]);
    1 |_, t, _| t.frequencies.truncate(t.frequencies.len().saturating_sub(8));
    1 |r, t, _| fall(r, &mut t.word_ends);
    1 |r, t, _| fall(r, &mut t.alphabet_ends);
    1 |_, t, _| t.words.push(7);
    1 |_, t, _| t.alphabet.push(7);
    1 |_, t, _| t.words.truncate(t.words.len().saturating_sub(1));
    1 |_, t, _| { t.word_ends.clear(); t.frequencies.clear(); t.words.push(1); };
    1 |_, t, _| { t.alphabet_ends.clear(); t.alphabet.push(1); };
    2 |_, t, _| t.vocab_size = 16_777_217;
    2 |_, t, _| t.vocab_size = u64::MAX;
    2 |_, t, _| t.vocab_size |= 1 << 32;
    2 |_, t, _| t.prefix = vec![b'#'; 256];
    2 |_, t, _| t.suffix = vec![b'#'; 256];
    3 |_, t, _| { t.words.clear(); t.word_ends.clear(); t.frequencies.clear(); };
    4 |r, t, _| zero(r, &mut t.frequencies);
    4 |r, t, _| { zero(r, &mut t.frequencies); zero(r, &mut t.frequencies); };
    5 |r, t, _| disorder(r, t, false);
    5 |r, t, _| disorder(r, t, true);
    6 |r, t, _| heavy(r, &mut t.frequencies, WEIGHT);
    6 |r, t, _| { heavy(r, &mut t.frequencies, 1 << 63); heavy(r, &mut t.frequencies, 1 << 63); };
    6 |r, t, _| heavy(r, &mut t.frequencies, u64::MAX);
    7 |_, _, s| s.work = Size::Answer(-1);
    7 |r, _, s| s.work = Size::Bytes(r.place(32_768));
    8 |_, _, s| s.pieces = Size::Seeds(-1);
    8 |_, _, s| s.piece_ends = Size::Seeds(-1);
    8 |_, _, s| s.pieces = Size::Bytes(0);
    8 |_, _, s| s.piece_ends = Size::Bytes(3);
    9 |_, t, _| t.vocab_size = 0;
    9 |r, t, _| below_seeds(r, t);
    10 |_, _, s| s.pieces = Size::Answer(-1);
    10 |_, _, s| s.piece_ends = Size::Answer(-1);
    10 |_, _, s| s.merges = Size::Answer(-1);
    10 |_, _, s| s.savings = Size::Answer(-1);
    10 |_, _, s| { s.pieces = Size::Seeds(0); s.piece_ends = Size::Seeds(0); };
    10 |_, _, s| { s.merges = Size::Bytes(0); s.savings = Size::Bytes(0); };
};

/// Puts an end above the one that follows, or a lone one off the byte length.
fn fall(random: &mut Random, ends: &mut [u8]) {
    let count = ends.len() / 4;
    if count > 0 {
        let at = 4 * random.place(count);
        let end = numbers(&ends[at..], 4)[0] as u32;
        let wrong = *random.pick(&[end + 1, end + 1000, end.wrapping_sub(1), u32::MAX]);
        ends[at..at + 4].copy_from_slice(&wrong.to_le_bytes());
    }
}

fn zero(random: &mut Random, frequencies: &mut [u8]) {
    heavy(random, frequencies, 0);
}

/// Gives a random word this frequency.
fn heavy(random: &mut Random, frequencies: &mut [u8], frequency: u64) {
    let count = frequencies.len() / 8;
    if count > 0 {
        let at = 8 * random.place(count);
        frequencies[at..at + 8].copy_from_slice(&frequency.to_le_bytes());
    }
}

/// Puts two words in the wrong order, or one in twice.
fn disorder(random: &mut Random, task: &mut Task, twice: bool) {
    let shaped = model::shaped(task.words.len(), &task.word_ends);
    if !shaped || task.word_ends.is_empty() || task.frequencies.len() != 2 * task.word_ends.len() {
        return;
    }
    let mut words = task.word_list();
    let at = random.place(words.len());
    if twice {
        words.insert(at, words[at].clone());
    } else {
        let other = random.place(words.len());
        words.swap(at, other);
    }
    *task = task.with_words(&words);
}

fn below_seeds(random: &mut Random, task: &mut Task) {
    if model::refusal(task).is_none() {
        let seeds = model::seed(task).pieces.len() as u64;
        task.vocab_size = seeds.saturating_sub(1 + random.below(2));
    }
}
