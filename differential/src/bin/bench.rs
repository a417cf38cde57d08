//! The original and the library on the same tables: processor time, memory, and whether the answers
//! agree.
//!
//! `bench [--words N,..] [--sizes N,..] [--seeding bytes|chars|both] [--seed-only] [--repeat N]`, where
//! N may end in k or m. By default 10k and 100k words, sizes 1k, 8k and 32k. A table has N distinct words of 3 to
//! 12 letters whose frequencies fall off as in text. Of several runs the fastest counts. The rooms are
//! written once before the time is taken, so that the library does not pay for new pages. Memory is what
//! is allocated at the peak beyond the table: of the original its own structures, of the library the lent
//! rooms.

use differential::oracle;
use differential::random::Random;
use differential::task::{Task, Word};
use rindovesh::raw;
use std::alloc::{GlobalAlloc, Layout, System};
use std::collections::BTreeSet;
use std::ffi::c_long;
use std::process::exit;
use std::sync::atomic::{AtomicUsize, Ordering::Relaxed};

extern "C" {
    /// The processor time used so far, in millionths of a second.
    fn clock() -> c_long;
}

/// Bytes of piece room for each piece: more than a word of the table has.
const PIECE_BYTES: usize = 16;

struct Arguments {
    words: Vec<usize>,
    sizes: Vec<u64>,
    seedings: Vec<u64>,
    seed_only: bool,
    repeat: usize,
}

fn arguments() -> Option<Arguments> {
    let mut parsed = Arguments {
        words: vec![10_000, 100_000],
        sizes: vec![1_000, 8_000, 32_000],
        seedings: vec![0, 1],
        seed_only: false,
        repeat: 1,
    };
    let mut list = std::env::args().skip(1);
    while let Some(argument) = list.next() {
        match &argument[..] {
            "--words" => parsed.words = numbers(&list.next()?)?.into_iter().map(|n| n as usize).collect(),
            "--sizes" => parsed.sizes = numbers(&list.next()?)?,
            "--repeat" => parsed.repeat = list.next()?.parse().ok().filter(|&n| n > 0)?,
            "--seed-only" => parsed.seed_only = true,
            "--seeding" => {
                parsed.seedings = match &list.next()?[..] {
                    "bytes" => vec![0],
                    "chars" => vec![1],
                    "both" => vec![0, 1],
                    _ => return None,
                }
            }
            _ => return None,
        }
    }
    Some(parsed)
}

/// Numbers with commas between them; k and m stand for a thousand and a million.
fn numbers(text: &str) -> Option<Vec<u64>> {
    let number = |part: &str| {
        let digits = part.trim_end_matches(['k', 'm']);
        let factor = match &part[digits.len()..] {
            "" => 1,
            "k" => 1_000,
            "m" => 1_000_000,
            _ => return None,
        };
        Some(digits.parse::<u64>().ok()? * factor)
    };
    text.split(',').map(number).collect()
}

fn main() {
    let Some(arguments) = arguments() else {
        eprintln!("bench [--words N,..] [--sizes N,..] [--seeding bytes|chars|both] [--seed-only] [--repeat N]");
        exit(2);
    };
    println!("   words   size seeding  merges  original s  library s  ratio  original MB  library MB");
    let mut agreed = true;
    for &count in &arguments.words {
        let words = table(count);
        for &size in &arguments.sizes {
            for &seeding in &arguments.seedings {
                let mut task = Task::of(&words);
                (task.vocab_size, task.seeding) = (size, seeding);
                if arguments.seed_only {
                    task.min_frequency = u64::MAX;
                }
                agreed &= row(&task, count, arguments.repeat);
            }
        }
    }
    exit(if agreed { 0 } else { 1 });
}

/// Words of 3 to 12 letters, the common letters more often, and the frequency of rank r about 1/r.
fn table(count: usize) -> Vec<Word> {
    let mut random = Random::new(7);
    let mut letter = || b"etaoinshrdlucmfwypvbgkjqxz"[(random.below(26) * random.below(26) / 26) as usize];
    let mut words = BTreeSet::new();
    let mut lengths = Random::new(11);
    while words.len() < count {
        let length = 3 + lengths.below(10);
        words.insert((0..length).map(|_| letter()).collect::<Vec<u8>>());
    }
    let mut ranks: Vec<u64> = (1..=count as u64).collect();
    for place in (1..ranks.len()).rev() {
        ranks.swap(place, lengths.place(place + 1));
    }
    words.into_iter().zip(ranks).map(|(word, rank)| (word, 1 + 10 * count as u64 / rank)).collect()
}

/// Runs both on one task and prints a line. Whether they agree.
fn row(task: &Task, count: usize, repeat: usize) -> bool {
    let counts = oracle::word_counts(task);
    let trainer = oracle::trainer(task);
    let before = peak_from_here();
    let (original_seconds, vocab) = fastest(repeat, || trainer.train(&counts));
    let original_bytes = peak() - before;
    drop(counts);

    let before = peak_from_here();
    let mut rooms = Rooms::new(task);
    let (library_seconds, returned) = fastest(repeat, || rooms.train(task));
    let library_bytes = peak() - before;

    let agree = match &vocab {
        Ok(vocab) => {
            let expected = oracle::answer(vocab.pieces(), vocab.alphabet_len(), vocab.merges(), &[]);
            returned == 0
                && rooms.pieces.starts_with(&expected.pieces)
                && rooms.ends.starts_with(&expected.piece_ends)
                && rooms.merges.starts_with(&expected.merges)
                && rooms.counts() == expected.counts
        }
        Err(_) => returned != 0,
    };
    let name = if task.seeding == 0 { "bytes" } else { "chars" };
    let ratio = library_seconds / original_seconds.max(1e-6);
    let (size, merges) = (task.vocab_size, rooms.counts()[2]);
    let megabytes = |bytes: usize| bytes as f64 / 1e6;
    println!(
        "{count:8} {size:6} {name:>7} {merges:7} {original_seconds:11.3} {library_seconds:10.3} {ratio:6.2} {:12.0} {:11.0}{}",
        megabytes(original_bytes),
        megabytes(library_bytes),
        if agree { "" } else { "  THE ANSWERS DIFFER" }
    );
    agree
}

/// The shortest processor time of some runs, and what the last one returned.
fn fastest<T>(repeat: usize, mut run: impl FnMut() -> T) -> (f64, T) {
    let mut once = || {
        // SAFETY: `clock` is C's, takes nothing and only reads.
        let start = unsafe { clock() };
        let value = run();
        let end = unsafe { clock() };
        ((end - start) as f64 / 1e6, value)
    };
    let (mut seconds, mut value) = once();
    for _ in 1..repeat {
        let (next, latest) = once();
        (seconds, value) = (seconds.min(next), latest);
    }
    (seconds, value)
}

/// The rooms of one task, every page of them written once.
struct Rooms {
    work: Vec<u8>,
    pieces: Vec<u8>,
    ends: Vec<u8>,
    merges: Vec<u8>,
    savings: Vec<u8>,
    answer: Vec<u8>,
}

impl Rooms {
    fn new(task: &Task) -> Rooms {
        let size = task.vocab_size as usize;
        let room = |bytes: usize| vec![0xA5; bytes];
        // The words are letters, so that each byte is a unit under both seedings.
        let units = task.words.len() as u64;
        Rooms {
            work: room(raw::work_bytes(units, 0) as usize),
            pieces: room(PIECE_BYTES * size),
            ends: room(4 * size),
            merges: room(8 * size),
            savings: room(8 * size),
            answer: room(raw::ANSWER_BYTES),
        }
    }

    fn train(&mut self, task: &Task) -> u64 {
        let rooms = raw::Rooms {
            work: &mut self.work,
            pieces: &mut self.pieces,
            piece_ends: &mut self.ends,
            merges: &mut self.merges,
            savings: &mut self.savings,
            answer: &mut self.answer,
        };
        raw::train(&task.input(), rooms)
    }

    fn counts(&self) -> [u64; 3] {
        let number = |n: usize| u64::from_le_bytes(self.answer[8 * n..8 * n + 8].try_into().expect("eight bytes"));
        [number(0), number(1), number(2)]
    }
}

/// The system's allocator, with the bytes that are allocated now and at their peak. The program has one
/// thread, so that a load and a store do for an addition and cost next to nothing.
struct Counting;

static NOW: AtomicUsize = AtomicUsize::new(0);
static PEAK: AtomicUsize = AtomicUsize::new(0);

fn add(bytes: usize) {
    let now = NOW.load(Relaxed).wrapping_add(bytes);
    NOW.store(now, Relaxed);
    if now > PEAK.load(Relaxed) {
        PEAK.store(now, Relaxed);
    }
}

fn subtract(bytes: usize) {
    NOW.store(NOW.load(Relaxed).wrapping_sub(bytes), Relaxed);
}

// SAFETY: each call is the system allocator's with the same arguments.
unsafe impl GlobalAlloc for Counting {
    unsafe fn alloc(&self, layout: Layout) -> *mut u8 {
        add(layout.size());
        unsafe { System.alloc(layout) }
    }

    unsafe fn alloc_zeroed(&self, layout: Layout) -> *mut u8 {
        add(layout.size());
        unsafe { System.alloc_zeroed(layout) }
    }

    unsafe fn dealloc(&self, block: *mut u8, layout: Layout) {
        subtract(layout.size());
        unsafe { System.dealloc(block, layout) }
    }

    unsafe fn realloc(&self, block: *mut u8, layout: Layout, size: usize) -> *mut u8 {
        // Both blocks may be there for a while.
        add(size);
        subtract(layout.size());
        unsafe { System.realloc(block, layout, size) }
    }
}

#[global_allocator]
static ALLOCATOR: Counting = Counting;

/// Sets the peak back to what is allocated now, and tells it.
fn peak_from_here() -> usize {
    PEAK.store(NOW.load(Relaxed), Relaxed);
    peak()
}

/// The most bytes that were allocated at a time.
fn peak() -> usize {
    PEAK.load(Relaxed)
}
