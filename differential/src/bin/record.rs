//! Records what the original answers, for the program `replay`, which needs neither the original nor
//! Rust: `record FOLDER` writes FOLDER/stdin with the tables and FOLDER/stdout with the answers.
//!
//! A table is eight lines, the runs that the library is lent, in this order; a number is little-endian:
//!
//!     settings        seeding, size, minimum and limit, 8 bytes each
//!     words           end to end, in rising byte order
//!     word_ends       4 bytes each
//!     frequencies     8 bytes each
//!     alphabet        the symbols of the initial alphabet, end to end
//!     alphabet_ends   4 bytes each
//!     prefix
//!     suffix
//!
//! A line is the run's name, then, unless the run is empty, a space and two lower-case hexadecimal digits
//! for each byte, then LF.
//!
//! Its answer is one line: `pieces alphabet merges checksum`, the three counts and a checksum over the
//! piece bytes, then the piece ends and then the merges as the library lays them out: from 0, for each
//! byte b, h becomes (h * 31 + b) mod 2^32. Where the original says that the size is too small it is
//! `refused 9 size alphabet`. No table has more than 48 units, 8 symbols of alphabet, 16 bytes of prefix or
//! suffix, 1,024 bytes in all its runs, or 1,024 piece bytes, and no size is over 400, so that small fixed
//! rooms are enough.
//!
//! Each answer is the original's, and a table is left out unless a plain recount agrees with it. The tables
//! are the examples of document 01 that the original knows, and random ones over all settings from a
//! fixed seed, so that the files can be made again.

use differential::generate::{self, Scale};
use differential::model;
use differential::oracle::{self, Answer};
use differential::random::Random;
use differential::task::{Task, NO_LIMIT};
use std::fmt::Write;
use std::path::PathBuf;
use std::process::exit;

/// How many random tables there are.
const TABLES: usize = 380;

/// What the tables are made from.
const SEED: u64 = 20_261_115;

const MOST_UNITS: u64 = 48;
const MOST_SYMBOLS: usize = 8;
const MOST_MARK: usize = 16;
const MOST_RUN_BYTES: usize = 1024;
const MOST_SIZE: u64 = 400;
const MOST_PIECE_BYTES: usize = 1024;

fn main() {
    let Some(folder) = std::env::args_os().nth(1).map(PathBuf::from) else {
        eprintln!("record FOLDER");
        exit(2);
    };
    let (mut stdin, mut stdout) = (String::new(), String::new());
    let mut most = Most::default();
    let tables = tables();
    for (task, answer) in &tables {
        put_table(&mut stdin, task);
        put_answer(&mut stdout, answer);
        most.note(task, answer);
    }
    std::fs::create_dir_all(&folder).expect("the folder can be made");
    std::fs::write(folder.join("stdin"), &stdin).expect("stdin can be written");
    std::fs::write(folder.join("stdout"), &stdout).expect("stdout can be written");
    println!("{} tables, {} and {} bytes; at most {most:?}", tables.len(), stdin.len(), stdout.len());
}

/// An answer, or the two numbers of refusal 9.
type Recorded = Result<Answer, Vec<u64>>;

/// The tables with their answers.
fn tables() -> Vec<(Task, Recorded)> {
    let mut list: Vec<(Task, Recorded)> = examples().into_iter().filter_map(recorded).collect();
    let mut random = Random::new(SEED);
    let goal = list.len() + TABLES;
    while list.len() < goal {
        let scale =
            *random.pick(&[Scale { words: 3, units: 5 }, Scale { words: 12, units: 6 }, Scale { words: 4, units: 20 }]);
        let mut task = generate::task(&mut random, scale);
        task.vocab_size = task.vocab_size.min(MOST_SIZE);
        // Most tables are to have merges.
        let any = random.once_in(4);
        list.extend(recorded(task).filter(|(_, answer)| any || has_merges(answer)));
    }
    list
}

fn has_merges(answer: &Recorded) -> bool {
    answer.as_ref().is_ok_and(|full| !full.merges.is_empty())
}

fn examples() -> Vec<Task> {
    let plain = |words: &[&str]| Task::of(&words.iter().map(|&word| (word, 1)).collect::<Vec<_>>());
    vec![
        plain(&["aaa"]),
        plain(&["abab"]),
        plain(&["ab", "cd"]),
        Task { min_frequency: 2, ..plain(&["ab", "cd"]) },
        Task { max_piece_length: 2, ..plain(&["aaa"]) },
        Task { vocab_size: 256, ..plain(&["ab"]) },
        Task { vocab_size: 255, ..plain(&["ab"]) },
        plain(&["ab"]).with_alphabet(&["ab"]),
        Task { seeding: 1, prefix: b"##".to_vec(), ..plain(&["abb"]) },
        Task { seeding: 1, ..Task::of(&[([0xFF, 0x61], 1)]) },
        Task::of(&[("ab", (1 << 52) - 1)]),
        Task {
            seeding: 1,
            suffix: b"</w>".to_vec(),
            vocab_size: 64,
            min_frequency: 2,
            max_piece_length: NO_LIMIT,
            ..Task::of(&[("aab", 3), ("ab", 2), ("cab", 4)])
        },
    ]
}

/// The table with its answer, if it is small enough and the original has an answer for it.
fn recorded(task: Task) -> Option<(Task, Recorded)> {
    let words = task.word_list();
    let units = (model::work_needed(&task) - 32_768) / 512 - task.alphabet_list().len() as u64;
    let fits = units <= MOST_UNITS
        && task.alphabet_list().len() <= MOST_SYMBOLS
        && task.prefix.len().max(task.suffix.len()) <= MOST_MARK
        && run_bytes(&task) <= MOST_RUN_BYTES
        // Tables with an empty word stand outside of the comparison.
        && words.iter().all(|(word, _)| !word.is_empty());
    if !fits {
        return None;
    }
    let expected = oracle::expect(&task).ok()?;
    let answer = expected.answer.clone().map_err(|(_, gives)| gives);
    let bytes = answer.as_ref().map_or(expected.seed_bytes as usize, |full| full.pieces.len());
    (bytes <= MOST_PIECE_BYTES).then_some((task, answer))
}

/// The runs of a table with their names, in the order of the lines.
fn runs(task: &Task) -> [(&'static str, Vec<u8>); 8] {
    let settings = [task.seeding, task.vocab_size, task.min_frequency, task.max_piece_length];
    [
        ("settings", settings.map(u64::to_le_bytes).concat()),
        ("words", task.words.clone()),
        ("word_ends", task.word_ends.clone()),
        ("frequencies", task.frequencies.clone()),
        ("alphabet", task.alphabet.clone()),
        ("alphabet_ends", task.alphabet_ends.clone()),
        ("prefix", task.prefix.clone()),
        ("suffix", task.suffix.clone()),
    ]
}

fn run_bytes(task: &Task) -> usize {
    runs(task).iter().map(|(_, run)| run.len()).sum()
}

fn put_table(text: &mut String, task: &Task) {
    for (name, run) in runs(task) {
        let space = if run.is_empty() { "" } else { " " };
        let digits: String = run.iter().map(|b| format!("{b:02x}")).collect();
        writeln!(text, "{name}{space}{digits}").unwrap();
    }
}

fn put_answer(text: &mut String, answer: &Recorded) {
    match answer {
        Ok(full) => {
            let [pieces, alphabet, merges] = full.counts;
            let runs = full.pieces.iter().chain(&full.piece_ends).chain(&full.merges);
            let checksum = runs.fold(0u32, |h, &b| h.wrapping_mul(31).wrapping_add(b.into()));
            writeln!(text, "{pieces} {alphabet} {merges} {checksum}").unwrap();
        }
        Err(gives) => writeln!(text, "refused 9 {} {}", gives[0], gives[1]).unwrap(),
    }
}

/// The greatest of each kind, for the rooms of the program that reads this.
#[derive(Debug, Default)]
struct Most {
    run_bytes: usize,
    pieces: u64,
    merges: u64,
    piece_bytes: usize,
}

impl Most {
    fn note(&mut self, task: &Task, answer: &Recorded) {
        self.run_bytes = self.run_bytes.max(run_bytes(task));
        if let Ok(full) = answer {
            self.pieces = self.pieces.max(full.counts[0]);
            self.merges = self.merges.max(full.counts[2]);
            self.piece_bytes = self.piece_bytes.max(full.pieces.len());
        }
    }
}
