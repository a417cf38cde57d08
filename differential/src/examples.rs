//! The examples of document 01, each with the answer that the document prints.

use crate::case::{Case, Tally};
use crate::groups::Share;
use crate::merging::Merging;
use crate::task::{numbers, Task};
use crate::training::Training;
use rindovesh::raw;

/// All of them: as printed, and once more with every byte looked at.
pub fn examples(share: &Share, tally: &mut Tally) {
    if !share.is_first() {
        return;
    }
    for (task, says) in printed_examples() {
        tally.run(&Printed { task: task.clone(), says });
        tally.run(&Training::exact(task));
    }
    for merge in printed_merges() {
        tally.run(&Merging::exact(merge.word.clone(), merge.triple));
        tally.run(&merge);
    }
}

/// What an example prints: the number returned and what is given; merges, savings, some pieces.
#[derive(Clone, Debug, Default, PartialEq)]
struct Says {
    returned: u64,
    gives: Vec<u64>,
    merges: Vec<u64>,
    savings: Vec<u64>,
    pieces: Vec<(u64, &'static [u8])>,
}

fn says(gives: &[u64], merges: &[(u64, u64)], savings: &[u64]) -> Says {
    let merges = merges.iter().flat_map(|&(l, r)| [l, r]).collect();
    Says { gives: gives.to_vec(), merges, savings: savings.to_vec(), ..Says::default() }
}

fn refused(returned: u64, gives: &[u64]) -> Says {
    Says { returned, gives: gives.to_vec(), ..Says::default() }
}

fn printed_examples() -> Vec<(Task, Says)> {
    let bytes = |words: &[&str]| Task::of(&words.iter().map(|w| (w.as_bytes(), 1)).collect::<Vec<_>>());
    let with = |mut task: Task, change: &dyn Fn(&mut Task)| {
        change(&mut task);
        task
    };
    let with_pieces = |says: Says, pieces: &[(u64, &'static [u8])]| Says { pieces: pieces.to_vec(), ..says };
    vec![
        (bytes(&["aaa"]), says(&[258, 256, 2], &[(97, 97), (256, 97)], &[2, 1])),
        (bytes(&["abab"]), says(&[258, 256, 2], &[(97, 98), (256, 256)], &[2, 1])),
        (bytes(&["ab", "cd"]), says(&[258, 256, 2], &[(97, 98), (99, 100)], &[1, 1])),
        (with(bytes(&["ab", "cd"]), &|t| t.min_frequency = 2), says(&[256, 256, 0], &[], &[])),
        (with(bytes(&["aaa"]), &|t| t.max_piece_length = 2), says(&[257, 256, 1], &[(97, 97)], &[2])),
        (with(bytes(&["ab"]), &|t| t.vocab_size = 256), says(&[256, 256, 0], &[], &[])),
        (with(bytes(&["ab"]), &|t| t.vocab_size = 255), refused(9, &[255, 256])),
        (
            bytes(&["ab"]).with_alphabet(&["ab"]),
            with_pieces(says(&[258, 257, 1], &[(97, 98)], &[1]), &[(256, b"ab"), (257, b"ab")]),
        ),
        (
            with(bytes(&["abb"]), &|t| (t.seeding, t.prefix) = (1, b"##".to_vec())),
            with_pieces(
                says(&[5, 3, 2], &[(0, 2), (3, 2)], &[1, 1]),
                &[(0, b"a"), (1, b"b"), (2, b"##b"), (3, b"ab"), (4, b"abb")],
            ),
        ),
        (
            with(Task::of(&[([0xFF, 0x61], 1)]), &|t| t.seeding = 1),
            with_pieces(says(&[3, 2, 1], &[(1, 0)], &[1]), &[(0, b"\x61"), (1, b"\xFF")]),
        ),
        (Task::of(&[("ab", 1 << 52)]), refused(6, &[])),
        (Task::of(&[("ab", (1 << 52) - 1)]), says(&[257, 256, 1], &[(97, 98)], &[(1 << 52) - 1])),
        (with(bytes(&[""]), &|t| (t.seeding, t.vocab_size) = (1, 0)), says(&[0, 0, 0], &[], &[])),
        (bytes(&[]), refused(3, &[])),
    ]
}

/// An example of training by what the document prints, with rooms of a fixed size.
#[derive(Clone, Debug)]
struct Printed {
    task: Task,
    says: Says,
}

impl Case for Printed {
    fn run(&self) -> Result<(), String> {
        let mut rooms = [vec![9; 40_000], vec![9; 900], vec![9; 1200], vec![9; 80], vec![9; 80], vec![9; 64]];
        let [work, pieces, piece_ends, merges, savings, answer] = rooms.each_mut().map(|room| &mut room[..]);
        let lent = raw::Rooms { work, pieces, piece_ends, merges, savings, answer };
        let returned = raw::train(&self.task.input(), lent);
        let first = |room: &[u8], width, n| numbers(room, width)[..n].to_vec();
        let count = self.says.savings.len();
        let mut seen = Says { returned, gives: first(&rooms[5], 8, self.says.gives.len()), ..Says::default() };
        if returned == 0 {
            seen.merges = first(&rooms[3], 4, 2 * count);
            seen.savings = first(&rooms[4], 8, count);
            for &(number, spelling) in &self.says.pieces {
                let ends = &rooms[2][..4 * seen.gives[0] as usize];
                let bytes = numbers(ends, 4).last().copied().unwrap_or(0) as usize;
                let piece = rindovesh::piece(&rooms[1][..bytes], ends, number);
                if piece != Ok(spelling) {
                    return Err(format!("piece {number} reads {piece:?}"));
                }
                seen.pieces.push((number, spelling));
            }
        }
        if seen != self.says {
            return Err(format!("document 01 prints {:?}\nthe library says {seen:?}", self.says));
        }
        Ok(())
    }

    fn smaller(&self) -> Vec<Printed> {
        vec![]
    }
}

/// An example of merging by what the document prints: the word that is left, rewrites and reports.
#[derive(Clone, Debug)]
struct PrintedMerge {
    word: Vec<u32>,
    triple: (u32, u32, u32),
    kept: Vec<u32>,
    rewrites: u64,
    reports: Vec<(u32, u32, i64)>,
}

fn printed_merges() -> [PrintedMerge; 2] {
    const A: u32 = 97;
    const B: u32 = 98;
    const X: u32 = 256;
    [
        PrintedMerge {
            word: vec![A, A, A],
            triple: (A, A, X),
            kept: vec![X, A],
            rewrites: 1,
            reports: vec![(A, A, -1), (X, A, 1)],
        },
        PrintedMerge {
            word: vec![A, B, A, B],
            triple: (A, B, X),
            kept: vec![X, X],
            rewrites: 2,
            reports: vec![(B, A, -1), (X, A, 1), (X, A, -1), (X, X, 1)],
        },
    ]
}

impl Case for PrintedMerge {
    fn run(&self) -> Result<(), String> {
        let (left, right, joined) = self.triple;
        let mut word = self.word.clone();
        let (rewrites, reports) = rindovesh::merge_symbols(&mut word, left, right, joined);
        let reports: Vec<_> = reports.iter().map(|q| (q.left, q.right, q.change)).collect();
        if (&word, rewrites, &reports) != (&self.kept, self.rewrites, &self.reports) {
            return Err(format!("the library says {word:?}, {rewrites}, {reports:?}"));
        }
        Ok(())
    }

    fn smaller(&self) -> Vec<PrintedMerge> {
        vec![]
    }
}
