//! One call of training, and every byte that it may leave.

use crate::case::Case;
use crate::lend::{Holds, Run};
use crate::model::{self, Refused};
use crate::oracle::{self, Answer, Expected};
use crate::task::{numbers, Task, NO_LIMIT};
use rindovesh::raw;
use std::fmt;
use std::rc::Rc;
use std::sync::atomic::{AtomicU64, Ordering};

/// The size of a room, said relative to what the task needs so that it keeps its meaning while a case
/// is made smaller.
#[derive(Clone, Copy, Debug, PartialEq, Eq)]
pub enum Size {
    /// What the whole answer needs (of the work room: the formula), and so many bytes more or less.
    Answer(i64),
    /// What the seeds need, and so many more or less.
    Seeds(i64),
    /// So many bytes.
    Bytes(usize),
}

/// The sizes of the six rooms.
#[derive(Clone, Copy, Debug, PartialEq, Eq)]
pub struct Sizes {
    pub work: Size,
    pub pieces: Size,
    pub piece_ends: Size,
    pub merges: Size,
    pub savings: Size,
    pub answer: usize,
}

/// Every room exactly right.
pub const EXACT: Sizes = Sizes {
    work: Size::Answer(0),
    pieces: Size::Answer(0),
    piece_ends: Size::Answer(0),
    merges: Size::Answer(0),
    savings: Size::Answer(0),
    answer: 64,
};

/// A room's length where the task has no need to speak of.
const NO_NEED: i64 = 40;

#[derive(Clone)]
pub struct Training {
    pub task: Task,
    pub sizes: Sizes,
    /// The refusal, where it is known beforehand and the table is too large for the plain model.
    pub known: Option<Refused>,
}

impl Training {
    pub fn new(task: Task, sizes: Sizes) -> Training {
        Training { task, sizes, known: None }
    }

    pub fn exact(task: Task) -> Training {
        Training::new(task, EXACT)
    }

    fn expected(&self) -> Result<Rc<Expected>, String> {
        match &self.known {
            Some(refused) => Ok(Rc::new(Expected::refused(refused.clone()))),
            None => oracle::expect(&self.task),
        }
    }
}

/// How often training was right to return each number.
pub static RETURNED: [AtomicU64; 11] = [const { AtomicU64::new(0) }; 11];

/// The lengths of the six rooms in bytes: work, pieces, ends, merges, savings, answer.
type Lengths = [usize; 6];

fn lengths(sizes: &Sizes, expected: &Expected) -> Lengths {
    let nothing = Answer::default();
    let full = expected.answer.as_ref().unwrap_or(&nothing);
    let needs = [
        (sizes.work, expected.work, expected.work),
        (sizes.pieces, expected.seed_bytes, full.pieces.len() as u64),
        (sizes.piece_ends, expected.seed_ends, full.piece_ends.len() as u64),
        (sizes.merges, 0, full.merges.len() as u64),
        (sizes.savings, 0, full.savings.len() as u64),
        (Size::Bytes(sizes.answer), 0, 0),
    ];
    needs.map(|(size, seeds, whole)| match size {
        Size::Bytes(length) => length,
        _ if expected.early.is_some() => NO_NEED as usize,
        // Where there is no answer, the seeds stand for it.
        Size::Answer(more) => (seeds.max(whole) as i64 + more).max(0) as usize,
        Size::Seeds(more) => (seeds as i64 + more).max(0) as usize,
    })
}

/// The verdict on a task with rooms of these lengths: the rows in their order.
pub fn verdict(expected: &Expected, [work, pieces, ends, merges, savings, answer]: Lengths) -> Refused {
    let exceed = |length: u64, room: usize| length > room as u64;
    if answer < 64 {
        return (1, vec![]);
    }
    if let Some(early) = &expected.early {
        return early.clone();
    }
    if exceed(expected.work, work) {
        return (7, vec![expected.work]);
    }
    if exceed(expected.seed_ends, ends) || exceed(expected.seed_bytes, pieces) {
        return (8, vec![]);
    }
    let full = match &expected.answer {
        Err(refused) => return refused.clone(),
        Ok(full) => full,
    };
    let rooms = [(&full.pieces, pieces), (&full.piece_ends, ends), (&full.merges, merges), (&full.savings, savings)];
    if rooms.iter().any(|(bytes, room)| exceed(bytes.len() as u64, *room)) {
        return (10, vec![]);
    }
    (0, full.counts.to_vec())
}

/// The numbers given, as the answer run holds them.
pub fn told(numbers: &[u64]) -> Vec<u8> {
    numbers.iter().flat_map(|n| n.to_le_bytes()).collect()
}

/// The names of the rooms, in the order of `Lengths`.
const ROOMS: [&str; 6] = ["the work room", "pieces", "piece ends", "merges", "savings", "the answer run"];

/// What each room must hold after a verdict.
fn contents<'a>(number: u64, short: bool, full: &'a Answer, told: &'a [u8]) -> [Holds<'a>; 6] {
    let rooms = match number {
        0 => [&[], &full.pieces[..], &full.piece_ends, &full.merges, &full.savings].map(Holds::Filled),
        8..=10 => [Holds::Filled(&[]); 5],
        _ => [Holds::AsItWas; 5],
    };
    let answer = if short { Holds::AsItWas } else { Holds::Filled(told) };
    [rooms[0], rooms[1], rooms[2], rooms[3], rooms[4], answer]
}

impl Case for Training {
    fn run(&self) -> Result<(), String> {
        let expected = self.expected()?;
        let lengths = lengths(&self.sizes, &expected);
        let (number, gives) = verdict(&expected, lengths);

        let task = &self.task;
        let reads: [&[u8]; 7] = [
            &task.words,
            &task.word_ends,
            &task.frequencies,
            &task.alphabet,
            &task.alphabet_ends,
            &task.prefix,
            &task.suffix,
        ];
        let mut salt = 0u8;
        let mut salted = || {
            salt = salt.wrapping_add(29);
            salt
        };
        let read = reads.map(|run| Run::of(run, salted()));
        let mut rooms = lengths.map(|length| Run::room(length, salted()));
        let input = raw::Input {
            words: read[0].lent(),
            word_ends: read[1].lent(),
            frequencies: read[2].lent(),
            alphabet: read[3].lent(),
            alphabet_ends: read[4].lent(),
            prefix: read[5].lent(),
            suffix: read[6].lent(),
            ..task.input()
        };
        let [work, pieces, piece_ends, merges, savings, answer] = rooms.each_mut().map(Run::lent_mut);
        let returned = raw::train(&input, raw::Rooms { work, pieces, piece_ends, merges, savings, answer });

        if returned != number {
            let given = numbers(rooms[5].lent(), 8);
            return Err(format!(
                "expected {number} giving {gives:?}; the library returned {returned} giving {given:?}"
            ));
        }
        let nothing = Answer::default();
        let full = expected.answer.as_ref().unwrap_or(&nothing);
        let told = told(&gives);
        let holds = contents(number, lengths[5] < 64, full, &told);
        // The answer run first: its numbers say more than bytes do.
        for at in [5, 3, 4, 2, 1, 0] {
            rooms[at].check(ROOMS[at], holds[at]).map_err(|why| format!("returned {number}; {why}"))?;
        }
        for (run, bytes) in read.iter().zip(reads) {
            run.check_read("a run", bytes)?;
        }
        RETURNED[number as usize].fetch_add(1, Ordering::Relaxed);
        Ok(())
    }

    fn smaller(&self) -> Vec<Training> {
        if self.known.is_some() {
            return vec![];
        }
        let mut tasks = smaller_settings(&self.task);
        if model::shaped(self.task.words.len(), &self.task.word_ends)
            && self.task.frequencies.len() == 2 * self.task.word_ends.len()
        {
            tasks.extend(smaller_words(&self.task));
        }
        if model::shaped(self.task.alphabet.len(), &self.task.alphabet_ends) {
            let symbols = self.task.alphabet_list();
            tasks.extend(without_one(&symbols).iter().map(|fewer| self.task.with_alphabet(fewer)));
        }
        let tasks = tasks.into_iter().map(|task| Training { task, ..self.clone() });
        let sizes = smaller_sizes(&self.sizes).into_iter().map(|sizes| Training { sizes, ..self.clone() });
        tasks.chain(sizes).collect()
    }
}

impl fmt::Debug for Training {
    fn fmt(&self, f: &mut fmt::Formatter<'_>) -> fmt::Result {
        let Sizes { work, pieces, piece_ends, merges, savings, answer } = self.sizes;
        writeln!(f, "{:?}", self.task)?;
        write!(f, "rooms: work {work:?} pieces {pieces:?} piece ends {piece_ends:?} ")?;
        write!(f, "merges {merges:?} savings {savings:?} answer {answer}")
    }
}

/// Each room made exact by itself.
fn smaller_sizes(sizes: &Sizes) -> Vec<Sizes> {
    let list = [
        Sizes { work: EXACT.work, ..*sizes },
        Sizes { pieces: EXACT.pieces, ..*sizes },
        Sizes { piece_ends: EXACT.piece_ends, ..*sizes },
        Sizes { merges: EXACT.merges, ..*sizes },
        Sizes { savings: EXACT.savings, ..*sizes },
        Sizes { answer: EXACT.answer, ..*sizes },
    ];
    list.into_iter().filter(|exact| exact != sizes).collect()
}

fn smaller_settings(task: &Task) -> Vec<Task> {
    let mut list = Vec::new();
    let mut with = |change: &dyn Fn(&mut Task)| {
        let mut new = task.clone();
        change(&mut new);
        if new != *task {
            list.push(new);
        }
    };
    with(&|t| t.prefix.clear());
    with(&|t| t.suffix.clear());
    with(&|t| t.prefix.truncate(t.prefix.len() / 2));
    with(&|t| t.suffix.truncate(t.suffix.len() / 2));
    with(&|t| t.min_frequency = 0);
    with(&|t| t.max_piece_length = NO_LIMIT);
    with(&|t| t.seeding = 0);
    with(&|t| t.vocab_size = t.vocab_size.min(300));
    with(&|t| t.vocab_size = t.vocab_size.saturating_sub(1));
    list
}

fn smaller_words(task: &Task) -> Vec<Task> {
    let words = task.word_list();
    let mut lists = without_one(&words);
    for (place, (word, frequency)) in words.iter().enumerate() {
        let mut with = |word: &[u8], frequency| {
            let mut new = words.clone();
            new[place] = (word.to_vec(), frequency);
            lists.push(new);
        };
        if !word.is_empty() {
            with(&word[..word.len() / 2], *frequency);
            with(&word[1..], *frequency);
            with(&word[..word.len() - 1], *frequency);
        }
        if *frequency > 1 {
            with(word, 1);
            with(word, frequency / 2);
            with(word, frequency - 1);
        }
    }
    lists.iter().map(|list| task.with_words(list)).collect()
}

/// The lists with one entry less; of a long list also its halves.
fn without_one<T: Clone>(list: &[T]) -> Vec<Vec<T>> {
    let mut lists = Vec::new();
    if list.len() > 3 {
        let (front, back) = list.split_at(list.len() / 2);
        lists.extend([front.to_vec(), back.to_vec()]);
    }
    for place in 0..list.len().min(64) {
        let mut fewer = list.to_vec();
        fewer.remove(place);
        lists.push(fewer);
    }
    lists
}
