//! The groups of the comparison. Each is a list of cases, and a run takes an equal share of each: every
//! `stride`th case from a place that the seed decides, the whole list with a stride of 1.

use crate::binding::Binding;
use crate::case::Tally;
use crate::examples;
use crate::generate::{self, Scale, DAMAGES, WEIGHT};
use crate::merging::Merging;
use crate::random::Random;
use crate::reading::Reading;
use crate::task::{Task, Word, NO_LIMIT};
use crate::training::{Size, Sizes, Training, EXACT};

/// Which part of each group is run.
#[derive(Clone, Copy)]
pub struct Share {
    pub seed: u64,
    pub stride: u64,
    /// The few cases that lend hundreds of megabytes.
    pub huge: bool,
    /// Tables of some hundred words, which an engine that recounts takes long for.
    pub large: bool,
    /// A share is divided among threads: this one's number, and how many there are.
    pub thread: u64,
    pub threads: u64,
}

impl Share {
    /// Whether the case at this place is in the share.
    fn has(&self, place: u64) -> bool {
        place % self.stride == self.seed % self.stride && place / self.stride % self.threads == self.thread
    }

    /// Whether groups that are not divided are run here.
    pub fn is_first(&self) -> bool {
        self.thread == 0
    }

    /// The numbers of the random cases of a group that has so many of them in all.
    fn of(self, whole: u64) -> impl Iterator<Item = u64> {
        (0..whole).filter(move |&place| self.has(place))
    }

    /// Random numbers for one case: the same whatever else is run.
    fn random(&self, group: u64, case: u64) -> Random {
        Random::new(self.seed ^ group << 56 ^ case.wrapping_mul(0x2545_F491_4F6C_DD1D))
    }
}

/// A group: its name, and what runs it.
pub type Group = (&'static str, fn(&Share, &mut Tally));

pub const GROUPS: &[Group] = &[
    ("examples", examples::examples),
    ("exhaustive", exhaustive),
    ("random", random),
    ("utf8", utf8),
    ("refusals", refusals),
    ("rooms", rooms),
    ("limits", limits),
    ("reader", reader),
    ("merging", merging),
    ("binding", binding),
    ("garbage", garbage),
    ("large", large),
];

/// How many cases all groups have together, for the stride of a share.
pub const WHOLE: u64 = 1_400_000;

fn repeat(unit: &str, times: usize) -> Vec<u8> {
    unit.repeat(times).into_bytes()
}

/// Every table of up to three distinct words over two letters up to length 4, the empty word among
/// them, under each of the settings below.
fn exhaustive(share: &Share, tally: &mut Tally) {
    let mut words: Vec<Vec<u8>> = vec![vec![]];
    for length in 1..=4 {
        words.extend(
            (0..1 << length).map(|code| (0..length).map(|k| b'a' + (code >> k & 1) as u8).collect::<Vec<u8>>()),
        );
    }
    words.sort();
    let settings = exhaustive_settings();
    let mut place = 0;
    for_each_choice(words.len(), &mut |chosen| {
        for setting in &settings {
            place += 1;
            if share.has(place) {
                let list: Vec<Word> =
                    chosen.iter().zip(setting.frequencies).map(|(&w, f)| (words[w].clone(), f)).collect();
                let mut task = setting.task.with_words(&list);
                task.vocab_size += if task.seeding == 0 { 256 } else { 0 };
                tally.run(&Training::exact(task));
            }
        }
    });
}

/// All rising choices of one to three places among `n`.
fn for_each_choice(n: usize, run: &mut dyn FnMut(&[usize])) {
    for a in 0..n {
        run(&[a]);
        for b in a + 1..n {
            run(&[a, b]);
            for c in b + 1..n {
                run(&[a, b, c]);
            }
        }
    }
}

struct Setting {
    task: Task,
    frequencies: [u64; 3],
}

/// Seeding, frequencies and one to two other settings at a time. Sizes are said without the byte values.
fn exhaustive_settings() -> Vec<Setting> {
    let base = Task { vocab_size: 40, max_piece_length: NO_LIMIT, ..Task::default() };
    let changes: [&dyn Fn(&mut Task); 16] = [
        &|_| (),
        &|t| t.vocab_size = 2,
        &|t| t.vocab_size = 3,
        &|t| t.vocab_size = 5,
        &|t| t.min_frequency = 2,
        &|t| t.min_frequency = 3,
        &|t| t.max_piece_length = 1,
        &|t| t.max_piece_length = 2,
        &|t| t.max_piece_length = 3,
        &|t| t.prefix = b"##".to_vec(),
        &|t| t.suffix = b"</w>".to_vec(),
        &|t| (t.prefix, t.suffix) = (b"a".to_vec(), b"b".to_vec()),
        &|t| (t.prefix, t.max_piece_length) = (b"#".to_vec(), 3),
        &|t| *t = t.with_alphabet(&["ab", "", "ab", "b"]),
        &|t| (*t, t.prefix) = (t.with_alphabet(&["##a", "aa"]), b"##".to_vec()),
        &|t| (t.suffix, t.min_frequency) = (b"a".to_vec(), 2),
    ];
    let mut settings = Vec::new();
    for change in changes {
        for seeding in [0, 1] {
            for frequencies in [[1, 1, 1], [1, 2, 3]] {
                let mut task = base.clone();
                change(&mut task);
                task.seeding = seeding;
                settings.push(Setting { task, frequencies });
            }
        }
    }
    settings
}

/// Random tables over all settings, most of them small.
fn random(share: &Share, tally: &mut Tally) {
    for case in share.of(100_000) {
        let random = &mut share.random(1, case);
        let scale = match random.below(40) {
            0 => Scale { words: 60, units: 12 },
            1..=9 => Scale { words: 12, units: 8 },
            _ => Scale { words: 5, units: 6 },
        };
        let task = generate::task(random, scale);
        tally.run(&Training::new(task, generate::sizes(random)));
    }
}

/// Words at the bounds of RFC 3629: all words of up to three bytes over the bytes where a row of its
/// table begins or ends, and four-byte words with the leads around the last rows.
fn utf8(share: &Share, tally: &mut Tally) {
    const EDGES: [u8; 24] = [
        0x00, 0x7F, 0x80, 0x8F, 0x90, 0x9F, 0xA0, 0xBF, 0xC0, 0xC1, 0xC2, 0xDF, 0xE0, 0xE1, 0xEC, 0xED, 0xEE, 0xEF,
        0xF0, 0xF1, 0xF3, 0xF4, 0xF5, 0xFF,
    ];
    const LEADS: [u8; 6] = [0xEF, 0xF0, 0xF1, 0xF3, 0xF4, 0xF5];
    const TAILS: [u8; 5] = [0x00, 0x7F, 0x80, 0xBF, 0xC0];
    let edges = EDGES.map(|edge| vec![edge]);
    let add = |words: &[Vec<u8>], edges: &[u8]| -> Vec<Vec<u8>> {
        words.iter().flat_map(|word| edges.iter().map(|&edge| [&word[..], &[edge]].concat())).collect()
    };
    let two = add(&edges, &EDGES);
    let three = add(&two, &EDGES);
    let four = add(&add(&add(&LEADS.map(|lead| vec![lead]), &EDGES), &TAILS), &TAILS);
    let words = edges.iter().chain(&two).chain(&three).chain(&four);
    for (place, word) in words.enumerate() {
        if share.has(place as u64) {
            // with its front doubled beside it, so that a character of one word is a unit of another
            let mut list: Vec<Word> = vec![(word.clone(), 2), ([&word[..1], word].concat(), 1)];
            list.sort();
            list.dedup_by(|v, w| v.0 == w.0);
            let mut task = Task::of(&list);
            task.seeding = 1;
            task.vocab_size = 40;
            tally.run(&Training::exact(task));
        }
    }
}

/// Tables with one damage, and with each two of them: the first row that holds is told, with its numbers.
fn refusals(share: &Share, tally: &mut Tally) {
    const TABLES: u64 = 60;
    let single = DAMAGES.iter().map(|damage| vec![damage]);
    let double = DAMAGES.iter().flat_map(|first| DAMAGES.iter().map(move |second| vec![first, second]));
    for (place, damages) in single.chain(double).enumerate() {
        for table in 0..TABLES {
            let case = place as u64 * TABLES + table;
            if share.has(case) {
                let random = &mut share.random(2, case);
                let mut task = generate::task(random, Scale { words: 4, units: 5 });
                let mut sizes = EXACT;
                damages.iter().for_each(|damage| (damage.apply)(random, &mut task, &mut sizes));
                tally.run(&Training::new(task, sizes));
            }
        }
    }
}

/// Rooms exactly right, and each of them a little short or long while the others are right.
fn rooms(share: &Share, tally: &mut Tally) {
    for table in share.of(1_500) {
        let random = &mut share.random(3, table);
        let task = generate::task(random, Scale { words: 5, units: 6 });
        for sizes in room_sizes() {
            tally.run(&Training::new(task.clone(), sizes));
        }
    }
}

fn room_sizes() -> Vec<Sizes> {
    let mut list = vec![EXACT];
    list.extend([0, 1, 63, 65, 71, 72, 128, 1000].map(|answer| Sizes { answer, ..EXACT }));
    for more in [-4096, -9, -8, -5, -4, -1, 1, 3, 4, 7, 8, 4096].map(Size::Answer) {
        list.push(Sizes { work: more, ..EXACT });
        list.push(Sizes { pieces: more, ..EXACT });
        list.push(Sizes { piece_ends: more, ..EXACT });
        list.push(Sizes { merges: more, ..EXACT });
        list.push(Sizes { savings: more, ..EXACT });
    }
    for more in [-4, -1, 0, 1, 4].map(Size::Seeds) {
        list.push(Sizes { pieces: more, ..EXACT });
        list.push(Sizes { piece_ends: more, ..EXACT });
        list.push(Sizes { pieces: more, piece_ends: more, ..EXACT });
    }
    list.push(Sizes { merges: Size::Bytes(0), savings: Size::Bytes(0), ..EXACT });
    list.push(Sizes { pieces: Size::Bytes(0), piece_ends: Size::Bytes(0), ..EXACT });
    list
}

/// The limits of row 2, the bound of row 6, and one past each.
fn limits(share: &Share, tally: &mut Tally) {
    if !share.is_first() {
        return;
    }
    let plain = Task::of(&[("abab", 1), ("b", 1)]);
    let mut tasks = Vec::new();
    for more in [0, 1] {
        tasks.push(Task { vocab_size: 16_777_216 + more as u64, ..plain.clone() });
        tasks.push(Task { prefix: repeat("#", 255 + more), ..plain.clone() });
        tasks.push(Task { suffix: repeat("#", 255 + more), ..plain.clone() });
        tasks.push(Task { vocab_size: 70_000, ..plain.with_alphabet(&vec![""; 65_536 + more]) });
        let symbols: Vec<[u8; 3]> =
            (0..65_536 + more as u32).map(|n| [n as u8, (n >> 8) as u8, (n >> 16) as u8]).collect();
        tasks.push(Task { vocab_size: 70_000, ..plain.with_alphabet(&symbols) });
        tasks.push(plain.with_alphabet(&[repeat("a", 1_048_576 + more)]));
        tasks.push(plain.with_words(&[(b"abc".to_vec(), WEIGHT / 3 + more as u64)]));
        tasks.push(plain.with_words(&[(b"a".to_vec(), WEIGHT - 2), (b"b".to_vec(), 1 + more as u64)]));
        tasks.push(plain.with_words(&[(b"abcd".to_vec(), WEIGHT / 4 - 1), (b"b".to_vec(), 3 + more as u64)]));
    }
    tasks.iter().for_each(|task| tally.run(&Training::exact(task.clone())));
    if share.huge {
        huge_limits(tally);
    }
}

/// The limits that need large runs. What is refused is known beforehand.
fn huge_limits(tally: &mut Tally) {
    let rooms = Sizes { work: Size::Bytes(100_000), ..EXACT };
    for (count, refused) in [(16_777_216, (5, vec![1])), (16_777_217, (2, vec![]))] {
        let mut task = Task::of(&[("", 1)]);
        task.word_ends = vec![0; 4 * count];
        task.frequencies = [1, 0, 0, 0, 0, 0, 0, 0].repeat(count);
        tally.run(&Training { task, sizes: rooms, known: Some(refused) });
        let ends = vec![0; 4 * count];
        for number in [0, count as u64 - 1, count as u64] {
            tally.run(&Reading { pieces: vec![], ends: ends.clone(), number, answer: 64 });
        }
    }
    for (length, refused) in [(268_435_456u64, (7, vec![512 * 268_435_456 + 32_768])), (268_435_457, (2, vec![]))] {
        for seeding in [0, 1] {
            let mut task = Task::of(&[(vec![b'a'; length as usize], 1)]);
            task.seeding = seeding;
            tally.run(&Training { task, sizes: rooms, known: Some(refused.clone()) });
        }
    }
}

/// Shaped and misshapen tables, and numbers before, at and past the count.
fn reader(share: &Share, tally: &mut Tally) {
    for case in share.of(40_000) {
        let random = &mut share.random(4, case);
        let count = random.below(6);
        let mut pieces = Vec::new();
        let mut ends = Vec::new();
        for _ in 0..count {
            let length = random.place(4);
            pieces.extend(random.bytes(length));
            ends.extend((pieces.len() as u32).to_le_bytes());
        }
        if random.once_in(3) {
            misshape(random, &mut pieces, &mut ends);
        }
        let numbers = [0, count.saturating_sub(1), count, count + 1, 1 << 32, u64::MAX, random.below(count + 1)];
        let answer = *random.pick(&[0, 63, 64, 64, 64, 65, 72, 300]);
        tally.run(&Reading { pieces, ends, number: *random.pick(&numbers), answer });
    }
}

fn misshape(random: &mut Random, pieces: &mut Vec<u8>, ends: &mut Vec<u8>) {
    match random.below(5) {
        0 => pieces.push(1),
        1 => drop(pieces.pop()),
        2 => ends.extend(vec![0; 1 + random.place(4)]),
        3 => drop(ends.pop()),
        _ => {
            if !ends.is_empty() {
                let at = random.place(ends.len());
                ends[at] ^= 1 << random.below(8);
            }
        }
    }
}

/// Every word of up to seven symbols over three with every pair and new symbol among four, then random
/// longer words; the list exactly long enough, a place and a byte short, and longer; other lengths.
fn merging(share: &Share, tally: &mut Tally) {
    const AMONG: [u32; 4] = [97, 98, 0, 0xFF02_0100];
    let mut place = 0;
    for length in 0..=7 {
        for code in 0..3usize.pow(length) {
            let word: Vec<u32> = (0..length).map(|k| AMONG[code / 3usize.pow(k) % 3]).collect();
            for triple in 0..64 {
                place += 1;
                if share.has(place) {
                    let triple = (AMONG[triple / 16], AMONG[triple / 4 % 4], AMONG[triple % 4]);
                    tally.run(&Merging::exact(word.clone(), triple));
                    tally.run(&Merging { changes: -16, ..Merging::exact(word.clone(), triple) });
                }
            }
        }
    }
    for case in share.of(100_000) {
        let random = &mut share.random(5, case);
        let (length, kinds) = (random.below(200), 1 + random.below(5));
        let word: Vec<u32> = (0..length).map(|_| random.below(kinds) as u32).collect();
        let triple = (random.below(kinds) as u32, random.below(kinds) as u32, random.below(kinds + 2) as u32);
        let exact = Merging::exact(word, triple);
        tally.run(&exact);
        tally.run(&match random.below(6) {
            0 => Merging { changes: -16, ..exact },
            1 => Merging { changes: 16 * random.below(4) as i64, ..exact },
            2 => Merging { changes: *random.pick(&[-1, 1, 4, 8, 15]), ..exact },
            3 => Merging { odd_bytes: 1 + random.place(3), ..exact },
            4 => Merging { answer: *random.pick(&[0, 8, 63]), ..exact },
            _ => Merging { answer: *random.pick(&[65, 72, 500]), ..exact },
        });
    }
}

/// The safe binding on random tables, some of them with a damage of rows 3 to 6 or 9.
fn binding(share: &Share, tally: &mut Tally) {
    let damages: Vec<_> = DAMAGES.iter().filter(|damage| matches!(damage.number, 3..=6 | 9)).collect();
    for case in share.of(20_000) {
        let random = &mut share.random(6, case);
        let mut task = generate::task(random, Scale { words: 6, units: 8 });
        if random.once_in(4) {
            (random.pick(&damages).apply)(random, &mut task, &mut EXACT.clone());
        }
        tally.run(&Binding { task });
    }
}

/// Runs of any bytes and any length, and settings at their edges: most have no shape, some do.
fn garbage(share: &Share, tally: &mut Tally) {
    for case in share.of(60_000) {
        let random = &mut share.random(7, case);
        let mut run = |most: u64, bytes: &[u8]| -> Vec<u8> {
            let length = random.below(most);
            (0..length).map(|_| *random.pick(bytes)).collect()
        };
        let mut task = Task {
            words: run(6, &[0, 1, 97, 98, 195, 255]),
            alphabet: run(4, &[0, 1, 97, 255]),
            prefix: run(3, b"a#"),
            suffix: run(3, b"a#"),
            ..Task::default()
        };
        let count = random.below(4) as usize;
        let frequency = |_| random.pick(&[1u64, 1, 2, 7, 0, WEIGHT / 4, u64::MAX]).to_le_bytes();
        task.frequencies = (0..count).flat_map(frequency).collect();
        if random.once_in(12) {
            task.frequencies.truncate(random.place(8 * count + 1));
        }
        task.word_ends = almost_ends(random, task.words.len(), count);
        let symbols = if task.alphabet.is_empty() { 0 } else { 1 + random.place(2) };
        task.alphabet_ends = almost_ends(random, task.alphabet.len(), symbols);
        task.seeding = *random.pick(&[0, 0, 0, 0, 1, 1, 1, 1, 2, u64::MAX]);
        task.vocab_size = *random.pick(&[0, 1, 3, 255, 256, 258, 300, 16_777_216, 16_777_217, u64::MAX]);
        task.min_frequency = *random.pick(&[0, 1, 2, u64::MAX]);
        task.max_piece_length = *random.pick(&[0, 1, 2, 3, NO_LIMIT]);
        let mut room = |most: usize| Size::Bytes(if random.once_in(4) { random.place(most) } else { most });
        let sizes = Sizes {
            work: room(40_000),
            pieces: room(600),
            piece_ends: room(1200),
            merges: room(60),
            savings: room(60),
            answer: *random.pick(&[63, 64, 64, 64, 64, 64, 80]),
        };
        tally.run(&Training::new(task, sizes));
    }
}

/// Ends that are mostly of the shape that so many bytes and entries ask for.
fn almost_ends(random: &mut Random, bytes: usize, count: usize) -> Vec<u8> {
    let mut list: Vec<u32> = (0..count).map(|_| random.below(bytes as u64 + 1) as u32).collect();
    if !random.once_in(12) {
        list.sort();
    }
    if let (Some(last), false) = (list.last_mut(), random.once_in(12)) {
        *last = bytes as u32;
    }
    let mut ends: Vec<u8> = list.iter().flat_map(|end| end.to_le_bytes()).collect();
    if random.once_in(12) {
        ends.truncate(random.place(ends.len() + 1));
    }
    ends
}

/// Tables of some hundred words over few letters: long lists of words, stale entries, deep merges.
fn large(share: &Share, tally: &mut Tally) {
    for case in share.of(if share.large { 400 } else { 0 }) {
        let random = &mut share.random(8, case);
        let scale = Scale { words: 100 + random.below(1000), units: 4 + random.below(12) };
        let mut task = generate::task(random, scale);
        task.min_frequency = random.below(4);
        if random.once_in(2) {
            task.max_piece_length = NO_LIMIT;
        }
        task.vocab_size = (task.vocab_size + random.below(300)).min(16_777_216);
        tally.run(&Training::exact(task));
    }
}
