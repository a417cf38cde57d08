//! One call of merging symbols, beside the original's `merge_symbols`.

use crate::case::Case;
use crate::lend::{Holds, Run};
use crate::task::hex;
use crate::training::told;
use rindovesh::raw;
use std::fmt;

#[derive(Clone)]
pub struct Merging {
    /// The word, and behind it up to three bytes that make its run no whole number of symbols.
    pub word: Vec<u32>,
    pub odd_bytes: usize,
    pub triple: (u32, u32, u32),
    /// The length of the list in bytes, relative to what the reports need.
    pub changes: i64,
    pub answer: usize,
}

impl Merging {
    /// A word with a list that is exactly long enough.
    pub fn exact(word: Vec<u32>, triple: (u32, u32, u32)) -> Merging {
        Merging { word, odd_bytes: 0, triple, changes: 0, answer: 64 }
    }
}

impl Case for Merging {
    fn run(&self) -> Result<(), String> {
        let (left, right, joined) = self.triple;
        let mut kept = self.word.clone();
        let mut reports = Vec::new();
        let (rewrites, length) = original::merge_symbols(&mut kept, left, right, joined, &mut reports);
        let mut new: Vec<u8> = kept[..length].iter().flat_map(|s| s.to_le_bytes()).collect();
        let report =
            |((l, r), d): &((u32, u32), i64)| [&l.to_le_bytes()[..], &r.to_le_bytes(), &d.to_le_bytes()].concat();
        let mut list: Vec<u8> = reports.iter().flat_map(report).collect();

        let places = (list.len() as i64 + self.changes).max(0) as usize;
        let (number, gives) = if self.answer < 64 || self.odd_bytes > 0 || places % 16 != 0 {
            (1, vec![])
        } else if list.len() > places {
            (12, vec![])
        } else {
            (0, vec![rewrites, length as u64, reports.len() as u64])
        };

        let before: Vec<u8> =
            self.word.iter().flat_map(|s| s.to_le_bytes()).chain((0..self.odd_bytes).map(|_| 7)).collect();
        let mut symbols = Run::of(&before, 31);
        let mut changes = Run::room(places, 67);
        let mut answer = Run::room(self.answer, 103);
        let lent = symbols.lent_mut();
        let returned = raw::merge_symbols(lent, left, right, joined, changes.lent_mut(), answer.lent_mut());
        if returned != number {
            return Err(format!("expected {number} giving {gives:?}, the library returned {returned}"));
        }
        if number != 0 {
            (new, list) = (vec![], vec![]);
        }
        // The kept symbols, and behind them the old ones.
        new.extend_from_slice(&before[new.len()..]);
        let told = told(&gives);
        answer.check("the answer run", if self.answer < 64 { Holds::AsItWas } else { Holds::Filled(&told) })?;
        symbols.check("symbols", Holds::Laid(&new))?;
        changes.check("the list", Holds::Laid(&list))
    }

    fn smaller(&self) -> Vec<Merging> {
        (0..self.word.len())
            .map(|place| {
                let mut word = self.word.clone();
                word.remove(place);
                Merging { word, ..self.clone() }
            })
            .collect()
    }
}

impl fmt::Debug for Merging {
    fn fmt(&self, f: &mut fmt::Formatter<'_>) -> fmt::Result {
        let bytes: Vec<u8> = self.word.iter().flat_map(|s| s.to_be_bytes()).collect();
        write!(
            f,
            "symbols {} and {} bytes, pair and joined {:?}, list {:+} bytes, answer run {}",
            hex(&bytes),
            self.odd_bytes,
            self.triple,
            self.changes,
            self.answer
        )
    }
}
