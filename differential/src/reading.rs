//! One call of the reader.

use crate::case::Case;
use crate::lend::{Holds, Run};
use crate::model;
use crate::task::{hex, numbers};
use crate::training::told;
use rindovesh::raw;
use std::fmt;

#[derive(Clone)]
pub struct Reading {
    pub pieces: Vec<u8>,
    pub ends: Vec<u8>,
    pub number: u64,
    pub answer: usize,
}

impl Reading {
    /// Document 01's verdict: the number returned, and the numbers given.
    fn verdict(&self) -> (u64, Vec<u64>) {
        let count = self.ends.len() as u64 / 4;
        if self.answer < 64 || !model::shaped(self.pieces.len(), &self.ends) || count > 16_777_216 {
            return (1, vec![]);
        }
        if self.number >= count {
            return (11, vec![]);
        }
        let end_of = |n: u64| numbers(&self.ends[4 * n as usize..][..4], 4)[0];
        let start = if self.number == 0 { 0 } else { end_of(self.number - 1) };
        (0, vec![start, end_of(self.number) - start])
    }
}

impl Case for Reading {
    fn run(&self) -> Result<(), String> {
        let (number, gives) = self.verdict();
        let pieces = Run::of(&self.pieces, 11);
        let ends = Run::of(&self.ends, 53);
        let mut answer = Run::room(self.answer, 97);
        let returned = raw::piece(pieces.lent(), ends.lent(), self.number, answer.lent_mut());
        if returned != number {
            return Err(format!("expected {number} giving {gives:?}, the library returned {returned}"));
        }
        let told = told(&gives);
        answer.check("the answer run", if self.answer < 64 { Holds::AsItWas } else { Holds::Filled(&told) })?;
        pieces.check_read("pieces", &self.pieces)?;
        ends.check_read("ends", &self.ends)
    }

    fn smaller(&self) -> Vec<Reading> {
        let mut list = Vec::new();
        if !self.ends.is_empty() {
            list.push(Reading { ends: self.ends[..self.ends.len() - 1].to_vec(), ..self.clone() });
            list.push(Reading { ends: self.ends[self.ends.len().min(4)..].to_vec(), ..self.clone() });
        }
        if !self.pieces.is_empty() {
            list.push(Reading { pieces: self.pieces[1..].to_vec(), ..self.clone() });
        }
        if self.number > 0 {
            list.push(Reading { number: self.number / 2, ..self.clone() });
            list.push(Reading { number: self.number - 1, ..self.clone() });
        }
        list
    }
}

impl fmt::Debug for Reading {
    fn fmt(&self, f: &mut fmt::Formatter<'_>) -> fmt::Result {
        let (pieces, ends) = (hex(&self.pieces), hex(&self.ends));
        write!(f, "pieces {pieces} ends {ends} number {} answer run {}", self.number, self.answer)
    }
}
