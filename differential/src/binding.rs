//! One call of the safe binding, whose rooms are its own.

use crate::case::Case;
use crate::oracle;
use crate::task::Task;
use crate::training;
use rindovesh::{Refusal, Seeding, Settings, Table, Trained};

/// A table that refusals 1 and 2 let pass.
#[derive(Clone, Debug)]
pub struct Binding {
    pub task: Task,
}

impl Binding {
    fn call(&self) -> Result<Trained, Refusal> {
        let task = &self.task;
        let (words, frequencies): (Vec<Vec<u8>>, Vec<u64>) = task.word_list().into_iter().unzip();
        let settings = Settings {
            seeding: if task.seeding == 0 { Seeding::Bytes } else { Seeding::Chars },
            vocab_size: task.vocab_size,
            min_frequency: task.min_frequency,
            max_piece_length: Some(task.max_piece_length).filter(|&limit| limit != u64::MAX),
            prefix: task.prefix.clone(),
            suffix: task.suffix.clone(),
            alphabet: task.alphabet_list(),
        };
        rindovesh::train(&Table::new(&words, &frequencies)?, &settings)
    }
}

impl Case for Binding {
    fn run(&self) -> Result<(), String> {
        let expected = oracle::expect(&self.task)?;
        match (&expected.answer, self.call()) {
            (Ok(full), Ok(trained)) => {
                let pieces: Vec<Vec<u8>> = trained.pieces().map(<[u8]>::to_vec).collect();
                let seen = oracle::answer(&pieces, trained.alphabet_len(), trained.merges(), trained.savings());
                if seen != *full || trained.piece_bytes() != full.pieces || trained.piece_ends() != full.piece_ends {
                    return Err(format!("the merges are {:?}", trained.merges()));
                }
                Ok(())
            }
            (Err((number, gives)), Err(refusal)) => {
                let answer = [training::told(gives), vec![0; 64]].concat();
                if Refusal::from_answer(*number, &answer) != Some(refusal) || refusal.number() != *number {
                    return Err(format!("expected {number} giving {gives:?}, the binding says {refusal:?}"));
                }
                Ok(())
            }
            (Ok(_), Err(refusal)) => Err(format!("expected an answer, the binding says {refusal:?}")),
            (Err((number, _)), Ok(_)) => Err(format!("expected {number}, the binding has an answer")),
        }
    }

    fn smaller(&self) -> Vec<Binding> {
        let cases = training::Training::exact(self.task.clone()).smaller();
        cases.into_iter().map(|case| Binding { task: case.task }).collect()
    }
}
