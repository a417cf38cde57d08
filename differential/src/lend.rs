//! Runs as they are lent to the library: filled with a pattern, between guard bytes, and looked at
//! byte by byte afterwards.

use crate::task::hex;
use std::sync::atomic::{AtomicBool, Ordering};

/// Bytes before and behind each run.
const GUARD: usize = 48;

/// The pattern repeats after this many bytes.
const PERIOD: usize = 256;

/// Whether runs are lent bare: each a block of its own without guard bytes, so that a memory checker
/// sees an access outside of it.
static BARE: AtomicBool = AtomicBool::new(false);

pub fn lend_bare() {
    BARE.store(true, Ordering::Relaxed);
}

/// One lent run.
pub struct Run {
    bytes: Box<[u8]>,
    guard: usize,
    salt: u8,
}

/// What a run must hold after the call.
#[derive(Clone, Copy)]
pub enum Holds<'a> {
    /// What it held before.
    AsItWas,
    /// These bytes, and 0 behind them.
    Filled(&'a [u8]),
    /// These bytes, and what was before behind them.
    Laid(&'a [u8]),
}

impl Run {
    /// A run of a pattern without zeros, which differs from run to run by its salt.
    pub fn room(length: usize, salt: u8) -> Run {
        let guard = if BARE.load(Ordering::Relaxed) { 0 } else { GUARD };
        let mut bytes = vec![0; length + 2 * guard].into_boxed_slice();
        for chunk in bytes.chunks_mut(PERIOD) {
            let length = chunk.len();
            chunk.copy_from_slice(&pattern(salt)[..length]);
        }
        Run { bytes, guard, salt }
    }

    /// A run of these bytes.
    pub fn of(bytes: &[u8], salt: u8) -> Run {
        let mut run = Run::room(bytes.len(), salt);
        run.lent_mut().copy_from_slice(bytes);
        run
    }

    pub fn lent(&self) -> &[u8] {
        &self.bytes[self.guard..self.bytes.len() - self.guard]
    }

    pub fn lent_mut(&mut self) -> &mut [u8] {
        let end = self.bytes.len() - self.guard;
        &mut self.bytes[self.guard..end]
    }

    /// Compares a room with what it must hold, its guards included.
    pub fn check(&self, name: &str, holds: Holds<'_>) -> Result<(), String> {
        let lent = self.lent();
        let differs = match holds {
            Holds::AsItWas => self.unlike_pattern(self.guard, lent),
            Holds::Filled(bytes) => unlike(lent, bytes).or_else(|| nonzero(lent, bytes.len())),
            Holds::Laid(bytes) => unlike(lent, bytes).or_else(|| {
                self.unlike_pattern(self.guard + bytes.len(), &lent[bytes.len()..]).map(|at| at + bytes.len())
            }),
        };
        if let Some(at) = differs {
            let expected = match holds {
                Holds::AsItWas => "what it held before".into(),
                Holds::Filled(bytes) => format!("{} and then 0", hex(bytes)),
                Holds::Laid(bytes) => format!("{} and then what it held before", hex(bytes)),
            };
            return Err(format!(
                "{name} differs at byte {at}:\n  expected {expected}\n  the library left {}",
                hex(lent)
            ));
        }
        self.check_guards(name)
    }

    /// Compares a run that the library only reads with the bytes that were put there.
    pub fn check_read(&self, name: &str, bytes: &[u8]) -> Result<(), String> {
        if self.lent() != bytes {
            return Err(format!("{name} was only to be read, and has changed"));
        }
        self.check_guards(name)
    }

    fn check_guards(&self, name: &str) -> Result<(), String> {
        let behind = self.bytes.len() - self.guard;
        let touched = self.unlike_pattern(0, &self.bytes[..self.guard]);
        match touched.or_else(|| self.unlike_pattern(behind, &self.bytes[behind..])) {
            Some(_) => Err(format!("a byte beside {name} was written")),
            None => Ok(()),
        }
    }

    /// The first byte of a part that is not the pattern's, where the part starts at this place.
    fn unlike_pattern(&self, from: usize, part: &[u8]) -> Option<usize> {
        let pattern = pattern(self.salt);
        let (mut at, mut rest) = (0, part);
        while !rest.is_empty() {
            let in_pattern = (from + at) % PERIOD;
            let (front, behind) = rest.split_at(rest.len().min(PERIOD - in_pattern));
            let expected = &pattern[in_pattern..in_pattern + front.len()];
            if front != expected {
                return Some(at + front.iter().zip(expected).position(|(b, e)| b != e).unwrap_or(0));
            }
            (at, rest) = (at + front.len(), behind);
        }
        None
    }
}

fn pattern(salt: u8) -> [u8; PERIOD] {
    let mut block = [0; PERIOD];
    for (place, byte) in block.iter_mut().enumerate() {
        *byte = (place as u8).wrapping_mul(7).wrapping_add(salt) | 1;
    }
    block
}

fn unlike(lent: &[u8], bytes: &[u8]) -> Option<usize> {
    if lent.len() < bytes.len() {
        return Some(lent.len());
    }
    (lent[..bytes.len()] != *bytes).then(|| lent.iter().zip(bytes).position(|(l, b)| l != b).unwrap_or(0))
}

fn nonzero(lent: &[u8], from: usize) -> Option<usize> {
    const ZEROS: [u8; 4096] = [0; 4096];
    let dirty = lent[from..].chunks(4096).any(|chunk| *chunk != ZEROS[..chunk.len()]);
    dirty.then(|| from + lent[from..].iter().position(|&b| b != 0).unwrap_or(0))
}
