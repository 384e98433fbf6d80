//! Where the objects lie among the data words.

use crate::chunk::{Chunk, Kind};
use crate::fault::Fault;
use crate::ranks::Ranks;
use crate::words::Words;

/// Word indexes are below this.
const WORDS: u32 = 1 << 30;

/// Where an object's chunk begins: the index of its first word, plus 2^30 if no object's chunk
/// follows directly.
#[derive(Clone, Copy)]
pub struct Start(u32);

impl Start {
    /// Returns the start of a chunk that begins at word `first`.
    fn new(first: usize, is_followed: bool) -> Self {
        let first = first as u32;
        Start(if is_followed { first } else { first + WORDS })
    }

    /// Returns the index of the chunk's first word.
    pub fn first(self) -> usize {
        (self.0 % WORDS) as usize
    }

    /// Returns whether the next object's chunk follows directly.
    pub fn is_followed(self) -> bool {
        self.0 < WORDS
    }
}

/// Where each object lies.
pub struct Index {
    /// Where each object's chunk begins.
    pub starts: Vec<Start>,
    /// The word indexes of the base headers.
    pub headers: Ranks,
}

impl Index {
    /// Returns where the objects of these words lie, or the fault of the first chunk that cannot
    /// be read.
    pub fn of(words: Words<'_>) -> Result<Self, Fault> {
        let mut starts = Vec::new();
        let mut headers = Ranks::default();
        let mut p = 0;
        while p < words.len() {
            let chunk = Chunk::at(words, p)?;
            let end = p + chunk.length;
            if chunk.kind != Kind::Free {
                headers.add(starts.len() as u32, p + chunk.before);
                starts.push(Start::new(p, begins_object(words, end)));
            }
            p = end;
        }
        Ok(Index { starts, headers })
    }
}

/// Returns whether the chunk at word `p`, if there is one, is an object.
fn begins_object(words: Words<'_>, p: usize) -> bool {
    words
        .get(p)
        .is_some_and(|word| Kind::of(word) != Kind::Free)
}
