//! One chunk of the object memory, read from its header words.

use crate::bits;
use crate::fault::Fault;
use crate::words::Words;

/// The kind of a chunk: an object with a header of three words, two words or one word (`Short`),
/// or a free chunk.
#[derive(Clone, Copy, PartialEq, Eq)]
pub enum Kind {
    Three,
    Two,
    Free,
    Short,
}

/// What the header words of a chunk state.
#[derive(Clone, Copy)]
pub struct Chunk {
    pub kind: Kind,
    /// The number of header words before the base header.
    pub before: usize,
    /// The number of words of the whole chunk, header words included.
    pub length: usize,
    /// The base header; for a free chunk, its only header word.
    pub base: u32,
}

impl Chunk {
    /// Returns the chunk that begins at word `p`, or the first reason why none does.
    pub fn at(words: Words<'_>, p: usize) -> Result<Self, Fault> {
        let room = words.len() - p;
        let before = Kind::of(words.at(p)).words_before();
        if room < before + 1 {
            return Err(Fault::Overrun { word: p });
        }
        let kind = words.at(p) % 4;
        if words
            .part(p..p + before + 1)
            .iter()
            .any(|word| word % 4 != kind)
        {
            return Err(Fault::HeaderMismatch { word: p });
        }
        let chunk = Chunk::known(words, p);
        if chunk.length == before {
            return Err(Fault::ZeroSize { word: p });
        }
        if room < chunk.length {
            return Err(Fault::Overrun { word: p });
        }
        Ok(chunk)
    }

    /// Returns the chunk that is known to begin at word `p`.
    pub fn known(words: Words<'_>, p: usize) -> Self {
        let first = words.at(p);
        let kind = Kind::of(first);
        let before = kind.words_before();
        let base = words.at(p + before);
        Chunk {
            kind,
            before,
            length: before + kind.stated_size(first, base),
            base,
        }
    }
}

impl Kind {
    /// Returns the kind of the chunk that begins with this word.
    pub fn of(word: u32) -> Self {
        match word % 4 {
            0 => Kind::Three,
            1 => Kind::Two,
            2 => Kind::Free,
            _ => Kind::Short,
        }
    }

    /// Returns the number of header words before the base header.
    fn words_before(self) -> usize {
        match self {
            Kind::Three => 2,
            Kind::Two => 1,
            Kind::Free | Kind::Short => 0,
        }
    }

    /// Returns the size in words that the first header word and the base header state.
    fn stated_size(self, first: u32, base: u32) -> usize {
        let size = match self {
            Kind::Three | Kind::Free => first / 4,
            Kind::Two | Kind::Short => bits::size(base),
        };
        size as usize
    }
}
