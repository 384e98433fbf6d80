//! 32-bit words that stay as bytes of a file.

use std::ops::Range;

/// The byte order of an image: that of the machine that saved it.
#[derive(Clone, Copy)]
pub enum Order {
    Little,
    Big,
}

impl Order {
    /// Returns the word that four bytes encode.
    pub fn word(self, bytes: [u8; 4]) -> u32 {
        match self {
            Order::Little => u32::from_le_bytes(bytes),
            Order::Big => u32::from_be_bytes(bytes),
        }
    }

    /// Returns the four bytes that encode a word.
    pub fn bytes(self, word: u32) -> [u8; 4] {
        match self {
            Order::Little => word.to_le_bytes(),
            Order::Big => word.to_be_bytes(),
        }
    }
}

/// Words that are read from the bytes of a file at each access.
#[derive(Clone, Copy)]
pub struct Words<'a> {
    order: Order,
    bytes: &'a [[u8; 4]],
}

impl<'a> Words<'a> {
    /// Returns the words that these bytes encode.
    pub fn new(order: Order, bytes: &'a [u8]) -> Self {
        let (bytes, _) = bytes.as_chunks();
        Words { order, bytes }
    }

    /// Returns the byte order.
    pub fn order(self) -> Order {
        self.order
    }

    /// Returns the number of words.
    pub fn len(self) -> usize {
        self.bytes.len()
    }

    /// Returns word `k`.
    pub fn at(self, k: usize) -> u32 {
        self.order.word(self.bytes[k])
    }

    /// Returns word `k`, if there is one.
    pub fn get(self, k: usize) -> Option<u32> {
        self.bytes.get(k).map(|bytes| self.order.word(*bytes))
    }

    /// Returns the words of this range.
    pub fn part(self, range: Range<usize>) -> Self {
        let bytes = &self.bytes[range];
        Words { bytes, ..self }
    }

    /// Returns the first `count` words, and the others.
    pub fn split_at(self, count: usize) -> (Self, Self) {
        let (front, back) = self.bytes.split_at(count);
        (
            Words {
                bytes: front,
                ..self
            },
            Words {
                bytes: back,
                ..self
            },
        )
    }

    /// Returns an iterator over the words.
    pub fn iter(self) -> impl Iterator<Item = u32> + 'a {
        let Words { order, bytes } = self;
        bytes.iter().map(move |bytes| order.word(*bytes))
    }
}
