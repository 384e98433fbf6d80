//! The header of an image file, and its offset in the file.

use crate::fault::Fault;
use crate::words::{Order, Words};

/// The first header word of a supported image.
const VERSION: u32 = 6502;

/// The size of the header in bytes, and in words.
pub const HEADER_SIZE: usize = 4 * HEADER_WORDS;
pub const HEADER_WORDS: usize = 16;

/// The number of bytes before the header, if the header does not begin the file.
const PREFIX_SIZE: usize = 512;

/// The indexes of header words: the size of the header and of the data in bytes, the address of
/// the first data word, and the address of the special objects array.
const HEADER_SIZE_WORD: usize = 1;
pub const DATA_SIZE_WORD: usize = 2;
pub const BASE_WORD: usize = 3;
pub const SPECIAL_WORD: usize = 4;

/// The header of an image file.
pub struct Header {
    /// The byte order of the file.
    pub order: Order,
    /// The offset of the header in the file in bytes: 0, or 512.
    pub offset: usize,
    /// The header words.
    pub words: [u32; HEADER_WORDS],
}

impl Header {
    /// Returns the header of a file, if it has one without a fault.
    pub fn of(file: &[u8]) -> Result<Self, Fault> {
        let offset = offset_in(file);
        let bytes = &file[offset..];
        if bytes.len() < HEADER_SIZE {
            return Err(Fault::TooShort);
        }
        let order = order_of(bytes).ok_or(Fault::BadVersion)?;
        let mut words = [0; HEADER_WORDS];
        for (word, stated) in words.iter_mut().zip(Words::new(order, bytes).iter()) {
            *word = stated;
        }
        check(&words, bytes.len())?;
        Ok(Header {
            order,
            offset,
            words,
        })
    }

    /// Returns the size of the data in bytes.
    pub fn data_size(&self) -> usize {
        self.words[DATA_SIZE_WORD] as usize
    }
}

/// Returns the byte order in which the first word is the version, if there is one.
fn order_of(bytes: &[u8]) -> Option<Order> {
    let first = *bytes.first_chunk()?;
    [Order::Little, Order::Big]
        .into_iter()
        .find(|order| order.word(first) == VERSION)
}

/// Returns the offset of the header: 512 if the version is there and not at 0; else 0.
fn offset_in(file: &[u8]) -> usize {
    let is_at = |offset: usize| file.get(offset..).and_then(order_of).is_some();
    if !is_at(0) && is_at(PREFIX_SIZE) {
        PREFIX_SIZE
    } else {
        0
    }
}

/// Checks the header words; `count` is the number of bytes from the header on.
fn check(words: &[u32; HEADER_WORDS], count: usize) -> Result<(), Fault> {
    let (size, base) = (words[DATA_SIZE_WORD], words[BASE_WORD]);
    if words[HEADER_SIZE_WORD] as usize != HEADER_SIZE {
        return Err(Fault::BadHeaderSize);
    }
    if !size.is_multiple_of(4) {
        return Err(Fault::BadDataSize);
    }
    if !base.is_multiple_of(4) || u64::from(base) + u64::from(size) > 1 << 32 {
        return Err(Fault::BadBase);
    }
    if count < HEADER_SIZE + size as usize {
        return Err(Fault::Truncated);
    }
    Ok(())
}
