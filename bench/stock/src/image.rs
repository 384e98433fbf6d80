//! An image: the bytes before its header, its header, and the object memory after it.

use crate::fault::Fault;
use crate::header::{Header, BASE_WORD, HEADER_SIZE, HEADER_WORDS, SPECIAL_WORD};
use crate::heap::{Heap, ObjectIndex};
use crate::index::Index;
use crate::words::Words;

/// An image as it was saved.
pub struct Image<'a> {
    /// The bytes before the header: none, or 512.
    pub prefix: &'a [u8],
    /// The header words.
    pub header: [u32; HEADER_WORDS],
    /// The objects.
    pub heap: Heap<'a>,
    /// The special objects array.
    pub special: ObjectIndex,
}

impl<'a> Image<'a> {
    /// Returns the image that the bytes of a file hold, or the first fault of the file.
    pub fn of(file: &'a [u8]) -> Result<Self, Fault> {
        let header = Header::of(file)?;
        let start = header.offset + HEADER_SIZE;
        let data = Words::new(header.order, &file[start..start + header.data_size()]);
        let heap = Heap::new(data, header.words[BASE_WORD], Index::of(data)?);
        let special = heap
            .find(header.words[SPECIAL_WORD])
            .ok_or(Fault::BadSpecialObjects)?;
        Ok(Image {
            prefix: &file[..header.offset],
            header: header.words,
            heap,
            special,
        })
    }
}
