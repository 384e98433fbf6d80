//! The object memory of an image, and its objects.

use crate::chunk::Chunk;
use crate::index::Index;
use crate::object::Object;
use crate::words::Words;

/// The index of an object, counted from 0 in address order.
pub type ObjectIndex = u32;

/// An object memory as it was saved: chunks of words, each an object or free.
pub struct Heap<'a> {
    /// The data words, as bytes of the file.
    data: Words<'a>,
    /// The address of the first data word.
    base: u32,
    index: Index,
}

impl<'a> Heap<'a> {
    /// Returns the object memory with these data words, whose objects lie where an index says.
    pub fn new(data: Words<'a>, base: u32, index: Index) -> Self {
        Heap { data, base, index }
    }

    /// Returns the data words, free chunks included.
    pub fn data(&self) -> Words<'a> {
        self.data
    }

    /// Returns the address of the first data word.
    pub fn base(&self) -> u32 {
        self.base
    }

    /// Returns the number of objects.
    pub fn len(&self) -> u32 {
        self.index.starts.len() as u32
    }

    /// Returns the index of the first word of the object's chunk.
    pub fn first(&self, object: ObjectIndex) -> usize {
        self.index.starts[object as usize].first()
    }

    /// Returns what the header words of the object state.
    pub fn chunk(&self, object: ObjectIndex) -> Chunk {
        Chunk::known(self.data, self.first(object))
    }

    /// Returns the address of the object's base header.
    pub fn address(&self, object: ObjectIndex) -> u32 {
        self.base + 4 * (self.first(object) + self.chunk(object).before) as u32
    }

    /// Returns the object: its header and words.
    pub fn object(&self, object: ObjectIndex) -> Object<'a> {
        let first = self.first(object);
        let header = Chunk::known(self.data, first);
        Object::new(header, self.data.part(first..first + header.length))
    }

    /// Returns the length of the object's chunk in words. The header is read only if the next
    /// object's chunk does not follow directly.
    pub fn chunk_length(&self, object: ObjectIndex) -> usize {
        let start = self.index.starts[object as usize];
        if start.is_followed() {
            self.first(object + 1) - start.first()
        } else {
            self.chunk(object).length
        }
    }

    /// Returns the object whose base header has this address, if there is one.
    pub fn find(&self, address: u32) -> Option<ObjectIndex> {
        let offset = address.checked_sub(self.base)?;
        if !offset.is_multiple_of(4) {
            return None;
        }
        self.index.headers.index(offset as usize / 4)
    }

    /// Returns the object that the word of a slot points to, if it is the address of one.
    pub fn target(&self, word: u32) -> Option<ObjectIndex> {
        if !word.is_multiple_of(4) {
            return None;
        }
        self.find(word)
    }
}
