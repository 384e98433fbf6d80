//! One object, and its slots.

use crate::bits;
use crate::chunk::{Chunk, Kind};
use crate::words::Words;

/// The field of a context that holds its stack pointer, and the number of fields before its stack.
const STACK_POINTER: usize = 2;
const FIXED_FIELDS: u32 = 6;

/// The layout of an object's fields.
#[derive(Clone, Copy, PartialEq, Eq)]
pub enum Layout {
    /// Slots only: formats 0 to 4, except contexts.
    Fields,
    /// The slots of a context, up to the top of its stack: format 3 with compact class index 13 or
    /// 14.
    Context,
    /// Words or bytes that are not slots: formats 5 to 11.
    Data,
    /// A compiled method: its header word, its literals, and then bytes: formats 12 to 15.
    Method,
}

/// An object: what its header words state, and all its words.
#[derive(Clone, Copy)]
pub struct Object<'a> {
    pub header: Chunk,
    pub words: Words<'a>,
}

impl<'a> Object<'a> {
    /// Returns an object with this header and these words, header words included.
    pub fn new(header: Chunk, words: Words<'a>) -> Self {
        Object { header, words }
    }

    /// Returns the layout of the fields.
    pub fn layout(&self) -> Layout {
        let base = self.header.base;
        match (bits::format(base), bits::compact_index(base)) {
            (3, 13 | 14) => Layout::Context,
            (0..=4, _) => Layout::Fields,
            (5..=11, _) => Layout::Data,
            _ => Layout::Method,
        }
    }

    /// Returns the words after the base header.
    pub fn fields(&self) -> Words<'a> {
        let (_, fields) = self.words.split_at(self.header.before + 1);
        fields
    }

    /// Returns the address in the class word, if the header has one.
    pub fn class_address(&self) -> Option<u32> {
        let word = match self.header.kind {
            Kind::Three => self.words.at(1),
            Kind::Two => self.words.at(0),
            Kind::Free | Kind::Short => return None,
        };
        Some(word - word % 4)
    }

    /// Returns the number of traced fields that the object states, which may be more than it has.
    /// None for a context without a stack pointer or with a negative one, and for a method without
    /// a header.
    pub fn stated_fields(&self) -> Option<usize> {
        let fields = self.fields();
        match self.layout() {
            Layout::Fields => Some(fields.len()),
            Layout::Context => context_fields(fields),
            Layout::Data => Some(0),
            Layout::Method => method_fields(fields),
        }
    }

    /// Returns the number of traced fields, from field 0 on; 0 if the object states no number.
    pub fn traced_fields(&self) -> usize {
        let stated = self.stated_fields();
        stated.map_or(0, |stated| stated.min(self.fields().len()))
    }

    /// Returns the words of the slots: the address in the class word, and then the traced fields.
    pub fn slots(&self) -> impl Iterator<Item = u32> + 'a {
        let (traced, _) = self.fields().split_at(self.traced_fields());
        self.class_address().into_iter().chain(traced.iter())
    }
}

/// Returns the number of traced fields that a context with these fields states: those up to the
/// top of its stack. None if it has no stack pointer, or a negative one.
fn context_fields(fields: Words<'_>) -> Option<usize> {
    let word = fields.get(STACK_POINTER)?;
    let pointer = if word % 2 == 1 {
        word.cast_signed() >> 1
    } else {
        0
    };
    let size = u32::try_from(pointer).ok()?;
    Some((FIXED_FIELDS + size) as usize)
}

/// Returns the number of traced fields that a method with these fields states: its header and its
/// literals. None if it has no header, or if the header is not a SmallInteger.
fn method_fields(fields: Words<'_>) -> Option<usize> {
    let header = fields.get(0)?;
    if header % 2 != 1 {
        return None;
    }
    Some(1 + bits::field(header, 10, 8) as usize)
}
