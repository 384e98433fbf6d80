//! Why there is no output.

use std::fmt;

/// A word of an object that may point to another object.
#[derive(Clone, Copy)]
pub enum Slot {
    /// The class word.
    Class,
    /// The field with this index.
    Field(usize),
}

impl fmt::Display for Slot {
    fn fmt(&self, f: &mut fmt::Formatter<'_>) -> fmt::Result {
        match self {
            Slot::Class => write!(f, "class"),
            Slot::Field(index) => write!(f, "field {index}"),
        }
    }
}

/// Why there is no output. `word` is the index of a data word, `address` that of a base header.
#[derive(Clone, Copy)]
pub enum Fault {
    TooShort,
    BadVersion,
    BadHeaderSize,
    BadDataSize,
    BadBase,
    Truncated,
    ZeroSize { word: usize },
    HeaderMismatch { word: usize },
    Overrun { word: usize },
    BadSpecialObjects,
    NoClass { address: u32 },
    BadMethod { address: u32 },
    BadContext { address: u32 },
    BadPointer { address: u32, slot: Slot },
    ReadFailed,
    WriteFailed,
    BadWorkers,
}

impl fmt::Display for Fault {
    /// Prints the line that `sqzcompact` prints.
    fn fmt(&self, f: &mut fmt::Formatter<'_>) -> fmt::Result {
        match self {
            Fault::TooShort => write!(f, "fault 1: image is shorter than its header"),
            Fault::BadVersion => write!(f, "fault 2: version is not 6502"),
            Fault::BadHeaderSize => write!(f, "fault 3: header size is not 64"),
            Fault::BadDataSize => write!(f, "fault 4: data size is not a multiple of 4"),
            Fault::BadBase => write!(f, "fault 5: base address is not valid"),
            Fault::Truncated => write!(f, "fault 6: data are truncated"),
            Fault::ZeroSize { word } => write!(f, "fault 7: size 0 at word {word}"),
            Fault::HeaderMismatch { word } => {
                write!(f, "fault 8: header words disagree at word {word}")
            }
            Fault::Overrun { word } => {
                write!(f, "fault 9: chunk runs past the end at word {word}")
            }
            Fault::BadSpecialObjects => write!(f, "fault 10: special objects array not found"),
            Fault::NoClass { address } => {
                write!(f, "fault 11: no class for object {address:08x}")
            }
            Fault::BadMethod { address } => write!(f, "fault 12: bad method {address:08x}"),
            Fault::BadContext { address } => write!(f, "fault 13: bad context {address:08x}"),
            Fault::BadPointer { address, slot } => {
                write!(f, "fault 14: bad pointer in object {address:08x}, {slot}")
            }
            Fault::ReadFailed => write!(f, "fault 16: cannot read the image"),
            Fault::WriteFailed => write!(f, "fault 17: cannot write the output"),
            Fault::BadWorkers => write!(f, "fault 18: workers must be from 1 to 64"),
        }
    }
}
