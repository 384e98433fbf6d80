//! The fields of base headers.

/// Returns the field of `width` bits of a word, of which `lowest` is the number of the lowest bit.
pub fn field(word: u32, lowest: u32, width: u32) -> u32 {
    (word >> lowest) % (1 << width)
}

/// Returns the size that a base header states, in words from the base header on.
pub fn size(base: u32) -> u32 {
    field(base, 2, 6)
}

/// Returns the format that a base header states, 0 to 15.
pub fn format(base: u32) -> u32 {
    field(base, 8, 4)
}

/// Returns the compact class index that a base header states.
pub fn compact_index(base: u32) -> u32 {
    field(base, 12, 5)
}
