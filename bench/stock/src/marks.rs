//! The mark table that workers share, and the marks that are left of it.

use crate::heap::{Heap, ObjectIndex};
use crate::regions::Regions;
use std::sync::atomic::{AtomicU64, Ordering::SeqCst};

/// The shades that the word of an object holds: it was not found yet, its targets are still to be
/// marked, or they are marked.
const WHITE: u64 = 0;
const GREY: u64 = 1;
const BLACK: u64 = 2;

/// One word per object with its shade, and one word per region with the number of words of the
/// marked objects that were counted there. Each change is one atomic step.
pub struct MarkTable<'a> {
    pub heap: &'a Heap<'a>,
    regions: &'a Regions<'a>,
    words: Vec<AtomicU64>,
}

impl<'a> MarkTable<'a> {
    /// Returns the table at the beginning of marking: the special objects array is grey and
    /// counted, every other object is white.
    pub fn new(heap: &'a Heap<'a>, regions: &'a Regions<'a>, special: ObjectIndex) -> Self {
        let count = heap.len() as usize + regions.count();
        let words = (0..count).map(|_| AtomicU64::new(WHITE)).collect();
        let table = MarkTable {
            heap,
            regions,
            words,
        };
        table.claim(special);
        table.count(special);
        table
    }

    /// Returns whether the object is grey.
    pub fn is_grey(&self, object: ObjectIndex) -> bool {
        self.words[object as usize].load(SeqCst) == GREY
    }

    /// Makes an object grey if it is white. Returns whether it was.
    pub fn claim(&self, object: ObjectIndex) -> bool {
        self.words[object as usize].fetch_max(GREY, SeqCst) == WHITE
    }

    /// Adds the length of an object's chunk to the sum of its region.
    pub fn count(&self, object: ObjectIndex) {
        let region = self.regions.region(object);
        let words = self.heap.chunk_length(object) as u64;
        self.words[self.heap.len() as usize + region].fetch_add(words, SeqCst);
    }

    /// Makes an object black.
    pub fn blacken(&self, object: ObjectIndex) {
        self.words[object as usize].fetch_max(BLACK, SeqCst);
    }

    /// Ends the marking: returns the marks, and the live words of each region.
    pub fn close(self) -> Marked {
        let (shades, sums) = self.words.split_at(self.heap.len() as usize);
        Marked {
            marks: shades
                .iter()
                .map(|word| word.load(SeqCst) != WHITE)
                .collect(),
            live_words: sums.iter().map(|word| word.load(SeqCst) as u32).collect(),
        }
    }
}

/// The result of marking.
pub struct Marked {
    /// For each object, whether it is reachable.
    pub marks: Vec<bool>,
    /// For each region, the total length of its marked objects' chunks in words.
    pub live_words: Vec<u32>,
}
