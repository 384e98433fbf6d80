//! The regions of a heap.

use crate::heap::{Heap, ObjectIndex};
use std::ops::Range;

/// The number of words of a region.
const REGION_WORDS: usize = 1 << 16;

/// The regions of a heap: its data words, cut at each multiple of 65536.
pub struct Regions<'a> {
    heap: &'a Heap<'a>,
    /// For each region, the number of objects in it and in the regions before it.
    ends: Vec<u32>,
}

impl<'a> Regions<'a> {
    /// Returns the regions of the heap.
    pub fn of(heap: &'a Heap<'a>) -> Self {
        let count = heap.data().len().div_ceil(REGION_WORDS);
        let mut ends = Vec::with_capacity(count);
        let mut object = 0;
        for region in 0..count {
            let end = (region + 1) * REGION_WORDS;
            while object < heap.len() && heap.first(object) < end {
                object += 1;
            }
            ends.push(object);
        }
        Regions { heap, ends }
    }

    /// Returns the number of regions.
    pub fn count(&self) -> usize {
        self.ends.len()
    }

    /// Returns the object's region: that of its chunk's first word.
    pub fn region(&self, object: ObjectIndex) -> usize {
        self.heap.first(object) / REGION_WORDS
    }

    /// Returns the objects of a region.
    pub fn objects(&self, region: usize) -> Range<ObjectIndex> {
        let start = if region == 0 {
            0
        } else {
            self.ends[region - 1]
        };
        start..self.ends[region]
    }
}
