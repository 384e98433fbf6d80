//! The new address of each live object.

use crate::heap::{Heap, ObjectIndex};
use crate::marks::Marked;
use crate::regions::Regions;
use crate::threads::{do_each, pieces};
use std::ops::Range;

/// The entry of an object that is not marked. It is not an address, since addresses are even.
const DEAD: u32 = u32::MAX;

/// The number of objects of a range, before its ends are moved to the first objects of their
/// regions.
const RANGE: u32 = 4096;

/// The new address of each marked object.
pub struct Forward {
    /// The new address of each object's base header, or `DEAD`.
    places: Vec<u32>,
}

impl Forward {
    /// Returns the new addresses of the marked objects. Threads build them in ranges of about 4096
    /// objects that end at region ends.
    pub fn build(heap: &Heap<'_>, regions: &Regions<'_>, marked: &Marked) -> Self {
        let builder = Builder {
            heap,
            regions,
            marks: &marked.marks,
            bases: bases(heap.base(), &marked.live_words),
        };
        let ranges = heap.len().div_ceil(RANGE);
        let parts = do_each(pieces(ranges), |piece| {
            Vec::from_iter(piece.map(|range| builder.places_of_range(range)))
        });
        let mut places = Vec::with_capacity(heap.len() as usize);
        for part in parts.iter().flatten() {
            places.extend_from_slice(part);
        }
        Forward { places }
    }

    /// Returns the new address of an object's base header. None for a dead object.
    pub fn place(&self, object: ObjectIndex) -> Option<u32> {
        let place = self.places[object as usize];
        (place != DEAD).then_some(place)
    }
}

/// Returns for each region the address at which its live words begin. It may be 2^32.
fn bases(base: u32, live_words: &[u32]) -> Vec<u64> {
    let mut address = u64::from(base);
    let begin_of = |words: &u32| {
        let begin = address;
        address += 4 * u64::from(*words);
        begin
    };
    live_words.iter().map(begin_of).collect()
}

/// What the threads share as they build the new addresses.
struct Builder<'a> {
    heap: &'a Heap<'a>,
    regions: &'a Regions<'a>,
    marks: &'a [bool],
    bases: Vec<u64>,
}

impl Builder<'_> {
    /// Returns the entries of the objects of a range.
    fn places_of_range(&self, range: u32) -> Vec<u32> {
        let region = self.regions.region(range * RANGE);
        let from = self.regions.objects(region).start;
        let to = self.first_of_range(range + 1);
        self.places_between(from..to, self.bases[region])
    }

    /// Returns the first object of a range: the first one of the region of object `range * RANGE`.
    /// After the last range it is the number of objects.
    fn first_of_range(&self, range: u32) -> ObjectIndex {
        let object = range * RANGE;
        if object < self.heap.len() {
            self.regions.objects(self.regions.region(object)).start
        } else {
            self.heap.len()
        }
    }

    /// Returns the entries of these objects; the first live one goes to `address`.
    fn places_between(&self, objects: Range<ObjectIndex>, address: u64) -> Vec<u32> {
        let mut next = address;
        let place_of = |object: ObjectIndex| {
            if !self.marks[object as usize] {
                return DEAD;
            }
            let chunk = self.heap.chunk(object);
            let place = next + 4 * chunk.before as u64;
            next += 4 * chunk.length as u64;
            place as u32
        };
        objects.map(place_of).collect()
    }
}
