//! Workers that move the live objects of their regions.

use crate::chunk::Kind;
use crate::forward::Forward;
use crate::heap::{Heap, ObjectIndex};
use crate::object::Object;
use crate::regions::Regions;
use crate::threads::do_each;
use std::ops::Range;

/// Moves the live objects of each region to their new addresses, and returns the words of each
/// region. With `R` regions and `n` workers, worker `w` has the regions from `w * R / n` up to
/// `(w + 1) * R / n`.
pub fn slide(
    heap: &Heap<'_>,
    regions: &Regions<'_>,
    forward: &Forward,
    workers: usize,
) -> Vec<Vec<u32>> {
    let mover = Mover { heap, forward };
    let first_region = |worker: usize| worker * regions.count() / workers;
    let shares = do_each(0..workers, |worker| {
        let own = first_region(worker)..first_region(worker + 1);
        Vec::from_iter(own.map(|region| mover.piece_of(regions.objects(region))))
    });
    shares.into_iter().flatten().collect()
}

/// What the move needs: the heap, and the new address of each live object.
struct Mover<'a> {
    heap: &'a Heap<'a>,
    forward: &'a Forward,
}

impl Mover<'_> {
    /// Returns the words of the live objects among these after the move, in order. Room for all of
    /// them is allocated at once.
    fn piece_of(&self, objects: Range<ObjectIndex>) -> Vec<u32> {
        let mut words = Vec::with_capacity(self.piece_size(objects.clone()));
        for index in objects {
            if self.forward.place(index).is_some() {
                self.push_moved(&self.heap.object(index), &mut words);
            }
        }
        words
    }

    /// Returns the total number of words of the live objects among these: from where the first of
    /// them begins to where the last ends in the compacted memory.
    fn piece_size(&self, mut objects: Range<ObjectIndex>) -> usize {
        let is_live = |object: &ObjectIndex| self.forward.place(*object).is_some();
        let Some(first) = objects.find(is_live) else {
            return 0;
        };
        let last = objects.rfind(is_live).unwrap_or(first);
        let end = self.begin_of(last) + 4 * self.heap.chunk_length(last);
        (end - self.begin_of(first)) / 4
    }

    /// Returns the address of the first word of a live object's chunk in the compacted memory.
    fn begin_of(&self, object: ObjectIndex) -> usize {
        let place = self.forward.place(object).unwrap_or(0);
        place as usize - 4 * self.heap.chunk(object).before
    }

    /// Appends the words of an object after the move.
    fn push_moved(&self, object: &Object<'_>, words: &mut Vec<u32>) {
        self.push_header(object, words);
        let (traced, others) = object.fields().split_at(object.traced_fields());
        words.extend(traced.iter().map(|word| self.moved_field(word)));
        words.extend(others.iter());
    }

    /// Appends the header words of an object after the move.
    fn push_header(&self, object: &Object<'_>, words: &mut Vec<u32>) {
        let header = object.words;
        match object.header.kind {
            Kind::Three => {
                let class = self.moved_class(header.at(1));
                words.extend_from_slice(&[header.at(0), class, header.at(2)]);
            }
            Kind::Two => {
                let class = self.moved_class(header.at(0));
                words.extend_from_slice(&[class, header.at(1)]);
            }
            Kind::Free | Kind::Short => words.push(header.at(0)),
        }
    }

    /// Returns the word of a slot after the move: the new address of the object that it points to,
    /// or the word unchanged if it points to no object.
    fn moved_field(&self, word: u32) -> u32 {
        let target = self.heap.target(word);
        let place = target.and_then(|target| self.forward.place(target));
        place.unwrap_or(word)
    }

    /// Returns a class word after the move: its low two bits stay.
    fn moved_class(&self, word: u32) -> u32 {
        let header_type = word % 4;
        self.moved_field(word - header_type) + header_type
    }
}
