//! The defect of the lowest marked object that has one.

use crate::bits;
use crate::chunk::Kind;
use crate::fault::{Fault, Slot};
use crate::heap::{Heap, ObjectIndex};
use crate::object::{Layout, Object};
use crate::threads::{do_each, pieces};

/// The number of objects of a range. The last range may have fewer.
const RANGE: u32 = 4096;

/// Returns the defect of the lowest marked object that has one. Threads look for it in ranges of
/// 4096 objects.
pub fn first_defect(heap: &Heap<'_>, marks: &[bool]) -> Option<Fault> {
    let ranges = heap.len().div_ceil(RANGE);
    let found = do_each(pieces(ranges), |mut piece| {
        piece.find_map(|range| defect_in_range(heap, marks, range))
    });
    found.into_iter().flatten().next()
}

/// Returns the defect of the lowest marked object of a range that has one.
fn defect_in_range(heap: &Heap<'_>, marks: &[bool], range: u32) -> Option<Fault> {
    let from = range * RANGE;
    let mut marked = (from..heap.len().min(from + RANGE)).filter(|object| marks[*object as usize]);
    marked.find_map(|object| defect(heap, object))
}

/// Returns the first defect of an object, if it has one.
fn defect(heap: &Heap<'_>, index: ObjectIndex) -> Option<Fault> {
    let object = heap.object(index);
    let address = heap.address(index);
    if lacks_class(&object) {
        return Some(Fault::NoClass { address });
    }
    if states_too_many(&object) {
        return Some(match object.layout() {
            Layout::Method => Fault::BadMethod { address },
            _ => Fault::BadContext { address },
        });
    }
    let slot = bad_slot(heap, &object)?;
    Some(Fault::BadPointer { address, slot })
}

/// Returns whether the header has neither a class word nor a compact class index.
fn lacks_class(object: &Object<'_>) -> bool {
    object.header.kind == Kind::Short && bits::compact_index(object.header.base) == 0
}

/// Returns whether a method or a context states no number of traced fields, or more than it has.
fn states_too_many(object: &Object<'_>) -> bool {
    let count = object.fields().len();
    object.stated_fields().is_none_or(|stated| stated > count)
}

/// Returns the first slot that holds neither a SmallInteger nor the address of an object.
fn bad_slot(heap: &Heap<'_>, object: &Object<'_>) -> Option<Slot> {
    let is_bad = |word: u32| word.is_multiple_of(2) && heap.target(word).is_none();
    if object.class_address().is_some_and(is_bad) {
        return Some(Slot::Class);
    }
    let mut traced = object.fields().iter().take(object.traced_fields());
    traced.position(is_bad).map(Slot::Field)
}
