//! The scan of grey objects.

use crate::heap::ObjectIndex;
use crate::marks::MarkTable;

/// Scans an object if it is grey: claims what its slots point to, counts the objects that were won
/// and passes them on, and makes the object black. Returns whether it was grey.
pub fn scan_if_grey(
    table: &MarkTable<'_>,
    object: ObjectIndex,
    mut put: impl FnMut(ObjectIndex),
) -> bool {
    if !table.is_grey(object) {
        return false;
    }
    let slots = table.heap.object(object).slots();
    for target in slots.filter_map(|word| table.heap.target(word)) {
        if table.claim(target) {
            table.count(target);
            put(target);
        }
    }
    table.blacken(object);
    true
}

/// Scans what is grey, and all that becomes grey meanwhile, until no object is grey. The sweep over
/// all objects is repeated until it finds no grey one.
pub fn scan_remaining(table: &MarkTable<'_>) {
    let mut worklist = Vec::with_capacity(table.heap.len() as usize);
    while sweep(table, &mut worklist) {}
}

/// Goes over all objects once; scans each grey one, and then what waits in the worklist. Returns
/// whether there was a grey one.
fn sweep(table: &MarkTable<'_>, worklist: &mut Vec<ObjectIndex>) -> bool {
    let mut found = false;
    for object in 0..table.heap.len() {
        let mut next = Some(object);
        while let Some(object) = next {
            found |= scan_if_grey(table, object, |target| worklist.push(target));
            next = worklist.pop();
        }
    }
    found
}
