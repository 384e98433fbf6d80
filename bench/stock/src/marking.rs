//! Marking by workers that share the mark table and steal from each other's deques.

use crate::deque::{new_fifo, Stealer, Worker};
use crate::heap::ObjectIndex;
use crate::image::Image;
use crate::marks::{MarkTable, Marked};
use crate::regions::Regions;
use crate::scanning::{scan_if_grey, scan_remaining};
use crate::threads::do_each;

/// The most turns in a row that may find no object: after these a worker leaves.
const MOST_EMPTY_TURNS: u32 = 64;

/// The most turns of a worker: for each object, and more.
const TURNS_PER_OBJECT: u64 = 4;
const MORE_TURNS: u64 = 4096;

/// Marks the reachable objects of an image with this number of workers, each in a thread of its
/// own. This thread marks what they leave grey.
pub fn mark(image: &Image<'_>, regions: &Regions<'_>, workers: usize) -> Marked {
    let table = MarkTable::new(&image.heap, regions, image.special);
    let (mut deques, stealers): (Vec<Worker>, Vec<Stealer>) =
        (0..workers).map(|_| new_fifo()).unzip();
    deques[0].push(image.special);
    do_each(deques.into_iter().enumerate(), |(number, mut deque)| {
        run_worker(&table, &mut deque, &stealers, number);
    });
    scan_remaining(&table);
    table.close()
}

/// Takes the turns of a worker. In each it takes an object from its own deque, or else from
/// another's, and scans it. It leaves after 64 turns in a row that found no object, or after four
/// turns for each object and 4096 more.
fn run_worker(table: &MarkTable<'_>, deque: &mut Worker, stealers: &[Stealer], number: usize) {
    let mut empty = 0;
    for _ in 0..TURNS_PER_OBJECT * u64::from(table.heap.len()) + MORE_TURNS {
        if let Some(object) = deque.pop().or_else(|| steal(stealers, number)) {
            empty = 0;
            scan_if_grey(table, object, |target| deque.push(target));
        } else {
            empty += 1;
            if empty == MOST_EMPTY_TURNS {
                return;
            }
        }
    }
}

/// Returns an object from the first of the other workers' deques that gives one.
fn steal(stealers: &[Stealer], number: usize) -> Option<ObjectIndex> {
    let others = stealers
        .iter()
        .enumerate()
        .filter(|(other, _)| *other != number);
    others.map(|(_, stealer)| stealer).find_map(Stealer::steal)
}
