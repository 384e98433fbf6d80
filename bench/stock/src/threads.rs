//! Work that is split among threads.

use std::ops::Range;
use std::thread;

/// The most processors that `pieces` counts.
const MOST_PROCESSORS: usize = 32;

/// Does each job in a thread of its own, the last one in this thread, and returns the results in
/// the order of the jobs.
pub fn do_each<J: Send, T: Send>(
    jobs: impl IntoIterator<Item = J>,
    work: impl Fn(J) -> T + Sync,
) -> Vec<T> {
    let work = &work;
    let mut jobs = Vec::from_iter(jobs);
    let last = jobs.pop();
    thread::scope(|scope| {
        let threads = Vec::from_iter(jobs.into_iter().map(|job| scope.spawn(move || work(job))));
        let last = last.map(work);
        let results = threads.into_iter().map(|thread| thread.join());
        let results = results.map(|result| result.expect("a thread panicked"));
        results.chain(last).collect()
    })
}

/// Returns the numbers below `count` in ranges: two for each processor, or fewer if there are not
/// as many numbers.
pub fn pieces(count: u32) -> Vec<Range<u32>> {
    let processors = thread::available_parallelism().map_or(1, |number| number.get());
    let most = 2 * processors.min(MOST_PROCESSORS) as u32;
    let number = u64::from(most.min(count));
    let bound = |piece: u64| (piece * u64::from(count) / number) as u32;
    (0..number)
        .map(|piece| bound(piece)..bound(piece + 1))
        .collect()
}
