//! A lock-free work-stealing deque of objects, first in first out, as that of `crossbeam-deque`:
//! the owner pushes at the back, and the owner and the stealers take at the front.

use crate::heap::ObjectIndex;
use std::sync::atomic::{
    fence, AtomicU32, AtomicUsize,
    Ordering::{Acquire, Relaxed, Release, SeqCst},
};
use std::sync::{Arc, OnceLock};

/// The most rings. The newest of them has room for 2^30 objects.
const RINGS: usize = 31;

/// The slots of a ring. Their number is a power of two.
type Ring = Arc<[AtomicU32]>;

/// What the owner and the stealers share. It begins on a cache line of its own.
#[repr(align(128))]
struct Shared {
    /// The index of the first object in the deque. Indexes are never used again.
    front: AtomicUsize,
    /// The index after that of the last object.
    back: AtomicUsize,
    /// The number of the newest ring. Object `i` is in slot `i` of it, modulo its length.
    newest: AtomicUsize,
    /// Ring `n` has `2^n` slots. A ring stays when a newer one takes its place, since a stealer
    /// may read it.
    rings: [OnceLock<Ring>; RINGS],
}

/// The owner's side of a deque.
pub struct Worker {
    shared: Arc<Shared>,
    /// The owner's copies of `back`, `newest`, and the newest ring.
    back: usize,
    newest: usize,
    ring: Ring,
}

/// A stealer's side of a deque.
pub struct Stealer {
    shared: Arc<Shared>,
}

/// Returns both sides of an empty deque with one slot.
pub fn new_fifo() -> (Worker, Stealer) {
    let shared = Arc::new(Shared {
        front: AtomicUsize::new(0),
        back: AtomicUsize::new(0),
        newest: AtomicUsize::new(0),
        rings: [const { OnceLock::new() }; RINGS],
    });
    let worker = Worker {
        shared: Arc::clone(&shared),
        back: 0,
        newest: 0,
        ring: shared.make_ring(0),
    };
    (worker, Stealer { shared })
}

impl Shared {
    /// Makes ring `number`, with nothing in it.
    fn make_ring(&self, number: usize) -> Ring {
        let slots = (0..1 << number).map(|_| AtomicU32::new(0));
        Arc::clone(self.rings[number].get_or_init(|| slots.collect()))
    }
}

/// Returns the slot of an index.
fn slot(ring: &[AtomicU32], index: usize) -> &AtomicU32 {
    &ring[index & (ring.len() - 1)]
}

impl Worker {
    /// Adds an object at the back.
    pub fn push(&mut self, object: ObjectIndex) {
        let front = self.shared.front.load(Acquire);
        if self.back - front == self.ring.len() {
            self.grow(front);
        }
        slot(&self.ring, self.back).store(object, Relaxed);
        self.back += 1;
        self.shared.back.store(self.back, Release);
    }

    /// Takes the object at the front.
    pub fn pop(&mut self) -> Option<ObjectIndex> {
        if self.shared.front.load(Relaxed) == self.back {
            return None;
        }
        let front = self.shared.front.fetch_add(1, SeqCst);
        if front == self.back {
            // A stealer took the last object. The index goes back; no stealer acts on it, since
            // the deque is empty until the next push.
            self.shared.front.store(front, Relaxed);
            return None;
        }
        Some(slot(&self.ring, front).load(Relaxed))
    }

    /// Makes a ring of twice the size, with the objects from index `front` on.
    fn grow(&mut self, front: usize) {
        let ring = self.shared.make_ring(self.newest + 1);
        for index in front..self.back {
            let object = slot(&self.ring, index).load(Relaxed);
            slot(&ring, index).store(object, Relaxed);
        }
        self.ring = ring;
        self.newest += 1;
        self.shared.newest.store(self.newest, Release);
    }
}

impl Stealer {
    /// Takes the object at the front. None if there is none, or if another thread takes it first.
    pub fn steal(&self) -> Option<ObjectIndex> {
        let front = self.shared.front.load(Acquire);
        fence(SeqCst);
        if self.shared.back.load(Acquire) <= front {
            return None;
        }
        // What is read counts only if the front has not moved: then no push has reused the slot.
        let ring = self.shared.rings[self.shared.newest.load(Acquire)].get()?;
        let object = slot(ring, front).load(Relaxed);
        let next = front + 1;
        let claim = self
            .shared
            .front
            .compare_exchange(front, next, SeqCst, Relaxed);
        claim.is_ok().then_some(object)
    }
}

#[cfg(test)]
mod tests {
    use super::{new_fifo, Stealer, Worker};
    use std::sync::atomic::{AtomicBool, Ordering::SeqCst};
    use std::thread;

    const OBJECTS: u32 = 1_000_000;
    const STEALERS: usize = 3;

    #[test]
    fn takes_in_order() {
        let (mut worker, stealer) = new_fifo();
        (0..100).for_each(|object| worker.push(object));
        for object in (0..100).step_by(2) {
            assert_eq!(worker.pop(), Some(object));
            assert_eq!(stealer.steal(), Some(object + 1));
        }
        assert_eq!((worker.pop(), stealer.steal()), (None, None));
    }

    #[test]
    fn each_object_is_taken_once() {
        let (mut worker, stealer) = new_fifo();
        let is_done = AtomicBool::new(false);
        let taken = thread::scope(|scope| {
            let steal = || steal_all(&stealer, &is_done);
            let stealers = Vec::from_iter((0..STEALERS).map(|_| scope.spawn(steal)));
            let mut taken = push_and_pop(&mut worker);
            is_done.store(true, SeqCst);
            for it in stealers {
                taken.extend(it.join().unwrap());
            }
            taken
        });
        assert!(taken.len() == OBJECTS as usize);
        let mut taken = taken;
        taken.sort_unstable();
        assert!((0..OBJECTS).eq(taken));
    }

    /// Pushes all objects, and takes one after each third push, and those that are left.
    fn push_and_pop(worker: &mut Worker) -> Vec<u32> {
        let mut taken = Vec::new();
        for object in 0..OBJECTS {
            worker.push(object);
            if object % 3 == 0 {
                taken.extend(worker.pop());
            }
        }
        taken.extend(std::iter::from_fn(|| worker.pop()));
        taken
    }

    /// Steals until the owner has ended.
    fn steal_all(stealer: &Stealer, is_done: &AtomicBool) -> Vec<u32> {
        let mut taken = Vec::new();
        while !is_done.load(SeqCst) {
            taken.extend(stealer.steal());
        }
        taken
    }
}
