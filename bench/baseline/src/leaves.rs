//! Lent leaves in stock Rust: counts of a worker's own and one word per module, each on cache lines of its own or beside
//! its neighbours; and one shared atomic per module without counts.

use crate::pairs::{self, Padded, Plain, Table};
use std::ops::Deref;
use std::sync::atomic::{AtomicU64, Ordering::SeqCst};

struct OwnCounts<C> {
    words: Vec<C>,
    are_apart: bool,
}

impl<C: Deref<Target = AtomicU64> + Sync> Table for OwnCounts<C> {
    type Worker = Vec<u16>;

    fn worker(&self, _number: usize) -> Vec<u16> {
        pairs::counts(self.are_apart)
    }

    fn get(&self, worker: &mut Vec<u16>, slot: usize) -> bool {
        pairs::get(worker, &self.words[slot], slot)
    }

    fn put(&self, worker: &mut Vec<u16>, slot: usize) {
        pairs::put(worker, &self.words[slot], slot)
    }
}

/// One shared atomic per module, on a cache line of its own.
pub struct OneAtomic(pub Vec<Padded<AtomicU64>>);

impl Table for OneAtomic {
    type Worker = ();

    fn worker(&self, _number: usize) {}

    fn get(&self, _worker: &mut (), slot: usize) -> bool {
        pairs::enter(&self.0[slot])
    }

    fn put(&self, _worker: &mut (), slot: usize) {
        self.0[slot].fetch_sub(1, SeqCst);
    }
}

pub fn measure() {
    let name = "leaf_pairs";
    pairs::measure(name, "own_counts_padded", |_| OwnCounts::<Padded<_>> { words: pairs::words(), are_apart: true });
    pairs::measure(name, "own_counts", |_| OwnCounts::<Plain<_>> { words: pairs::words(), are_apart: false });
    pairs::measure(name, "one_atomic", |_| OneAtomic(pairs::words()));
}
