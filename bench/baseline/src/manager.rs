//! A manager of the same shape in stock Rust: a Mutex for each worker's counts and one word per module, each on cache
//! lines of its own or beside its neighbours; one shared atomic per module; and a Mutex round a HashMap.

use crate::leaves::OneAtomic;
use crate::pairs::{self, Padded, Plain, Table};
use std::collections::HashMap;
use std::ops::Deref;
use std::sync::atomic::AtomicU64;
use std::sync::Mutex;

struct SameShape<W, L> {
    words: Vec<W>,
    leaves: Vec<L>,
}

impl<W: From<AtomicU64>, L: From<Mutex<Vec<u16>>>> SameShape<W, L> {
    fn new(workers: usize, are_apart: bool) -> Self {
        let leaves = (0..workers).map(|_| Mutex::new(pairs::counts(are_apart)).into()).collect();
        SameShape { words: pairs::words(), leaves }
    }
}

impl<W, L> Table for SameShape<W, L>
where
    W: Deref<Target = AtomicU64> + Sync,
    L: Deref<Target = Mutex<Vec<u16>>> + Sync,
{
    type Worker = usize;

    fn worker(&self, number: usize) -> usize {
        number
    }

    fn get(&self, worker: &mut usize, slot: usize) -> bool {
        pairs::get(&mut self.leaves[*worker].lock().unwrap(), &self.words[slot], slot)
    }

    fn put(&self, worker: &mut usize, slot: usize) {
        pairs::put(&mut self.leaves[*worker].lock().unwrap(), &self.words[slot], slot)
    }
}

struct OneMap(Mutex<HashMap<(usize, usize), u16>>);

impl Table for OneMap {
    type Worker = usize;

    fn worker(&self, number: usize) -> usize {
        number
    }

    fn get(&self, worker: &mut usize, slot: usize) -> bool {
        *self.0.lock().unwrap().entry((*worker, slot)).or_insert(0) += 1;
        true
    }

    fn put(&self, worker: &mut usize, slot: usize) {
        *self.0.lock().unwrap().entry((*worker, slot)).or_insert(1) -= 1;
    }
}

pub fn measure() {
    let name = "manager_pairs";
    pairs::measure(name, "same_shape_padded", |workers| SameShape::<Padded<_>, Padded<_>>::new(workers, true));
    pairs::measure(name, "same_shape", |workers| SameShape::<Plain<_>, Plain<_>>::new(workers, false));
    pairs::measure(name, "one_atomic", |_| OneAtomic(pairs::words()));
    pairs::measure(name, "mutex_hash_map", |_| OneMap(Mutex::new(HashMap::new())));
}

/// The padded one alone, beside managed calls; and with a crowd of threads, more than there are processors.
pub fn measure_padded() {
    let name = "managed_pairs";
    let new = |workers| SameShape::<Padded<_>, Padded<_>>::new(workers, true);
    pairs::measure(name, "same_shape_padded", new);
    pairs::measure_crowd(name, "same_shape_padded", new);
}
