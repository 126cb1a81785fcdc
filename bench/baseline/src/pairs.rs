//! Pairs of a get and a put by workers in threads of their own: what `leaves` and `manager` have in common. A figure is
//! `NAME/MODULES/WORKERS@KIND`; its turns are those of the crate `bench`, and so is how their threads start.

use std::ops::Deref;
use std::sync::atomic::{AtomicU64, Ordering::SeqCst};
use std::thread;
use std::time::{Duration, Instant};

pub const COUNT: usize = 8;

const CLOSED: u64 = 1 << 32;

const ROUNDS: u64 = 10_000;

const TURNS: usize = 64;

const TURN: Duration = Duration::from_millis(5);

const LONGEST: Duration = Duration::from_secs(1);

/// A value on cache lines of its own.
#[repr(align(128))]
pub struct Padded<T>(pub T);

/// A value beside its neighbours.
pub struct Plain<T>(pub T);

impl<T> Deref for Padded<T> {
    type Target = T;
    fn deref(&self) -> &T {
        &self.0
    }
}

impl<T> Deref for Plain<T> {
    type Target = T;
    fn deref(&self) -> &T {
        &self.0
    }
}

impl<T> From<T> for Padded<T> {
    fn from(value: T) -> Self {
        Padded(value)
    }
}

impl<T> From<T> for Plain<T> {
    fn from(value: T) -> Self {
        Plain(value)
    }
}

/// One word for each module: how many workers hold it, or that it is closed.
pub fn words<C: From<AtomicU64>>() -> Vec<C> {
    (0..COUNT).map(|_| AtomicU64::new(0).into()).collect()
}

/// One more, unless the word is closed.
pub fn enter(word: &AtomicU64) -> bool {
    let mut found = word.load(SeqCst);
    while found < CLOSED {
        match word.compare_exchange(found, found + 1, SeqCst, SeqCst) {
            Ok(_) => return true,
            Err(other) => found = other,
        }
    }
    false
}

/// A get of a worker that counts its own references.
pub fn get(counts: &mut [u16], word: &AtomicU64, slot: usize) -> bool {
    if counts[slot] == 0 {
        if !enter(word) {
            return false;
        }
    } else if word.load(SeqCst) >= CLOSED || counts[slot] == u16::MAX {
        return false;
    }
    counts[slot] += 1;
    true
}

/// A put of a worker that counts its own references.
pub fn put(counts: &mut [u16], word: &AtomicU64, slot: usize) {
    if counts[slot] == 1 {
        word.fetch_sub(1, SeqCst);
    } else {
        word.load(SeqCst);
    }
    counts[slot] -= 1;
}

/// Counts of a worker, with free cache lines behind them if they are to be apart.
pub fn counts(is_apart: bool) -> Vec<u16> {
    let mut counts = Vec::with_capacity(COUNT + if is_apart { 64 } else { 0 });
    counts.resize(COUNT, 0);
    counts
}

/// What is measured: workers that take references to modules and give them back.
pub trait Table: Sync {
    type Worker: Send;

    fn worker(&self, number: usize) -> Self::Worker;
    fn get(&self, worker: &mut Self::Worker, slot: usize) -> bool;
    fn put(&self, worker: &mut Self::Worker, slot: usize);
}

#[derive(Clone, Copy)]
enum Modules {
    One,
    Eight,
    Own,
}

impl Modules {
    fn name(self) -> &'static str {
        match self {
            Modules::One => "one_module",
            Modules::Eight => "eight_modules",
            Modules::Own => "own_module",
        }
    }

    fn slots(self, worker: usize) -> std::ops::Range<usize> {
        match self {
            Modules::One => 0..1,
            Modules::Eight => 0..COUNT,
            Modules::Own => worker % COUNT..worker % COUNT + 1,
        }
    }
}

// In a function of its own, as in the crate `bench`.
#[inline(never)]
fn make_pairs<T: Table>(table: &T, worker: &mut T::Worker, slots: std::ops::Range<usize>, rounds: u64) {
    for _ in 0..rounds {
        for slot in slots.clone() {
            if std::hint::black_box(table.get(worker, slot)) {
                table.put(worker, slot);
            }
        }
    }
}

/// Halves the workers until each is alone: the one half goes to a new thread, the other stays in this one.
fn in_threads<W: Send, F: Fn(usize, &mut W) + Sync>(workers: &mut [W], first: usize, call: &F) {
    if let [worker] = workers {
        return call(first, worker);
    }
    let (front, back) = workers.split_at_mut(workers.len() / 2);
    let middle = first + front.len();
    thread::scope(|scope| {
        scope.spawn(move || in_threads(front, first, call));
        in_threads(back, middle, call);
    });
}

fn time_rounds<T: Table>(table: &T, workers: &mut [T::Worker], modules: Modules, rounds: u64) -> Duration {
    let start = Instant::now();
    in_threads(workers, 0, &|number, worker: &mut T::Worker| {
        make_pairs(table, worker, modules.slots(number), rounds)
    });
    start.elapsed()
}

/// Lets the crate `bench` take its turns, and waits until this program has its own: `bench/run` passes that on. Where the
/// input is at its end, this one goes on.
fn give_turn() {
    println!("turn");
    std::io::stdin().read_line(&mut String::new()).expect("an input");
}

fn time_pairs<T: Table>(name: &str, kind: &str, table: &T, workers: &mut [T::Worker], modules: Modules) {
    let mut rounds = ROUNDS;
    while time_rounds(table, workers, modules, rounds) < TURN {
        rounds *= 2;
    }
    let (mut turns, mut time) = (0, Duration::ZERO);
    while turns < TURNS && time < LONGEST {
        give_turn();
        time += time_rounds(table, workers, modules, rounds);
        time += time_rounds(table, workers, modules, rounds);
        turns += 2;
    }
    let pairs = rounds as usize * turns * modules.slots(0).len() * workers.len();
    let rate = pairs as f64 / time.as_secs_f64();
    let (modules, workers) = (modules.name(), workers.len());
    println!("{name}/{modules}/{workers}@{kind} {rate:.0} pairs/s");
}

fn measure_modules<T: Table>(name: &str, kind: &str, table: &T, workers: &mut [T::Worker], modules: Modules) {
    time_pairs(&format!("{name}_from_zero"), kind, table, workers, modules);
    for (number, worker) in workers.iter_mut().enumerate() {
        modules.slots(number).for_each(|slot| assert!(table.get(worker, slot)));
    }
    time_pairs(&format!("{name}_held"), kind, table, workers, modules);
    for (number, worker) in workers.iter_mut().enumerate() {
        modules.slots(number).for_each(|slot| table.put(worker, slot));
    }
}

/// Measures so many threads that call for the workers of a table, in turn.
fn measure_threads<T: Table>(name: &str, kind: &str, table: &T, workers: usize, threads: usize) {
    let mut workers: Vec<T::Worker> = (0..threads).map(|thread| table.worker(thread % workers)).collect();
    for modules in [Modules::One, Modules::Eight, Modules::Own] {
        measure_modules(name, kind, table, &mut workers, modules);
    }
}

/// Measures a table that `new` makes for a number of workers.
pub fn measure<T: Table>(name: &str, kind: &str, new: impl Fn(usize) -> T) {
    let processors = thread::available_parallelism().map_or(1, |count| count.get());
    for count in [1, 2, 4].into_iter().filter(|count| *count <= processors) {
        measure_threads(name, kind, &new(count), count, count);
    }
}

/// Measures sixteen threads that call for four workers.
pub fn measure_crowd<T: Table>(name: &str, kind: &str, new: impl Fn(usize) -> T) {
    measure_threads(name, kind, &new(4), 4, 16);
}
