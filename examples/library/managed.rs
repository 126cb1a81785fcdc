//! Managed calls from stock Rust: `rustc -O managed.rs -L PREFIX/lib -l static=gourzhiel`.
//! Threads of a pool take and give a module for any worker, while the main thread loads it and unloads it for real: only
//! once nobody holds it, and before the table says that it is absent. At last a teller carries the order of the last removal
//! to a get, which finds the module gone.

use std::ffi::{c_char, c_int, c_void, CStr};
use std::sync::atomic::{AtomicBool, Ordering::SeqCst};
use std::{ptr, thread};

const DONE: u32 = 0;
const NOT_LIVE: u32 = 1;
const NOT_HELD: u32 = 3;
const TIMED_OUT: u32 = 40;
const WORK_FAILED: u32 = 41;
const TEXT: &[u8] = b"module snd\n";
const SND: usize = 0;
const WORKERS: usize = 2;
const THREADS: usize = 4;
const ROUNDS: usize = 500;
const SHORT: c_int = 20; // milliseconds
const LONG: c_int = 5000;

/// The handle of a catalogue, empty or full.
#[repr(C)]
struct Catalogue {
    at: *mut u8,
}

/// The handle of a caller, empty or full. It is not Copy, so that it moves as a handle must.
#[repr(C)]
struct CallerHandle {
    at: *mut u8,
}

/// The handle of a teller, empty or full.
#[repr(C)]
struct TellerHandle {
    at: *mut u8,
}

/// What is done for a module between the two halves of its load or removal.
type Work = extern "C" fn(data: *mut c_void, slot: usize) -> bool;

extern "C" {
    fn gz_strerror(number: u32) -> *const c_char;
    fn gz_catalogue_read(text: *const u8, length: usize, catalogue: &mut Catalogue, line: &mut usize) -> u32;
    fn gz_catalogue_clear(catalogue: &mut Catalogue);
    fn gz_managed_tellers_new(
        catalogue: &mut Catalogue,
        tellers: *mut TellerHandle,
        workers: usize,
        caller: &mut CallerHandle,
    ) -> u32;
    fn gz_caller_meet_leaf_blocking(caller: &mut CallerHandle, worker: usize, teller: &mut TellerHandle) -> u32;
    fn gz_caller_meet_book_blocking(caller: &mut CallerHandle, teller: &mut TellerHandle) -> u32;
    fn gz_teller_clear(teller: &mut TellerHandle);
    fn gz_caller_new(caller: &mut CallerHandle, further: &mut CallerHandle) -> u32;
    fn gz_caller_get_blocking(caller: &mut CallerHandle, worker: usize, slot: usize) -> u32;
    fn gz_caller_put_blocking(caller: &mut CallerHandle, worker: usize, slot: usize) -> u32;
    fn gz_caller_get_all_blocking(
        caller: &mut CallerHandle,
        worker: usize,
        slots: *const usize,
        count: usize,
        at: &mut usize,
    ) -> u32;
    fn gz_caller_held_by_blocking(
        caller: &mut CallerHandle,
        worker: usize,
        place: usize,
        slot: &mut usize,
        count: &mut u32,
    ) -> u32;
    fn gz_caller_put_all_blocking(caller: &mut CallerHandle, worker: usize) -> u32;
    fn gz_caller_references(caller: &mut CallerHandle, slot: usize, sum: &mut u64) -> u32;
    fn gz_caller_load(caller: &mut CallerHandle, slot: usize, work: Work, data: *mut c_void) -> u32;
    fn gz_caller_load_with_needs_for(
        caller: &mut CallerHandle,
        catalogue: &mut Catalogue,
        slot: usize,
        work: Work,
        data: *mut c_void,
        at: &mut usize,
        milliseconds: c_int,
    ) -> u32;
    fn gz_caller_remove_with_needs(
        caller: &mut CallerHandle,
        catalogue: &mut Catalogue,
        slot: usize,
        work: Work,
        data: *mut c_void,
    ) -> u32;
    fn gz_caller_begin_drain_blocking(caller: &mut CallerHandle, slot: usize) -> u32;
    fn gz_caller_wait_unheld(caller: &mut CallerHandle, slot: usize, milliseconds: c_int) -> u32;
    fn gz_caller_wait_removed_for(caller: &mut CallerHandle, slot: usize, milliseconds: c_int) -> u32;
    fn gz_caller_end_remove_blocking(caller: &mut CallerHandle, slot: usize) -> u32;
    fn gz_caller_clear(caller: &mut CallerHandle);
}

/// Whether the plugin of the module is there.
static IS_THERE: AtomicBool = AtomicBool::new(false);

extern "C" fn load_plugin(_: *mut c_void, _: usize) -> bool {
    !IS_THERE.swap(true, SeqCst)
}

extern "C" fn keep_plugin(_: *mut c_void, _: usize) -> bool {
    false
}

/// Whether a call was done. What else it answered is said.
fn is_done(number: u32) -> bool {
    if number != DONE {
        println!("{}", unsafe { CStr::from_ptr(gz_strerror(number)) }.to_string_lossy());
    }
    number == DONE
}

/// A caller of a managed table. A thread has one of its own, and frees it by its drop.
struct Caller {
    handle: CallerHandle,
}

/// A teller of a managed table: it goes from thread to thread, and is told and tells.
struct Teller {
    handle: TellerHandle,
}

// The library proves that its handles may go to another thread.
unsafe impl Send for Caller {}
unsafe impl Send for Teller {}

impl Caller {
    /// A new table over a catalogue, its first caller, and a teller for each worker.
    fn over(catalogue: &mut Catalogue) -> (Caller, Vec<Teller>) {
        let mut handle = CallerHandle { at: ptr::null_mut() };
        let mut tellers: Vec<_> = (0..WORKERS).map(|_| TellerHandle { at: ptr::null_mut() }).collect();
        let made = unsafe { gz_managed_tellers_new(catalogue, tellers.as_mut_ptr(), WORKERS, &mut handle) };
        assert!(is_done(made));
        (Caller { handle }, tellers.into_iter().map(|handle| Teller { handle }).collect())
    }

    fn further(&mut self) -> Caller {
        let mut handle = CallerHandle { at: ptr::null_mut() };
        assert!(is_done(unsafe { gz_caller_new(&mut self.handle, &mut handle) }));
        Caller { handle }
    }

    fn get(&mut self, worker: usize) -> u32 {
        unsafe { gz_caller_get_blocking(&mut self.handle, worker, SND) }
    }

    fn put(&mut self, worker: usize) {
        assert!(is_done(unsafe { gz_caller_put_blocking(&mut self.handle, worker, SND) }));
    }

    /// Takes one reference to each of several slots, or to none.
    fn get_all(&mut self, worker: usize, slots: &[usize]) -> u32 {
        let mut at = 0;
        unsafe { gz_caller_get_all_blocking(&mut self.handle, worker, slots.as_ptr(), slots.len(), &mut at) }
    }

    /// Gives back all that the worker holds.
    fn put_all(&mut self, worker: usize) {
        assert!(is_done(unsafe { gz_caller_put_all_blocking(&mut self.handle, worker) }));
    }

    /// The first slot from a place on that the worker holds, and how often.
    fn held_by(&mut self, worker: usize, place: usize) -> Option<(usize, u32)> {
        let (mut slot, mut count) = (0, 0);
        match unsafe { gz_caller_held_by_blocking(&mut self.handle, worker, place, &mut slot, &mut count) } {
            NOT_HELD => None,
            number => is_done(number).then_some((slot, count)),
        }
    }

    fn references(&mut self) -> u64 {
        let mut sum = 0;
        assert!(is_done(unsafe { gz_caller_references(&mut self.handle, SND, &mut sum) }));
        sum
    }

    /// Tells of what was done at the book's lock.
    fn meet_book(&mut self, teller: &mut Teller) {
        assert!(is_done(unsafe { gz_caller_meet_book_blocking(&mut self.handle, &mut teller.handle) }));
    }

    /// Tells of what was done at a worker's lock, and hears of what the teller knows.
    fn meet_leaf(&mut self, worker: usize, teller: &mut Teller) {
        assert!(is_done(unsafe { gz_caller_meet_leaf_blocking(&mut self.handle, worker, &mut teller.handle) }));
    }

    fn load(&mut self) {
        assert!(is_done(unsafe { gz_caller_load(&mut self.handle, SND, load_plugin, ptr::null_mut()) }));
    }

    fn drain(&mut self) {
        assert!(is_done(unsafe { gz_caller_begin_drain_blocking(&mut self.handle, SND) }));
    }

    /// Waits until nobody holds the module, which drains on.
    fn wait_unheld(&mut self, milliseconds: c_int) -> u32 {
        unsafe { gz_caller_wait_unheld(&mut self.handle, SND, milliseconds) }
    }

    /// Unloads the plugin of a module that leaves and that nobody holds, and then ends the removal.
    fn unload_plugin(&mut self) {
        IS_THERE.store(false, SeqCst);
        assert!(is_done(unsafe { gz_caller_end_remove_blocking(&mut self.handle, SND) }));
    }
}

impl Drop for Caller {
    fn drop(&mut self) {
        unsafe { gz_caller_clear(&mut self.handle) };
    }
}

impl Drop for Teller {
    fn drop(&mut self) {
        unsafe { gz_teller_clear(&mut self.handle) };
    }
}

/// Takes and gives the module for each worker in turn until it is over, and counts the gets that succeeded.
fn work(mut caller: Caller, is_over: &AtomicBool) -> usize {
    let mut got = 0;
    for worker in (0..WORKERS).cycle() {
        if is_over.load(SeqCst) {
            break;
        }
        match caller.get(worker) {
            DONE => {
                got += 1;
                assert!(IS_THERE.load(SeqCst), "the plugin went while it was held");
                caller.put(worker);
            }
            NOT_LIVE => {}
            other => panic!("get answered {other}"),
        }
    }
    got
}

/// A wait for a worker that holds the module ends in time, and the module drains on. Nobody else loads, so that the plugin
/// may go after its module.
fn keep_limits(caller: &mut Caller) {
    caller.load();
    assert_eq!(caller.get(1), DONE);
    caller.drain();
    assert_eq!(caller.wait_unheld(SHORT), TIMED_OUT);
    caller.put(1);
    assert!(is_done(unsafe { gz_caller_wait_removed_for(&mut caller.handle, SND, LONG) }));
    IS_THERE.store(false, SeqCst);
}

/// What a holder that is gone had is looked through, and given back at once.
fn give_back(caller: &mut Caller) {
    caller.load();
    assert_eq!(caller.get_all(1, &[SND, SND]), DONE);
    assert_eq!((caller.held_by(1, SND), caller.held_by(1, SND + 1)), (Some((SND, 2)), None));
    caller.put_all(1);
    assert_eq!(caller.held_by(1, SND), None);
    caller.drain();
    caller.unload_plugin();
}

/// Loads the module with what it needs, and removes it. At first the plugin stays, and the module is live again.
fn load_and_remove(caller: &mut Caller, catalogue: &mut Catalogue) {
    let (mut at, none) = (0, ptr::null_mut());
    let handle = &mut caller.handle;
    let loaded = unsafe { gz_caller_load_with_needs_for(handle, catalogue, SND, load_plugin, none, &mut at, LONG) };
    assert!(is_done(loaded));
    let removed = unsafe { gz_caller_remove_with_needs(handle, catalogue, SND, keep_plugin, none) };
    assert_eq!(removed, WORK_FAILED);
    caller.drain();
    caller.unload_plugin();
}

fn main() {
    let (mut catalogue, mut line) = (Catalogue { at: ptr::null_mut() }, 0);
    assert!(is_done(unsafe { gz_catalogue_read(TEXT.as_ptr(), TEXT.len(), &mut catalogue, &mut line) }));
    let (mut loader, mut tellers) = Caller::over(&mut catalogue);
    let callers: Vec<Caller> = (0..THREADS).map(|_| loader.further()).collect();
    let is_over = AtomicBool::new(false);
    thread::scope(|scope| {
        let start = |caller| scope.spawn(|| work(caller, &is_over));
        let threads: Vec<_> = callers.into_iter().map(start).collect();
        for _ in 0..ROUNDS {
            loader.load();
            thread::yield_now();
            loader.drain();
            assert_eq!(loader.wait_unheld(LONG), DONE);
            loader.unload_plugin();
        }
        is_over.store(true, SeqCst);
        let got: usize = threads.into_iter().map(|thread| thread.join().unwrap()).sum();
        assert_eq!(loader.references(), 0);
        println!("{ROUNDS} loads and removals, {got} gets, and no reference is left");
    });
    keep_limits(&mut loader);
    give_back(&mut loader);
    load_and_remove(&mut loader, &mut catalogue);
    let mut user = loader.further();
    loader.meet_book(&mut tellers[0]);
    user.meet_leaf(0, &mut tellers[0]);
    assert_eq!(user.get(0), NOT_LIVE);
    unsafe { gz_catalogue_clear(&mut catalogue) };
}
