//! The table from stock Rust: `rustc -O table.rs -L PREFIX/lib -l static=gourzhiel`.
//! A thread a leaf takes and gives a module while the main thread loads and removes it.

use std::ptr;
use std::sync::Arc;
use std::sync::atomic::{AtomicBool, Ordering::SeqCst};
use std::thread;
use std::time::Duration;

const DONE: u32 = 0;
const NOT_LIVE: u32 = 1;
const IN_USE: u32 = 11;
const BUSY: u32 = 32;
const TEXT: &[u8] = b"module snd\n";
const WORKERS: usize = 2;
const ROUNDS: usize = 500;

/// A handle, empty or full. It is not Copy, so that it moves as a handle must.
macro_rules! handle {
    ($name:ident) => {
        #[repr(C)]
        struct $name {
            at: *mut u8,
        }

        impl $name {
            const EMPTY: $name = $name { at: ptr::null_mut() };
        }

        // The library proves that its handles may go to another thread.
        unsafe impl Send for $name {}
    };
}

handle!(Catalogue);
handle!(Book);
handle!(Leaf);
handle!(Reader);

extern "C" {
    fn gz_catalogue_read(text: *const u8, length: usize, catalogue: &mut Catalogue, line: &mut usize) -> u32;
    fn gz_catalogue_free(catalogue: Catalogue);
    fn gz_table_new(
        catalogue: &mut Catalogue,
        book: &mut Book,
        leaves: *mut Leaf,
        leaf_count: usize,
        readers: *mut Reader,
        reader_count: usize,
    ) -> u32;
    fn gz_leaf_get(leaf: &mut Leaf, slot: usize, tries: u32) -> u32;
    fn gz_leaf_put(leaf: &mut Leaf, slot: usize) -> u32;
    fn gz_leaf_free(leaf: Leaf);
    fn gz_reader_free(reader: Reader);
    fn gz_book_begin_load(book: &mut Book, slot: usize, need: &mut usize) -> u32;
    fn gz_book_end_load(book: &mut Book, slot: usize, ok: bool) -> u32;
    fn gz_book_begin_remove(book: &mut Book, slot: usize) -> u32;
    fn gz_book_end_remove(book: &mut Book, slot: usize) -> u32;
    fn gz_book_free(book: Book);
}

/// Takes and gives the module until it is over, and counts the gets that succeeded.
fn work(mut leaf: Leaf, is_over: &AtomicBool) -> usize {
    let mut got = 0;
    while !is_over.load(SeqCst) {
        match unsafe { gz_leaf_get(&mut leaf, 0, 64) } {
            DONE => {
                got += 1;
                assert_eq!(unsafe { gz_leaf_put(&mut leaf, 0) }, DONE);
            }
            NOT_LIVE | BUSY => {}
            other => panic!("get answered {other}"),
        }
    }
    unsafe { gz_leaf_free(leaf) };
    got
}

/// Loads the module, and removes it once nobody holds it. Counts how often somebody did.
fn load_and_remove(book: &mut Book) -> usize {
    let (mut need, mut in_use) = (0, 0);
    assert_eq!(unsafe { gz_book_begin_load(book, 0, &mut need) }, DONE);
    assert_eq!(unsafe { gz_book_end_load(book, 0, true) }, DONE);
    thread::sleep(Duration::from_micros(50));
    loop {
        match unsafe { gz_book_begin_remove(book, 0) } {
            DONE => break,
            IN_USE => in_use += 1,
            other => panic!("removal answered {other}"),
        }
    }
    assert_eq!(unsafe { gz_book_end_remove(book, 0) }, DONE);
    in_use
}

fn main() {
    let (mut catalogue, mut book, mut reader) = (Catalogue::EMPTY, Book::EMPTY, Reader::EMPTY);
    let mut leaves = vec![Leaf::EMPTY, Leaf::EMPTY];
    let mut line = 0;
    unsafe {
        assert_eq!(gz_catalogue_read(TEXT.as_ptr(), TEXT.len(), &mut catalogue, &mut line), DONE);
        let made = gz_table_new(&mut catalogue, &mut book, leaves.as_mut_ptr(), WORKERS, &mut reader, 1);
        assert_eq!(made, DONE);
    }
    let is_over = Arc::new(AtomicBool::new(false));
    let start = |leaf| {
        let is_over = Arc::clone(&is_over);
        thread::spawn(move || work(leaf, &is_over))
    };
    let workers: Vec<_> = leaves.into_iter().map(start).collect();
    let in_use: usize = (0..ROUNDS).map(|_| load_and_remove(&mut book)).sum();
    is_over.store(true, SeqCst);
    let got: usize = workers.into_iter().map(|worker| worker.join().unwrap()).sum();
    println!("{ROUNDS} loads and removals, {in_use} found it in use, {got} gets");
    unsafe {
        gz_reader_free(reader);
        gz_book_free(book);
        gz_catalogue_free(catalogue);
    }
}
