//! fnmatch(3) on the same patterns and texts.

use std::ffi::{CStr, c_char, c_int};
use std::hint::black_box;
use std::time::Instant;

unsafe extern "C" {
    fn fnmatch(pattern: *const c_char, text: *const c_char, flags: c_int) -> c_int;
}

const PAIRS: [(&str, &CStr, &CStr); 4] = [
    (
        "match_usb_hit",
        c"usb:v0A12p0001d*dc*dsc*dp*ic*isc*ip*in*",
        c"usb:v0A12p0001d8891dcE0dsc01dp01icE0isc01ip01in00",
    ),
    (
        "match_pci_hit",
        c"pci:v00008086d*sv*sd*bc03sc*i*",
        c"pci:v00008086d00001916sv00001028sd000006DEbc03sc00i00",
    ),
    (
        "match_usb_miss",
        c"usb:v0A12p0001d*dc*dsc*dp*ic*isc*ip*in*",
        c"usb:v0A12p0003d8891dcE0dsc01dp01icE0isc01ip01in00",
    ),
    (
        "match_pci_miss",
        c"pci:v00008086d*sv*sd*bc03sc*i*",
        c"pci:v00008086d00009D2Fsv00001028sd000006DEbc0Csc03i30",
    ),
];

const ROUNDS: u64 = 300_000;
const VENDORS: u32 = 26_000;
const LOOKUPS: u64 = 20;

fn is_match(pattern: &CStr, text: &CStr) -> bool {
    unsafe { fnmatch(black_box(pattern.as_ptr()), black_box(text.as_ptr()), 0) == 0 }
}

pub fn measure() {
    for (name, pattern, text) in PAIRS {
        let start = Instant::now();
        let mut hits = 0u64;
        for _ in 0..ROUNDS {
            hits += u64::from(is_match(pattern, text));
        }
        black_box(hits);
        println!("{name} {} ns", start.elapsed().as_nanos() / ROUNDS as u128);
    }
    let patterns: Vec<_> = (0..VENDORS)
        .map(|vendor| {
            let pattern = if vendor % 2 == 0 {
                format!("pci:v0000{vendor:04X}d0000{vendor:04X}sv*sd*bc*sc*i*\0")
            } else {
                format!("usb:v{vendor:04X}p{vendor:04X}d*dc*dsc*dp*ic*isc*ip*in*\0")
            };
            CStr::from_bytes_with_nul(pattern.as_bytes()).unwrap().to_owned()
        })
        .collect();
    let text = c"pci:v00001388d00001388sv00001028sd000006DEbc03sc00i00";
    let start = Instant::now();
    let mut hits = 0u64;
    for _ in 0..LOOKUPS {
        hits += patterns.iter().filter(|pattern| is_match(pattern, text)).count() as u64;
    }
    println!("lookup_26000_patterns {} ns", start.elapsed().as_nanos() / hits.max(1) as u128);
}
