//! A reader of modules.alias texts: it refuses the patterns that the crate refuses, and keeps aliases by the same mark.

use crate::texts::{find_words, is_comment, lines, normal};
use std::collections::HashMap;
use std::fmt::Write;
use std::hint::black_box;
use std::time::Instant;

const DEVICES: usize = 26_000;

/// A pattern and the module that it stands for.
pub struct Alias {
    pub pattern: Vec<u8>,
    pub target: Vec<u8>,
}

/// Aliases in the order of their lines, and their places by mark.
#[derive(Default)]
pub struct Aliases {
    pub entries: Vec<Alias>,
    pub places: HashMap<u64, Vec<usize>>,
    pub skipped: Vec<usize>,
}

/// The first byte, taken as itself behind a backslash, whether it was, and what follows it.
fn after_letter(text: &[u8]) -> Option<(u8, bool, &[u8])> {
    match text {
        [b'\\', byte, rest @ ..] => Some((*byte, true, rest)),
        [b'\\'] | [] => None,
        [byte, rest @ ..] => Some((*byte, false, rest)),
    }
}

fn after_set(text: &[u8]) -> Option<&[u8]> {
    let mut rest = match text {
        [b'!' | b'^', rest @ ..] => rest,
        _ => text,
    };
    loop {
        let (byte, is_escaped, after) = after_letter(rest)?;
        if byte == b'[' && !is_escaped && matches!(after, [b':' | b'.' | b'=', ..]) {
            return None;
        }
        rest = match after {
            [b'-', end, ..] if *end != b']' => after_letter(&after[1..])?.2,
            _ => after,
        };
        if let [b']', after @ ..] = rest {
            return Some(after);
        }
    }
}

/// The mark of the longest run of single bytes, None if the text is no pattern.
fn mark(text: &[u8]) -> Option<u64> {
    let mut rest = text;
    let (mut run, mut count) = (0u64, 0);
    let (mut longest, mut most) = (None, 0);
    let mut close = |run: u64, count: usize| {
        if longest.is_none() || count >= 8 && count > most {
            (longest, most) = (Some(run), count);
        }
    };
    while let [first, after @ ..] = rest {
        match first {
            b'*' | b'?' | b'[' => {
                close(run, count);
                (run, count) = (0, 0);
                rest = if *first == b'[' { after_set(after)? } else { after };
            }
            _ => {
                let (byte, _, after) = after_letter(rest)?;
                let byte = if byte == b'-' { b'_' } else { byte };
                (run, count) = (run << 8 | u64::from(byte), count + 1);
                rest = after;
            }
        }
    }
    close(run, count);
    longest
}

impl Alias {
    /// The alias that the words are, with its mark.
    pub fn read(words: &[&[u8]]) -> Option<(Alias, u64)> {
        let [b"alias", pattern, target, ..] = words else {
            return None;
        };
        let mark = mark(pattern)?;
        Some((Alias { pattern: pattern.to_vec(), target: normal(target) }, mark))
    }
}

impl Aliases {
    pub fn push(&mut self, alias: Alias, mark: u64) {
        self.places.entry(mark).or_default().push(self.entries.len());
        self.entries.push(alias);
    }
}

pub fn read_aliases(text: &[u8]) -> Aliases {
    let mut aliases = Aliases::default();
    let mut words = Vec::new();
    for (number, line) in lines(text) {
        if is_comment(line) {
            continue;
        }
        find_words(&mut words, line);
        match Alias::read(&words) {
            Some((alias, mark)) => aliases.push(alias, mark),
            None if words.is_empty() => {}
            None => aliases.skipped.push(number),
        }
    }
    aliases
}

fn text() -> String {
    let mut text = String::new();
    for device in 0..DEVICES {
        let written = if device % 2 == 0 {
            writeln!(text, "alias pci:v0000{device:04X}d0000{device:04X}sv*sd*bc*sc*i* driver-{device}")
        } else {
            writeln!(text, "alias usb:v{device:04X}p{device:04X}d*dc*dsc*dp*ic*isc*ip*in* driver-{device}")
        };
        written.unwrap();
    }
    text
}

pub fn measure() {
    let text = text();
    let start = Instant::now();
    let aliases = black_box(read_aliases(black_box(text.as_bytes())));
    let time = start.elapsed();
    let has_words = |alias: &Alias| !alias.pattern.is_empty() && alias.target.starts_with(b"driver_");
    assert!(aliases.entries.len() == DEVICES && aliases.entries.iter().all(has_words) && aliases.skipped.is_empty());
    println!("read_aliases {} bytes/s", text.len() as u128 * 1_000_000_000 / time.as_nanos());
}
