//! A reader of configurations, the lines of modprobe.d(5), and look-ups by name.

use crate::aliases::{Alias, Aliases};
use crate::texts::{find_words, is_comment, lines, normal};
use std::borrow::Cow;
use std::collections::HashMap;
use std::fmt::Write;
use std::hint::black_box;
use std::time::Instant;

const MODULES: usize = 20_000;

const LOOKUPS: usize = 1_000_000;

const NAMES: [&[u8]; 4] = [b"driver_7", b"driver_777", b"driver_7777", b"driver_17777"];

struct Softdep {
    pre: Vec<Vec<u8>>,
    post: Vec<Vec<u8>>,
}

#[derive(Default)]
struct Settings {
    options: Vec<Vec<u8>>,
    softdep: Option<Softdep>,
    has_install: bool,
    has_remove: bool,
    is_blacklisted: bool,
}

#[derive(Default)]
struct Conf {
    aliases: Aliases,
    modules: HashMap<Vec<u8>, Settings>,
    skipped: Vec<usize>,
}

impl Softdep {
    fn read(words: &[&[u8]]) -> Softdep {
        let (mut pre, mut post) = (Vec::new(), Vec::new());
        let mut list = None;
        for word in words {
            match (*word, &mut list) {
                (b"pre:", _) => list = Some(&mut pre),
                (b"post:", _) => list = Some(&mut post),
                (_, Some(names)) => names.push(normal(word)),
                (_, None) => {}
            }
        }
        Softdep { pre, post }
    }
}

impl Conf {
    fn settings(&mut self, name: &[u8]) -> &mut Settings {
        self.modules.entry(normal(name)).or_default()
    }

    /// What the words say. Whether they say anything.
    fn add(&mut self, words: &[&[u8]]) -> bool {
        match words {
            [] => {}
            [b"alias", ..] => match Alias::read(words) {
                Some((alias, mark)) => self.aliases.push(alias, mark),
                None => return false,
            },
            [b"blacklist", name, ..] => self.settings(name).is_blacklisted = true,
            [b"install", name, _, ..] => self.settings(name).has_install = true,
            [b"remove", name, _, ..] => self.settings(name).has_remove = true,
            [b"options", name, options @ ..] if !options.is_empty() => {
                self.settings(name).options.extend(options.iter().map(|word| word.to_vec()));
            }
            [b"softdep", name, items @ ..] if !items.is_empty() => {
                self.settings(name).softdep.get_or_insert_with(|| Softdep::read(items));
            }
            _ => return false,
        }
        true
    }
}

/// The lines, joined where a backslash ends one, each with the number of its first.
fn joined_lines(text: &[u8]) -> impl Iterator<Item = (usize, Cow<'_, [u8]>)> {
    let mut lines = lines(text);
    std::iter::from_fn(move || {
        let (number, line) = lines.next()?;
        let Some(front) = line.strip_suffix(b"\\") else {
            return Some((number, Cow::Borrowed(line)));
        };
        let mut joined = front.to_vec();
        for (_, line) in lines.by_ref() {
            let Some(front) = line.strip_suffix(b"\\") else {
                joined.extend_from_slice(line);
                break;
            };
            joined.extend_from_slice(front);
        }
        Some((number, Cow::Owned(joined)))
    })
}

fn read_conf(text: &[u8]) -> Conf {
    let mut conf = Conf::default();
    for (number, line) in joined_lines(text) {
        if is_comment(&line) {
            continue;
        }
        let mut words = Vec::new();
        find_words(&mut words, &line);
        if !conf.add(&words) {
            conf.skipped.push(number);
        }
    }
    conf
}

fn text() -> String {
    let mut text = String::new();
    for module in 0..MODULES {
        writeln!(
            text,
            "alias pci:v0000{module:04X}d*sv*sd*bc*sc*i* driver-{module}
options driver-{module} debug=1 \\\n level=3 name=card{module}
softdep driver-{module} pre: first-{module} post: last-{module}
blacklist other-{module}"
        )
        .unwrap();
    }
    text
}

/// What the crate's configuration tells beside the words of options.
fn is_whole(conf: &Conf) -> bool {
    let softdeps = conf.modules.values().filter_map(|settings| settings.softdep.as_ref());
    softdeps.map(|softdep| softdep.pre.len() + softdep.post.len()).sum::<usize>() == 2 * MODULES
        && conf.modules.values().filter(|settings| settings.is_blacklisted).count() == MODULES
        && !conf.modules.values().any(|settings| settings.has_install || settings.has_remove)
        && conf.aliases.entries.len() == MODULES
        && conf.skipped.is_empty()
}

pub fn measure() {
    let text = text();
    let start = Instant::now();
    let conf = black_box(read_conf(black_box(text.as_bytes())));
    let time = start.elapsed();
    assert!(is_whole(&conf));
    println!("read_conf {} bytes/s", text.len() as u128 * 1_000_000_000 / time.as_nanos());
    let start = Instant::now();
    let mut words = 0;
    for turn in 0..LOOKUPS {
        words += conf.modules.get(black_box(NAMES[turn % NAMES.len()])).map_or(0, |settings| settings.options.len());
    }
    let time = start.elapsed();
    assert!(words == 3 * LOOKUPS);
    println!("options_of_a_name {} ns", time.as_nanos() / LOOKUPS as u128);
}
