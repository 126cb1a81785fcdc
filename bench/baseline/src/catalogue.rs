//! A reader of catalogues: it refuses what the crate refuses, and keeps what the crate's catalogue tells.

use crate::texts::{find_words, is_comment, is_name, lines, normal};
use std::collections::HashMap;
use std::fmt::Write;
use std::hint::black_box;
use std::time::Instant;

const MODULES: usize = 1024;

const SYMBOLS: usize = 10;

const READS: usize = 150;

#[derive(Clone, Copy, PartialEq)]
enum Version {
    One,
    Two,
    Three,
}

impl Version {
    fn most_modules(self) -> usize {
        match self {
            Version::One => 256,
            Version::Two => 1024,
            Version::Three => 65_535,
        }
    }
}

#[derive(Default)]
struct Module<'a> {
    name: Vec<u8>,
    size: Option<u32>,
    symbols: Vec<&'a [u8]>,
    softneeds: Vec<Vec<u8>>,
    params: Vec<(Vec<u8>, Vec<u8>)>,
    permanent: bool,
}

/// What the catalogue tells of a module.
struct Details {
    name: Vec<u8>,
    size: u32,
    needs: Vec<u16>,
    unknown_symbol: bool,
    softneeds: Vec<Vec<u8>>,
    params: Vec<(Vec<u8>, Vec<u8>)>,
    permanent: bool,
}

struct Catalogue {
    slots: HashMap<Vec<u8>, usize>,
    modules: Vec<Details>,
}

/// Why a line is refused.
#[derive(Debug)]
enum Fault {
    Bad,
    Duplicate,
    TwiceExported,
    TooMany,
}

struct Draft<'a> {
    version: Option<Version>,
    slots: HashMap<Vec<u8>, usize>,
    exporters: HashMap<&'a [u8], u16>,
    modules: Vec<Module<'a>>,
}

fn number(word: &[u8]) -> Result<u32, Fault> {
    if !(1..=10).contains(&word.len()) || !word.iter().all(u8::is_ascii_digit) {
        return Err(Fault::Bad);
    }
    let text = std::str::from_utf8(word).map_err(|_| Fault::Bad)?;
    text.parse().map_err(|_| Fault::Bad)
}

fn is_kind(version: Version, word: &[u8]) -> bool {
    const KINDS: [&[u8]; 12] = [
        b"byte", b"short", b"ushort", b"int", b"uint", b"long", b"ulong", b"ullong", b"hexint", b"bool", b"bint", b"invbool",
    ];
    match version {
        Version::Three => word == b"charp" || KINDS.contains(&word.strip_suffix(b"[]").unwrap_or(word)),
        _ => matches!(word, b"charp" | b"int" | b"bool"),
    }
}

impl<'a> Draft<'a> {
    fn begin(&mut self, name: &[u8], version: Version) -> Result<(), Fault> {
        if !is_name(name) {
            return Err(Fault::Bad);
        }
        let name = normal(name);
        if self.slots.contains_key(&name) {
            return Err(Fault::Duplicate);
        }
        if self.modules.len() >= version.most_modules() {
            return Err(Fault::TooMany);
        }
        self.slots.insert(name.clone(), self.modules.len());
        self.modules.push(Module { name, ..Module::default() });
        Ok(())
    }

    fn export(&mut self, symbols: &[&'a [u8]]) -> Result<(), Fault> {
        let slot = self.modules.len().checked_sub(1).ok_or(Fault::Bad)? as u16;
        for symbol in symbols {
            if self.exporters.insert(symbol, slot).is_some() {
                return Err(Fault::TwiceExported);
            }
        }
        Ok(())
    }

    fn last(&mut self) -> Result<&mut Module<'a>, Fault> {
        self.modules.last_mut().ok_or(Fault::Bad)
    }

    fn define(&mut self, name: &[u8], kind: &[u8], version: Version) -> Result<(), Fault> {
        if !is_name(name) || !is_kind(version, kind) {
            return Err(Fault::Bad);
        }
        let name = normal(name);
        let module = self.last()?;
        if module.params.iter().any(|(own, _)| *own == name) {
            return Err(Fault::Bad);
        }
        module.params.push((name, kind.to_vec()));
        Ok(())
    }

    fn add(&mut self, words: &[&'a [u8]]) -> Result<(), Fault> {
        let version = self.version.unwrap_or(Version::One);
        match words {
            [] => return Ok(()),
            [b"version", b"2"] if self.version.is_none() => self.version = Some(Version::Two),
            [b"version", b"3"] if self.version.is_none() => self.version = Some(Version::Three),
            [b"module", name] => self.begin(name, version)?,
            [b"size", word] => {
                let size = number(word)?;
                if self.last()?.size.replace(size).is_some() {
                    return Err(Fault::Bad);
                }
            }
            [b"exports", symbols @ ..] if !symbols.is_empty() => self.export(symbols)?,
            [b"needs", symbols @ ..] if !symbols.is_empty() => self.last()?.symbols.extend_from_slice(symbols),
            [b"param", name, kind] => self.define(name, kind, version)?,
            [b"permanent"] => self.last()?.permanent = true,
            [b"softneeds", names @ ..] if !names.is_empty() && version != Version::One => {
                if !names.iter().all(|name| is_name(name)) {
                    return Err(Fault::Bad);
                }
                self.last()?.softneeds.extend(names.iter().map(|name| normal(name)));
            }
            _ => return Err(Fault::Bad),
        }
        self.version = self.version.or(Some(Version::One));
        Ok(())
    }

    fn details(exporters: &HashMap<&[u8], u16>, marks: &mut [u16], slot: u16, module: Module) -> Details {
        let mut needs = Vec::new();
        let mut unknown_symbol = false;
        for symbol in module.symbols {
            match exporters.get(symbol) {
                Some(need) if *need != slot && marks[usize::from(*need)] != slot + 1 => {
                    marks[usize::from(*need)] = slot + 1;
                    needs.push(*need);
                }
                Some(_) => {}
                None => unknown_symbol = true,
            }
        }
        Details {
            name: module.name,
            size: module.size.unwrap_or(0),
            needs,
            unknown_symbol,
            softneeds: module.softneeds,
            params: module.params,
            permanent: module.permanent,
        }
    }

    fn finish(self) -> Catalogue {
        let mut marks = vec![0; self.modules.len()];
        let modules = (0..).zip(self.modules);
        let modules = modules.map(|(slot, module)| Self::details(&self.exporters, &mut marks, slot, module)).collect();
        Catalogue { slots: self.slots, modules }
    }
}

fn read_catalogue(text: &[u8]) -> Result<Catalogue, (usize, Fault)> {
    let mut draft = Draft { version: None, slots: HashMap::new(), exporters: HashMap::new(), modules: Vec::new() };
    let mut words = Vec::new();
    for (number, line) in lines(text) {
        if !is_comment(line) {
            find_words(&mut words, line);
            draft.add(&words).map_err(|fault| (number, fault))?;
        }
    }
    Ok(draft.finish())
}

fn push_symbols(text: &mut String, word: &str, slot: usize, distance: usize) {
    text.push_str(word);
    for symbol in 0..SYMBOLS {
        let module = (slot + distance * symbol) % MODULES;
        write!(text, " symbol_{module}_{symbol}").unwrap();
    }
    text.push('\n');
}

fn text() -> String {
    let mut text = String::from("version 2\n");
    for slot in 0..MODULES {
        writeln!(text, "module module_{slot}").unwrap();
        push_symbols(&mut text, "exports", slot, 0);
        push_symbols(&mut text, "needs", slot + 1, 97);
    }
    text
}

/// The catalogue tells all that it has, so that none of it is left out.
fn is_whole(catalogue: &Catalogue) -> bool {
    let told = |module: &Details| module.size == 0 && !module.unknown_symbol && !module.permanent;
    let names = |module: &Details| catalogue.slots.contains_key(&module.name) && module.softneeds.is_empty();
    catalogue.modules.iter().all(|module| told(module) && names(module) && module.params.is_empty())
}

pub fn measure() {
    let text = text();
    assert!(is_whole(&read_catalogue(text.as_bytes()).unwrap()));
    let start = Instant::now();
    let mut needs = 0;
    for _ in 0..READS {
        let catalogue = read_catalogue(black_box(text.as_bytes())).unwrap();
        needs += catalogue.modules.iter().map(|module| module.needs.len()).sum::<usize>();
    }
    let time = start.elapsed();
    println!("read_catalogue {} MB/s", text.len() as u128 * READS as u128 * 1_000 / time.as_nanos());
    println!("catalogue_needs {needs} needs");
}
