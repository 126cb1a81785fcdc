//! The plan of a module in a catalogue of 1,024 modules, in stock Rust: maps by name, needs by slot, and what is
//! asked of a module looked up when the walk reaches it.

use std::collections::HashMap;
use std::hint::black_box;
use std::time::Instant;

const MODULES: usize = 1024;

const STEPS: [usize; 3] = [1, 7, 40];

const PLANS: u32 = 500;

/// As the benchmark beside this one does: the C library keeps its heap between plans once so large a buffer was freed.
const TEXT_BYTES: usize = 1 << 20;

#[derive(Clone, Copy, PartialEq)]
enum Mark {
    New,
    Open,
    Done,
}

struct Item<'a> {
    slot: usize,
    soft: bool,
    options: Vec<&'a str>,
}

#[derive(Default)]
struct Softdep {
    pre: Vec<String>,
    post: Vec<String>,
}

struct Sources {
    slots: HashMap<String, usize>,
    names: Vec<String>,
    needs: Vec<Vec<u16>>,
    dependencies: HashMap<String, Vec<String>>,
    options: HashMap<String, Vec<String>>,
    softdeps: HashMap<String, Softdep>,
    installs: HashMap<String, ()>,
}

impl Sources {
    fn new(has_symbols: bool) -> Self {
        let names: Vec<String> = (0..MODULES).map(|m| format!("module_{m}")).collect();
        let needs = |m: usize| STEPS.iter().map(move |step| m + step).filter(|need| *need < MODULES);
        let mut sources = Sources {
            slots: names.iter().cloned().zip(0..).collect(),
            needs: vec![Vec::new(); MODULES],
            names,
            dependencies: HashMap::new(),
            options: HashMap::new(),
            softdeps: HashMap::new(),
            installs: HashMap::new(),
        };
        for m in 0..MODULES {
            let name = sources.names[m].clone();
            if has_symbols {
                sources.needs[m] = needs(m).map(|need| need as u16).collect();
            } else {
                let paths = needs(m).map(|need| sources.names[need].clone()).collect();
                sources.dependencies.insert(name.clone(), paths);
            }
            if m % 8 == 0 {
                sources.options.insert(name.clone(), vec!["debug=1".into(), "level=3".into()]);
            }
            if m % 16 == 0 {
                let pre = vec![format!("other_{m}")];
                sources.softdeps.insert(name, Softdep { pre, post: Vec::new() });
            }
        }
        sources
    }

    fn hard(&self, m: usize) -> Option<Vec<usize>> {
        match self.dependencies.get(&self.names[m]) {
            Some(names) => names.iter().map(|name| self.slots.get(name).copied()).collect(),
            None => Some(self.needs[m].iter().map(|need| usize::from(*need)).collect()),
        }
    }

    fn is_blocked(&self, m: usize) -> bool {
        let name = &self.names[m];
        self.installs.contains_key(name) && !self.softdeps.contains_key(name)
    }

    fn walk(&self, marks: &mut [Mark], order: &mut Vec<usize>, m: usize) -> Option<()> {
        match marks[m] {
            Mark::Done => return Some(()),
            Mark::Open => return None,
            Mark::New if self.is_blocked(m) => return None,
            Mark::New => marks[m] = Mark::Open,
        }
        for need in self.hard(m)? {
            self.walk(marks, order, need)?;
        }
        marks[m] = Mark::Done;
        order.push(m);
        Some(())
    }

    fn visit_clean(&self, marks: &mut [Mark], order: &mut Vec<usize>, names: &[String]) -> Option<()> {
        for name in names {
            if let Some(&slot) = self.slots.get(name)
                && marks[slot] == Mark::New
                && self.walk(&mut marks.to_vec(), &mut Vec::new(), slot).is_some()
            {
                self.visit(marks, order, slot)?;
            }
        }
        Some(())
    }

    fn visit(&self, marks: &mut [Mark], order: &mut Vec<usize>, m: usize) -> Option<()> {
        marks[m] = Mark::Open;
        let softdep = self.softdeps.get(&self.names[m]);
        if let Some(softdep) = softdep {
            self.visit_clean(marks, order, &softdep.pre)?;
        }
        for need in self.hard(m)? {
            if marks[need] == Mark::New {
                self.visit(marks, order, need)?;
            }
        }
        marks[m] = Mark::Done;
        order.push(m);
        if let Some(softdep) = softdep {
            self.visit_clean(marks, order, &softdep.post)?;
        }
        Some(())
    }

    fn plan(&self, name: &str) -> Option<Vec<Item<'_>>> {
        let slot = *self.slots.get(name)?;
        let mut reached = vec![Mark::New; MODULES];
        self.walk(&mut reached, &mut Vec::new(), slot)?;
        let mut order = Vec::new();
        self.visit(&mut vec![Mark::New; MODULES], &mut order, slot)?;
        let item = |slot: usize| Item {
            slot,
            soft: reached[slot] != Mark::Done,
            options: self.options.get(&self.names[slot]).map_or_else(Vec::new, |words| words.iter().map(String::as_str).collect()),
        };
        Some(order.into_iter().map(item).collect())
    }

    fn removal_plan(&self, name: &str) -> Option<Vec<usize>> {
        let mut order = Vec::new();
        self.walk(&mut vec![Mark::New; MODULES], &mut order, *self.slots.get(name)?)?;
        order.reverse();
        Some(order)
    }
}

fn time<T>(name: &str, mut make: impl FnMut() -> T) {
    let start = Instant::now();
    for _ in 0..PLANS {
        black_box(make());
    }
    println!("{name} {} ns", start.elapsed().as_nanos() / u128::from(PLANS));
}

fn time_plan(name: &str, sources: &Sources, module: &str) {
    let items = sources.plan(module).unwrap();
    let words: usize = items.iter().map(|item| item.slot + usize::from(item.soft) + item.options.len()).sum();
    black_box(words);
    time(name, || sources.plan(black_box(module)));
}

pub fn measure() {
    drop(black_box(Vec::<u8>::with_capacity(TEXT_BYTES)));
    let by_symbols = Sources::new(true);
    time_plan("plan_by_symbols", &by_symbols, "module_0");
    time_plan("short_plan_by_symbols", &by_symbols, "module_1000");
    let by_paths = Sources::new(false);
    time_plan("plan_by_modules_dep", &by_paths, "module_0");
    time_plan("short_plan_by_modules_dep", &by_paths, "module_1000");
    time("removal_plan_by_modules_dep", || by_paths.removal_plan(black_box("module_0")));
}
