//! delivery SEED COUNT
//! delivery times
//! Compares the library of crates/delivery, through bindings/delivery, with a second answer on COUNT generated deliveries, each with several
//! sizes of the work buffer.
//! The second answer is written from document 01's section on deliveries; reports come from tools/second.rs. It keeps no offsets and
//! makes one pass after the other over vectors. The status is 1 if an answer differs or a work buffer is not zero, or if some sort of
//! answer did not occur.

#[allow(dead_code)]
#[path = "generate.rs"]
mod generate;
#[allow(dead_code)]
#[path = "second.rs"]
mod second;

use std::collections::{BTreeMap, HashSet};

use delivery::{Order, order};
use generate::sheet_writer::{put_number, put_text};

/// The library's answer, and whether it left the work buffer zero.
fn library(delivery: &[u8], size: usize) -> (Order, bool) {
    let mut work = vec![0xAA; size + 1];
    let answer = order(delivery, &mut work[..size]);
    (answer, work[size] == 0xAA && work[..size].iter().all(|b| *b == 0))
}

// ---- the second answer ----

/// A number of document 01, and what follows it.
fn number(b: &[u8]) -> Option<(usize, &[u8])> {
    let last = b.iter().position(|x| x & 0x80 == 0)?;
    let value = b[..=last].iter().rev().try_fold(0u64, |n, x| n.checked_mul(128).map(|n| n + u64::from(x & 0x7F)))?;
    let shortest = last == 0 || b[last] != 0;
    (last < 5 && shortest && value <= u64::from(u32::MAX)).then_some((value as usize, &b[last + 1..]))
}

fn bytes(b: &[u8]) -> Option<(&[u8], &[u8])> {
    let (n, b) = number(b)?;
    b.split_at_checked(n)
}

/// Names and sheets, or none for refusal 11.
fn modules(delivery: &[u8]) -> Option<Vec<(&[u8], &[u8])>> {
    if delivery.len() > 65_536 {
        return None;
    }
    let (count, mut b) = number(delivery)?;
    if !(1..=64).contains(&count) {
        return None;
    }
    let mut all = Vec::new();
    for _ in 0..count {
        let (name, rest) = bytes(b)?;
        let (sheet, rest) = bytes(rest)?;
        if name.len() > 4096 || std::str::from_utf8(name).is_err() {
            return None;
        }
        all.push((name, sheet));
        b = rest;
    }
    b.is_empty().then_some(all)
}

/// A report, read from its front.
struct Report<'a>(&'a [u8]);

impl<'a> Report<'a> {
    fn number(&mut self) -> usize {
        let (n, rest) = number(self.0).expect("a number of a report");
        self.0 = rest;
        n
    }

    fn text(&mut self) -> &'a [u8] {
        let (text, rest) = bytes(self.0).expect("a text of a report");
        self.0 = rest;
        text
    }

    fn range(&mut self) {
        for _ in 0..4 {
            self.number();
        }
    }

    fn optional_text(&mut self) {
        if self.number() == 1 {
            self.text();
        }
    }

    /// The kind of a dependency, and its specifier if it is static.
    fn dependency(&mut self) -> (usize, &'a [u8]) {
        let kind = self.number();
        if self.number() == 1 {
            self.text();
            self.range();
        }
        let mut specifier: &[u8] = b"";
        if kind < 9 {
            specifier = self.text();
            self.range();
            self.number();
        } else {
            match self.number() {
                0 => {}
                1 => drop(self.text()),
                _ => (0..self.number()).for_each(|_| self.optional_text()),
            }
            self.range();
        }
        if self.number() == 2 {
            for _ in 0..self.number() {
                self.text();
                self.optional_text();
            }
        }
        (kind, specifier)
    }
}

/// The specifiers of a report's entries that are judged, with their indices.
fn judged(report: &[u8]) -> Vec<(usize, &[u8])> {
    let mut report = Report(report);
    report.number();
    let count = report.number();
    let entries: Vec<_> = (0..count).map(|_| report.dependency()).collect();
    let relative = |x: &[u8]| [&b"./"[..], b"../", b"/"].iter().any(|start| x.starts_with(start));
    // static kinds but ImportType, ExportType and MaybeTsModuleAugmentation
    let kept = |kind: usize| kind < 9 && ![3, 6, 8].contains(&kind);
    entries.into_iter().enumerate().filter(|(_, (kind, x))| kept(*kind) && relative(x)).map(|(j, (_, x))| (j, x)).collect()
}

fn second_order(delivery: &[u8], size: usize) -> Order {
    let refused = |number, module| Order::Refused { number, module };
    let Some(modules) = modules(delivery) else { return refused(11, 0) };
    let names: HashSet<_> = modules.iter().map(|m| m.0).collect();
    if names.len() < modules.len() {
        return refused(12, 0);
    }
    let mut reports = Vec::new();
    for (i, (_, sheet)) in modules.iter().enumerate() {
        match second::answer(sheet) {
            Err(number) => return refused(number, i),
            Ok(report) if report.len() > size => return refused(10, i),
            Ok(report) => reports.push(report),
        }
    }
    let mut earlier: HashSet<&[u8]> = HashSet::new();
    for (module, (name, _)) in modules.iter().enumerate() {
        if let Some((entry, _)) = judged(&reports[module]).into_iter().find(|(_, x)| !earlier.contains(x)) {
            return Order::NotInOrder { module, entry };
        }
        earlier.insert(name);
    }
    Order::InOrder
}

// ---- generated deliveries ----

struct Random(u64);

impl Random {
    fn next(&mut self) -> u64 {
        self.0 = self.0.wrapping_add(0x9E37_79B9_7F4A_7C15);
        let z = (self.0 ^ (self.0 >> 30)).wrapping_mul(0xBF58_476D_1CE4_E5B9);
        let z = (z ^ (z >> 27)).wrapping_mul(0x94D0_49BB_1331_11EB);
        z ^ (z >> 31)
    }

    fn below(&mut self, n: usize) -> usize {
        (self.next() % n as u64) as usize
    }

    fn percent(&mut self, p: usize) -> bool {
        self.below(100) < p
    }
}

/// A node that asks for a specifier; the place of every String is the source, `''`.
fn put_entry(r: &mut Random, out: &mut Vec<u8>, specifier: &[u8]) {
    let sort = r.below(100);
    let head: &[u8] = match sort {
        0..55 => return put_import(out, specifier),
        55..60 => &[7, 0, 2, 1, 0, 0],
        60..63 => &[7, 0, 2, 0, 1, 1],
        63..66 => &[7, 0, 2, 0, 2, 0],
        66..72 => &[8, 0, 2, 0, 1],
        72..75 => &[8, 0, 2, 1, 1],
        75..80 => &[9, 0, 2, 0],
        80..83 => &[10, 0, 2],
        83..88 => &[11, 0, 2, 1, 0, 0],
        88..91 => &[11, 0, 2, 1, 0, 1],
        91..94 => &[12, 0, 2, 1],
        _ => &[6, 0, 2, 0, 1, 0, 0, 2],
    };
    out.extend(head);
    out.extend([1, 0, 2]);
    put_text(out, specifier);
    match sort {
        80..83 => out.extend([0, 0]),
        83..91 => {}
        _ => out.push(0),
    }
}

fn put_import(out: &mut Vec<u8>, specifier: &[u8]) {
    out.extend([7, 0, 2, 0, 0, 0, 1, 0, 2]);
    put_text(out, specifier);
    out.push(0);
}

/// What stands before the count of the root's children: a source `''`, no comments, the program and the root.
fn head() -> Vec<u8> {
    b"\0\x02''\0\0\0\0\x02\0\0\0\0\x02".to_vec()
}

/// A sheet that asks for specifiers, in this order.
fn sheet_of(r: &mut Random, specifiers: &[Vec<u8>]) -> Vec<u8> {
    let mut out = head();
    out[0] = r.below(11) as u8;
    put_number(&mut out, specifiers.len());
    for specifier in specifiers {
        put_entry(r, &mut out, specifier);
    }
    out
}

fn name(r: &mut Random, i: usize) -> Vec<u8> {
    match r.below(40) {
        0 => Vec::new(),
        1 => b"/".to_vec(),
        2 => b"npm:meter@1".to_vec(),
        3 => "./\u{FFFD}.js".into(),
        4 => format!("./{}.js", "é".repeat(r.below(2045))).into(),
        5 => vec![b'/'; 4094 + r.below(3)],
        6 => format!("../lib/{i}.ts").into(),
        7 => format!("/{i}").into(),
        8 => format!("./{}.js", r.below(1 + i)).into(),
        _ => format!("./{i}.js").into(),
    }
}

/// What a module asks for: earlier names mostly, now and then its own or a later one, or what is judged by no name.
fn specifiers(r: &mut Random, names: &[Vec<u8>], i: usize, late: usize) -> Vec<Vec<u8>> {
    let count = [0, 1, 1, 2, 3, 9][r.below(6)];
    (0..count)
        .map(|_| match r.below(100) {
            0..8 => [&b"npm:a"[..], b"a.js", b".a", b"..", b"", b"./\xED\xA0\x80.js"][r.below(6)].to_vec(),
            x if x >= 100 - late => names[i + r.below(names.len() - i)].clone(),
            _ if i > 0 => names[r.below(i)].clone(),
            _ => b"jsr:@x/y".to_vec(),
        })
        .map(|x| if x.len() > 4096 { b"b".to_vec() } else { x })
        .collect()
}

fn generated(r: &mut Random, index: u64) -> Vec<u8> {
    let count = match r.below(20) {
        0 => 64,
        1 => 65,
        2 => 0,
        3..6 => 1,
        _ => 2 + r.below(12),
    };
    let names: Vec<_> = (0..count).map(|i| name(r, i)).collect();
    let late = [0, 0, 1, 5, 30][r.below(5)];
    let mut out = Vec::new();
    put_number(&mut out, count);
    let strange = r.percent(15);
    for i in 0..count {
        put_text(&mut out, &names[i]);
        let sheet = match r.below(60) {
            0 => Vec::new(),
            1 | 2 if strange => generate::make(index, i as u64).1,
            _ => {
                let asked = specifiers(r, &names, i, late);
                sheet_of(r, &asked)
            }
        };
        put_text(&mut out, &sheet);
    }
    match r.below(40) {
        0 => out.push(0),
        1 => out.truncate(r.below(out.len() + 1)),
        2..5 => {
            let at = r.below(out.len());
            out[at] ^= 1 << r.below(8);
        }
        // a count that is not shortest
        5 => {
            out[0] |= 0x80;
            out.insert(1, 0);
        }
        // a last module that fills it to its limit, or by one too far
        6 | 7 if count > 0 && count < 64 && out.len() < 60_000 => {
            let size = 65_536 + r.below(2);
            out[0] += 1;
            put_text(&mut out, b"./last.js");
            let left = size - out.len() - 3;
            put_text(&mut out, &vec![0; left]);
        }
        _ => {}
    }
    out
}

/// Sizes of the work buffer: large, none, about the default report, about the report of some module.
fn sizes(r: &mut Random, delivery: &[u8]) -> Vec<usize> {
    let mut sizes = vec![65_536, [0, 7, 8][r.below(3)]];
    if let Some(modules) = modules(delivery) {
        if let Ok(report) = second::answer(modules[r.below(modules.len())].1) {
            sizes.extend([report.len() - 1, report.len(), report.len() + 1]);
        }
    }
    sizes
}

/// Microseconds for a delivery of 64 modules, each of which imports all before it: the median of 101 calls.
fn times() {
    let names: Vec<Vec<u8>> = (0..64).map(|i| format!("./{i}.js").into_bytes()).collect();
    let mut bytes = vec![64];
    let mut entries = 0;
    for (i, name) in names.iter().enumerate() {
        put_text(&mut bytes, name);
        let mut sheet = head();
        put_number(&mut sheet, i);
        for specifier in &names[..i] {
            put_import(&mut sheet, specifier);
        }
        entries += i;
        put_text(&mut bytes, &sheet);
    }
    let mut work = vec![0; 65_536];
    let mut taken: Vec<_> = (0..101)
        .map(|_| {
            let start = std::time::Instant::now();
            assert_eq!(order(&bytes, &mut work), Order::InOrder);
            start.elapsed()
        })
        .collect();
    taken.sort();
    println!("delivery: 64 modules, {entries} entries, {} bytes: {} microseconds", bytes.len(), taken[50].as_micros());
}

fn main() {
    if std::env::args().nth(1).as_deref() == Some("times") {
        return times();
    }
    let args: Vec<u64> = std::env::args().skip(1).filter_map(|x| x.parse().ok()).collect();
    let [seed, count] = args[..] else {
        eprintln!("usage: delivery SEED COUNT | times");
        std::process::exit(2)
    };
    let (mut calls, mut differ) = (0, 0);
    let mut sorts: BTreeMap<String, usize> = BTreeMap::new();
    for index in 0..count {
        let mut r = Random(seed.wrapping_mul(0x1000_0000_01B3) ^ index);
        let delivery = generated(&mut r, index);
        for size in sizes(&mut r, &delivery) {
            let expected = second_order(&delivery, size);
            let (answer, cleared) = library(&delivery, size);
            calls += 1;
            let sort = match expected {
                Order::InOrder => "in order".to_string(),
                Order::NotInOrder { .. } => "not in order".to_string(),
                Order::Refused { number, .. } => format!("refused {number}"),
            };
            *sorts.entry(sort).or_default() += 1;
            if answer != expected || !cleared {
                differ += 1;
                println!("delivery {index}, work buffer {size}: {answer:?}, second {expected:?}, cleared {cleared}");
            }
        }
    }
    for sort in ["in order", "not in order", "refused 10", "refused 11", "refused 12"] {
        if !sorts.contains_key(sort) {
            println!("delivery: no answer `{sort}` occurred");
            differ += 1;
        }
    }
    let sorts: Vec<_> = sorts.iter().map(|(sort, n)| format!("{n} {sort}")).collect();
    println!("delivery: {count} deliveries, {calls} calls ({}), {differ} differ", sorts.join(", "));
    std::process::exit(i32::from(differ > 0));
}
