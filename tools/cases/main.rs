//! cases SHEETS NAMES
//! The cases of the stored list (crates/replay/data), as a batch (each: length as u32 little-endian, bytes) in the file SHEETS. The file NAMES
//! gets a line for each: the number that the case is made for (0 accepted, 1 to 9 and 13 refused), a space, its name. tools/replay asks the oracle.
//!
//! First each field of each form of document 01 is made wrong in every way that can be judged there (`ways`), as the root and one node below;
//! then each clause of the walk, the attributes, the arguments, the ten patterns and the grammar is met and just missed.
//! The span of a String is a quoted place of the source wherever the case does not ask for another.

mod comments;
mod fields;
mod refusals;
#[path = "../sheet_writer.rs"]
mod sheet_writer;
mod sheets;
mod tree;

use std::collections::BTreeSet;
use std::io::Write;

use sheets::Bytes;

/// The number that a case is made for, its name and its sheet.
struct Cases {
    all: Vec<(u8, String, Bytes)>,
    seen: BTreeSet<Bytes>,
}

impl Cases {
    /// A sheet that is there already is not taken again.
    fn add(&mut self, number: u8, name: impl Into<String>, sheet: Bytes) {
        if self.seen.insert(sheet.clone()) {
            self.all.push((number, name.into(), sheet));
        }
    }
}

fn main() {
    let args: Vec<String> = std::env::args().skip(1).collect();
    let [sheets, names] = &args[..] else {
        eprintln!("usage: cases SHEETS NAMES");
        std::process::exit(2)
    };
    let mut c = Cases { all: Vec::new(), seen: BTreeSet::new() };
    fields::all(&mut c);
    refusals::all(&mut c);
    tree::all(&mut c);
    comments::all(&mut c);
    let mut batch = Vec::new();
    let mut lines = String::new();
    for (number, name, sheet) in c.all {
        batch.extend((sheet.len() as u32).to_le_bytes());
        batch.extend(sheet);
        lines += &format!("{number} {}\n", printable(&name));
    }
    for (file, bytes) in [(sheets, &batch[..]), (names, lines.as_bytes())] {
        let written = std::fs::File::create(file).and_then(|mut f| f.write_all(bytes));
        if let Err(e) = written {
            eprintln!("cases: {file}: {e}");
            std::process::exit(2)
        }
    }
}

/// A name on one line, in ASCII.
fn printable(name: &str) -> String {
    name.chars().flat_map(|c| if c == ' ' || c.is_ascii_graphic() { vec![c] } else { c.escape_default().collect() }).collect()
}
