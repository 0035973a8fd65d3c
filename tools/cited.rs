//! cited SHEET    reads the oracle's citation of the sheet and prints it with `d` in place of `D` where a character was replaced
//! The oracle does not know how many were: the numbers are those of tools/second.rs.
use std::io::{Read, Write};
#[path = "second.rs"]
#[allow(dead_code)]
mod second;

fn main() -> std::io::Result<()> {
    let name = std::env::args().nth(1).expect("usage: cited SHEET");
    let sheet = std::fs::read(name)?;
    let mut rows = second::answer_with_rows(&sheet).map_or(Vec::new(), |(_, rows)| rows).into_iter();
    let mut citation = Vec::new();
    std::io::stdin().read_to_end(&mut citation)?;
    for line in citation.split_inclusive(|b| *b == b'\n') {
        let mut line = line.to_vec();
        if line.starts_with(b"D ") && rows.next().expect("a row for each dependency")[1] > 0 {
            line[0] = b'd';
        }
        std::io::stdout().write_all(&line)?;
    }
    Ok(())
}
