//! replay FILE SHEETS ANSWERS NAMES [SHEET ANSWER NAME]...
//! Writes the stored list: the cases of tools/cases (SHEETS, NAMES) with the oracle's answers (ANSWERS), then of the single sheets, which
//! are in order of their length, as many as the program crates/replay can read. Numbers in FILE are u32 little-endian:
//!   the number of sheets; for each: length and bytes of the sheet; number (a byte); length and bytes of the report.
//! FILE.names gets a line for each sheet, the number of its answer and its name; FILE.counts the lines that the program prints if no answer
//! differs. The status is 1, and nothing is written, if an answer is not the one that a case is made for, or if tools/second.rs differs.

#[path = "second.rs"]
#[allow(dead_code)]
mod second;

/// The program that reads the list.
const READER: &str = include_str!("../crates/replay/src/main.rt");

/// In place of a number: the oracle leaves the sheet out.
const LEFT_OUT: u8 = 255;

struct Item<'a> {
    name: &'a str,
    sheet: &'a [u8],
    number: u8,
    report: &'a [u8],
}

fn main() {
    let args: Vec<String> = std::env::args().skip(1).collect();
    let ([file, sheets, answers, names, singles @ ..], true) = (&args[..], args.len() % 3 == 1) else {
        fail(2, "usage: replay FILE SHEETS ANSWERS NAMES [SHEET ANSWER NAME]...")
    };
    let (sheets, answers) = (read(sheets), read(answers));
    let names = String::from_utf8(read(names)).unwrap_or_else(|_| fail(2, "the names are no text"));
    let mut items = cases(&sheets, &answers, &names);
    let files: Vec<(Vec<u8>, Vec<u8>)> = singles.chunks(3).map(|s| (read(&s[0]), read(&s[1]))).collect();
    let mut size = 4 + items.iter().map(size_of).sum::<usize>();
    let space = space();
    if size >= space {
        fail(1, &format!("the cases have {size} bytes, and fewer than {space} are read"));
    }
    for ((sheet, stored), name) in files.iter().zip(singles.chunks(3).map(|s| &s[2])) {
        let (number, report) = answer(&mut &stored[..]);
        let item = Item { name, sheet, number, report };
        size += size_of(&item);
        if number != LEFT_OUT && size < space {
            items.push(item);
        }
    }
    let wrong = items.iter().filter(|item| differs(item)).count();
    if wrong > 0 {
        fail(1, &format!("{wrong} answers of second differ from the oracle's"));
    }
    write_list(file, &items);
}

fn fail(status: i32, message: &str) -> ! {
    eprintln!("replay: {message}");
    std::process::exit(status)
}

/// The bytes that the program reads, which must be more than the list has: its constant SPACE.
fn space() -> usize {
    let value = READER.split_once("const SPACE: usize = ").and_then(|(_, rest)| rest.split_once(';'));
    value.and_then(|(value, _)| value.parse().ok()).unwrap_or_else(|| fail(2, "crates/replay has no SPACE"))
}

fn read(name: &str) -> Vec<u8> {
    std::fs::read(name).unwrap_or_else(|e| fail(2, &format!("{name}: {e}")))
}

/// The cases that the oracle answers: each with the number that it is made for.
fn cases<'a>(mut sheets: &'a [u8], mut answers: &'a [u8], names: &'a str) -> Vec<Item<'a>> {
    let mut items = Vec::new();
    let mut wrong = 0;
    for line in names.lines() {
        let (made_for, name) = line.split_once(' ').unwrap_or_else(|| fail(2, "a name has no number"));
        let sheet = part(&mut sheets);
        let (number, report) = answer(&mut answers);
        if number == LEFT_OUT {
            println!("left out: {name}");
            continue;
        }
        if made_for != number.to_string() {
            println!("made for {made_for}, the oracle answers {number}: {name}");
            wrong += 1;
        }
        items.push(Item { name, sheet, number, report });
    }
    if wrong > 0 {
        fail(1, &format!("{wrong} cases are answered otherwise than they are made for"));
    }
    items
}

fn differs(item: &Item) -> bool {
    let expected = if item.number == 0 { Ok(item.report) } else { Err(item.number) };
    let differs = second::answer(item.sheet).as_deref() != expected.as_ref().map(|r| *r);
    if differs {
        println!("second differs from the oracle: {}", item.name);
    }
    differs
}

fn size_of(item: &Item) -> usize {
    4 + item.sheet.len() + 1 + 4 + item.report.len()
}

fn write_list(file: &str, items: &[Item]) {
    let mut out = (items.len() as u32).to_le_bytes().to_vec();
    let mut names = String::new();
    for item in items {
        out.extend((item.sheet.len() as u32).to_le_bytes());
        out.extend(item.sheet);
        out.push(item.number);
        out.extend((item.report.len() as u32).to_le_bytes());
        out.extend(item.report);
        names += &format!("{} {}\n", item.number, item.name);
    }
    let accepted = items.iter().filter(|item| item.number == 0).count();
    let counts = format!("{} sheets\n{accepted} accepted\n{} refused\n0 differ\n", items.len(), items.len() - accepted);
    for (name, bytes) in
        [(file.into(), &out[..]), (format!("{file}.names"), names.as_bytes()), (format!("{file}.counts"), counts.as_bytes())]
    {
        std::fs::write(&name, bytes).unwrap_or_else(|e| fail(2, &format!("{name}: {e}")));
    }
    println!("{} sheets, {accepted} accepted, {} bytes", items.len(), out.len());
}

/// The next length and bytes of a stream.
fn part<'a>(stream: &mut &'a [u8]) -> &'a [u8] {
    let (head, rest) = stream.split_first_chunk::<4>().unwrap_or_else(|| fail(2, "a stream is cut off"));
    let (bytes, rest) = rest.split_at(u32::from_le_bytes(*head) as usize);
    *stream = rest;
    bytes
}

/// The next answer of a stream: its number and its report.
fn answer<'a>(stream: &mut &'a [u8]) -> (u8, &'a [u8]) {
    let (number, rest) = stream.split_first().unwrap_or_else(|| fail(2, "a stream is cut off"));
    *stream = rest;
    (*number, part(stream))
}
