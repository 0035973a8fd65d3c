//! faults EDITS SOURCE count [PART]           how many faults there are, or how many have PART in their names
//! faults EDITS SOURCE apply K FILE [PART]    the one of them with the number K, from 0
//! Puts a fault of the file EDITS into a copy of SOURCE, the file FILE, and prints two lines: its name, and why it changes nothing, if EDITS
//! says so. The form of EDITS stands at the head of tools/faults.txt. The status is 4 if the fault does not apply to SOURCE.

struct Fault {
    name: String,
    unnoticed: String,
    edits: Vec<Edit>,
}

#[derive(Default)]
struct Edit {
    /// Texts that follow each other, and the old one behind the start of the last.
    inside: Vec<String>,
    old: String,
    new: String,
}

fn main() {
    let args: Vec<String> = std::env::args().skip(1).collect();
    let args: Vec<&str> = args.iter().map(String::as_str).collect();
    let usage = "usage: faults EDITS SOURCE count [PART] | faults EDITS SOURCE apply K FILE [PART]";
    let [edits, source, asked, rest @ ..] = &args[..] else { fail(2, usage) };
    let (edits, source) = (read(edits), read(source));
    let with_part = |part: &str| parse(&edits).into_iter().filter(|f| f.name.contains(part)).collect::<Vec<_>>();
    match (*asked, rest) {
        ("count", []) => println!("{}", with_part("").len()),
        ("count", [part]) => println!("{}", with_part(part).len()),
        ("apply", [k, file]) => put(&with_part(""), k, &source, file),
        ("apply", [k, file, part]) => put(&with_part(part), k, &source, file),
        _ => fail(2, usage),
    }
}

fn fail(status: i32, message: &str) -> ! {
    eprintln!("faults: {message}");
    std::process::exit(status)
}

fn read(name: &str) -> String {
    std::fs::read_to_string(name).unwrap_or_else(|e| fail(2, &format!("{name}: {e}")))
}

fn put(faults: &[Fault], k: &str, source: &str, file: &str) {
    let fault = k.parse().ok().and_then(|k: usize| faults.get(k)).unwrap_or_else(|| fail(2, "no such fault"));
    println!("{}\n{}", fault.name, fault.unnoticed);
    let mut changed = source.to_string();
    for edit in &fault.edits {
        changed = apply(edit, &changed).unwrap_or_else(|why| fail(4, &why));
    }
    std::fs::write(file, changed).unwrap_or_else(|e| fail(2, &format!("{file}: {e}")));
}

/// The lines by their keys; a line without one goes on with the text before it.
fn entries(edits: &str) -> Vec<(&str, String)> {
    let mut all: Vec<(&str, String)> = Vec::new();
    for line in edits.lines().filter(|line| !line.is_empty() && !line.starts_with('#')) {
        match line.split_once(':').filter(|(key, _)| ["fault", "unnoticed", "in", "old", "new"].contains(key)) {
            Some((key, text)) => all.push((key, text.trim_start().into())),
            None => all.last_mut().unwrap_or_else(|| fail(2, "the first line has no key")).1 += &format!("\n{line}"),
        }
    }
    all
}

fn parse(edits: &str) -> Vec<Fault> {
    let mut faults: Vec<Fault> = Vec::new();
    let mut inside = Vec::new();
    for (key, text) in entries(edits) {
        if key == "fault" {
            faults.push(Fault { name: text, unnoticed: String::new(), edits: Vec::new() });
            continue;
        }
        let fault = faults.last_mut().unwrap_or_else(|| fail(2, "the first line names no fault"));
        match key {
            "unnoticed" => fault.unnoticed = text,
            "in" => inside.push(text),
            "old" => fault.edits.push(Edit { inside: std::mem::take(&mut inside), old: text, new: String::new() }),
            _ => fault.edits.last_mut().unwrap_or_else(|| fail(2, &format!("{}: new before old", fault.name))).new = text,
        }
    }
    faults
}

fn apply(edit: &Edit, source: &str) -> Result<String, String> {
    let first = edit.inside.first().unwrap_or(&edit.old);
    let (mut at, _) = find(source, 0, first).ok_or(format!("not there: {first}"))?;
    if find(source, at + 1, first).is_some() {
        return Err(format!("there more than once: {first}"));
    }
    for text in &edit.inside {
        at = find(source, at, text).ok_or(format!("not there: {text}"))?.0;
    }
    let (start, end) = find(source, at, &edit.old).ok_or(format!("not there: {}", edit.old))?;
    Ok([&source[..start], &edit.new, &source[end..]].concat())
}

/// Where a text stands from a place on, and where it ends; between its words there may be any white space.
fn find(source: &str, from: usize, text: &str) -> Option<(usize, usize)> {
    let words: Vec<&str> = text.split_whitespace().collect();
    let (first, rest) = words.split_first()?;
    let end_of = |start: usize| {
        rest.iter().try_fold(start + first.len(), |end, word| {
            let behind = source[end..].trim_start();
            let spaced = behind.len() < source.len() - end;
            (spaced && behind.starts_with(word)).then(|| source.len() - behind.len() + word.len())
        })
    };
    (from..source.len())
        .filter(|i| source.is_char_boundary(*i) && source[*i..].starts_with(first))
        .find_map(|start| end_of(start).map(|end| (start, end)))
}
