//! maps [SIZE]
//! The ways in which the report's source map and that of ECMA-426 differ, both asked of the library: the rows of docs/DIFFERENCES.md, and a
//! search over all bodies of at most SIZE pieces (6) for further ones. A body that differs is smaller than another if it is left when one piece
//! is taken out, or put in place of by a plainer one, and if it differs in the same manner: some and none, none and some, or two texts.
//! The status is 1 if a row does not differ, or if a smallest body is in no row. tools/maps links and runs it.

#[allow(dead_code)]
#[path = "sheet_writer.rs"]
mod sheet_writer;

use std::collections::BTreeSet;

use sheet_writer::{Doc, number};

unsafe extern "C" {
    fn module_info_answer(sheet: *const u8, n: usize, buffer: *mut u8, m: usize) -> u64;
    fn module_info_source_map(sheet: *const u8, n: usize, places: *mut [u64; 6]) -> u64;
}

/// The pieces of bodies, each with plainer ones.
const PIECES: [(&str, &[&str]); 13] = [
    ("#", &["a"]),
    ("@", &["#"]),
    ("a", &[]),
    ("=", &["a"]),
    ("sourceMappingURL", &["a"]),
    ("sourcemappingurl", &["sourceMappingURL"]),
    ("\u{17F}ourceMappingURL", &["sourceMappingURL"]),
    (" ", &["a"]),
    ("\n", &["a", " "]),
    ("\u{2028}", &["a", " "]),
    ("\u{180E}", &["a"]),
    ("\u{85}", &["a", " "]),
    ("\u{FEFF}", &["a", " "]),
];

/// The rows: what differs, and the bodies of the comments.
const ROWS: &[(&str, &[&str])] = &[
    ("an empty run", &["#sourceMappingURL="]),
    ("text behind the run", &["#sourceMappingURL=a a"]),
    ("a blank before `=`", &["#sourceMappingURL =a"]),
    ("a blank behind `=`", &["#sourceMappingURL= a"]),
    ("another case", &["#sourcemappingurl=a"]),
    ("U+017F for `s`", &["#\u{17F}ourceMappingURL=a"]),
    ("U+FEFF before the word", &["#\u{FEFF}sourceMappingURL=a"]),
    ("U+FEFF behind the run", &["#sourceMappingURL=a\u{FEFF}"]),
    ("U+FEFF alone behind `=`", &["#sourceMappingURL=\u{FEFF}"]),
    ("U+FEFF inside the run", &["#sourceMappingURL=a\u{FEFF}a"]),
    ("U+0085 before the word", &["#\u{85}sourceMappingURL=a"]),
    ("U+0085 in the run", &["#sourceMappingURL=a\u{85}"]),
    ("U+0085 alone behind `=`", &["#sourceMappingURL=\u{85}"]),
    ("U+0085 first in the run", &["#sourceMappingURL=\u{85}a"]),
    ("another comment", &["#sourceMappingURL=a", "#sourceMappingURL=b b"]),
];

/// A text with its lines and columns.
type Answer = Option<(String, [u64; 4])>;

/// TypeScript whose source is these block comments, in the trailing group at the program's end; an empty Other as root.
fn sheet(bodies: &[&str]) -> Vec<u8> {
    let source: String = bodies.iter().map(|b| format!("/*{b}*/")).collect();
    let end = source.len();
    let mut comments = Vec::new();
    for b in bodies {
        let at = comments.last().map_or(0, |(_, _, end)| *end);
        comments.push((1, at, at + b.len() + 4));
    }
    let root = [vec![0, 0], number(end), vec![0]].concat();
    Doc { source: &source, comments: &comments, groups: &[(1, end, 0, bodies.len())], span: (0, end), root, ..Doc::default() }.bytes()
}

fn read_number(rest: &mut &[u8]) -> u64 {
    let (first, behind) = rest.split_first().expect("a number");
    *rest = behind;
    if *first < 128 { u64::from(*first) } else { u64::from(*first % 128) + 128 * read_number(rest) }
}

/// The source map of the report: such a sheet has nothing else in it, so it stands behind seven zeros.
fn reported(sheet: &[u8]) -> Answer {
    let mut buffer = [0; 4096];
    let answer = unsafe { module_info_answer(sheet.as_ptr(), sheet.len(), buffer.as_mut_ptr(), buffer.len()) };
    assert!(answer % 256 == 0 && buffer[..7] == [0; 7], "the sheet is accepted");
    let mut rest = &buffer[8..answer as usize / 256];
    (buffer[7] == 1).then(|| {
        let length = read_number(&mut rest) as usize;
        let text = String::from_utf8(rest[..length].to_vec()).expect("UTF-8");
        rest = &rest[length..];
        (text, [(); 4].map(|()| read_number(&mut rest)))
    })
}

fn standard(sheet: &[u8]) -> Answer {
    let mut places = [0; 6];
    let answer = unsafe { module_info_source_map(sheet.as_ptr(), sheet.len(), &mut places) };
    assert!(answer == 0 || answer == 256, "the sheet is accepted");
    let [from, to, range @ ..] = places;
    (answer == 256).then(|| (String::from_utf8(sheet[from as usize..to as usize].to_vec()).expect("UTF-8"), range))
}

/// How the two answers to some comments differ: whether each is there. Equal ones do not.
fn manner(bodies: &[&str]) -> Option<(bool, bool)> {
    let sheet = sheet(bodies);
    let (a, b) = (reported(&sheet), standard(&sheet));
    (a != b).then_some((a.is_some(), b.is_some()))
}

fn joined(pieces: &[usize]) -> String {
    pieces.iter().map(|p| PIECES[*p].0).collect()
}

/// Whether no body that is one step smaller differs in that manner.
fn is_smallest(pieces: &[usize], how: (bool, bool)) -> bool {
    let index = |text: &str| PIECES.iter().position(|p| p.0 == text).expect("a piece");
    (0..pieces.len()).all(|i| {
        let without = [&pieces[..i], &pieces[i + 1..]].concat();
        let plainer = PIECES[pieces[i]].1.iter().map(|text| [&pieces[..i], &[index(text)], &pieces[i + 1..]].concat());
        plainer.chain([without]).all(|smaller| manner(&[&joined(&smaller)]) != Some(how))
    })
}

/// Each body of the pieces: `#` or `@` first, since neither question reads another.
fn search(pieces: &mut Vec<usize>, size: usize, asked: &mut u64, found: &mut BTreeSet<String>) {
    *asked += 1;
    let body = joined(pieces);
    if let Some(how) = manner(&[&body])
        && is_smallest(pieces, how)
    {
        found.insert(body);
    }
    if pieces.len() < size {
        for next in 0..PIECES.len() {
            pieces.push(next);
            search(pieces, size, asked, found);
            pieces.pop();
        }
    }
}

fn shown(text: &str) -> String {
    let plain = |c: char| if c.is_ascii_graphic() || c == ' ' { c.to_string() } else { format!("<U+{:04X}>", c as u32) };
    text.chars().map(plain).collect()
}

fn cell(answer: &Answer) -> String {
    match answer {
        None => "none".into(),
        Some((text, _)) if text.is_empty() => "an empty text".into(),
        Some((text, _)) => format!("`{}`", shown(text)),
    }
}

fn main() {
    let size = std::env::args().nth(1).map_or(6, |s| s.parse().expect("a number of pieces"));
    let mut failed = false;
    println!("| what differs | smallest body | the report's source map | ECMA-426 |\n|---|---|---|---|");
    for (what, bodies) in ROWS {
        let sheet = sheet(bodies);
        let shown: Vec<String> = bodies.iter().map(|b| format!("`{}`", shown(b))).collect();
        println!("| {what} | {} | {} | {} |", shown.join(", then "), cell(&reported(&sheet)), cell(&standard(&sheet)));
        failed |= manner(bodies).is_none();
    }
    let (mut asked, mut found) = (0, BTreeSet::new());
    search(&mut vec![0], size, &mut asked, &mut found);
    search(&mut vec![1], size, &mut asked, &mut found);
    let further: Vec<&String> = found.iter().filter(|b| !ROWS.iter().any(|(_, row)| row == &[b.as_str()])).collect();
    for body in &further {
        println!("in no row: {}: {} and {}", shown(body), cell(&reported(&sheet(&[body]))), cell(&standard(&sheet(&[body]))));
    }
    println!("{asked} bodies, {} smallest ones that differ, {} of them in no row", found.len(), further.len());
    std::process::exit(i32::from(failed || !further.is_empty()));
}
