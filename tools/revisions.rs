//! Rewords comments of sheets and checks on reports, rows and rules what request #114 says of that.
//!   revisions SEED SHEETS    SHEETS is a batch of tools/generate
//! Of each sheet that is accepted and has comments some bodies are reworded: with equal byte length, the same line and column at the end, in characters
//! and in UTF-16 units alike, and no recorded position inside. The library's two answers are compared with the second answer's, and by `kept`
//! (tools/revised.rs) with each other. The status is 1 at the first that differs, or if no reworded comment changed a report.

#[path = "second.rs"]
#[allow(dead_code)]
mod second;

use second::revised::{Answered, answered, bodies, kept};

unsafe extern "C" {
    fn module_info_with_replaced_answer(sheet: *const u8, n: usize, buffer: *mut u8, m: usize, notes: *mut usize, k: usize) -> u64;
    fn module_info_with_rules(
        sheet: *const u8,
        n: usize,
        buffer: *mut u8,
        m: usize,
        rules: *mut u8,
        k: usize,
        lengths: *mut [u64; 2],
    ) -> u64;
}

/// Whether the library answers the same, in buffers that hold just that.
fn agrees(sheet: &[u8], answer: &Answered) -> bool {
    let mut reports = [vec![0; answer.report.len()], vec![0; answer.report.len()]];
    let mut notes = vec![0; 1 + 2 * answer.rows.len()];
    let mut rules = vec![0; answer.rules.len()];
    let mut lengths = [0; 2];
    let [one, two] = &mut reports;
    // the pointer of a vector is never null
    let numbers = unsafe {
        [
            module_info_with_replaced_answer(sheet.as_ptr(), sheet.len(), one.as_mut_ptr(), one.len(), notes.as_mut_ptr(), notes.len()),
            module_info_with_rules(sheet.as_ptr(), sheet.len(), two.as_mut_ptr(), two.len(), rules.as_mut_ptr(), rules.len(), &mut lengths),
        ]
    };
    numbers == [256 * answer.report.len() as u64, 0]
        && lengths == [answer.report.len() as u64, answer.rules.len() as u64]
        && reports.iter().all(|report| *report == answer.report)
        && notes[0] + 1 == notes.len()
        && notes[1..] == *answer.rows.as_flattened()
        && rules == answer.rules
}

// ---- rewording ----

#[rustfmt::skip]
const PHRASES: [&str; 14] = [
    "{import(\"a\")}", "{import('b', {with: {'resolution-mode': 'import'}})}", "@import A from \"c\"", "{{import('d')}}", "@ts-types=\"e\"",
    "@deno-types=\"f\"", "@ts-self-types=\"g\"", "/<reference path=\"h\"/>", "/<reference types='i'/>", "# sourceMappingURL=j", "@jsxImportSource k",
    "import", "{", "}",
];
/// Characters of one to four bytes.
const CHARACTERS: [&[char]; 4] =
    [&['a', '"', '\'', '{', '}', ' ', '*', '@', '\n'], &['é', 'Ω', '\u{85}'], &['中', '\u{2028}', 'ⓐ'], &['𝒜', '\u{10FFFD}']];

struct Random(u64);

impl Random {
    fn below(&mut self, n: usize) -> usize {
        self.0 ^= self.0 << 13;
        self.0 ^= self.0 >> 7;
        self.0 ^= self.0 << 17;
        (self.0.wrapping_mul(0x2545_F491_4F6C_DD1D) >> 33) as usize % n.max(1)
    }

    /// Another text of as many bytes.
    fn reworded(&mut self, body: &str) -> String {
        let mut all: Vec<char> = body.chars().collect();
        for _ in 0..1 + self.below(4) {
            let (i, j) = (self.below(all.len()), self.below(all.len()));
            match self.below(4) {
                0 => all.swap(i, j),
                1 => all[i] = self.as_long(all[i]),
                2 => all.iter_mut().skip(i).take(j).filter(|c| c.is_ascii() && **c != '\n').for_each(|c| *c = ' '),
                _ => {
                    let phrase: Vec<char> = PHRASES[self.below(PHRASES.len())].chars().collect();
                    if all[i..].len() >= phrase.len() && all[i..][..phrase.len()].iter().all(char::is_ascii) {
                        all[i..][..phrase.len()].copy_from_slice(&phrase);
                    }
                }
            }
        }
        all.into_iter().collect()
    }

    fn as_long(&mut self, c: char) -> char {
        let some = CHARACTERS[c.len_utf8() - 1];
        some[self.below(some.len())]
    }
}

/// The line and the columns behind a text, in characters and in UTF-16 units.
fn behind(text: &str) -> (usize, usize, usize) {
    let last = text.rsplit('\n').next().unwrap_or("");
    (text.matches('\n').count(), last.chars().count(), last.encode_utf16().count())
}

// ---- the batch ----

#[derive(Default)]
struct Counts {
    sheets: usize,
    reworded: usize,
    changed: usize,
}

fn check(random: &mut Random, sheet: &[u8], counts: &mut Counts) -> Result<(), String> {
    let Ok(answer) = answered(sheet) else { return Ok(()) };
    let bodies = bodies(sheet);
    counts.sheets += usize::from(!bodies.is_empty());
    for (k, (from, to), front) in bodies {
        let body = str::from_utf8(&sheet[from..to]).expect("UTF-8").to_string();
        for _ in 0..3 {
            let other = random.reworded(&body);
            if behind(&format!("{front}{body}")) != behind(&format!("{front}{other}")) || body == other {
                continue;
            }
            let mut revised = sheet.to_vec();
            revised[from..to].copy_from_slice(other.as_bytes());
            let Ok(revision) = answered(&revised) else { continue };
            if !agrees(sheet, &answer) || !agrees(&revised, &revision) {
                return Err(format!("library and second differ on comment {k}"));
            }
            kept(sheet, &revised, k, [&answer, &revision]).map_err(|what| format!("{what}, comment {k}: {body:?} as {other:?}"))?;
            counts.reworded += 1;
            counts.changed += usize::from(answer.report != revision.report);
        }
    }
    Ok(())
}

fn main() {
    let arguments: Vec<String> = std::env::args().collect();
    let mut random = Random(arguments[1].parse::<u64>().expect("a seed") * 2 + 1);
    let batch = std::fs::read(&arguments[2]).expect("a batch");
    let (mut rest, mut counts, mut number) = (&batch[..], Counts::default(), 0);
    while let Some((size, more)) = rest.split_first_chunk::<4>() {
        let (sheet, more) = more.split_at(u32::from_le_bytes(*size) as usize);
        if let Err(what) = check(&mut random, sheet, &mut counts) {
            println!("revisions: sheet {number}: {what}");
            std::process::exit(1);
        }
        rest = more;
        number += 1;
    }
    println!("revisions: {} comments reworded in {} sheets, {} of them change a report", counts.reworded, counts.sheets, counts.changed);
    std::process::exit(i32::from(counts.changed == 0));
}
