//! Compares the stepping matcher with the regex crate, on generated tables and bodies and on the ten patterns' own.
//!   steps SEED COUNT    prints what was compared; the status is 1 at the first answer that differs
//! A table is read by a second decoder and written as a regular expression. What a row captures is read off empty groups, one for each place
//! where a captured text begins or ends, so that any row can be compared.

use regex::Regex;

unsafe extern "C" {
    fn steps_match(table: *const u8, n: usize, body: *const u8, m: usize, out: *mut u64);
}

/// What was found: whether marks stand around it, from where, to where.
type Capture = (bool, usize, usize);

#[derive(Debug, PartialEq)]
enum Answer {
    Found(Capture),
    Nothing,
    Refused(u64),
}

fn library(table: &[u8], body: &[u8]) -> Answer {
    let mut out = [9u64; 4];
    // the pointers of slices are never null
    unsafe { steps_match(table.as_ptr(), table.len(), body.as_ptr(), body.len(), out.as_mut_ptr()) };
    match out {
        [0, 0, 0, 0] => Answer::Nothing,
        [1, quoted, from, to] => Answer::Found((quoted == 1, from as usize, to as usize)),
        [2, why, 0, 0] => Answer::Refused(why),
        other => panic!("{other:?}"),
    }
}

// ---- the second decoder ----

const TOO_LONG: u64 = 1;
const UNKNOWN_STEP: u64 = 2;
const UNKNOWN_CLASS: u64 = 3;
const UNKNOWN_MARKS: u64 = 4;
const CUT_OFF: u64 = 5;

const CLASSES: [&str; 9] = [r"\s", r"\S", r"[\s*]", ".", "[\"']", "[^\"']", "[#@]", r"\p{Alphabetic}", r"[^\s:\-]"];

/// A regular expression, and for each of its groups whether it begins a captured text, with marks or not, or ends one.
#[derive(Default)]
struct Written {
    text: String,
    groups: Vec<Option<bool>>,
}

impl Written {
    fn steps(&mut self, t: &[u8]) -> Result<(), u64> {
        let Some(&code) = t.first() else { return Ok(()) };
        match code {
            1 => {
                self.text += "^";
                return self.steps(&t[1..]);
            }
            2 => {
                self.text += "()";
                self.groups.push(None);
                return self.steps(&t[1..]);
            }
            3..=8 => {}
            _ => return Err(UNKNOWN_STEP),
        }
        let &n = t.get(1).ok_or(CUT_OFF)?;
        let rest = &t[2..];
        match code {
            3 => {
                let word = rest.get(..n as usize).ok_or(CUT_OFF)?;
                for letter in word {
                    let flag = if letter.is_ascii() { "i" } else { "-i" };
                    self.text += &format!(r"(?{flag}:\x{{{letter:X}}})");
                }
                self.steps(&rest[n as usize..])
            }
            8 => {
                let first = rest.get(..n as usize).ok_or(CUT_OFF)?;
                self.text += "(?:";
                self.steps(first)?;
                self.text += "|";
                self.steps(&rest[n as usize..])?;
                self.text += ")";
                Ok(())
            }
            7 => {
                if n > 1 {
                    return Err(UNKNOWN_MARKS);
                }
                self.text += "()";
                self.groups.push(Some(n == 1));
                self.steps(rest)
            }
            _ => {
                let class = CLASSES.get((n as usize).wrapping_sub(1)).ok_or(UNKNOWN_CLASS)?;
                self.text += class;
                self.text += ["", "*", "*?"][code as usize - 4];
                self.steps(rest)
            }
        }
    }

    fn find(&self, regex: &Regex, body: &str) -> Answer {
        let Some(found) = regex.captures(body) else { return Answer::Nothing };
        let mut k = (false, 0, 0);
        for (i, group) in self.groups.iter().enumerate() {
            if let Some(here) = found.get(i + 1) {
                match group {
                    Some(quoted) => k = (*quoted, here.start(), k.2),
                    None => k.2 = here.start(),
                }
            }
        }
        Answer::Found(k)
    }
}

fn second(table: &[u8]) -> Result<Written, u64> {
    if table.len() > 255 {
        return Err(TOO_LONG);
    }
    let mut written = Written::default();
    written.steps(table).map(|()| written)
}

// ---- tables and bodies ----

struct Random(u64);

impl Random {
    fn below(&mut self, n: usize) -> usize {
        self.0 ^= self.0 << 13;
        self.0 ^= self.0 >> 7;
        self.0 ^= self.0 << 17;
        (self.0.wrapping_mul(0x2545_F491_4F6C_DD1D) >> 33) as usize % n
    }

    fn pick<T: Copy>(&mut self, from: &[T]) -> T {
        from[self.below(from.len())]
    }

    /// A row of some steps, few of them runs, which may end in two others.
    fn row(&mut self, most: usize) -> Vec<u8> {
        let mut t = Vec::new();
        for _ in 0..self.below(most + 1) {
            let class = 1 + self.below(9) as u8;
            match self.below(20) {
                0 => t.push(1),
                1..=3 => t.push(2),
                4..=7 => {
                    let word = self.pick(&WORDS);
                    t.extend([3, word.len() as u8]);
                    t.extend(word);
                }
                8..=10 => t.extend([4, class]),
                11..=13 => t.extend([5, class]),
                14 | 15 => t.extend([6, class]),
                _ => t.extend([7, self.below(2) as u8]),
            }
        }
        if most > 1 && self.below(4) == 0 {
            let first = self.row(most / 2);
            t.extend([8, first.len() as u8]);
            t.extend(first);
            t.extend(self.row(most / 2));
        }
        t
    }

    /// A table that is one of a row, or such a one with a number changed, left out or put in.
    fn table(&mut self) -> Vec<u8> {
        let mut t = self.row(7);
        if !t.is_empty() && self.below(4) == 0 {
            let at = self.below(t.len());
            let n = self.below(12) as u8;
            match self.below(4) {
                0 => t[at] = n,
                1 => t.truncate(at),
                2 => t.insert(at, n),
                _ => t.resize(t.len() + 254 * self.below(2), 1),
            }
        }
        t
    }

    fn body(&mut self) -> String {
        (0..self.below(14)).map(|_| self.pick(&PIECES)).collect()
    }
}

const WORDS: [&[u8]; 9] = [b"s", b"k", b"Ks", b"a=", b"types", b"", b"'", b"\xE9", b"*"];
const PIECES: [&str; 32] = [
    "s",
    "S",
    "\u{17F}",
    "k",
    "K",
    "\u{212A}",
    "ks",
    "a=",
    "A=",
    "types",
    "type\u{17F}",
    "'",
    "\"",
    "\u{E9}",
    "\u{C9}",
    "*",
    " ",
    "  ",
    "\n",
    "\t",
    "\u{85}",
    "\u{A0}",
    "\u{2003}",
    "\u{3000}",
    "\u{200B}",
    "\u{FEFF}",
    "#",
    "@",
    ":",
    "-",
    "\u{1F600}",
    "x",
];

/// The ten regular expressions of analysis.rs, with the beginning of a body that each may match.
const TEN: [(&str, &str); 10] = [
    (r"(?i)^/\s*<reference\s.*?/>", "/ <reference "),
    (r#"(?i)\spath\s*=\s*["']([^"']*)["']"#, " path="),
    (r#"(?i)\stypes\s*=\s*["']([^"']*)["']"#, " types="),
    (r#"(?i)\sresolution-mode\s*=\s*["']([^"']*)["']"#, " resolution-mode="),
    (r"(?i)^[\s*]*@jsxImportSource\s+(\S+)", "* @jsxImportSource "),
    (r"(?i)^[\s*]*@jsxImportSourceTypes\s+(\S+)", "@jsxImportSourceTypes "),
    (r"(?i)^[#@]\s*sourceMappingURL\s*=\s*(\S+)", "# sourceMappingURL="),
    (r#"(?i)^\s*@ts-self-types\s*=\s*["']([^"']+)["']"#, " @ts-self-types="),
    (r#"(?i)^\s*@ts-types\s*=\s*["']([^"']+)["']"#, "@ts-types="),
    (r#"(?i)^\s*@deno-types\s*=\s*(?:["']([^"']+)["']|(\S+))"#, "@deno-types="),
];

/// What one of the ten captures: a text is in marks where it is the first group of an expression that has marks.
fn find_one(regex: &Regex, body: &str) -> Answer {
    let Some(found) = regex.captures(body) else { return Answer::Nothing };
    match (found.get(1), found.get(2)) {
        (Some(text), _) => Answer::Found((regex.as_str().contains("[^\""), text.start(), text.end())),
        (_, Some(text)) => Answer::Found((false, text.start(), text.end())),
        _ => Answer::Found((false, 0, 0)),
    }
}

fn main() {
    let numbers: Vec<u64> = std::env::args().skip(1).map(|n| n.parse().expect("SEED COUNT")).collect();
    let (seed, count) = (numbers[0], numbers[1]);
    let mut random = Random(seed | 1);
    let (mut bodies, mut found, mut refused) = (0, 0, 0);
    let mut same = |table: &[u8], body: &str, expected: &Answer| {
        bodies += 1;
        found += matches!(expected, Answer::Found(_)) as u64;
        let answer = library(table, body.as_bytes());
        if answer != *expected {
            println!("steps: differs: table {table:?}, body {body:?}: {answer:?}, and {expected:?} is expected");
            std::process::exit(1);
        }
    };
    for _ in 0..count {
        let table = random.table();
        match second(&table) {
            Err(why) => {
                refused += 1;
                same(&table, &random.body(), &Answer::Refused(why));
            }
            Ok(written) => {
                let regex = Regex::new(&written.text).expect("a regular expression");
                for _ in 0..8 {
                    let body = random.body();
                    same(&table, &body, &written.find(&regex, &body));
                }
            }
        }
    }
    #[allow(dead_code)]
    let tables = include!("tables.rs");
    for ((expression, start), table) in TEN.iter().zip(tables) {
        let regex = Regex::new(expression).expect("one of the ten");
        for i in 0..count / 10 {
            let mut body = if i % 4 == 0 { random.body() } else { start.to_string() };
            body += &random.body();
            same(table, &body, &find_one(&regex, &body));
        }
    }
    println!("steps: {count} tables, {refused} of them refused, and the ten, on {bodies} bodies: {found} matches, as regex");
}
