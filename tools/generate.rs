//! generate SEED FIRST COUNT SHEETS KINDS
//! generate kinds
//! Writes COUNT sheets, from number FIRST on, as a batch (each: length as u32 little-endian, bytes) to the file SHEETS, and a line with
//! the kind of each to the file KINDS. The sheet of a number depends on SEED and that number only. `kinds` prints the well-formed kinds.
//! Kinds: `small`, `rich`, `comments`, `html` (HTML-like comments), `jsdoc`, `rules` (several readings in one comment), `near`, `tree`, `letters` and
//! `long` (a long report) are well-formed; `empty` has no bytes, which the report of the default information answers;
//! `uncooked` has uncooked pieces (refusal 9); `text` has a text at the border of UTF-8 or WTF-8;
//! `string` has a String whose place in the source is quoted or nearly so (refusal 13); `order` meets two refusals; `limit` hits a limit of document 01,
//! `over` exceeds one by one; `flip`, `cut`, `insert`, `delete`, `splice` and `number` are damaged copies; `noise` is bytes at random.
//! The span of a String, if nothing damaged it, is a quoted place of the source: it begins and ends with the same mark, `"` or `'`.

#[allow(dead_code)]
#[path = "sheet_writer.rs"]
pub mod sheet_writer;

use std::collections::BTreeMap;
use std::io::{BufWriter, Write};

use sheet_writer::{Comment, Doc, Group, put_comments, put_groups, put_number, put_program, put_text};

// ---- chance ----

struct Rng(u64);

impl Rng {
    fn next(&mut self) -> u64 {
        self.0 = self.0.wrapping_add(0x9E37_79B9_7F4A_7C15);
        let mut z = self.0;
        z = (z ^ (z >> 30)).wrapping_mul(0xBF58_476D_1CE4_E5B9);
        z = (z ^ (z >> 27)).wrapping_mul(0x94D0_49BB_1331_11EB);
        z ^ (z >> 31)
    }

    fn below(&mut self, n: usize) -> usize {
        (self.next() % n.max(1) as u64) as usize
    }

    fn percent(&mut self, p: usize) -> bool {
        self.below(100) < p
    }

    fn pick<T: Copy>(&mut self, from: &[T]) -> T {
        from[self.below(from.len())]
    }

    /// Small numbers mostly, up to `most`.
    fn few(&mut self, most: usize) -> usize {
        let n = self.below(most + 1);
        self.below(n + 1)
    }
}

// ---- texts ----

const WHITE: [&str; 12] =
    [" ", "\t", "\n", "\r\n", "\u{B}", "\u{85}", "\u{A0}", "\u{1680}", "\u{2003}", "\u{2028}", "\u{3000}", "\u{205F}"];
const NEARLY_WHITE: [&str; 7] = ["\u{FEFF}", "\u{200B}", "\u{180E}", "\u{1F}", "\u{0}", "\u{2060}", "\u{8}"];
#[rustfmt::skip]
const SPECIFIERS: [&str; 24] = [
    "./a.ts", "../decode.js", "npm:meter@1", "jsr:@x/y", "", "a", "é", "./naïve.ts", "中.d.ts", "𝒜.js", "*", "./*.css", "../*", "/abs/*",
    "a*b", ".*", "x y", "\u{FFFD}", "\u{FEFF}b", "./\u{2028}.ts", "data:,{}", "import", "from", "@import",
];
#[rustfmt::skip]
const LETTERS: [&str; 16] =
    ["A", "z", "é", "Ω", "中", "𝒜", "ſ", "K", "ª", "ͅ", "ⅷ", "ⓐ", "\u{10FFFD}", "_", "$", "9"];
#[rustfmt::skip]
const FILLER: [&str; 20] = [
    "x", "let a = 1;", "é", "中文", "𝒜", "\u{FEFF}", "\n", "\r\n", "\u{2028}", "\r", " ", "\"s\"", "{", "}", "import", "/", "*", "require(",
    "export {};", "\t",
];

fn white(r: &mut Rng) -> String {
    if r.percent(4) {
        return r.pick(&NEARLY_WHITE).into();
    }
    if r.percent(60) { " ".into() } else { r.pick(&WHITE).into() }
}

fn whites(r: &mut Rng) -> String {
    if r.percent(55) {
        return String::new();
    }
    (0..=r.few(3)).map(|_| white(r)).collect()
}

fn some_white(r: &mut Rng) -> String {
    if r.percent(5) {
        return String::new();
    }
    white(r) + &whites(r)
}

fn any_char(r: &mut Rng) -> char {
    loop {
        let limit = r.pick(&[0x80, 0x800, 0x3000, 0x1_0000, 0x2_0000, 0x11_0000]);
        if let Some(c) = char::from_u32(r.below(limit) as u32) {
            return c;
        }
    }
}

fn words(r: &mut Rng) -> String {
    (0..r.few(6))
        .map(|_| match r.below(5) {
            0 => any_char(r).to_string(),
            1 => white(r),
            _ => r.pick(&FILLER).to_string(),
        })
        .collect()
}

fn specifier(r: &mut Rng) -> String {
    match r.below(12) {
        0 => words(r),
        1 => r.pick(&["{import('b')}", "@import c from \"d\"", "*/", "\\\"", "/>"]).into(),
        _ => r.pick(&SPECIFIERS).into(),
    }
}

/// The word with the case of some letters changed, or a letter that only ignored case makes equal.
fn cased(r: &mut Rng, word: &str) -> String {
    if r.percent(60) {
        return word.into();
    }
    word.chars()
        .map(|c| match r.below(6) {
            0 => c.to_ascii_uppercase(),
            1 => c.to_ascii_lowercase(),
            2 if c.eq_ignore_ascii_case(&'s') => 'ſ',
            _ => c,
        })
        .collect()
}

fn marked(r: &mut Rng, text: &str) -> String {
    let open = r.pick(&["\"", "'"]);
    let close = if r.percent(85) { open } else { r.pick(&["\"", "'", ""]) };
    format!("{open}{text}{close}")
}

fn attribute_of(r: &mut Rng, key: &str) -> String {
    let value = match key {
        "resolution-mode" => r.pick(&["import", "require", "Import", "", "imports"]).into(),
        _ => specifier(r),
    };
    let (a, b) = (whites(r), whites(r));
    format!("{}{}{a}={b}{}", some_white(r), cased(r, key), marked(r, &value))
}

fn reference(r: &mut Rng) -> String {
    let mut s = format!("/{}<{}{}", whites(r), cased(r, "reference"), white(r));
    // often both a path and types, in either order
    if r.percent(25) {
        let first = r.below(2);
        for key in [["path", "types"][first], ["types", "path"][first]] {
            s += &attribute_of(r, key);
        }
    }
    for _ in 0..1 + r.few(3) {
        let key = r.pick(&["path", "types", "types", "resolution-mode", "lib", "no-default-lib"]);
        s += &attribute_of(r, key);
    }
    s += &whites(r);
    if r.percent(90) {
        s += "/>";
    }
    if r.percent(15) {
        s += &attribute_of(r, "resolution-mode");
    }
    s + &whites(r)
}

fn pragma(r: &mut Rng) -> String {
    let word = r.pick(&["@ts-self-types", "@ts-types", "@deno-types"]);
    let text = specifier(r);
    let value = if r.percent(75) { marked(r, &text) } else { text };
    let (a, b, c) = (whites(r), whites(r), whites(r));
    format!("{a}{}{b}={c}{value}{}", cased(r, word), words(r))
}

fn jsx(r: &mut Rng) -> String {
    let word = r.pick(&["@jsxImportSource", "@jsxImportSourceTypes"]);
    let stars = r.pick(&["", "*", "* ", "**", " * \n* "]);
    format!("{stars}{}{}{}{}{}", whites(r), cased(r, word), some_white(r), specifier(r), words(r))
}

fn source_map(r: &mut Rng) -> String {
    let sign = r.pick(&["#", "@", "#", "##", " #", ""]);
    let (a, b, c) = (whites(r), whites(r), whites(r));
    format!("{sign}{a}{}{b}={c}{}{}", cased(r, "sourceMappingURL"), specifier(r), words(r))
}

/// Whitespace of White_Space, of ECMAScript and of neither, or none.
fn spaces(r: &mut Rng) -> String {
    if r.percent(40) {
        return String::new();
    }
    (0..=r.few(3)).map(|_| if r.percent(25) { r.pick(&["\u{FEFF}", "\u{85}"]).into() } else { white(r) }).collect()
}

/// A map comment near ECMA-426's: the word as it stands there or nearly so, an empty run among others, whitespace or something else behind it.
fn standard_map(r: &mut Rng) -> String {
    let sign = r.pick(&["#", "@", "#", "@", "#", "##", " #", "", "/"]);
    let word = if r.percent(85) { "sourceMappingURL".into() } else { cased(r, "sourceMappingURL") };
    let equals = r.pick(&["=", "=", "=", "=", "=", "=", " =", "= ", "\u{FEFF}=", "=\u{85}", "==", ""]);
    let run = match r.below(4) {
        0 => specifier(r),
        _ => r.pick(&["", "a", "a.js.map", "é", "\u{85}", "a\u{85}b", "data:,{}", "𝒜.map"]).into(),
    };
    let (a, b) = (spaces(r), if r.percent(70) { spaces(r) } else { words(r) });
    format!("{sign}{a}{word}{equals}{run}{b}")
}

fn name(r: &mut Rng) -> String {
    let mut s = match r.below(8) {
        0 => any_char(r).to_string(),
        _ => r.pick(&LETTERS).to_string(),
    };
    for _ in 0..r.few(4) {
        match r.below(10) {
            0 => s.push(any_char(r)),
            1 => s += r.pick(&[":", "-", ",", "}", "\"", "="]),
            _ => s += r.pick(&LETTERS),
        }
    }
    s
}

fn quote(r: &mut Rng, text: &str) -> String {
    let mark = r.pick(&["\"", "'"]);
    format!("{mark}{text}{mark}")
}

fn block(r: &mut Rng) -> String {
    let mut s = format!("{{{}", whites(r));
    let n = r.few(4);
    if n == 0 && r.percent(20) {
        s += ",";
    }
    for i in 0..n {
        let key = r.pick(&["resolution-mode", "type", "resolution-mode", "a"]);
        let key = match r.below(12) {
            0 => name(r),
            1 => key.into(),
            _ => quote(r, key),
        };
        let value = r.pick(&["import", "require", "json", "", "Import"]);
        s += &format!("{key}{}:{}{}", whites(r), whites(r), quote(r, value));
        if i + 1 < n || r.percent(25) {
            s += &format!("{},{}", whites(r), whites(r));
        }
    }
    s + &whites(r) + "}"
}

fn brace(r: &mut Rng) -> String {
    let mut s = String::from("{");
    if r.percent(40) {
        s += &words(r);
    }
    if r.percent(15) {
        s += r.pick(&["{", "important ", "impor", "iimport", "Foo & { x: ", "typeof "]);
    }
    let text = specifier(r);
    s += &format!("import{}({}{}{}", whites(r), whites(r), quote(r, &text), whites(r));
    if r.percent(40) {
        let (a, b, c, d) = (whites(r), whites(r), whites(r), whites(r));
        s += &format!(",{a}{{{b}with{c}:{d}{}{}}}{}", block(r), whites(r), whites(r));
    }
    s += ")";
    if r.percent(50) {
        s += r.pick(&[".A", "[]", ".B<{x: 1}>", " ", "\n * "]);
    }
    if r.percent(93) {
        s += "}";
    }
    s
}

fn declaration(r: &mut Rng) -> String {
    let clause = match r.below(5) {
        0 | 1 => format!("{{{}}}", words(r).replace('}', "")),
        2 => format!("*{}as{}{}{}", whites(r), some_white(r), name(r), some_white(r)),
        3 => format!("{}{}", name(r), some_white(r)),
        _ => format!("{}, {{B}} ", name(r)),
    };
    let text = specifier(r);
    let mut s = format!("@import{}{clause}{}from{}{}", some_white(r), whites(r), whites(r), quote(r, &text));
    if r.percent(40) {
        s += &format!("{}with{}{}", whites(r), whites(r), block(r));
    }
    s
}

fn jsdoc(r: &mut Rng) -> String {
    let mut s = String::from(if r.percent(95) { "*" } else { "" });
    for _ in 0..=r.few(5) {
        s += &match r.below(8) {
            0 => words(r),
            1 => format!("\n * @param {} b", brace(r)),
            2 | 3 => brace(r),
            4 => format!("{{{}}}", brace(r)),
            5 => format!("{{import(\"{}\")}}", brace(r).replace('"', "'")),
            _ => declaration(r),
        };
        s += &whites(r);
    }
    s
}

/// Pieces of JSDoc readings, which in any order are often a reading that another one begins or ends in.
#[rustfmt::skip]
const PIECES: [&str; 20] = [
    "@import {", "@import {", "@import ", "@import", "@import * as ", "{", "{", "{{", "}", "} from ", "A ", "from", "import(", "import", "\"a\"", "'b'",
    "\"", "'", ")}", " with {\"resolution-mode\": \"import\"}",
];

/// One import that several places of a body read, or nearly so: `@import` in `@import`, braces in braces, a brace and an `@import` near each other.
fn entangled(r: &mut Rng) -> String {
    let text = specifier(r);
    let quoted = quote(r, &text);
    let (n, m) = (1 + r.few(4), 1 + r.few(4));
    match r.below(8) {
        0 => format!("{}{}}}{}from{}{quoted}", "@import {".repeat(n), words(r).replace('}', ""), whites(r), whites(r)),
        1 => format!("{}import({quoted}){}", "{".repeat(n), "}".repeat(m)),
        2 => format!("{}@import {}}} from {quoted}", "{".repeat(n), "{".repeat(m)),
        3 => format!("@import {}import({quoted})}} from {quoted}{}", "{".repeat(n), "}".repeat(m)),
        4 => format!(
            "@import {} from {}",
            r.pick(&["{", "{}", "A", "* as B", "{@import {}"]),
            quote(r, &format!("{}import('c')}}", "{".repeat(n)))
        ),
        5 => format!("{}import(\"{}@import {{}} from 'd'\")}}", "{".repeat(n), "@import {".repeat(m - 1)),
        6 => format!("{{{}{}", declaration(r), brace(r)),
        _ => (0..2 + r.below(10)).map(|_| r.pick(&PIECES)).collect(),
    }
}

/// A comment with several readings: of JSDoc imports, or of a dependency's types, by both patterns for them.
fn readings(r: &mut Rng) -> String {
    if r.percent(70) {
        return format!("*{}", (0..=r.few(3)).map(|_| entangled(r) + &whites(r)).collect::<String>());
    }
    let first = r.below(2);
    let pair = [["@ts-types", "@deno-types"][first], ["@deno-types", "@ts-types"][first]];
    let each = |word: &str, r: &mut Rng| {
        let text = specifier(r);
        let value = if r.percent(80) { marked(r, &text) } else { text };
        format!("{}{}{}={}{value}", whites(r), cased(r, word), whites(r), whites(r))
    };
    format!("{}{}{}", each(pair[0], r), white(r), each(pair[1], r))
}

/// A letter left out, doubled, changed or put in, a few times.
fn mutated(r: &mut Rng, s: &str) -> String {
    let mut v: Vec<char> = s.chars().collect();
    for _ in 0..=r.few(2) {
        let at = r.below(v.len() + 1);
        let c = match r.below(3) {
            0 => any_char(r),
            _ => r.pick(&['"', '\'', '{', '}', '(', ')', ':', ',', '=', '*', '/', '@', ' ', '\n', '<', '>', '-', 'ſ', 'i', 's']),
        };
        match r.below(5) {
            0 => v.insert(at, c),
            1 if at < v.len() => v[at] = c,
            2 if at < v.len() => v.insert(at, v[at]),
            3 if at + 1 < v.len() => v.swap(at, at + 1),
            _ if at < v.len() => {
                v.remove(at);
            }
            _ => {}
        }
    }
    v.into_iter().collect()
}

fn body(r: &mut Rng, jsdoc_only: bool, near: usize) -> String {
    let s = match if jsdoc_only { 10 } else { r.below(13) } {
        0 | 1 => reference(r),
        2..=4 => pragma(r),
        5 | 6 => jsx(r),
        7 => source_map(r),
        8 => standard_map(r),
        9 => words(r),
        _ => jsdoc(r),
    };
    if r.percent(near) { mutated(r, &s) } else { s }
}

// ---- sheets ----

/// What a kind asks for.
struct Style {
    /// Most comments, and most nodes.
    comments: usize,
    nodes: usize,
    javascript: bool,
    jsdoc: bool,
    /// Line comments are often HTML-like ones.
    html: bool,
    /// Comments are map comments, mostly in the trailing group at the program's end.
    maps: bool,
    /// Comments have several readings.
    rules: bool,
    /// Percentages: a mutated body, an uncooked piece.
    near: usize,
    uncooked: usize,
}

struct Maker<'a> {
    r: &'a mut Rng,
    out: Vec<u8>,
    source: String,
    /// Positions where something begins or ends.
    places: Vec<usize>,
    /// Those of the leading groups.
    leads: Vec<usize>,
    /// Those of the marks `"` and `'`: two of a sort enclose a quoted place.
    marks: [Vec<usize>; 2],
    /// Fields drawn before those in front of them.
    late: Vec<u8>,
    nodes: usize,
    uncooked: usize,
}

const MEDIA: usize = 11;

fn sheet(r: &mut Rng, style: &Style) -> Vec<u8> {
    let mut m = Maker {
        r,
        out: Vec::new(),
        source: String::new(),
        places: vec![0],
        leads: vec![],
        marks: [vec![], vec![]],
        late: vec![],
        nodes: style.nodes,
        uncooked: style.uncooked,
    };
    let media = match (style.javascript, m.r.below(4)) {
        (true, _) => m.r.below(4),
        (false, 0) => m.r.pick(&[1, 10]),
        _ => m.r.below(MEDIA),
    };
    let comments = m.draw_source(style);
    m.out.push(media as u8);
    let source = m.source.clone();
    put_text(&mut m.out, source.as_bytes());
    put_comments(&mut m.out, &comments);
    let end = m.place();
    let item = m.place();
    let head = m.program(end, item);
    m.groups(&comments, end, if style.maps { (1, end) } else { head });
    let program = std::mem::take(&mut m.late);
    m.out.extend(program);
    let depth = if m.r.percent(3) { 63 } else { 7 };
    if m.marks.iter().all(|marks| marks.len() < 2) {
        m.empty_other();
    } else if m.r.percent(80) {
        m.other(depth, 1 + style.nodes / 20);
    } else {
        m.node(depth);
    }
    m.out
}

impl Maker<'_> {
    fn draw_source(&mut self, style: &Style) -> Vec<Comment> {
        let mut comments = Vec::new();
        if self.r.percent(5) {
            self.source += "\u{FEFF}";
        }
        if self.r.percent(8) {
            self.source += "#!/usr/bin/env deno\n";
        }
        // offsets with two and three groups of seven bits
        if style.rules && self.r.percent(6) {
            let n = self.r.pick(&[64, 16_256]) + self.r.below(128);
            self.source += &" ".repeat(n);
        }
        for _ in 0..self.r.below(style.comments + 1) {
            if style.comments > 1 && self.r.percent(35) {
                self.source += &words(self.r);
                self.places.push(self.source.len());
            }
            let b = match (style.maps, self.r.below(4)) {
                (true, 0) => source_map(self.r),
                (true, _) => standard_map(self.r),
                (false, _) if style.rules => readings(self.r),
                (false, _) => body(self.r, style.jsdoc, style.near),
            };
            let start = self.source.len();
            let line = !style.jsdoc && (b.starts_with('/') || self.r.percent(if style.html { 70 } else { 30 }));
            let kind = match (line, style.html) {
                (true, true) => self.r.pick(&[0, 2, 3]),
                (true, false) => 0,
                (false, _) => 1,
            };
            let (opening, closing) = [("//", ""), ("/*", "*/"), ("<!--", ""), ("-->", "")][usize::from(kind)];
            self.source += &format!("{opening}{b}{closing}");
            let end = self.source.len();
            comments.push((kind, start, end));
            self.places.push(start);
            self.places.push(end);
            if line || self.r.percent(30) {
                self.source += self.r.pick(&["\n", "\r\n", " ", "\u{2028}"]);
                self.places.push(self.source.len());
            }
        }
        if style.comments > 1 || self.r.percent(50) {
            self.source += &words(self.r);
        }
        // mostly a quoted place for Strings; with none there is no String
        if self.r.percent(if self.marks().iter().any(|marks| marks.len() > 1) { 30 } else { 97 }) {
            self.places.push(self.source.len());
            let text = self.r.pick(&SPECIFIERS);
            self.source += &quote(self.r, text);
        }
        self.places.push(self.source.len());
        self.marks = self.marks();
        comments
    }

    fn marks(&self) -> [Vec<usize>; 2] {
        ['"', '\''].map(|mark| self.source.match_indices(mark).map(|(at, _)| at).collect())
    }

    fn place(&mut self) -> usize {
        if self.r.percent(90) {
            return self.r.pick(&self.places);
        }
        let mut p = self.r.below(self.source.len() + 1);
        while !self.source.is_char_boundary(p) {
            p -= 1;
        }
        p
    }

    fn span(&mut self) {
        if !self.leads.is_empty() && self.r.percent(40) {
            let start = self.r.pick(&self.leads);
            let end = self.place().max(start);
            put_number(&mut self.out, start);
            put_number(&mut self.out, end);
            return;
        }
        let (a, b) = (self.place(), self.place());
        put_number(&mut self.out, a.min(b));
        put_number(&mut self.out, a.max(b));
    }

    /// A quoted place: from one mark to another of its sort, mostly to the next.
    fn quoted_span(&mut self) {
        let sorts: Vec<usize> = (0..2).filter(|sort| self.marks[*sort].len() > 1).collect();
        let marks = &self.marks[self.r.pick(&sorts)];
        let first = self.r.below(marks.len() - 1);
        let next = if self.r.percent(80) { 1 } else { 1 + self.r.below(marks.len() - first - 1) };
        put_number(&mut self.out, marks[first]);
        put_number(&mut self.out, marks[first + next] + 1);
    }

    /// Runs of comments, each at a key of its own: mostly where the head group and the end group are looked for.
    fn groups(&mut self, comments: &[Comment], end: usize, head: (u8, usize)) {
        let mut groups: BTreeMap<(u8, usize), (usize, usize)> = BTreeMap::new();
        let mut last = (0, 0);
        let mut first = 0;
        while first < comments.len() {
            let next = first + 1 + self.r.few(comments.len() - first - 1);
            let start = if self.r.percent(5) { self.r.below(first + 1) } else { first };
            let free = (0..8)
                .map(|_| match self.r.below(10) {
                    0..=3 => head,
                    4..=6 => (1, end),
                    7 | 8 => (0, self.place()),
                    _ => (self.r.below(2) as u8, self.place()),
                })
                .find(|key| !groups.contains_key(key));
            match free {
                Some(key) => {
                    groups.insert(key, (start, next - start));
                    last = key;
                }
                None => {
                    let run = groups.get_mut(&last).expect("a key is free for the first run");
                    run.1 = next - run.0;
                }
            }
            first = next;
        }
        self.leads.extend(groups.keys().filter(|key| key.0 == 0).map(|key| key.1));
        let groups: Vec<_> = groups.into_iter().map(|((side, position), (first, count))| (side, position, first, count)).collect();
        put_groups(&mut self.out, &groups);
    }

    fn flag(&mut self, percent: usize) -> bool {
        let b = self.r.percent(percent);
        self.out.push(u8::from(b));
        b
    }

    /// The program's fields, to follow the groups; and the key of the head group.
    fn program(&mut self, end: usize, item: usize) -> (u8, usize) {
        let start = self.place().min(end);
        let [script, shebang, there] = [30, 30, 60].map(|percent| self.r.percent(percent));
        put_program(&mut self.late, u8::from(script), (start, end), u8::from(shebang), there.then_some(item));
        match (there, shebang) {
            (true, _) => (0, item),
            (false, true) => (1, end),
            (false, false) => (0, start),
        }
    }

    fn wtf8(&mut self, special: &[&str]) {
        let mut bytes: Vec<u8> = match self.r.below(4) {
            0 | 1 if !special.is_empty() => self.r.pick(special).into(),
            _ => specifier(self.r).into(),
        };
        if self.r.percent(12) {
            // a surrogate at a character's boundary, unless it would complete a pair
            let mut at = self.r.below(bytes.len() + 1);
            while at < bytes.len() && bytes[at] & 0xC0 == 0x80 {
                at += 1;
            }
            let lead = self.r.percent(50);
            let second = if lead { 0xA0 } else { 0xB0 } + self.r.below(16) as u8;
            let s = [0xED, second, 0x80 + self.r.below(64) as u8];
            bytes.splice(at..at, s);
            if self.r.percent(30) {
                bytes.splice(at..at, [0xED, 0xB0, 0x80]);
            }
        }
        put_text(&mut self.out, &bytes);
    }

    fn utf8(&mut self, special: &[&str]) {
        let s = if self.r.percent(70) { self.r.pick(special).to_string() } else { name(self.r) };
        put_text(&mut self.out, s.as_bytes());
    }

    fn string(&mut self) {
        self.out.push(1);
        self.quoted_span();
        self.wtf8(&["./a.ts", "b", "json", "*", "./*"]);
    }

    fn name_node(&mut self) {
        self.out.push(2);
        self.span();
        self.utf8(&["require", "require", "require", "Require", "requires", "requir", "x"]);
    }

    fn template(&mut self, depth: usize) {
        self.out.push(3);
        self.span();
        let n = if depth == 0 { 0 } else { self.r.few(3) };
        put_number(&mut self.out, n);
        for _ in 0..=n {
            if self.flag(100 - self.uncooked) {
                self.wtf8(&["", "", "./", ".ts"]);
            }
        }
        for _ in 0..n {
            self.node(depth - 1);
        }
    }

    /// A chain of operators with strings, mostly of plus.
    fn chain(&mut self, depth: usize) {
        if depth == 0 {
            return self.string();
        }
        self.out.push(4);
        self.span();
        self.flag(92);
        match self.r.below(10) {
            0..=3 if depth > 1 => self.chain(depth - 1),
            9 => self.node(depth - 1),
            _ => self.string(),
        }
        if self.r.percent(60) {
            self.string();
        } else {
            self.node(depth - 1);
        }
    }

    fn object(&mut self, depth: usize, keys: &[&str], inner: bool) {
        self.out.push(5);
        self.span();
        let n = if depth == 0 { 0 } else { self.r.few(4) };
        put_number(&mut self.out, n);
        for _ in 0..n {
            match self.r.below(24) {
                0 => {
                    self.out.push(0);
                    self.node(depth - 1);
                }
                1 => {
                    self.out.push(1);
                    self.node(depth - 1);
                }
                k => {
                    self.out.push(2);
                    match k {
                        2 => {
                            self.out.push(0);
                            self.node(depth - 1);
                        }
                        3..=10 => {
                            self.out.push(1);
                            self.wtf8(keys);
                        }
                        _ => {
                            self.out.push(2);
                            self.utf8(keys);
                        }
                    }
                    match self.r.below(10) {
                        0 => self.node(depth - 1),
                        1..=8 if inner => self.object(depth - 1, &["type", "a", "aa", "b", "type", "é", ""], false),
                        _ => self.string(),
                    }
                }
            }
        }
    }

    fn attributes(&mut self, depth: usize) {
        let there = depth > 0 && self.r.percent(45);
        self.out.push(u8::from(there));
        if there {
            self.object(depth - 1, &["type", "a", "aa", "b", "type", "é", "", "with"], false);
        }
    }

    fn children(&mut self, depth: usize) {
        let n = if depth == 0 { 0 } else { self.r.few(4) };
        put_number(&mut self.out, n);
        for _ in 0..n {
            self.node(depth - 1);
        }
    }

    fn empty_other(&mut self) {
        self.out.push(0);
        self.span();
        self.out.push(0);
    }

    fn other(&mut self, depth: usize, most: usize) {
        self.out.push(0);
        self.span();
        let n = 1 + self.r.few(most);
        put_number(&mut self.out, n);
        for _ in 0..n {
            self.node(depth - 1);
        }
    }

    fn call(&mut self, depth: usize) {
        self.out.push(6);
        self.span();
        let callee = self.r.below(5).min(3);
        self.out.push(callee as u8);
        if callee == 3 {
            if self.r.percent(85) { self.name_node() } else { self.node(depth - 1) }
        }
        let n = self.r.pick(&[0, 1, 1, 1, 2, 2, 2, 3]);
        put_number(&mut self.out, n);
        for i in 0..n {
            self.flag(8);
            self.span();
            match (i, self.r.below(10)) {
                (0, 0..=2) => self.string(),
                (0, 3..=4) => self.template(depth - 1),
                (0, 5..=7) => self.chain(depth.min(6) - 1),
                (1, 0..=7) => self.object(depth - 1, &["with", "with", "assert", "assert", "type"], true),
                _ => self.node(depth - 1),
            }
        }
        self.children(depth - 1);
    }

    /// A node with so many levels below it.
    fn node(&mut self, depth: usize) {
        self.nodes = self.nodes.saturating_sub(1);
        if depth == 0 || self.nodes == 0 {
            return match self.r.below(3) {
                0 => self.empty_other(),
                1 => self.string(),
                _ => self.name_node(),
            };
        }
        let tag = self.r.pick(&[0, 0, 0, 1, 2, 3, 4, 5, 6, 6, 6, 6, 7, 7, 8, 9, 10, 10, 11, 12, 12]);
        match tag {
            1 => return self.string(),
            2 => return self.name_node(),
            3 => return self.template(depth),
            4 => return self.chain(depth),
            5 => return self.object(depth, &["with", "a"], true),
            6 => return self.call(depth),
            _ => {}
        }
        if tag == 0 {
            return self.other(depth, 4);
        }
        self.out.push(tag);
        self.span();
        match tag {
            7 => {
                self.flag(20);
                let phase = self.r.pick(&[0, 0, 1, 2]);
                self.out.push(phase);
                self.flag(20);
                self.string();
                self.attributes(depth);
            }
            8 => {
                self.flag(20);
                if self.flag(70) {
                    self.string();
                    self.attributes(depth);
                }
            }
            9 => {
                self.flag(20);
                self.string();
                self.attributes(depth);
            }
            10 => {
                self.string();
                self.children(depth);
                self.attributes(depth);
            }
            11 => {
                if self.flag(80) {
                    self.flag(30);
                    self.flag(30);
                    self.string();
                }
            }
            _ => {
                if self.flag(80) {
                    self.string();
                }
                self.children(depth);
            }
        }
    }
}

/// A body of many declarations, each with a character of the whole range for a name.
fn letters(r: &mut Rng) -> Vec<u8> {
    let mut source = String::from("/**");
    for _ in 0..40 {
        let c = any_char(r);
        source += &match r.below(3) {
            0 => format!("@import {c} from 'a'"),
            1 => format!("@import{c}{{}}from{c}'b'"),
            _ => format!("@import a{c}b from 'c'"),
        };
    }
    source += "*/";
    plain(r.below(4) as u8, &source, &[(1, 0, source.len())], &[(0, source.len(), 0, 1)], &[0, 0, 0, 0])
}

/// Byte sequences at the borders of what UTF-8 and WTF-8 allow, well-formed or not, in a text of some field.
fn texts(r: &mut Rng) -> Vec<u8> {
    #[rustfmt::skip]
    const SEQUENCES: [&[u8]; 31] = [
        b"a", b"\x7F", b"\x80", b"\xBF", b"\xC0\x80", b"\xC1\xBF", b"\xC2\x80", b"\xC3", b"\xDF\xBF", b"\xE0\x9F\xBF", b"\xE0\xA0\x80", b"\xE1\x80",
        b"\xED\x9F\xBF", b"\xED\xA0\x80", b"\xED\xAF\xBF", b"\xED\xB0\x80", b"\xED\xBF\xBF", b"\xED\xA0", b"\xEE\x80\x80", b"\xEF\xBF\xBD", b"\xEF\xBF\xBF",
        b"\xF0\x8F\xBF\xBF", b"\xF0\x90\x80\x80", b"\xF1\x80\x80", b"\xF4\x8F\xBF\xBF", b"\xF4\x90\x80\x80", b"\xF5\x80\x80\x80", b"\xFF",
        b"\xED\xA0\x80\xED\xB0\x80", b"\xED\xAF\xBF\xED\xBF\xBF", b"\xED\xB0\x80\xED\xA0\x80",
    ];
    let mut x = Vec::new();
    for _ in 0..=r.few(3) {
        x.extend_from_slice(r.pick(&SEQUENCES));
    }
    if r.percent(20) {
        let mut out = vec![0];
        put_text(&mut out, &x);
        // no comments, no groups; an empty program, an empty root
        out.extend([0; 11]);
        return out;
    }
    let (mut root, after): (Vec<u8>, &[u8]) = match r.below(9) {
        0 => (vec![1, 0, 2], &[]),
        1 => (vec![2, 0, 0], &[]),
        2 => (vec![3, 0, 0, 0, 1], &[]),
        3 => (vec![5, 0, 0, 1, 2, 1], &[1, 0, 2, 0]),
        4 => (vec![5, 0, 0, 1, 2, 2], &[1, 0, 2, 0]),
        5 => (vec![9, 0, 0, 0, 1, 0, 2], &[0]),
        6 => (vec![6, 0, 0, 0, 1, 0, 0, 0, 1, 0, 2], &[0]),
        7 => (vec![6, 0, 0, 0, 1, 0, 0, 0, 3, 0, 0, 0, 1], &[0]),
        _ => (vec![9, 0, 0, 0, 1, 0, 2, 0, 1, 5, 0, 0, 1, 2, 1], &[1, 0, 2, 1, b'v']),
    };
    put_text(&mut root, &x);
    root.extend(after);
    bare(&root)
}

/// A sheet of given parts; the program is the whole source, with no item.
fn plain(media: u8, source: &str, comments: &[Comment], groups: &[Group], root: &[u8]) -> Vec<u8> {
    Doc { media, source, comments, groups, span: (0, source.len()), root: root.to_vec(), ..Doc::default() }.bytes()
}

/// A sheet whose source is an empty string, for the spans of Strings, from 0 to 2.
fn bare(root: &[u8]) -> Vec<u8> {
    plain(4, "\"\"", &[], &[], root)
}

/// A report around and over 65,536 bytes: many entries with one long types pragma.
fn long_report(r: &mut Rng) -> Vec<u8> {
    let size = 500 + r.below(2000);
    let pragma = format!("//@ts-types=\"{}\"", "é".repeat(size / 2));
    let source = format!("{pragma}\n''");
    let at = pragma.len() + 1;
    let entry = 25 + size;
    let n = (65_536 / entry).saturating_sub(2) + r.below(6);
    let mut root = vec![0, 0, 0];
    put_number(&mut root, n);
    for _ in 0..n {
        for tag in [9, 1] {
            root.push(tag);
            put_number(&mut root, at);
            put_number(&mut root, at + 2);
            if tag == 9 {
                root.push(0);
            }
        }
        put_text(&mut root, &vec![b'a'; r.below(90)]);
        root.push(0);
    }
    plain(4, &source, &[(0, 0, pragma.len())], &[(0, at, 0, 1)], &root)
}

// ---- limits ----

/// A chain of nodes of one sort, so many deep, that ends in `last`.
fn nested(sort: usize, levels: usize, last: &[u8]) -> Vec<u8> {
    let (front, back): (&[u8], &[u8]) = match sort {
        0 => (&[0, 0, 0, 1], &[]),
        1 => (&[4, 0, 0, 1], &[1, 0, 2, 0]),
        2 => (&[4, 0, 0, 0, 1, 0, 2, 0], &[]),
        3 => (&[3, 0, 0, 1, 1, 0, 1, 0], &[]),
        4 => (&[5, 0, 0, 1, 0], &[]),
        5 => (&[5, 0, 0, 1, 1], &[]),
        6 => (&[5, 0, 0, 1, 2, 0], &[1, 0, 2, 0]),
        7 => (&[5, 0, 0, 1, 2, 2, 1, b'a'], &[]),
        8 => (&[6, 0, 0, 3], &[0, 0]),
        9 => (&[6, 0, 0, 0, 1, 0, 0, 0], &[0]),
        10 => (&[6, 0, 0, 1, 0, 1], &[]),
        11 => (&[10, 0, 0, 1, 0, 2, 1, b'a', 1], &[0]),
        12 => (&[10, 0, 0, 1, 0, 2, 1, b'a', 0, 1, 5, 0, 0, 1, 1], &[]),
        _ => (&[12, 0, 0, 0, 1], &[]),
    };
    // the Object of sort 12 is a level of its own
    let mut levels = levels;
    let mut out = Vec::new();
    let mut close = Vec::new();
    if sort == 12 {
        if levels % 2 == 1 {
            out.extend([0, 0, 0, 1]);
            levels -= 1;
        }
        levels /= 2;
    }
    for _ in 0..levels {
        out.extend_from_slice(front);
        close.splice(0..0, back.iter().copied());
    }
    out.extend_from_slice(last);
    out.extend(close);
    out
}

/// A sheet at a limit of document 01 (`over` 0) or one past it (`over` 1).
fn limit(r: &mut Rng, over: usize) -> Vec<u8> {
    match r.below(13) {
        0 => longest_sheet(over),
        1 => longest_source(r, over),
        2 => longest_text(r, over),
        3 => most_comments(r, over),
        4 => most_groups(over),
        5 | 6 => deepest(r, over),
        7 => deepest_held(r, over),
        8 => most_properties(r, over),
        9 => largest_number(r, over),
        10 => last_position(r, over),
        11 => last_group(r, over),
        _ => next_comment(r, over),
    }
}

const EMPTY_OTHER: &[u8] = &[0, 0, 0, 0];

/// Strings fill it.
fn longest_sheet(over: usize) -> Vec<u8> {
    let target = 65_536 + over;
    let mut root = vec![0, 0, 0, 16 + 1];
    for _ in 0..16 {
        root.extend([1, 0, 2]);
        put_text(&mut root, &[b'x'; 4000]);
    }
    let mut s = bare(&root);
    let rest = target - s.len() - 5;
    s.extend([1, 0, 2]);
    put_text(&mut s, &vec![b'y'; rest]);
    s
}

fn longest_source(r: &mut Rng, over: usize) -> Vec<u8> {
    let source = if r.percent(50) { "x".repeat(32_768 + over) } else { "é".repeat(16_384) + &"x".repeat(over) };
    plain(0, &source, &[], &[], EMPTY_OTHER)
}

/// In each node that has a text.
fn longest_text(r: &mut Rng, over: usize) -> Vec<u8> {
    let x = vec![b'a'; 4_096 + over];
    let mut root: Vec<u8> = match r.below(8) {
        0 => vec![1, 0, 2],
        1 => vec![2, 0, 0],
        2 => vec![3, 0, 0, 0, 1],
        3 => vec![5, 0, 0, 1, 2, 1],
        4 => vec![5, 0, 0, 1, 2, 2],
        5 => vec![9, 0, 0, 0, 1, 0, 2],
        6 => vec![6, 0, 0, 0, 1, 0, 0, 0, 1, 0, 2],
        _ => vec![12, 0, 0, 1, 1, 0, 2],
    };
    let after: &[u8] = match root[0] {
        5 => &[1, 0, 2, 0],
        9 | 6 | 12 => &[0],
        _ => &[],
    };
    put_text(&mut root, &x);
    root.extend(after);
    bare(&root)
}

fn most_comments(r: &mut Rng, over: usize) -> Vec<u8> {
    let n = 1_024 + over;
    let line = r.percent(50);
    let source = if line { "//".repeat(n) } else { "/**/".repeat(n) };
    let size = if line { 2 } else { 4 };
    let comments: Vec<_> = (0..n).map(|i| (u8::from(!line), size * i, size * (i + 1))).collect();
    plain(0, &source, &comments, &[(0, 0, 0, n)], EMPTY_OTHER)
}

fn most_groups(over: usize) -> Vec<u8> {
    let n = 1_024 + over;
    let source = format!("//{}", "x".repeat(n));
    let groups: Vec<_> = (0..n).map(|i| (0, i, 0, 1)).collect();
    plain(0, &source, &[(0, 0, source.len())], &groups, EMPTY_OTHER)
}

fn deepest(r: &mut Rng, over: usize) -> Vec<u8> {
    let sort = r.below(14);
    let last: &[u8] = match r.below(3) {
        0 => EMPTY_OTHER,
        1 => &[1, 0, 2, 1, b'z'],
        _ => &[2, 0, 0, 0],
    };
    bare(&nested(sort, 63 + over, last))
}

/// A String or an Object that another node holds is a level too.
fn deepest_held(r: &mut Rng, over: usize) -> Vec<u8> {
    let (hold, levels): (&[u8], usize) = match r.below(8) {
        0 => (&[7, 0, 0, 0, 0, 0, 1, 0, 2, 1, b'a', 0], 62),
        1 => (&[7, 0, 0, 0, 0, 0, 1, 0, 2, 1, b'a', 1, 5, 0, 0, 0], 62),
        2 => (&[7, 0, 0, 0, 0, 0, 1, 0, 2, 1, b'a', 1, 5, 0, 0, 1, 0, 1, 0, 2, 0], 61),
        3 => (&[8, 0, 0, 0, 1, 1, 0, 2, 1, b'a', 0], 62),
        4 => (&[9, 0, 0, 0, 1, 0, 2, 1, b'a', 0], 62),
        5 => (&[10, 0, 0, 1, 0, 2, 1, b'a', 0, 0], 62),
        6 => (&[11, 0, 0, 1, 0, 0, 1, 0, 2, 1, b'a'], 62),
        _ => (&[12, 0, 0, 1, 1, 0, 2, 1, b'a', 0], 62),
    };
    bare(&nested(0, levels + over, hold))
}

fn most_properties(r: &mut Rng, over: usize) -> Vec<u8> {
    let mut root = vec![5, 0, 0, 64 + over as u8];
    for i in 0..64 + over {
        root.extend([2, 2, 2, b'a' + (i % 26) as u8, b'a' + (i / 26) as u8, 1, 0, 2, 0]);
    }
    if r.percent(50) {
        root = [&[9, 0, 0, 0, 1, 0, 2, 1, b'x', 1][..], &root].concat();
    }
    bare(&root)
}

/// As a count of children, and as a group's first comment.
fn largest_number(r: &mut Rng, over: usize) -> Vec<u8> {
    let n = 4_294_967_295 + over;
    let mut root = vec![0, 0, 0];
    if r.percent(50) {
        put_number(&mut root, n);
        return plain(0, "", &[], &[], &root);
    }
    plain(0, "//", &[(0, 0, 2)], &[(0, 0, n, 1)], EMPTY_OTHER)
}

/// Positions at the source's end and past it; inside a character is past a boundary by one.
fn last_position(r: &mut Rng, over: usize) -> Vec<u8> {
    let source = r.pick(&["", "é", "aé", "中"]);
    let at = source.len() + over;
    let mut root = vec![0];
    put_number(&mut root, 0);
    put_number(&mut root, at);
    root.push(0);
    if over == 1 && !source.is_empty() && r.percent(50) {
        root[1] = source.len() as u8 - 1;
        root[2] = source.len() as u8;
    }
    plain(0, source, &[], &[], &root)
}

/// A group's reach, and its order.
fn last_group(r: &mut Rng, over: usize) -> Vec<u8> {
    let groups = match r.below(3) {
        0 => vec![(0, 0, 0, 2 + over)],
        1 => vec![(0, 0, over, 2)],
        _ => vec![(0, 1 + over, 0, 2), (0, 2, 0, 2)],
    };
    plain(0, "////", &[(0, 0, 2), (0, 2, 4)], &groups, EMPTY_OTHER)
}

/// Comments that touch, and that overlap by one; a block of four bytes, and of three.
fn next_comment(r: &mut Rng, over: usize) -> Vec<u8> {
    let (source, comments): (&str, &[Comment]) = match (r.below(2), over) {
        (0, 0) => ("////", &[(0, 0, 2), (0, 2, 4)]),
        (0, _) => ("////", &[(0, 0, 3), (0, 2, 4)]),
        (_, 0) => ("/**/", &[(1, 0, 4)]),
        (..) => ("/*/", &[(1, 0, 3)]),
    };
    plain(0, source, comments, &[(0, 0, 0, comments.len())], EMPTY_OTHER)
}

/// A sheet with one String, a node of its own or held by another, at a place that is quoted or misses that nearly; what follows the place may be
/// wrong too.
fn strings(r: &mut Rng) -> Vec<u8> {
    let source = "\"a\" 'b' `c` \"d' 'e\" \"é\" \"\" ''";
    let (start, end) = match r.below(8) {
        // quoted
        0 => r.pick(&[(0, 3), (4, 7), (0, 19), (20, 24), (25, 27), (28, 30), (4, 15)]),
        // one byte
        1 => r.pick(&[(0, 1), (2, 3), (4, 5), (28, 29)]),
        // unlike marks
        2 => r.pick(&[(12, 15), (16, 19), (0, 5), (4, 19)]),
        // a backtick, or other bytes
        3 => r.pick(&[(8, 11), (1, 2), (3, 4), (0, 9), (8, 13)]),
        // empty
        4 => r.pick(&[(0, 0), (3, 3), (30, 30)]),
        // from or up to the inside of a character
        5 => r.pick(&[(20, 22), (22, 24), (22, 23)]),
        // shifted by a byte
        6 => r.pick(&[(1, 4), (0, 2), (1, 3), (0, 4), (26, 28)]),
        // past the source, or an end before its start
        _ => r.pick(&[(28, 31), (3, 0), (30, 28)]),
    };
    let mut string = vec![1];
    put_number(&mut string, start);
    put_number(&mut string, end);
    string.extend(match r.below(8) {
        0 => vec![0x80],
        1 => vec![0x81, 0x20],
        2 => vec![2, b'a', 0xFF],
        3 => vec![3, b'a'],
        _ => vec![1, b'a'],
    });
    let (front, back): (&[u8], &[u8]) = match r.below(8) {
        0 => (&[], &[]),
        1 => (&[7, 0, 0, 0, 0, 0], &[0]),
        2 => (&[8, 0, 0, 0, 1], &[0]),
        3 => (&[9, 0, 0, 0], &[0]),
        4 => (&[10, 0, 0], &[0, 0]),
        5 => (&[11, 0, 0, 1, 0, 0], &[]),
        6 => (&[12, 0, 0, 1], &[0]),
        _ => (&[9, 0, 0, 0, 1, 0, 3, 0, 1, 5, 0, 0, 1, 2, 2, 1, b'k'], &[]),
    };
    plain(4, source, &[], &[], &[front, &string, back].concat())
}

/// A sheet that meets two refusals, at one field or at two that are close: the first in checking order counts.
fn order(r: &mut Rng) -> Vec<u8> {
    let empty: &[u8] = &[0, 0, 0, 0];
    let comments = |pairs: &[(u8, usize, usize)], groups: &[(u8, usize, usize, usize)]| plain(0, "////\u{E9}/**/", pairs, groups, empty);
    let uncooked: &[u8] = &[6, 0, 0, 0, 1, 0, 0, 0, 3, 0, 0, 0, 0, 0];
    match r.below(22) {
        // too deep, and a tag out of range, one that the place does not allow, or none
        0 => bare(&nested(0, 64, &[13])),
        1 => bare(&nested(0, 64, &[])),
        2 => bare(&nested(0, 63, &[9, 0, 0, 0, 2])),
        3 => bare(&nested(0, 63, &[9, 0, 0, 0])),
        4 => bare(&nested(0, 63, &[9, 0, 0, 0, 1, 9, 9])),
        // a comment that starts too early, past the source or inside a character; whose end is wrong and whose marks are
        5 => comments(&[(0, 2, 4), (0, 0, 20)], &[]),
        6 => comments(&[(0, 2, 6), (0, 5, 6)], &[]),
        7 => comments(&[(0, 4, 2)], &[]),
        8 => comments(&[(0, 1, 2), (2, 0, 0)], &[]),
        9 => comments(&[(0, 4, 5)], &[]),
        // a group out of order and past the source, or cut off behind its position; one that is empty and out of reach
        10 => comments(&[(0, 0, 2)], &[(0, 4, 0, 1), (0, 20, 0, 1)]),
        11 => comments(&[(0, 0, 2)], &[(0, 4, 0, 1), (0, 5, 0, 1)]),
        12 => vec![0, 2, b'/', b'/', 1, 0, 0, 2, 2, 1, 0, 0, 1, 0, 0],
        13 => comments(&[(0, 0, 2)], &[(0, 0, 7, 0)]),
        14 => comments(&[(0, 0, 2)], &[(1, 0, 0, 1), (0, 1, 0, 1), (2, 0, 0, 1)]),
        // a comment in no group, and nothing behind the groups
        15 => vec![0, 2, b'/', b'/', 1, 0, 0, 2, 0],
        16 => comments(&[(0, 0, 2), (0, 2, 4)], &[(0, 0, r.below(2), 1)]),
        // a length over its limit, and cut off; bytes that are cut off, and ill-formed
        17 => bare(&[1, 0, 2, 0x81, 0x20]),
        18 => bare(&[1, 0, 2, 2, 0xFF]),
        19 => bare(&[5, 0, 0, 65]),
        // bytes behind the root, and an uncooked piece
        20 => bare(&[uncooked, &[0]].concat()),
        _ => bare(&[0, r.below(2) as u8, 0, 0x80, r.below(2) as u8]),
    }
}

// ---- damage ----

fn damaged(r: &mut Rng, kind: &str, mut s: Vec<u8>, other: &[u8]) -> Vec<u8> {
    for _ in 0..=r.few(2) {
        let at = r.below(s.len());
        match kind {
            "flip" if at < s.len() => s[at] ^= 1 << r.below(8),
            "cut" => s.truncate(at),
            "insert" => s.insert(at, r.pick(&[0, 1, 2, 3, 5, 6, 12, 13, 0x7F, 0x80, 0xBF, 0xC3, 0xED, 0xFF])),
            "delete" if at < s.len() => {
                s.remove(at);
            }
            "splice" if at < s.len() => {
                let from = r.below(other.len());
                let n = r.few(8).min(other.len() - from);
                let end = (at + r.few(8)).min(s.len());
                s.splice(at..end, other[from..from + n].iter().copied());
            }
            "number" if at < s.len() => {
                let n = r.pick(&[0, 1, 64, 65, 127, 128, 1024, 1025, 4096, 4097, 32_768, 32_769, 0xFFFF_FFFF]);
                let mut b = Vec::new();
                put_number(&mut b, n);
                if r.percent(20) {
                    *b.last_mut().unwrap() |= 0x80;
                    b.push(0);
                }
                s.splice(at..at + 1, b);
            }
            _ => {}
        }
    }
    s
}

fn well_formed(r: &mut Rng, kind: &str) -> Vec<u8> {
    let mut style =
        Style { comments: 8, nodes: 80, javascript: false, jsdoc: false, html: false, maps: false, rules: false, near: 15, uncooked: 0 };
    match kind {
        "small" => (style.comments, style.nodes) = (1, 4),
        "comments" => (style.comments, style.nodes) = (16, 8),
        "jsdoc" => (style.comments, style.nodes, style.javascript, style.jsdoc) = (5, 3, true, true),
        "html" => (style.comments, style.nodes, style.html, style.near) = (8, 30, true, 30),
        "maps" => (style.comments, style.nodes, style.maps) = (4, 3, true),
        "rules" => (style.comments, style.nodes, style.javascript, style.rules) = (5, 8, true, true),
        "near" => (style.comments, style.nodes, style.near) = (8, 8, 100),
        "tree" => (style.comments, style.nodes) = (3, 300),
        "uncooked" => (style.comments, style.nodes, style.uncooked) = (2, 60, 40),
        "letters" => return letters(r),
        "long" => return long_report(r),
        _ => {}
    }
    loop {
        let s = sheet(r, &style);
        if s.len() <= 65_536 {
            return s;
        }
    }
}

/// The kinds whose sheets meet none of refusals 1 to 9 and 13.
const WELL_FORMED: [&str; 12] = ["small", "empty", "rich", "comments", "html", "maps", "jsdoc", "rules", "near", "tree", "letters", "long"];

/// How many sheets are of each kind, among as many as the numbers make together.
#[rustfmt::skip]
const KINDS: [(&str, usize); 24] = [
    ("small", 145), ("empty", 5), ("text", 20), ("string", 20), ("order", 10), ("rich", 200), ("comments", 130), ("html", 80),
    ("maps", 100), ("jsdoc", 180), ("rules", 130), ("near", 130), ("tree", 120), ("letters", 20), ("uncooked", 20), ("long", 2),
    ("flip", 40), ("cut", 30), ("insert", 30), ("delete", 30), ("splice", 30), ("number", 20), ("noise", 8), ("limit", 10),
];

pub fn make(seed: u64, index: u64) -> (&'static str, Vec<u8>) {
    let mut r = Rng(seed.wrapping_mul(0xD6E8_FEB8_6659_FD93) ^ index.wrapping_mul(0xA076_1D64_78BD_642F));
    let r = &mut r;
    r.next();
    let mut at = r.below(KINDS.iter().map(|k| k.1).sum());
    let mut kind = "rich";
    for (k, share) in KINDS {
        kind = k;
        if at < share {
            break;
        }
        at -= share;
    }
    match kind {
        "limit" if r.percent(50) => ("over", limit(r, 1)),
        "limit" => ("limit", limit(r, 0)),
        "empty" => (kind, Vec::new()),
        "text" => (kind, texts(r)),
        "string" => (kind, strings(r)),
        "order" => (kind, order(r)),
        "noise" => {
            let n = r.few(60);
            let small = r.percent(50);
            (kind, (0..n).map(|_| if small { r.below(14) as u8 } else { r.next() as u8 }).collect())
        }
        "flip" | "cut" | "insert" | "delete" | "splice" | "number" => {
            let from = r.pick(&["rich", "comments", "html", "tree", "jsdoc", "uncooked"]);
            let s = well_formed(r, from);
            let other = well_formed(r, "rich");
            (kind, damaged(r, kind, s, &other))
        }
        _ => (kind, well_formed(r, kind)),
    }
}

fn main() -> std::io::Result<()> {
    let args: Vec<String> = std::env::args().skip(1).collect();
    if args == ["kinds"] {
        println!("{}", WELL_FORMED.join(" "));
        return Ok(());
    }
    let [seed, first, count, sheets, kinds] = &args[..] else {
        eprintln!("usage: generate SEED FIRST COUNT SHEETS KINDS | kinds");
        std::process::exit(2)
    };
    let numeral = |s: &str| {
        s.parse::<u64>().unwrap_or_else(|_| {
            eprintln!("generate: {s} is no number");
            std::process::exit(2)
        })
    };
    let (seed, first, count) = (numeral(seed), numeral(first), numeral(count));
    let mut sheets = BufWriter::new(std::fs::File::create(sheets)?);
    let mut kinds = BufWriter::new(std::fs::File::create(kinds)?);
    for index in first..first + count {
        let (kind, sheet) = make(seed, index);
        sheets.write_all(&(sheet.len() as u32).to_le_bytes())?;
        sheets.write_all(&sheet)?;
        writeln!(kinds, "{kind}")?;
    }
    sheets.flush()?;
    kinds.flush()
}
