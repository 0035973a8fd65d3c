//! The sheets that are timed. They are made here, as an exporter makes them from a parse, and are the same at each run.

#[allow(dead_code)]
#[path = "../../tools/sheet_writer.rs"]
mod sheet_writer;

use sheet_writer::{Comment, Doc, Group, list, number};

#[derive(Clone)]
pub struct Class {
    pub name: &'static str,
    pub what: &'static str,
    pub sheet: Vec<u8>,
}

/// All classes. The small decoder is a file of examples/.
pub fn classes(small_decoder: Vec<u8>) -> Vec<Class> {
    let class = |name, what, sheet| Class { name, what, sheet };
    vec![
        class("tiny", "sheet of 60 bytes", tiny()),
        class("small", "small decoder (examples/wmbus-decoder.js)", small_decoder),
        class("typical", "typical module", typical()),
        class("comments", "comment-heavy module", comment_heavy()),
        class("full", "sheet of 65,536 bytes", full()),
        // the body that `dearest` writes for 32764: no star-opened body of its length has a greater scan sum
        class("braces", "worst comment: only `{`", one_comment("{")),
        class("imports", "worst comment: `{import('a') ` over and over", one_comment("{import('a') ")),
        class("declarations", "worst comment: `@import {` over and over", one_comment("@import {")),
    ]
}

/// The classes that grow, each with the longest sheet that it has here: but for `tree` the source's limit is met first, and the crate takes too
/// long for longer ones of `braces` under valgrind.
pub const GROWING: [(&str, usize); 6] =
    [("module", 32_768), ("commented", 32_768), ("tree", MAX_SHEET), ("braces", 16_384), ("imports", 32_768), ("declarations", 32_768)];

/// A sheet of about so many bytes, and no more, of a class that grows.
pub fn grown(name: &str, bytes: usize) -> Option<Vec<u8>> {
    let (_, most) = GROWING.iter().find(|(n, _)| *n == name)?;
    if bytes > *most {
        return None;
    }
    Some(match name {
        "module" => grown_by(bytes, function),
        "commented" => grown_by(bytes, field),
        "tree" => tree(bytes),
        "braces" => one_comment_of("{", bytes - 64),
        "imports" => one_comment_of("{import('a') ", bytes - 64),
        _ => one_comment_of("@import {", bytes - 64),
    })
}

/// Parts one after the other, up to so many bytes.
fn grown_by(bytes: usize, part: fn(&mut Maker, usize)) -> Vec<u8> {
    let mut m = Maker::default();
    let mut sheet = m.sheet();
    for i in 0.. {
        part(&mut m, i);
        let longer = m.sheet();
        if longer.len() > bytes || m.source.len() > MAX_SOURCE {
            break;
        }
        sheet = longer;
    }
    sheet
}

// ---- a sheet in the making ----

const MAX_SHEET: usize = 65_536;
const MAX_SOURCE: usize = 32_768;

/// JavaScript modules only.
#[derive(Default)]
struct Maker {
    source: String,
    comments: Vec<Comment>,
    leading: Vec<Group>,
    grouped: usize,
    first_item: Option<usize>,
    children: Vec<Vec<u8>>,
}

impl Maker {
    /// A comment, which leads the next code.
    fn comment(&mut self, text: &str) {
        let start = self.source.len();
        self.source.push_str(text);
        self.comments.push((u8::from(text.starts_with("/*")), start, start + text.len()));
        self.source.push('\n');
    }

    /// Code, which begins with a token; answers where.
    fn code(&mut self, text: &str) -> usize {
        let start = self.source.len();
        if self.grouped < self.comments.len() {
            self.leading.push((0, start, self.grouped, self.comments.len() - self.grouped));
            self.grouped = self.comments.len();
        }
        self.first_item.get_or_insert(start);
        self.source.push_str(text);
        start
    }

    /// `import { NAMES } from "SPECIFIER"`, with attributes or not.
    fn import(&mut self, names: &str, specifier: &str, attributes: &[(&str, &str)]) {
        let start = self.code(&format!("import {{ {names} }} from "));
        let string = self.string(specifier);
        let mut node = vec![0, 0, 0];
        node.extend(string);
        node.push(u8::from(!attributes.is_empty()));
        if !attributes.is_empty() {
            self.source.push_str(" with ");
            let object_start = self.source.len();
            let mut properties = number(attributes.len());
            for (i, (key, value)) in attributes.iter().enumerate() {
                self.source.push_str(&format!("{}{key}: ", if i == 0 { "{ " } else { ", " }));
                properties.extend([2, 2]);
                properties.extend(text(key));
                let value = self.string(value);
                properties.extend(value);
            }
            self.source.push_str(" }");
            node.extend(head(5, object_start, self.source.len()));
            node.extend(properties);
        }
        self.source.push_str(";\n");
        self.child(7, start, node);
    }

    /// `require("SPECIFIER")` or `import("SPECIFIER")`, inside code.
    fn call(&mut self, is_import: bool, specifier: &str) {
        let start = self.source.len();
        let mut node = vec![if is_import { 0 } else { 3 }];
        self.source.push_str(if is_import { "import" } else { "require" });
        if !is_import {
            node.extend(head(2, start, self.source.len()));
            node.extend(text("require"));
        }
        self.source.push('(');
        let argument = self.source.len();
        let string = self.string(specifier);
        node.extend([1, 0]);
        node.extend(number(argument));
        node.extend(number(self.source.len()));
        node.extend(string);
        self.source.push(')');
        node.extend(number(0));
        self.child(6, start, node);
    }

    fn string(&mut self, value: &str) -> Vec<u8> {
        let start = self.source.len();
        self.source.push_str(&format!("\"{value}\""));
        [head(1, start, self.source.len()), text(value)].concat()
    }

    fn child(&mut self, tag: u8, start: usize, rest: Vec<u8>) {
        let node = [head(tag, start, self.source.len()), rest].concat();
        self.children.push(node);
    }

    /// The sheet. Comments that lead nothing trail the program's end.
    fn sheet(&self) -> Vec<u8> {
        let end = self.source.len();
        let mut groups = self.leading.clone();
        if self.grouped < self.comments.len() {
            groups.push((1, end, self.grouped, self.comments.len() - self.grouped));
        }
        let span = (self.first_item.unwrap_or(end), end);
        let root = [head(0, span.0, end), list(&self.children)].concat();
        let (source, comments, groups, item) = (&self.source, &self.comments, &groups, self.first_item);
        Doc { media: 0, source, comments, groups, span, item, root, ..Doc::default() }.bytes()
    }
}

fn text(text: &str) -> Vec<u8> {
    sheet_writer::text(text.as_bytes())
}

fn head(tag: u8, start: usize, end: usize) -> Vec<u8> {
    [vec![tag], number(start), number(end)].concat()
}

// ---- the classes ----

/// One import and nothing else, in 60 bytes.
fn tiny() -> Vec<u8> {
    let mut m = Maker::default();
    m.import("at", "./a.js", &[]);
    let sheet = m.sheet();
    assert_eq!(sheet.len(), 60);
    sheet
}

/// A source of about 15,000 bytes: 12 imports, 30 functions with comments, 3 calls.
fn typical() -> Vec<u8> {
    let mut m = Maker::default();
    m.comment(r#"/// <reference types="npm:@types/node@22" />"#);
    m.comment("// Reads the telegrams of one gateway and writes a consumption series.");
    m.comment(r#"// @ts-self-types="./series.d.ts""#);
    for i in 0..12 {
        if i % 6 == 3 {
            m.comment(&format!(r#"// @ts-types="./types/part{i}.d.ts""#));
        }
        let attributes: &[(&str, &str)] = if i % 6 == 5 { &[("type", "json")] } else { &[] };
        m.import(&format!("open{i}, close{i} as done{i}"), &format!("./parts/part{i}.js"), attributes);
    }
    for i in 0..30 {
        function(&mut m, i);
    }
    m.comment("//# sourceMappingURL=series.js.map");
    m.sheet()
}

/// A function with its comments; every tenth has a call.
fn function(m: &mut Maker, i: usize) {
    let of = if i % 3 == 0 { r#"import("./types.ts").Reading"# } else { "Reading" };
    m.comment(&format!(
        "/**\n * Adds reading {i} to the series, in litres.\n * @param {{{of}}} reading the value and its time\n * @returns {{number}} the sum\n */"
    ));
    m.code(&format!("export function add{i}(reading, series = []) {{\n"));
    if i % 10 == 9 {
        m.code("  const unit = ");
        m.call(i % 20 == 9, &format!("./units/unit{i}.js"));
        m.code(";\n");
    }
    m.comment("// a meter that runs backwards is read again");
    m.code("if (reading.volume < series.at(-1)?.volume) return open1(reading, { again: true });\n");
    m.code("  series.push({ ...reading, volume: Math.round(reading.volume * 1000) / 1000 });\n");
    m.code("  return series.reduce((sum, r) => sum + r.volume, 0);\n}\n\n");
}

/// A source of about 30,000 bytes, most of it comments.
fn comment_heavy() -> Vec<u8> {
    let mut m = Maker::default();
    m.import("Gateway", "./gateway.js", &[]);
    for i in 0.. {
        if m.source.len() > 29_500 {
            break;
        }
        field(&mut m, i);
    }
    m.comment("//# sourceMappingURL=fields.js.map");
    m.sheet()
}

/// A field with its comments.
fn field(m: &mut Maker, i: usize) {
    commented(m, i);
    m.code(&format!("export const field{i} = {};\n", 7 * i));
}

fn commented(m: &mut Maker, i: usize) {
    m.comment("// --------");
    let of = ["number", "string", r#"import("./types.ts").Field"#, "{ low: number, high: number }"][i % 4];
    let also = if i % 8 == 5 { "\n * @import { Unit } from './units.ts'" } else { "" };
    m.comment(&format!(
        "/**\n * Field {i} of the telegram, as EN 13757-3 names it; größer als null.{also}\n * @type {{{of}}}\n * @see {{@link Gateway}} for the order of the bytes\n */"
    ));
}

/// Comments, calls and a tree of small nodes, up to the longest sheet.
fn full() -> Vec<u8> {
    let mut m = Maker::default();
    for i in 0..40 {
        m.import(&format!("part{i}"), &format!("./parts/part{i}.js"), &[]);
    }
    let mut places = Vec::new();
    for i in 0.. {
        if m.source.len() > MAX_SOURCE - 400 {
            break;
        }
        places.push(value(&mut m, i));
    }
    nested(&mut m, &places, MAX_SHEET);
    // one more name fills the sheet
    let free = MAX_SHEET - m.sheet().len();
    m.children.push([head(2, 0, 0), text(&"n".repeat(free - 4))].concat());
    let sheet = m.sheet();
    assert_eq!(sheet.len(), MAX_SHEET);
    sheet
}

/// A value that a call gives, every second one with comments; answers where it stands.
fn value(m: &mut Maker, i: usize) -> usize {
    if i % 2 == 0 {
        commented(m, i);
    }
    let at = m.code(&format!("const value{i} = await "));
    m.call(i % 4 == 0, &format!("./fields/field{i}.js"));
    m.code(&format!(".then((field) => field.read(bytes, {i}));\n"));
    at
}

/// What is no dependency: other nodes, eight deep, with a name inside, up to so many bytes.
fn nested(m: &mut Maker, places: &[usize], bytes: usize) {
    let mut length = m.sheet().len();
    for at in places.iter().cycle() {
        let mut node = [head(2, *at, at + 5), text("field")].concat();
        for _ in 0..7 {
            node = [head(0, *at, at + 5), number(1), node].concat();
        }
        // the count of children takes at most two bytes more
        if length + node.len() + 8 > bytes {
            break;
        }
        length += node.len();
        m.children.push(node);
    }
}

/// Half of it values with their calls, half nodes without entries.
fn tree(bytes: usize) -> Vec<u8> {
    let mut m = Maker::default();
    let mut places = Vec::new();
    for i in 0.. {
        if i > 0 && (m.sheet().len() > bytes / 2 || m.source.len() > MAX_SOURCE - 400) {
            break;
        }
        places.push(value(&mut m, i));
    }
    nested(&mut m, &places, bytes);
    m.sheet()
}

/// The longest source, one star-opened comment with a word over and over.
fn one_comment(word: &str) -> Vec<u8> {
    one_comment_of(word, MAX_SOURCE)
}

/// A source of so many bytes.
fn one_comment_of(word: &str, bytes: usize) -> Vec<u8> {
    let room = bytes - "/***/".len();
    let body = word.repeat(room / word.len());
    let rest = " ".repeat(room - body.len());
    let source = format!("/**{body}{rest}*/");
    let mut m = Maker { comments: vec![(1, 0, source.len())], leading: vec![(0, source.len(), 0, 1)], grouped: 1, ..Maker::default() };
    m.source = source;
    m.sheet()
}
