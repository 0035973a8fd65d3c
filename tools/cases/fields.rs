//! Refusals by fields: a sheet as the list of its fields, each of which can be wrong in several ways.

use std::collections::BTreeSet;

use crate::Cases;
use crate::sheets::{Bytes, number, text};

pub fn all(c: &mut Cases) {
    each(c);
    pairs(c);
}

#[derive(Clone, Copy, PartialEq, Eq, PartialOrd, Ord)]
enum Sort {
    /// A byte or a flag, below this.
    Byte(u8),
    /// A node's tag, where any node may stand, or this one only.
    Tag,
    Only(u8),
    /// A number without a limit, or a count or length with one.
    Number,
    Limited(usize),
    /// The bytes of a text, behind its length: UTF-8 or WTF-8.
    Utf8,
    Wtf8,
    /// A position, and one that may not precede that in front of it; that of a String, which also asks for the marks.
    Position,
    End,
    StringEnd,
}

struct Field {
    name: String,
    sort: Sort,
    bytes: Bytes,
}

/// A sheet in the making.
struct Fields {
    source: &'static str,
    /// The span of a node that is no String.
    span: (usize, usize),
    path: Vec<&'static str>,
    all: Vec<Field>,
}

impl Fields {
    fn put(&mut self, name: &'static str, sort: Sort, bytes: Bytes) {
        let name = [&self.path[..], &[name]].concat().join(".");
        self.all.push(Field { name, sort, bytes });
    }

    fn inside(&mut self, name: &'static str, fill: impl FnOnce(&mut Fields)) {
        self.path.push(name);
        fill(self);
        self.path.pop();
    }

    fn byte(&mut self, name: &'static str, values: u8, value: u8) {
        self.put(name, Sort::Byte(values), vec![value]);
    }

    fn flag(&mut self, name: &'static str, value: u8) {
        self.byte(name, 2, value);
    }

    fn number(&mut self, name: &'static str, n: usize) {
        self.put(name, Sort::Number, number(n));
    }

    fn position(&mut self, name: &'static str, p: usize) {
        self.put(name, Sort::Position, number(p));
    }

    fn span(&mut self, start: usize, end: usize) {
        self.position("start", start);
        self.put("end", Sort::End, number(end));
    }

    fn text(&mut self, limit: usize, sort: Sort, value: &str) {
        self.put("length", Sort::Limited(limit), number(value.len()));
        self.put("text", sort, value.into());
    }

    /// A node that may be any: its tag and its span.
    fn node(&mut self, tag: u8) {
        self.put("tag", Sort::Tag, vec![tag]);
        self.span(self.span.0, self.span.1);
    }

    fn leaf(&mut self, name: &'static str) {
        self.inside(name, |f| {
            f.node(0);
            f.number("count", 0);
        });
    }

    fn string(&mut self, name: &'static str, sort: Sort) {
        self.inside(name, |f| {
            f.put("tag", sort, vec![1]);
            f.position("start", 0);
            f.put("end", Sort::StringEnd, number(4));
            f.text(4096, Sort::Wtf8, "s");
        });
    }

    fn name(&mut self, name: &'static str) {
        self.inside(name, |f| {
            f.node(2);
            f.text(4096, Sort::Utf8, "n");
        });
    }

    /// An Object where no other node may stand, behind its flag.
    fn object(&mut self) {
        self.flag("object flag", 1);
        self.inside("Object", |f| {
            f.put("tag", Sort::Only(5), vec![5]);
            f.span(1, 3);
            f.put("count", Sort::Limited(64), number(1));
            f.key(2, |f| f.text(4096, Sort::Utf8, "k"));
        });
    }

    /// A property with a key, and a String for its value.
    fn key(&mut self, byte: u8, fill: impl FnOnce(&mut Fields)) {
        self.inside(["child key", "string key", "name key"][byte as usize], |f| {
            f.byte("property", 3, 2);
            f.byte("key", 3, byte);
            fill(f);
            f.string("value", Sort::Tag);
        });
    }
}

/// The source of a form: a quoted place with a character of two bytes.
const QUOTED: &str = "\"é\"";

/// A sheet up to its root, with two comments and two groups or with none.
fn header(with_comments: bool) -> Fields {
    let (source, span) = if with_comments { ("//é/**/", (4, 8)) } else { (QUOTED, (1, 3)) };
    let mut f = Fields { source, span, path: vec![], all: vec![] };
    f.byte("media", 11, 4);
    f.inside("source", |f| f.text(32_768, Sort::Utf8, source));
    if !with_comments {
        f.put("comment count", Sort::Limited(1024), vec![0]);
        f.put("group count", Sort::Limited(1024), vec![0]);
        f.flag("script", 0);
        f.inside("program", |f| f.span(0, 4));
        f.flag("shebang", 0);
        f.flag("item flag", 0);
        return f;
    }
    f.put("comment count", Sort::Limited(1024), vec![2]);
    for (name, kind, start, end) in [("comment 1", 0, 0, 4), ("comment 2", 1, 4, 8)] {
        f.inside(name, |f| {
            f.byte("kind", 4, kind);
            f.span(start, end);
        });
    }
    f.put("group count", Sort::Limited(1024), vec![2]);
    for (name, side, position, first) in [("group 1", 0, 4, 0), ("group 2", 1, 8, 1)] {
        f.inside(name, |f| {
            f.flag("side", side);
            f.position("position", position);
            f.number("first", first);
            f.number("count", 1);
        });
    }
    f.flag("script", 1);
    f.inside("program", |f| f.span(4, 8));
    f.flag("shebang", 1);
    f.flag("item flag", 1);
    f.position("item", 4);
    f
}

pub const FORMS: [&str; 13] = [
    "Other",
    "String",
    "Name",
    "Template",
    "Binary",
    "Object",
    "Call",
    "Import",
    "NamedExport",
    "ExportAll",
    "ImportType",
    "ImportEquals",
    "Module",
];

/// A node of each form with all that it can hold.
fn form(f: &mut Fields, tag: u8) {
    match tag {
        1 => return f.string("String", Sort::Tag),
        2 => return f.name("Name"),
        _ => {}
    }
    f.inside(FORMS[tag as usize], |f| {
        f.node(tag);
        match tag {
            0 => children(f),
            3 => {
                f.number("hole count", 1);
                f.inside("piece 1", |f| {
                    f.flag("cooked", 1);
                    f.text(4096, Sort::Wtf8, "p");
                });
                f.inside("piece 2", |f| f.flag("cooked", 0));
                f.leaf("hole");
            }
            4 => {
                f.flag("plus", 1);
                f.string("left", Sort::Tag);
                f.name("right");
            }
            5 => properties(f),
            6 => call(f),
            _ => declaration(f, tag),
        }
    });
}

fn children(f: &mut Fields) {
    f.number("child count", 1);
    f.leaf("child");
}

fn properties(f: &mut Fields) {
    f.put("count", Sort::Limited(64), number(5));
    f.byte("spread property", 3, 0);
    f.leaf("spread");
    f.byte("other property", 3, 1);
    f.leaf("other");
    f.key(0, |f| f.leaf("child"));
    f.key(1, |f| f.text(4096, Sort::Wtf8, "a"));
    f.key(2, |f| f.text(4096, Sort::Utf8, "b"));
}

fn call(f: &mut Fields) {
    f.byte("callee", 4, 3);
    f.name("expression");
    f.number("argument count", 2);
    for (name, spread) in [("argument 1", 0), ("argument 2", 1)] {
        f.inside(name, |f| {
            f.flag("spread", spread);
            f.span(1, 3);
            f.leaf("node");
        });
    }
    children(f);
}

fn declaration(f: &mut Fields, tag: u8) {
    match tag {
        7 => {
            f.flag("type-only", 1);
            f.byte("phase", 3, 2);
            f.flag("side effect", 1);
        }
        8 => {
            f.flag("type-only", 1);
            f.flag("String flag", 1);
        }
        9 => f.flag("type-only", 1),
        11 => {
            f.flag("external", 1);
            f.flag("type-only", 1);
            f.flag("export", 1);
        }
        12 => f.flag("named", 1),
        _ => {}
    }
    f.string("String", Sort::Only(1));
    if tag == 10 || tag == 12 {
        children(f);
    }
    if tag < 11 {
        f.object();
    }
}

// ---- refusals by fields ----

/// What stands behind a wrong field: nothing, since that is judged later; these bytes; or the fields that follow.
#[derive(Clone)]
enum Behind {
    Nothing,
    These(Bytes),
    Rest,
}

/// A way in which a field is wrong: its refusal, and the bytes that stand for it and for so many fields in front of it.
struct Way {
    number: u8,
    what: &'static str,
    back: usize,
    bytes: Bytes,
    behind: Behind,
}

pub const TOO_LARGE: [u8; 5] = [0x80, 0x80, 0x80, 0x80, 0x10];
pub const LARGEST: [u8; 5] = [0xFF, 0xFF, 0xFF, 0xFF, 0x0F];

fn ways(field: &Field, source: &str) -> Vec<Way> {
    let way = |number, what, bytes: &[u8]| Way { number, what, back: 0, bytes: bytes.into(), behind: Behind::Nothing };
    // at the first field that would be no sheet
    let mut all = if field.name == "media" { vec![] } else { vec![way(2, "cut off", &[])] };
    let last = source.len();
    match field.sort {
        Sort::Byte(values) => all.push(way(3, "over", &[values])),
        Sort::Tag => all.push(way(3, "13", &[13])),
        Sort::Only(tag) => all.extend([0, 6 - tag, tag + 1, 13].map(|t| way(3, "not allowed", &[t]))),
        Sort::Utf8 | Sort::Wtf8 => {
            // the length in front of it is another
            let ill_formed: &[u8] = if field.sort == Sort::Utf8 { b"\xED\xA0\x80" } else { b"\xED\xA0\x80\xED\xB0\x80" };
            all.push(Way { back: 1, ..way(2, "cut off, ill-formed", &[2, 0xFF]) });
            all.push(Way { back: 1, ..way(5, "a surrogate", &text(ill_formed)) });
        }
        Sort::Number => {
            // a byte behind it that no field allows
            let behind = Behind::These(vec![255]);
            all.push(Way { behind: behind.clone(), ..way(2, "too large", &TOO_LARGE) });
            if !field.name.starts_with("group") {
                all.push(Way { behind, ..way(3, "the largest, and 255", &LARGEST) });
            }
        }
        Sort::Limited(limit) => {
            all.push(way(2, "too large", &TOO_LARGE));
            all.push(way(4, "over", &number(limit + 1)));
            let next = if field.name.ends_with("length") { 2 } else { 3 };
            all.push(Way { behind: Behind::These(vec![255]), ..way(next, "at the limit, and 255", &number(limit)) });
        }
        Sort::Position | Sort::End | Sort::StringEnd => {
            all.push(way(2, "too large", &TOO_LARGE));
            all.push(way(6, "past the source", &number(last + 1)));
            all.push(way(6, "inside a character", &number(source.find('é').expect("there is one") + 1)));
            if field.sort != Sort::Position {
                all.push(Way { back: 1, ..way(6, "before its start", &[last as u8, last as u8 - 1]) });
            }
            if field.sort == Sort::StringEnd {
                all.push(way(13, "a byte early", &number(last - 1)));
            }
        }
    }
    if matches!(field.sort, Sort::Number | Sort::Limited(_) | Sort::Position | Sort::End | Sort::StringEnd) {
        all.push(way(2, "cut off inside", &[0x80]));
        all.push(Way { behind: Behind::Rest, ..way(2, "not shortest", &[field.bytes[0] | 0x80, 0]) });
    }
    all
}

/// The sheet whose field i is wrong in that way.
fn wrong(f: &Fields, i: usize, way: &Way) -> Bytes {
    let mut out: Bytes = f.all[..i - way.back].iter().flat_map(|field| field.bytes.clone()).collect();
    out.extend(&way.bytes);
    match &way.behind {
        Behind::Nothing => {}
        Behind::These(bytes) => out.extend(bytes),
        Behind::Rest => out.extend(f.all[i + 1..].iter().flat_map(|field| field.bytes.clone())),
    }
    out
}

/// A sheet with comments; each form as the root, then below an Other.
fn all_forms() -> Vec<(String, Fields)> {
    let mut first = header(true);
    form(&mut first, 0);
    let mut all = vec![("sheet".to_string(), first)];
    for (tag, name) in FORMS.iter().enumerate() {
        let mut f = header(false);
        form(&mut f, tag as u8);
        all.push((name.to_string(), f));
    }
    for (tag, name) in FORMS.iter().enumerate() {
        let mut f = header(false);
        f.inside("below", |f| {
            f.node(0);
            f.number("child count", 1);
            form(f, tag as u8);
        });
        all.push((format!("below.{name}"), f));
    }
    all
}

/// Every field of every form, wrong in every way; one below, in one way for each refusal (2 at the form's own fields).
fn each(c: &mut Cases) {
    // what only the reader of numbers can get wrong is asked once for each sort
    let mut read = BTreeSet::new();
    for (name, f) in all_forms() {
        let below = name.starts_with("below");
        c.add(0, format!("{name}, all there"), f.all.iter().flat_map(|field| field.bytes.clone()).collect());
        for (i, field) in f.all.iter().enumerate() {
            let own = field.name.matches('.').count() == 2;
            let mut seen = if own { BTreeSet::new() } else { BTreeSet::from([2]) };
            for way in ways(field, f.source) {
                let reader = way.what == "too large" || way.what == "cut off inside";
                let new = if below { seen.insert(way.number) } else { !reader || read.insert((field.sort, way.what)) };
                if new {
                    c.add(way.number, format!("{}, {}", field.name, way.what), wrong(&f, i, &way));
                }
            }
        }
    }
}

/// Neighbouring fields that are both wrong: the first counts. Once for each two sorts and refusals.
fn pairs(c: &mut Cases) {
    let mut seen = BTreeSet::new();
    for (_, f) in all_forms() {
        for (i, pair) in f.all.windows(2).enumerate() {
            for first in ways(&pair[0], f.source).iter().filter(|w| !w.what.starts_with("cut off")) {
                for second in ways(&pair[1], f.source).iter().filter(|w| w.back == 0 && !w.bytes.is_empty()) {
                    let new = first.number != second.number && seen.insert((pair[0].sort, first.number, pair[1].sort, second.number));
                    if new {
                        let way = Way { behind: Behind::These(second.bytes.clone()), bytes: first.bytes.clone(), ..*first };
                        let name = format!("{}, {}; then {}, {}", pair[0].name, first.what, pair[1].name, second.what);
                        c.add(first.number, name, wrong(&f, i, &way));
                    }
                }
            }
        }
    }
}
