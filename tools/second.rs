//! A second answer to sheets, from the text of docs/01-scope.md: no code of deno_graph, no crate, no parser combinators.
//! tools/compare runs it beside the library and the Rust, so that it shows where the text and the Rust differ.
//! It is slow and plain on purpose. Where the text is silent, it follows docs/DECISIONS.md.

use std::collections::BTreeMap;

/// What is read, or the refusal.
pub type Read<T> = Result<T, u8>;
type Span = (usize, usize);
/// A text and its place.
type Specifier = (Vec<u8>, Span);

// ---- characters ----

/// The character at a boundary of UTF-8, and where it ends.
fn char_at(b: &[u8], i: usize) -> Option<(char, usize)> {
    let n = match b.get(i)? {
        0..=0x7F => 1,
        0..=0xDF => 2,
        0..=0xEF => 3,
        _ => 4,
    };
    let s = std::str::from_utf8(&b[i..i + n]).expect("a boundary of UTF-8");
    s.chars().next().map(|c| (c, i + n))
}

fn is_white(c: char) -> bool {
    matches!(c as u32,
        0x09..=0x0D | 0x20 | 0x85 | 0xA0 | 0x1680 | 0x2000..=0x200A | 0x2028 | 0x2029 | 0x202F | 0x205F | 0x3000)
}

/// The end of the longest run from i on.
fn run(b: &[u8], mut i: usize, member: impl Fn(char) -> bool) -> usize {
    while let Some((c, next)) = char_at(b, i) {
        if !member(c) {
            break;
        }
        i = next;
    }
    i
}

fn white(b: &[u8], i: usize) -> usize {
    run(b, i, is_white)
}

fn some_white(b: &[u8], i: usize) -> Option<usize> {
    Some(white(b, i)).filter(|end| *end > i)
}

fn word(b: &[u8], i: usize, w: &str) -> Option<usize> {
    b[i..].starts_with(w.as_bytes()).then_some(i + w.len())
}

fn find(b: &[u8], from: usize, w: &str) -> Option<usize> {
    (from..b.len()).find(|i| b[*i..].starts_with(w.as_bytes()))
}

/// Whether a text is UTF-8, or WTF-8, by the code points that it spells.
fn well_formed(b: &[u8], wtf8: bool) -> bool {
    let mut i = 0;
    let mut lead = false;
    while i < b.len() {
        let (n, bits, least) = match b[i] {
            0..=0x7F => (1, b[i] & 0x7F, 0),
            0xC0..=0xDF => (2, b[i] & 0x1F, 0x80),
            0xE0..=0xEF => (3, b[i] & 0x0F, 0x800),
            0xF0..=0xF7 => (4, b[i] & 0x07, 0x1_0000),
            _ => return false,
        };
        let mut code = u32::from(bits);
        for k in 1..n {
            match b.get(i + k) {
                Some(x) if x & 0xC0 == 0x80 => code = code * 64 + u32::from(x & 0x3F),
                _ => return false,
            }
        }
        if code < least || code > 0x10_FFFF {
            return false;
        }
        let trail = (0xDC00..0xE000).contains(&code);
        if (0xD800..0xE000).contains(&code) && !wtf8 || trail && lead {
            return false;
        }
        lead = (0xD800..0xDC00).contains(&code);
        i += n;
    }
    true
}

fn is_surrogate(b: &[u8], i: usize) -> bool {
    b[i] == 0xED && b[i + 1] >= 0xA0
}

fn exact(b: &[u8]) -> bool {
    (0..b.len()).all(|i| !is_surrogate(b, i))
}

fn surrogates(b: &[u8]) -> usize {
    (0..b.len()).filter(|i| is_surrogate(b, *i)).count()
}

fn lossy(b: &[u8]) -> Vec<u8> {
    let mut out = b.to_vec();
    for i in 0..b.len() {
        if is_surrogate(b, i) {
            out[i..i + 3].copy_from_slice("\u{FFFD}".as_bytes());
        }
    }
    out
}

// ---- the sheet ----

#[derive(Default)]
struct Node {
    tag: u8,
    span: Span,
    /// The text of a String or a Name; the String of another node.
    text: Vec<u8>,
    string: Option<Box<Node>>,
    pieces: Vec<Option<Vec<u8>>>,
    /// The flags and small bytes in their order.
    marks: Vec<u8>,
    callee: Option<Box<Node>>,
    arguments: Vec<(bool, Span, Node)>,
    children: Vec<Node>,
    properties: Vec<Property>,
    object: Option<Box<Node>>,
}

enum Property {
    Spread(Node),
    Other(Node),
    ChildKey(Node, Node),
    Keyed(Vec<u8>, Node),
}

struct Comment {
    block: bool,
    span: Span,
    body: Span,
}

struct Sheet {
    media: u8,
    source: Vec<u8>,
    comments: Vec<Comment>,
    /// By side and position: the first comment and the one behind the last.
    groups: BTreeMap<(u8, usize), Span>,
    script: bool,
    span: Span,
    shebang: bool,
    first: Option<usize>,
    root: Node,
}

struct Cursor<'a> {
    rest: &'a [u8],
    source: &'a [u8],
}

impl<'a> Cursor<'a> {
    fn byte(&mut self) -> Read<u8> {
        let (b, rest) = self.rest.split_first().ok_or(2)?;
        self.rest = rest;
        Ok(*b)
    }

    fn among(&mut self, n: u8) -> Read<u8> {
        let b = self.byte()?;
        if b < n { Ok(b) } else { Err(3) }
    }

    fn number(&mut self) -> Read<u64> {
        let mut groups = Vec::new();
        loop {
            let b = self.byte()?;
            groups.push(b % 128);
            if b < 128 {
                break;
            }
            if groups.len() > 5 {
                return Err(2);
            }
        }
        let value = groups.iter().rev().fold(0u64, |v, g| v * 128 + u64::from(*g));
        let longer = groups.len() > 1 && groups.last() == Some(&0);
        if longer || value > 4_294_967_295 { Err(2) } else { Ok(value) }
    }

    fn up_to(&mut self, limit: u64) -> Read<u64> {
        let n = self.number()?;
        if n <= limit { Ok(n) } else { Err(4) }
    }

    fn text(&mut self, limit: u64, wtf8: bool) -> Read<&'a [u8]> {
        let n = self.up_to(limit)? as usize;
        if n > self.rest.len() {
            return Err(2);
        }
        let (text, rest) = self.rest.split_at(n);
        self.rest = rest;
        if well_formed(text, wtf8) { Ok(text) } else { Err(5) }
    }

    fn position(&mut self) -> Read<usize> {
        let p = self.number()? as usize;
        let inside = |p: usize| self.source.get(p).is_some_and(|b| b & 0xC0 == 0x80);
        if p > self.source.len() || inside(p) { Err(6) } else { Ok(p) }
    }

    fn span(&mut self) -> Read<Span> {
        let start = self.position()?;
        let end = self.position()?;
        if end < start { Err(6) } else { Ok((start, end)) }
    }

    fn only(&mut self, tag: u8, depth: usize) -> Read<Node> {
        if *self.rest.first().ok_or(2)? != tag {
            return Err(3);
        }
        self.node(depth)
    }

    fn nodes(&mut self, depth: usize) -> Read<Vec<Node>> {
        let n = self.number()?;
        (0..n).map(|_| self.node(depth)).collect()
    }

    fn object(&mut self, depth: usize) -> Read<Option<Box<Node>>> {
        Ok(if self.among(2)? == 1 { Some(Box::new(self.only(5, depth)?)) } else { None })
    }

    fn string(&mut self, depth: usize) -> Read<Option<Box<Node>>> {
        Ok(Some(Box::new(self.only(1, depth)?)))
    }

    fn property(&mut self, depth: usize) -> Read<Property> {
        Ok(match self.among(3)? {
            0 => Property::Spread(self.node(depth)?),
            1 => Property::Other(self.node(depth)?),
            _ => match self.among(3)? {
                0 => Property::ChildKey(self.node(depth)?, self.node(depth)?),
                kind => Property::Keyed(self.text(4096, kind == 1)?.to_vec(), self.node(depth)?),
            },
        })
    }

    fn node(&mut self, depth: usize) -> Read<Node> {
        let tag = self.among(13)?;
        if depth > 64 {
            return Err(4);
        }
        let mut n = Node { tag, span: self.span()?, ..Node::default() };
        if tag == 1 && !is_quoted(&self.source[n.span.0..n.span.1]) {
            return Err(13);
        }
        let below = depth + 1;
        match tag {
            0 => n.children = self.nodes(below)?,
            1 | 2 => n.text = self.text(4096, tag == 1)?.to_vec(),
            3 => {
                let holes = self.number()?;
                for _ in 0..=holes {
                    n.pieces.push(if self.among(2)? == 1 { Some(self.text(4096, true)?.to_vec()) } else { None });
                }
                n.children = (0..holes).map(|_| self.node(below)).collect::<Read<_>>()?;
            }
            4 => {
                n.marks.push(self.among(2)?);
                n.children = vec![self.node(below)?, self.node(below)?];
            }
            5 => {
                let count = self.up_to(64)?;
                n.properties = (0..count).map(|_| self.property(below)).collect::<Read<_>>()?;
            }
            6 => {
                n.marks.push(self.among(4)?);
                if n.marks[0] == 3 {
                    n.callee = Some(Box::new(self.node(below)?));
                }
                for _ in 0..self.number()? {
                    n.arguments.push((self.among(2)? == 1, self.span()?, self.node(below)?));
                }
                n.children = self.nodes(below)?;
            }
            7 => {
                n.marks = vec![self.among(2)?, self.among(3)?, self.among(2)?];
                n.string = self.string(below)?;
                n.object = self.object(below)?;
            }
            8 => {
                n.marks = vec![self.among(2)?];
                if self.among(2)? == 1 {
                    n.string = self.string(below)?;
                    n.object = self.object(below)?;
                }
            }
            9 => {
                n.marks = vec![self.among(2)?];
                n.string = self.string(below)?;
                n.object = self.object(below)?;
            }
            10 => {
                n.string = self.string(below)?;
                n.children = self.nodes(below)?;
                n.object = self.object(below)?;
            }
            11 => {
                if self.among(2)? == 1 {
                    n.marks = vec![self.among(2)?, self.among(2)?];
                    n.string = self.string(below)?;
                }
            }
            _ => {
                if self.among(2)? == 1 {
                    n.string = self.string(below)?;
                }
                n.children = self.nodes(below)?;
            }
        }
        Ok(n)
    }
}

/// Begins and ends with the same mark, which are two bytes.
fn is_quoted(place: &[u8]) -> bool {
    matches!(place, [first @ (b'"' | b'\''), .., last] if first == last)
}

fn decode(bytes: &[u8]) -> Read<Sheet> {
    if bytes.len() > 65_536 {
        return Err(1);
    }
    let mut c = Cursor { rest: bytes, source: &[] };
    let media = c.among(11)?;
    let source = c.text(32_768, false)?;
    c.source = source;
    let mut comments: Vec<Comment> = Vec::new();
    for _ in 0..c.up_to(1024)? {
        let (opening, closing): (&[u8], &[u8]) = match c.among(4)? {
            0 => (b"//", b""),
            1 => (b"/*", b"*/"),
            2 => (b"<!--", b""),
            _ => (b"-->", b""),
        };
        let start = c.position()?;
        if comments.last().is_some_and(|last| start < last.span.1) {
            return Err(7);
        }
        let end = c.position()?;
        if end < start {
            return Err(6);
        }
        let whole = &source[start..end];
        if whole.len() < opening.len() + closing.len() || !whole.starts_with(opening) || !whole.ends_with(closing) {
            return Err(7);
        }
        let body = (start + opening.len(), end - closing.len());
        comments.push(Comment { block: !closing.is_empty(), span: (start, end), body });
    }
    let mut groups = BTreeMap::new();
    for _ in 0..c.up_to(1024)? {
        let key = (c.among(2)?, c.position()?);
        if groups.last_key_value().is_some_and(|(last, _)| *last >= key) {
            return Err(7);
        }
        let (first, count) = (c.number()? as usize, c.number()? as usize);
        if count == 0 || first + count > comments.len() {
            return Err(7);
        }
        groups.insert(key, (first, first + count));
    }
    if !(0..comments.len()).all(|i| groups.values().any(|g| g.0 <= i && i < g.1)) {
        return Err(7);
    }
    let script = c.among(2)? == 1;
    let span = c.span()?;
    let shebang = c.among(2)? == 1;
    let first = if c.among(2)? == 1 { Some(c.position()?) } else { None };
    let root = c.node(1)?;
    if !c.rest.is_empty() {
        return Err(8);
    }
    Ok(Sheet { media, source: source.to_vec(), comments, groups, script, span, shebang, first, root })
}

// ---- patterns: a regular expression, matched by going back ----

enum Step {
    One(Class),
    /// The longest or the shortest run first, of at least so many.
    Many(Class, usize, bool),
    Open(usize),
    Close(usize),
    Either(Vec<Step>, Vec<Step>),
}

enum Class {
    Letter(char),
    White(bool),
    NoNewline,
    Set(Vec<char>, bool),
    WhiteOr(char),
}

impl Class {
    fn has(&self, c: char) -> bool {
        match self {
            Class::Letter(l) => c.eq_ignore_ascii_case(l) || l.eq_ignore_ascii_case(&'s') && c == '\u{17F}',
            Class::White(yes) => is_white(c) == *yes,
            Class::NoNewline => c != '\n',
            Class::Set(set, yes) => set.contains(&c) == *yes,
            Class::WhiteOr(d) => is_white(c) || c == *d,
        }
    }
}

fn letters(w: &str) -> Vec<Step> {
    w.chars().map(|c| Step::One(Class::Letter(c))).collect()
}

const NO_MARKS: [char; 2] = ['"', '\''];

fn whites(least: usize) -> Step {
    Step::Many(Class::White(true), least, true)
}

/// `["']([^"']*)["']`, with at least so many characters.
fn quoted(least: usize) -> Vec<Step> {
    vec![
        Step::One(Class::Set(NO_MARKS.to_vec(), true)),
        Step::Open(1),
        Step::Many(Class::Set(NO_MARKS.to_vec(), false), least, true),
        Step::Close(1),
        Step::One(Class::Set(NO_MARKS.to_vec(), true)),
    ]
}

fn bare(group: usize) -> Vec<Step> {
    vec![Step::Open(group), Step::Many(Class::White(false), 1, true), Step::Close(group)]
}

/// `\s<key>\s*=\s*["']([^"']*)["']`
fn attribute_row(key: &str) -> Vec<Step> {
    row([vec![Step::One(Class::White(true))], letters(key), assigned(), quoted(0)])
}

fn assigned() -> Vec<Step> {
    vec![whites(0), Step::One(Class::Letter('=')), whites(0)]
}

fn row<const N: usize>(parts: [Vec<Step>; N]) -> Vec<Step> {
    parts.into_iter().flatten().collect()
}

type Groups = [Option<Span>; 3];

/// The first match from i on of the steps, then of those that follow.
fn go(b: &[u8], i: usize, steps: &[&Step], groups: &mut Groups) -> bool {
    let Some((step, rest)) = steps.split_first() else { return true };
    match step {
        Step::One(class) => match char_at(b, i) {
            Some((c, next)) if class.has(c) => go(b, next, rest, groups),
            _ => false,
        },
        Step::Many(class, least, longest) => {
            let mut ends = vec![i];
            while let Some((c, next)) = char_at(b, ends[ends.len() - 1]) {
                if !class.has(c) {
                    break;
                }
                ends.push(next);
            }
            let mut ends = ends.split_off(ends.len().min(*least));
            if *longest {
                ends.reverse();
            }
            ends.into_iter().any(|end| go(b, end, rest, groups))
        }
        Step::Open(g) | Step::Close(g) => {
            let old = groups[*g];
            groups[*g] = Some(if matches!(step, Step::Open(_)) { (i, i) } else { (old.unwrap().0, i) });
            let found = go(b, i, rest, groups);
            if !found {
                groups[*g] = old;
            }
            found
        }
        Step::Either(x, y) => [x, y].into_iter().any(|side| {
            let all: Vec<&Step> = side.iter().chain(rest.iter().copied()).collect();
            go(b, i, &all, groups)
        }),
    }
}

/// The groups of the leftmost match.
fn reads(b: &[u8], steps: &[Step], anchored: bool) -> Option<Groups> {
    let steps: Vec<&Step> = steps.iter().collect();
    let mut i = 0;
    loop {
        let mut groups = [None; 3];
        if go(b, i, &steps, &mut groups) {
            return Some(groups);
        }
        i = char_at(b, i).filter(|_| !anchored)?.1;
    }
}

struct Patterns {
    triple_slash: Vec<Step>,
    path: Vec<Step>,
    types: Vec<Step>,
    mode: Vec<Step>,
    jsx: Vec<Step>,
    jsx_types: Vec<Step>,
    source_map: Vec<Step>,
    self_types: Vec<Step>,
    ts_types: Vec<Step>,
    deno_types: Vec<Step>,
}

fn patterns() -> Patterns {
    let jsx = |w: &str| {
        let stars = vec![Step::Many(Class::WhiteOr('*'), 0, true)];
        row([stars, letters(w), vec![whites(1)], bare(1)])
    };
    let pragma = |w: &str| row([vec![whites(0)], letters(w), assigned()]);
    Patterns {
        triple_slash: row([
            letters("/"),
            vec![whites(0)],
            letters("<reference"),
            vec![Step::One(Class::White(true)), Step::Many(Class::NoNewline, 0, false)],
            letters("/>"),
        ]),
        path: attribute_row("path"),
        types: attribute_row("types"),
        mode: attribute_row("resolution-mode"),
        jsx: jsx("@jsxImportSource"),
        jsx_types: jsx("@jsxImportSourceTypes"),
        source_map: row([vec![Step::One(Class::Set(vec!['#', '@'], true)), whites(0)], letters("sourceMappingURL"), assigned(), bare(1)]),
        self_types: row([pragma("@ts-self-types"), quoted(1)]),
        ts_types: row([pragma("@ts-types"), quoted(1)]),
        deno_types: row([pragma("@deno-types"), vec![Step::Either(quoted(1), bare(2))]]),
    }
}

/// ECMAScript's WhiteSpace and LineTerminator.
fn is_space(c: char) -> bool {
    let zs = matches!(c, ' ' | '\u{A0}' | '\u{1680}' | '\u{2000}'..='\u{200A}' | '\u{202F}' | '\u{205F}' | '\u{3000}');
    zs || matches!(c, '\t' | '\u{B}' | '\u{C}' | '\u{FEFF}' | '\n' | '\r' | '\u{2028}' | '\u{2029}')
}

/// ECMA-426's comment, from request #105: the place of the run.
fn standard_run(body: &str) -> Option<Span> {
    let behind = body.strip_prefix(['#', '@'])?.trim_start_matches(is_space).strip_prefix("sourceMappingURL=")?;
    let run = behind.trim_end_matches(is_space);
    let start = body.len() - behind.len();
    (!run.contains(is_space)).then_some((start, start + run.len()))
}

// ---- JSDoc imports: places in a body ----

struct Quote {
    text: Span,
    place: Span,
}

fn quote(b: &[u8], i: usize) -> Option<Quote> {
    let mark = *b.get(i).filter(|m| **m == b'"' || **m == b'\'')?;
    let end = (i + 1..b.len()).find(|k| b[*k] == mark)?;
    Some(Quote { text: (i + 1, end), place: (i, end + 1) })
}

fn name(b: &[u8], i: usize) -> Option<usize> {
    let (c, next) = char_at(b, i)?;
    c.is_alphabetic().then(|| run(b, next, |c| !is_white(c) && c != ':' && c != '-'))
}

fn mode_of(value: &[u8]) -> u8 {
    match value {
        b"import" => 1,
        b"require" => 2,
        _ => 0,
    }
}

/// The end of a Block, and its mode.
fn block(b: &[u8], i: usize) -> Option<(usize, u8)> {
    let mut at = white(b, word(b, i, "{")?);
    let mut mode = None;
    loop {
        let (key, end) = match quote(b, at) {
            Some(q) => (q.text, q.place.1),
            None => match name(b, at) {
                Some(end) => ((at, end), end),
                None => break,
            },
        };
        let colon = word(b, white(b, end), ":")?;
        let value = quote(b, white(b, colon))?;
        if &b[key.0..key.1] == b"resolution-mode" && mode.is_none() {
            mode = Some(mode_of(&b[value.text.0..value.text.1]));
        }
        at = white(b, value.place.1);
        match word(b, at, ",") {
            Some(next) => at = white(b, next),
            None => break,
        }
    }
    Some((word(b, at, "}")?, mode.unwrap_or(0)))
}

fn brace(b: &[u8], i: usize) -> Option<(Quote, u8)> {
    let start = find(b, i + 1, "import")?;
    if b[i + 1..start].contains(&b'}') {
        return None;
    }
    let paren = word(b, white(b, start + 6), "(")?;
    let q = quote(b, white(b, paren))?;
    let mut at = white(b, q.place.1);
    let mut mode = 0;
    if let Some(next) = word(b, at, ",") {
        at = word(b, white(b, next), "{")?;
        at = word(b, white(b, at), "with")?;
        at = word(b, white(b, at), ":")?;
        (at, mode) = block(b, white(b, at))?;
        at = white(b, word(b, white(b, at), "}")?);
    }
    find(b, word(b, at, ")")?, "}")?;
    Some((q, mode))
}

fn declaration(b: &[u8], i: usize) -> Option<(Quote, u8)> {
    let at = some_white(b, i + 7)?;
    let clause = if let Some(next) = word(b, at, "{") {
        find(b, next, "}")? + 1
    } else if let Some(next) = word(b, at, "*") {
        let next = some_white(b, word(b, white(b, next), "as")?)?;
        some_white(b, name(b, next)?)?
    } else {
        some_white(b, name(b, at)?)?
    };
    let from = word(b, white(b, clause), "from")?;
    let q = quote(b, white(b, from))?;
    let mode = word(b, white(b, q.place.1), "with").and_then(|at| block(b, white(b, at)));
    Some((q, mode.map_or(0, |m| m.1)))
}

// ---- the report ----

struct Writer<'a> {
    sheet: &'a Sheet,
    out: Vec<u8>,
    /// For each dependency, how many surrogates its one text has.
    replaced: Vec<usize>,
    /// Where the nodes of the dependencies start.
    starts: Vec<usize>,
}

enum Attributes {
    None,
    Unknown,
    Known(BTreeMap<Vec<u8>, Option<Vec<u8>>>),
}

impl Writer<'_> {
    fn number(&mut self, n: usize) {
        if n < 128 {
            self.out.push(n as u8);
        } else {
            self.out.push((n % 128 + 128) as u8);
            self.number(n / 128);
        }
    }

    fn text(&mut self, x: &[u8]) {
        self.number(x.len());
        self.out.extend(x);
    }

    fn range(&mut self, span: Span) {
        for p in [span.0, span.1] {
            let (line, column) = self.sheet.position(p);
            self.number(line);
            self.number(column);
        }
    }

    fn specifier(&mut self, s: &Specifier) {
        self.text(&s.0);
        self.range(s.1);
    }

    fn optional(&mut self, s: Option<Specifier>) {
        self.out.push(u8::from(s.is_some()));
        if let Some(s) = s {
            self.specifier(&s);
        }
    }

    fn attributes(&mut self, a: Attributes) {
        match a {
            Attributes::None => self.out.push(0),
            Attributes::Unknown => self.out.push(1),
            Attributes::Known(map) => {
                self.out.push(2);
                self.number(map.len());
                for (key, value) in map {
                    self.text(&key);
                    self.out.push(u8::from(value.is_some()));
                    if let Some(value) = value {
                        self.text(&value);
                    }
                }
            }
        }
    }
}

impl Sheet {
    /// The line and the column of a place.
    fn position(&self, p: usize) -> (usize, usize) {
        let front = &self.source[..p];
        let line_start = front.iter().rposition(|b| *b == b'\n').map_or(0, |i| i + 1);
        let line = front.iter().filter(|b| **b == b'\n').count();
        (line, front[line_start..].iter().filter(|b| **b & 0xC0 != 0x80).count())
    }

    fn group(&self, side: u8, position: usize) -> &[Comment] {
        self.groups.get(&(side, position)).map_or(&[], |g| &self.comments[g.0..g.1])
    }

    fn head(&self) -> &[Comment] {
        match (self.first, self.shebang) {
            (Some(item), _) => self.group(0, item),
            (None, true) => self.group(1, self.span.1),
            (None, false) => self.group(0, self.span.0),
        }
    }

    /// What a pattern captures in a comment; its first group may stand between marks, which then belong to the place.
    fn captured(&self, c: &Comment, steps: &[Step], anchored: bool, marks: bool) -> Option<Specifier> {
        let (from, to) = c.body;
        let b = &self.source[from..to];
        let groups = reads(b, steps, anchored)?;
        let (range, around) = match groups[1] {
            Some(range) => (range, usize::from(marks)),
            None => (groups[2]?, 0),
        };
        Some((b[range.0..range.1].to_vec(), (from + range.0 - around, from + range.1 + around)))
    }

    /// The source map by ECMA-426: the place of the run, in the last comment that reads.
    fn standard_map(&self) -> Option<Span> {
        self.group(1, self.span.1).iter().rev().find_map(|c| {
            let (from, to) = c.body;
            let (start, end) = standard_run(str::from_utf8(&self.source[from..to]).expect("UTF-8"))?;
            Some((from + start, from + end))
        })
    }

    fn types_at(&self, p: &Patterns, start: usize) -> Option<Specifier> {
        let c = self.group(0, start).last()?;
        self.captured(c, &p.ts_types, true, true).or_else(|| self.captured(c, &p.deno_types, true, true))
    }

    fn references(&self, p: &Patterns, w: &mut Writer) {
        let mut found: Vec<(Specifier, Option<u8>)> = Vec::new();
        for c in self.head().iter().filter(|c| !c.block) {
            let (from, to) = c.body;
            if reads(&self.source[from..to], &p.triple_slash, true).is_none() {
                continue;
            }
            if let Some(s) = self.captured(c, &p.types, false, true) {
                let mode = self.captured(c, &p.mode, false, true).map_or(0, |m| mode_of(&m.0));
                found.push((s, Some(mode)));
            } else if let Some(s) = self.captured(c, &p.path, false, true) {
                found.push((s, None));
            }
        }
        w.number(found.len());
        for (s, mode) in found {
            w.out.push(u8::from(mode.is_some()));
            w.specifier(&s);
            w.out.extend(mode);
        }
    }

    fn jsdoc(&self, w: &mut Writer) {
        let mut found: BTreeMap<usize, (Specifier, u8)> = BTreeMap::new();
        for c in self.comments.iter().filter(|c| c.block && self.media < 4) {
            let (from, to) = c.body;
            let b = &self.source[from..to];
            if b.first() != Some(&b'*') {
                continue;
            }
            for i in 0..b.len() {
                let reading = match b[i] {
                    b'{' => brace(b, i),
                    _ if b[i..].starts_with(b"@import") => declaration(b, i),
                    _ => None,
                };
                if let Some((q, mode)) = reading {
                    let text = b[q.text.0..q.text.1].to_vec();
                    let place = (from + q.place.0, from + q.place.1);
                    let old = found.insert(place.0, ((text, place), mode));
                    assert!(old.is_none_or(|old| old.1 == mode), "two modes at one place");
                }
            }
        }
        w.number(found.len());
        for (s, mode) in found.into_values() {
            w.out.push(1);
            w.specifier(&s);
            w.out.push(mode);
        }
    }

    /// Entries in order; refusal 9 on the way.
    fn walk(&self, p: &Patterns, n: &Node, w: &mut Writer, count: &mut usize) -> Read<()> {
        let all = |nodes: &[Node], w: &mut Writer, count: &mut usize| nodes.iter().try_for_each(|n| self.walk(p, n, w, count));
        match n.tag {
            0 | 3 | 4 => all(&n.children, w, count)?,
            5 => {
                for property in &n.properties {
                    match property {
                        Property::Spread(v) | Property::Other(v) | Property::Keyed(_, v) => self.walk(p, v, w, count)?,
                        Property::ChildKey(k, v) => {
                            self.walk(p, k, w, count)?;
                            self.walk(p, v, w, count)?;
                        }
                    }
                }
            }
            6 => {
                if let Some(callee) = &n.callee {
                    self.walk(p, callee, w, count)?;
                }
                for (_, _, v) in &n.arguments {
                    self.walk(p, v, w, count)?;
                }
                all(&n.children, w, count)?;
                let kind = match (n.marks[0], &n.callee) {
                    (0, _) => 9,
                    (1, _) => 11,
                    (2, _) => 10,
                    (_, Some(callee)) if callee.tag == 2 && callee.text == b"require" => 12,
                    _ => return Ok(()),
                };
                if let Some((_, span, argument)) = n.arguments.first() {
                    self.start(p, kind, n, w, count);
                    write_argument(w, argument)?;
                    w.range(*span);
                    w.attributes(call_attributes(n.arguments.get(1)));
                }
            }
            7 => {
                let kind = if n.marks[0] == 1 { 3 } else { [0, 2, 1][n.marks[1] as usize] };
                self.fixed(p, kind, n, n.marks[2], static_attributes(n.object.as_deref()), w, count);
            }
            8 | 9 if n.string.is_some() => {
                self.fixed(p, 5 + n.marks[0], n, 0, static_attributes(n.object.as_deref()), w, count);
            }
            10 => {
                let a = n.object.as_deref().map_or(Attributes::None, object_attributes);
                self.fixed(p, 3, n, 0, a, w, count);
                all(&n.children, w, count)?;
                if let Some(object) = &n.object {
                    self.walk(p, object, w, count)?;
                }
            }
            11 if n.string.is_some() => {
                let kind = match n.marks[..] {
                    [1, _] => 3,
                    [_, 1] => 7,
                    _ => 4,
                };
                self.fixed(p, kind, n, 0, Attributes::None, w, count);
            }
            12 => {
                if let Some(s) = &n.string {
                    let path = ["./", "../", "/"].iter().any(|front| s.text.starts_with(front.as_bytes()));
                    if path || !s.text.contains(&b'*') {
                        self.fixed(p, 8, n, 0, Attributes::None, w, count);
                    }
                }
                all(&n.children, w, count)?;
            }
            _ => {}
        }
        Ok(())
    }

    fn start(&self, p: &Patterns, kind: u8, n: &Node, w: &mut Writer, count: &mut usize) {
        *count += 1;
        w.starts.push(n.span.0);
        w.out.push(kind);
        w.optional(self.types_at(p, n.span.0));
    }

    /// A static dependency.
    #[allow(clippy::too_many_arguments)]
    fn fixed(&self, p: &Patterns, kind: u8, n: &Node, side_effect: u8, a: Attributes, w: &mut Writer, count: &mut usize) {
        self.start(p, kind, n, w, count);
        let s = n.string.as_ref().expect("a String");
        w.replaced.push(surrogates(&s.text));
        w.specifier(&(lossy(&s.text), s.span));
        w.out.push(side_effect);
        w.attributes(a);
    }

    /// The report, and beside each dependency where its node starts and how many surrogates its one text has.
    fn report(&self) -> Read<(Vec<u8>, Vec<[usize; 2]>)> {
        let p = patterns();
        let mut dependencies = Writer { sheet: self, out: Vec::new(), replaced: Vec::new(), starts: Vec::new() };
        let mut count = 0;
        self.walk(&p, &self.root, &mut dependencies, &mut count)?;
        let rows = dependencies.starts.into_iter().zip(dependencies.replaced).map(|(start, number)| [start, number]).collect();
        let mut w = Writer { sheet: self, out: vec![u8::from(self.script)], replaced: Vec::new(), starts: Vec::new() };
        w.number(count);
        w.out.extend(dependencies.out);
        self.references(&p, &mut w);
        let head = self.head();
        let first = |steps: &[Step], marks: bool, there: bool, blocks: bool| {
            head.iter().filter(|c| there && (c.block || !blocks)).find_map(|c| self.captured(c, steps, true, marks))
        };
        let jsx = self.media == 1 || self.media == 10;
        w.optional(first(&p.self_types, true, self.media < 4, false));
        w.optional(first(&p.jsx, false, jsx, true));
        w.optional(first(&p.jsx_types, false, jsx, true));
        self.jsdoc(&mut w);
        let end = self.group(1, self.span.1);
        w.optional(end.iter().rev().find_map(|c| self.captured(c, &p.source_map, true, false)));
        Ok((w.out, rows))
    }
}

/// The parts of a plus chain from the left; none where it is no chain of plus that begins with a string.
fn chain(n: &Node) -> Option<Vec<Option<Vec<u8>>>> {
    let part = |n: &Node| (n.tag == 1).then(|| lossy(&n.text));
    let mut parts = Vec::new();
    let mut n = n;
    while n.tag == 4 {
        if n.marks[0] == 0 {
            return None;
        }
        parts.push(part(&n.children[1]));
        n = &n.children[0];
    }
    parts.push(Some(part(n)?));
    parts.reverse();
    Some(parts)
}

fn write_argument(w: &mut Writer, n: &Node) -> Read<()> {
    let parts = match n.tag {
        1 => {
            w.replaced.push(surrogates(&n.text));
            w.out.push(1);
            w.text(&lossy(&n.text));
            return Ok(());
        }
        3 => {
            let pieces: Option<Vec<&Vec<u8>>> = n.pieces.iter().map(Option::as_ref).collect();
            let pieces = pieces.ok_or(9)?;
            if let [piece] = pieces[..] {
                w.replaced.push(surrogates(piece));
                w.out.push(1);
                w.text(&lossy(piece));
                return Ok(());
            }
            let mut parts = Vec::new();
            for (i, piece) in pieces.iter().enumerate() {
                if i > 0 {
                    parts.push(None);
                }
                if !piece.is_empty() {
                    parts.push(Some(lossy(piece)));
                }
            }
            Some(parts)
        }
        4 => chain(n),
        _ => None,
    };
    w.replaced.push(0);
    let Some(parts) = parts else {
        w.out.push(0);
        return Ok(());
    };
    w.out.push(2);
    w.number(parts.len());
    for part in parts {
        w.out.push(u8::from(part.is_some()));
        if let Some(text) = part {
            w.text(&text);
        }
    }
    Ok(())
}

fn exact_string(n: &Node) -> Option<Vec<u8>> {
    (n.tag == 1 && exact(&n.text)).then(|| n.text.clone())
}

fn static_attributes(object: Option<&Node>) -> Attributes {
    let Some(object) = object else { return Attributes::None };
    let mut map = BTreeMap::new();
    for property in &object.properties {
        if let Property::Keyed(key, value) = property
            && exact(key)
            && let Some(text) = exact_string(value)
        {
            map.insert(key.clone(), Some(text));
        }
    }
    Attributes::Known(map)
}

fn object_attributes(object: &Node) -> Attributes {
    let mut map = BTreeMap::new();
    for property in &object.properties {
        match property {
            Property::Keyed(key, value) if exact(key) => map.insert(key.clone(), exact_string(value)),
            _ => return Attributes::Unknown,
        };
    }
    Attributes::Known(map)
}

fn call_attributes(argument: Option<&(bool, Span, Node)>) -> Attributes {
    let object = match argument {
        None => return Attributes::None,
        Some((false, _, n)) if n.tag == 5 => n,
        _ => return Attributes::Unknown,
    };
    let mut found = Attributes::None;
    let mut with = false;
    for property in &object.properties {
        let Property::Keyed(key, value) = property else { return Attributes::Unknown };
        if !exact(key) {
            return Attributes::Unknown;
        }
        if key == b"with" || key == b"assert" && !with {
            with = key == b"with";
            found = if value.tag == 5 { object_attributes(value) } else { Attributes::Unknown };
            if matches!(found, Attributes::Unknown) {
                return found;
            }
        }
    }
    found
}

/// The report of a sheet, however long, or its refusal (1 to 9, or 13); of no bytes eight zero bytes. With it the rows beside its dependencies:
/// where the node of each starts, and how many surrogates its one text has.
pub fn answer_with_rows(sheet: &[u8]) -> Read<(Vec<u8>, Vec<[usize; 2]>)> {
    if sheet.is_empty() {
        return Ok((vec![0; 8], Vec::new()));
    }
    decode(sheet)?.report()
}

pub fn answer(sheet: &[u8]) -> Read<Vec<u8>> {
    Ok(answer_with_rows(sheet)?.0)
}

/// # Safety
/// `sheet` has `n` bytes to read, and `buffer` has `m` bytes to write.
#[unsafe(no_mangle)]
pub unsafe extern "C" fn second_answer(sheet: *const u8, n: usize, buffer: *mut u8, m: usize) -> u64 {
    let sheet = if n == 0 { &[] } else { unsafe { std::slice::from_raw_parts(sheet, n) } };
    let buffer = if m == 0 { &mut [] } else { unsafe { std::slice::from_raw_parts_mut(buffer, m) } };
    buffer.fill(0);
    match answer(sheet) {
        Err(refusal) => u64::from(refusal),
        Ok(report) if report.len() > m => 10,
        Ok(report) => {
            buffer[..report.len()].copy_from_slice(&report);
            256 * report.len() as u64
        }
    }
}

/// The rows as the library notes them in m numbers, for a report of at most `room` bytes: how many numbers follow, the rows as far as they fit, and
/// zeros.
///
/// # Safety
/// `sheet` has `n` bytes to read, and `notes` has `m` numbers to write.
#[unsafe(no_mangle)]
pub unsafe extern "C" fn second_notes(sheet: *const u8, n: usize, room: usize, notes: *mut usize, m: usize) {
    let sheet = if n == 0 { &[] } else { unsafe { std::slice::from_raw_parts(sheet, n) } };
    let notes = if m == 0 { &mut [] } else { unsafe { std::slice::from_raw_parts_mut(notes, m) } };
    notes.fill(0);
    let rows = match answer_with_rows(sheet) {
        Ok((report, rows)) if report.len() <= room => rows,
        _ => Vec::new(),
    };
    if let Some((count, rest)) = notes.split_first_mut() {
        for (place, row) in rest.chunks_exact_mut(2).zip(&rows) {
            place.copy_from_slice(row);
            *count += 2;
        }
    }
}

/// The second question: where the run stands in the sheet, and its two positions; none; or the refusal.
pub fn source_map(bytes: &[u8]) -> Read<Option<[u64; 6]>> {
    if bytes.is_empty() {
        return Ok(None);
    }
    let sheet = decode(bytes)?;
    sheet.report()?;
    // the media byte, the groups of the source's length, the source
    let base = 2 + bytes[1..].iter().take_while(|b| **b >= 128).count();
    Ok(sheet.standard_map().map(|(from, to)| {
        let (start, end) = (sheet.position(from), sheet.position(to));
        [base + from, base + to, start.0, start.1, end.0, end.1].map(|n| n as u64)
    }))
}

/// # Safety
/// `sheet` has `n` bytes to read, and `places` six numbers to write.
#[unsafe(no_mangle)]
pub unsafe extern "C" fn second_source_map(sheet: *const u8, n: usize, places: *mut [u64; 6]) -> u64 {
    let answer = source_map(if n == 0 { &[] } else { unsafe { std::slice::from_raw_parts(sheet, n) } });
    unsafe { *places = answer.ok().flatten().unwrap_or_default() };
    answer.map_or_else(u64::from, |found| if found.is_some() { 256 } else { 0 })
}

// ---- a report beside its source ----

/// The rest of a report, and the source that its positions are in.
struct Beside<'a> {
    rest: &'a [u8],
    source: &'a str,
}

impl Beside<'_> {
    fn byte(&mut self) -> u8 {
        let byte = self.rest[0];
        self.rest = &self.rest[1..];
        byte
    }

    fn number(&mut self) -> usize {
        let byte = usize::from(self.byte());
        if byte < 128 { byte } else { byte - 128 + 128 * self.number() }
    }

    fn text(&mut self) -> Vec<u8> {
        let n = self.number();
        let (text, rest) = self.rest.split_at(n);
        self.rest = rest;
        text.to_vec()
    }

    /// The byte at a line and a column, if the line is that long.
    fn position(&mut self) -> Option<usize> {
        let (line, column) = (self.number(), self.number());
        let start: usize = self.source.split_inclusive('\n').take(line).map(str::len).sum();
        let (at, _) = self.source[start..].char_indices().chain([(self.source.len() - start, '\n')]).nth(column)?;
        Some(start + at)
    }

    /// A specifier; is its text what stands between its positions, alone or between two marks?
    fn specifier(&mut self) -> bool {
        let text = self.text();
        let (Some(start), Some(end)) = (self.position(), self.position()) else { return false };
        let place = &self.source.as_bytes()[start..end];
        place == text || matches!(place, [b'"' | b'\'', inner @ .., b'"' | b'\''] if inner == text)
    }

    fn optional(&mut self) -> bool {
        self.byte() == 0 || self.specifier()
    }

    fn attributes(&mut self) {
        if self.byte() == 2 {
            for _ in 0..self.number() {
                self.text();
                if self.byte() == 1 {
                    self.text();
                }
            }
        }
    }

    fn dependency(&mut self) -> bool {
        let kind = self.byte();
        let shown = self.optional();
        if kind < 9 {
            self.specifier();
            self.byte();
        } else {
            match self.byte() {
                0 => {}
                1 => {
                    self.text();
                }
                _ => {
                    for _ in 0..self.number() {
                        if self.byte() == 1 {
                            self.text();
                        }
                    }
                }
            }
            self.position();
            self.position();
        }
        self.attributes();
        shown
    }

    fn reference(&mut self) -> bool {
        let types = self.byte() == 1;
        let shown = self.specifier();
        if types {
            self.byte();
        }
        shown
    }

    fn all(&mut self, item: fn(&mut Self) -> bool) -> bool {
        (0..self.number()).fold(true, |shown, _| item(self) && shown)
    }

    fn report(&mut self) -> bool {
        self.byte();
        let dependencies = self.all(Self::dependency);
        let references = self.all(Self::reference);
        let pragmas = (0..3).fold(true, |shown, _| self.optional() && shown);
        let jsdoc = self.all(Self::reference);
        dependencies && references && pragmas && jsdoc && self.optional() && self.rest.is_empty()
    }
}

/// Whether each text that a report has from a comment stands in the source of its sheet between its positions.
pub fn shows(sheet: &[u8], report: &[u8]) -> bool {
    decode(sheet).is_ok_and(|sheet| Beside { rest: report, source: str::from_utf8(&sheet.source).expect("UTF-8") }.report())
}

/// # Safety
/// `sheet` has `n` bytes to read, and `report` `m`.
#[unsafe(no_mangle)]
pub unsafe extern "C" fn second_shows(sheet: *const u8, n: usize, report: *const u8, m: usize) -> bool {
    unsafe { shows(std::slice::from_raw_parts(sheet, n), std::slice::from_raw_parts(report, m)) }
}

/// Whether a reference comment of the head group has both a path and types: where the rule of the Rust and that of request #104 differ.
pub fn both(sheet: &[u8]) -> bool {
    let Ok(sheet) = decode(sheet) else { return false };
    let p = patterns();
    sheet.head().iter().any(|c| {
        let slashes = !c.block && reads(&sheet.source[c.body.0..c.body.1], &p.triple_slash, true).is_some();
        slashes && sheet.captured(c, &p.path, false, true).is_some() && sheet.captured(c, &p.types, false, true).is_some()
    })
}

/// # Safety
/// `sheet` has `n` bytes to read.
#[unsafe(no_mangle)]
pub unsafe extern "C" fn second_both(sheet: *const u8, n: usize) -> bool {
    both(if n == 0 { &[] } else { unsafe { std::slice::from_raw_parts(sheet, n) } })
}

// ---- each entry with its rule (request #112) ----

/// The rules by their numbers: path, types, self types, JSX source, its types, brace, declaration, source map, ts-types, deno-types.
type Rule = u8;
const BRACE: Rule = 6;
const DECLARATION: Rule = 7;

impl Beside<'_> {
    /// Where the place of a specifier starts in the source; the specifier is passed over.
    fn place(&mut self) -> usize {
        self.text();
        let start = self.position().expect("a place");
        self.position();
        start
    }

    fn optional_place(&mut self) -> Option<usize> {
        (self.byte() == 1).then(|| self.place())
    }

    /// The entries that a comment gives, in the report's order: which rules may have read it, and where its place starts.
    fn ruled(&mut self) -> Vec<(&'static [Rule], usize)> {
        let mut all: Vec<(&'static [Rule], usize)> = Vec::new();
        self.byte();
        for _ in 0..self.number() {
            let types = Beside { rest: &self.rest[1..], source: self.source }.optional_place();
            all.extend(types.map(|place| (&[9, 10][..], place)));
            self.dependency();
        }
        for _ in 0..self.number() {
            let types = self.byte() == 1;
            all.push((if types { &[2] } else { &[1] }, self.place()));
            self.rest = &self.rest[usize::from(types)..];
        }
        let pragmas: [&'static [Rule]; 3] = [&[3], &[4], &[5]];
        all.extend(pragmas.into_iter().filter_map(|rules| Some((rules, self.optional_place()?))));
        for _ in 0..self.number() {
            self.byte();
            all.push((&[BRACE, DECLARATION], self.place()));
            self.byte();
        }
        all.extend(self.optional_place().map(|place| (&[8][..], place)));
        all
    }
}

impl Sheet {
    /// The readings that a rule has in a comment: the offset that is named, and where the place of what is read starts.
    fn readings(&self, p: &Patterns, rule: Rule, c: &Comment) -> Vec<(usize, usize)> {
        let b = &self.source[c.body.0..c.body.1];
        let from = |opening: &'static str, read: fn(&[u8], usize) -> Option<(Quote, u8)>| {
            let openings = (0..b.len()).filter(move |i| b[*i..].starts_with(opening.as_bytes()));
            openings.filter_map(|i| Some((c.body.0 + i, c.body.0 + read(b, i)?.0.place.0))).collect()
        };
        let (steps, anchored, marks) = match rule {
            1 => (&p.path, false, true),
            2 => (&p.types, false, true),
            3 => (&p.self_types, true, true),
            4 => (&p.jsx, true, false),
            5 => (&p.jsx_types, true, false),
            BRACE => return from("{", brace),
            DECLARATION => return from("@import", declaration),
            8 => (&p.source_map, true, false),
            9 => (&p.ts_types, true, true),
            _ => (&p.deno_types, true, true),
        };
        self.captured(c, steps, anchored, marks).map(|(_, place)| (c.span.0, place.0)).into_iter().collect()
    }

    /// The second buffer's bytes for a report of this sheet. Each entry is looked for in the comment around its place: the smallest offset from
    /// which one of its rules reads it.
    fn rules(&self, report: &[u8]) -> Vec<u8> {
        let p = patterns();
        let mut known = BTreeMap::new();
        let mut w = Writer { sheet: self, out: Vec::new(), replaced: Vec::new(), starts: Vec::new() };
        for (rules, place) in (Beside { rest: report, source: str::from_utf8(&self.source).expect("UTF-8") }).ruled() {
            let around = self.comments.iter().find(|c| c.body.0 <= place && place < c.body.1).expect("a comment");
            let mut least: Option<(usize, Rule)> = None;
            for rule in rules {
                let readings = known.entry((around.span.0, *rule)).or_insert_with(|| self.readings(&p, *rule, around));
                for (offset, _) in readings.iter().filter(|reading| reading.1 == place) {
                    least = Some(least.map_or((*offset, *rule), |old| old.min((*offset, *rule))));
                }
            }
            let (offset, rule) = least.expect("a rule that reads it");
            w.out.push(rule);
            w.number(offset);
        }
        w.out
    }
}

/// The report and the rules of its entries, however long, or the refusal (1 to 9, or 13); of no bytes there are no rules.
pub fn answer_with_rules(sheet: &[u8]) -> Read<(Vec<u8>, Vec<u8>)> {
    let report = answer(sheet)?;
    // no bytes are no sheet
    let rules = decode(sheet).map_or(Vec::new(), |t| t.rules(&report));
    Ok((report, rules))
}

/// The same with room for so many bytes in each of two buffers: 10 for the first, and only then 16 for the second.
pub fn answer_with_rules_in(sheet: &[u8], m: usize, k: usize) -> Read<(Vec<u8>, Vec<u8>)> {
    thread_local! {
        /// The last sheet and its answer: it is asked again with other sizes.
        static LAST: std::cell::RefCell<Option<(Vec<u8>, Read<(Vec<u8>, Vec<u8>)>)>> = const { std::cell::RefCell::new(None) };
    }
    let answer = LAST.with_borrow_mut(|last| {
        if last.as_ref().is_none_or(|last| last.0 != sheet) {
            *last = Some((sheet.to_vec(), answer_with_rules(sheet)));
        }
        last.as_ref().expect("an answer").1.clone()
    });
    let (report, rules) = answer?;
    match (report.len() <= m, rules.len() <= k) {
        (false, _) => Err(10),
        (true, false) => Err(16),
        (true, true) => Ok((report, rules)),
    }
}

/// As `module_info_with_rules` of include/module_info.h.
///
/// # Safety
/// `sheet` has `n` bytes to read, `buffer` has `m` and `rules` `k` bytes to write, and `lengths` two numbers.
#[unsafe(no_mangle)]
pub unsafe extern "C" fn second_with_rules(
    sheet: *const u8,
    n: usize,
    buffer: *mut u8,
    m: usize,
    rules: *mut u8,
    k: usize,
    lengths: *mut [u64; 2],
) -> u64 {
    let sheet = if n == 0 { &[] } else { unsafe { std::slice::from_raw_parts(sheet, n) } };
    let buffer = if m == 0 { &mut [] } else { unsafe { std::slice::from_raw_parts_mut(buffer, m) } };
    let second = if k == 0 { &mut [] } else { unsafe { std::slice::from_raw_parts_mut(rules, k) } };
    buffer.fill(0);
    second.fill(0);
    let answer = answer_with_rules_in(sheet, m, k);
    let (report, rules) = answer.as_ref().map_or((&[][..], &[][..]), |(report, rules)| (report, rules));
    buffer[..report.len()].copy_from_slice(report);
    second[..rules.len()].copy_from_slice(rules);
    unsafe { *lengths = [report.len() as u64, rules.len() as u64] };
    answer.map_or_else(u64::from, |_| 0)
}

#[cfg(revisions)]
#[path = "revised.rs"]
pub mod revised;
