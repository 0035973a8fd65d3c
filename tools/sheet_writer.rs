//! The bytes of sheets, as docs/01-scope.md has them, whether a sheet is accepted or not: nothing is judged here.
//! The generator, the cases of the stored list, tools/maps and bench write sheets with it; bindings/rust writes only sheets that are in form.

pub type Bytes = Vec<u8>;

pub fn put_number(out: &mut Bytes, mut n: usize) {
    while n >= 128 {
        out.push((n % 128) as u8 | 0x80);
        n /= 128;
    }
    out.push(n as u8);
}

pub fn put_text(out: &mut Bytes, text: &[u8]) {
    put_number(out, text.len());
    out.extend_from_slice(text);
}

pub fn number(n: usize) -> Bytes {
    let mut out = Vec::new();
    put_number(&mut out, n);
    out
}

pub fn text(text: &[u8]) -> Bytes {
    let mut out = Vec::new();
    put_text(&mut out, text);
    out
}

pub fn list(items: &[Bytes]) -> Bytes {
    [number(items.len()), items.concat()].concat()
}

/// Kind, start, end.
pub type Comment = (u8, usize, usize);
/// Side, position, first, count.
pub type Group = (u8, usize, usize, usize);

pub fn put_comments(out: &mut Bytes, comments: &[Comment]) {
    put_number(out, comments.len());
    for &(kind, start, end) in comments {
        out.push(kind);
        put_number(out, start);
        put_number(out, end);
    }
}

pub fn put_groups(out: &mut Bytes, groups: &[Group]) {
    put_number(out, groups.len());
    for &(side, position, first, count) in groups {
        out.push(side);
        for n in [position, first, count] {
            put_number(out, n);
        }
    }
}

/// Of a module or script: its span, whether it has a shebang, and where its first item starts.
pub fn put_program(out: &mut Bytes, script: u8, span: (usize, usize), shebang: u8, item: Option<usize>) {
    out.push(script);
    put_number(out, span.0);
    put_number(out, span.1);
    out.extend([shebang, u8::from(item.is_some())]);
    if let Some(item) = item {
        put_number(out, item);
    }
}

/// A sheet; by default TypeScript, with an empty quoted place for its source and an empty root.
#[derive(Clone)]
pub struct Doc<'a> {
    pub media: u8,
    pub source: &'a str,
    pub comments: &'a [Comment],
    pub groups: &'a [Group],
    pub script: u8,
    pub span: (usize, usize),
    pub shebang: u8,
    pub item: Option<usize>,
    pub root: Bytes,
}

impl Default for Doc<'_> {
    fn default() -> Self {
        let (comments, groups, root) = (&[], &[], vec![0, 0, 0, 0]);
        Doc { media: 4, source: "\"\"", comments, groups, script: 0, span: (0, 0), shebang: 0, item: None, root }
    }
}

impl Doc<'_> {
    pub fn bytes(&self) -> Bytes {
        let mut out = vec![self.media];
        put_text(&mut out, self.source.as_bytes());
        put_comments(&mut out, self.comments);
        put_groups(&mut out, self.groups);
        put_program(&mut out, self.script, self.span, self.shebang, self.item);
        out.extend(&self.root);
        out
    }
}
