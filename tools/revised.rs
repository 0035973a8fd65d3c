//! What request #114 says of two sheets that differ only in the body of one comment, checked on their reports, rows and rules. A part of
//! tools/second.rs, which tools/revisions.rs uses.

use super::*;

impl Sheet {
    /// The positions that the sheet records.
    fn recorded(&self) -> Vec<usize> {
        let mut all = vec![self.span.0, self.span.1];
        all.extend(self.first);
        all.extend(self.groups.keys().map(|key| key.1));
        all.extend(self.comments.iter().flat_map(|c| [c.span.0, c.span.1]));
        self.root.recorded(&mut all);
        all
    }

    /// The side and the position of the head group.
    fn head_key(&self) -> (u8, usize) {
        match (self.first, self.shebang) {
            (Some(item), _) => (0, item),
            (None, true) => (1, self.span.1),
            (None, false) => (0, self.span.0),
        }
    }

    /// Whether there is no such group, or one without comment k.
    fn lacks(&self, key: (u8, usize), k: usize) -> bool {
        self.groups.get(&key).is_none_or(|g| k < g.0 || g.1 <= k)
    }
}

impl Node {
    fn recorded(&self, all: &mut Vec<usize>) {
        all.extend([self.span.0, self.span.1]);
        let held = [&self.string, &self.callee, &self.object].into_iter().flatten().map(|n| &**n);
        let properties = self.properties.iter().flat_map(|p| match p {
            Property::Spread(v) | Property::Other(v) | Property::Keyed(_, v) => vec![v],
            Property::ChildKey(k, v) => vec![k, v],
        });
        let arguments = self.arguments.iter().map(|(_, _, n)| n);
        held.chain(&self.children).chain(properties).chain(arguments).for_each(|n| n.recorded(all));
        all.extend(self.arguments.iter().flat_map(|(_, span, _)| [span.0, span.1]));
    }
}

/// The comments of a sheet in whose bodies no recorded position is: each index, the place of its body in the bytes of the sheet, and the source up to it.
pub fn bodies(sheet: &[u8]) -> Vec<(usize, Span, String)> {
    let Ok(t) = decode(sheet) else { return Vec::new() };
    let recorded = t.recorded();
    let front = 1 + sheet[1..].iter().take_while(|b| **b >= 128).count() + 1;
    let free = |(from, to): Span| from < to && recorded.iter().all(|p| *p <= from || to <= *p);
    let place = |(k, c): (usize, &Comment)| {
        let text = String::from_utf8(t.source[..c.body.0].to_vec()).expect("UTF-8");
        free(c.body).then(|| (k, (front + c.body.0, front + c.body.1), text))
    };
    t.comments.iter().enumerate().filter_map(place).collect()
}

/// What a sheet is answered: its report, the rows beside the dependencies, and the rules of the entries.
#[derive(PartialEq)]
pub struct Answered {
    pub report: Vec<u8>,
    pub rows: Vec<[usize; 2]>,
    pub rules: Vec<u8>,
}

pub fn answered(sheet: &[u8]) -> Read<Answered> {
    let t = decode(sheet)?;
    let (report, rows) = t.report()?;
    let rules = t.rules(&report);
    Ok(Answered { report, rows, rules })
}

/// The rule that gave an entry, and the offset beside it.
type Origin = (Rule, usize);

/// The origins that have one of these rules.
fn origins(bytes: &[u8], rules: std::ops::RangeInclusive<Rule>) -> Vec<Origin> {
    let mut inner = Beside { rest: bytes, source: "" };
    let mut all = Vec::new();
    while !inner.rest.is_empty() {
        all.push((inner.byte(), inner.number()));
    }
    all.into_iter().filter(|origin| rules.contains(&origin.0)).collect()
}

/// The parts of a report as bytes, each with its origins; and the place at which each JSDoc entry starts.
struct Parts {
    script: u8,
    dependencies: Vec<(Vec<u8>, Option<Origin>)>,
    head: (Vec<Vec<u8>>, Vec<Origin>),
    jsdoc: Vec<((Vec<u8>, Origin), usize)>,
    source_map: (Vec<u8>, Vec<Origin>),
}

impl Beside<'_> {
    /// The bytes of what is read.
    fn taken(&mut self, item: fn(&mut Self) -> bool) -> Vec<u8> {
        let before = self.rest;
        item(self);
        before[..before.len() - self.rest.len()].to_vec()
    }

    fn each(&mut self, item: fn(&mut Self) -> bool) -> Vec<Vec<u8>> {
        (0..self.number()).map(|_| self.taken(item)).collect()
    }

    fn start(&self, entry: &[u8]) -> usize {
        let mut inner = Beside { rest: &entry[1..], source: self.source };
        inner.text();
        inner.position().expect("a place")
    }

    fn parts(&mut self, rules: &[u8]) -> Parts {
        let script = self.byte();
        let mut types = origins(rules, 9..=10).into_iter();
        let origin = |entry: &Vec<u8>| if entry[1] == 1 { types.next() } else { None };
        let dependencies = self.each(Self::dependency);
        let of_types: Vec<_> = dependencies.iter().map(origin).collect();
        let mut head = vec![self.taken(|b| b.all(Self::reference))];
        head.extend((0..3).map(|_| self.taken(Self::optional)));
        let entries = self.each(Self::reference).into_iter().zip(origins(rules, BRACE..=DECLARATION));
        let jsdoc = entries.map(|entry| (self.start(&entry.0), entry)).map(|(start, entry)| (entry, start)).collect();
        Parts {
            script,
            dependencies: dependencies.into_iter().zip(of_types).collect(),
            head: (head, origins(rules, 1..=5)),
            jsdoc,
            source_map: (self.taken(Self::optional), origins(rules, 8..=8)),
        }
    }
}

/// A dependency without its types.
fn without_types(entry: &[u8]) -> Vec<u8> {
    let mut inner = Beside { rest: &entry[1..], source: "" };
    if inner.byte() == 1 {
        inner.text();
        for _ in 0..4 {
            inner.number();
        }
    }
    [&entry[..1], inner.rest].concat()
}

/// What the answers to two sheets that differ only in the body of comment k must have in common; or what they do not.
pub fn kept(first: &[u8], other: &[u8], k: usize, answers: [&Answered; 2]) -> Result<(), &'static str> {
    let (t, u) = (decode(first).expect("a sheet"), decode(other).expect("a sheet"));
    let parts = |t: &Sheet, a: &Answered| Beside { rest: &a.report, source: str::from_utf8(&t.source).expect("UTF-8") }.parts(&a.rules);
    let (a, b) = (parts(&t, answers[0]), parts(&u, answers[1]));
    let (from, to) = t.comments[k].body;
    let own = |start: usize| from <= start && start < to;
    let others = |parts: &Parts| -> Vec<_> { parts.jsdoc.iter().filter(|e| !own(e.1)).map(|e| e.0.clone()).collect() };
    let few = |t: &Sheet, parts: &Parts| {
        let body = &t.source[from..to];
        let openings = (0..body.len()).filter(|i| body[*i] == b'{' || body[*i..].starts_with(b"@import")).count();
        parts.jsdoc.iter().filter(|e| own(e.1)).count() <= openings
    };
    let same = |start: usize, x: &(Vec<u8>, Option<Origin>), y: &(Vec<u8>, Option<Origin>)| {
        if t.lacks((0, start), k) { x == y } else { without_types(&x.0) == without_types(&y.0) }
    };
    let entries = a.dependencies.len() == b.dependencies.len()
        && a.dependencies.iter().zip(&b.dependencies).zip(&answers[0].rows).all(|((x, y), row)| same(row[0], x, y));
    let tests = [
        (a.script == b.script, "the script flag"),
        (answers[0].rows == answers[1].rows, "rows"),
        (others(&a) == others(&b), "JSDoc entries from other comments"),
        (few(&t, &a) && few(&u, &b), "the number of JSDoc entries"),
        (entries, "dependencies"),
        (!t.lacks(t.head_key(), k) || a.head == b.head, "references and pragmas of the head group"),
        (!t.lacks((1, t.span.1), k) || a.source_map == b.source_map, "the source map"),
    ];
    tests.into_iter().find(|test| !test.0).map_or(Ok(()), |test| Err(test.1))
}
