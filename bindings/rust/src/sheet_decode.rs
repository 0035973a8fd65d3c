//! The sheet of bytes.

use crate::module_info;
use crate::refusal::Refusal;
use crate::sheet::*;

impl Sheet {
    /// The sheet that has these bytes, or the refusal (1 to 9) that the library gives to them. No bytes, which the library answers with the
    /// default information, are no sheet: here they are cut off.
    pub fn decode(bytes: &[u8]) -> Result<Sheet, Refusal> {
        if bytes.is_empty() {
            return Err(Refusal::CutOff);
        }
        match module_info(bytes, &mut []) {
            Ok(_) | Err(Refusal::Buffer) => Ok(Reader(bytes).sheet()),
            Err(refusal) => Err(refusal),
        }
    }
}

/// Reads bytes that the library accepts, so that nothing can be wrong with them.
struct Reader<'a>(&'a [u8]);

impl Reader<'_> {
    // ---- fields ----

    fn take(&mut self, n: usize) -> &[u8] {
        let (part, rest) = self.0.split_at(n);
        self.0 = rest;
        part
    }

    fn byte(&mut self) -> u8 {
        self.take(1)[0]
    }

    fn flag(&mut self) -> bool {
        self.byte() == 1
    }

    fn number(&mut self) -> usize {
        let group = self.byte();
        if group < 128 { usize::from(group) } else { usize::from(group - 128) + 128 * self.number() }
    }

    fn text(&mut self) -> Vec<u8> {
        let n = self.number();
        self.take(n).to_vec()
    }

    fn utf8(&mut self) -> String {
        String::from_utf8(self.text()).expect("UTF-8")
    }

    fn wtf8(&mut self) -> Wtf8 {
        Wtf8::from_bytes(&self.text()).expect("WTF-8")
    }

    fn span(&mut self) -> Span {
        Span { start: self.number(), end: self.number() }
    }

    fn list<T>(&mut self, item: impl Fn(&mut Self) -> T) -> Vec<T> {
        (0..self.number()).map(|_| item(self)).collect()
    }

    fn optional<T>(&mut self, item: impl Fn(&mut Self) -> T) -> Option<T> {
        self.flag().then(|| item(self))
    }

    // ---- parts of a sheet ----

    fn sheet(&mut self) -> Sheet {
        Sheet {
            media: Media::ALL[usize::from(self.byte())],
            source: self.utf8(),
            comments: self.comments(),
            program: Program {
                is_script: self.flag(),
                span: self.span(),
                has_shebang: self.flag(),
                first_item: self.optional(Self::number),
            },
            root: self.node(),
        }
    }

    fn comments(&mut self) -> Comments {
        let all = self.list(|r| {
            let kind = match r.byte() {
                0 => CommentKind::Line,
                1 => CommentKind::Block,
                2 => CommentKind::HtmlOpen,
                _ => CommentKind::HtmlClose,
            };
            Comment { span: r.span(), kind }
        });
        let mut comments = Comments::default();
        for _ in 0..self.number() {
            let map = if self.flag() { &mut comments.trailing } else { &mut comments.leading };
            let (position, first, count) = (self.number(), self.number(), self.number());
            map.insert(position, all[first..first + count].to_vec());
        }
        comments
    }

    // ---- nodes ----

    fn nodes(&mut self) -> Vec<Node> {
        self.list(Self::node)
    }

    fn boxed(&mut self) -> Box<Node> {
        Box::new(self.node())
    }

    /// A node that its place allows only one tag.
    fn string(&mut self) -> Str {
        self.byte();
        Str { span: self.span(), text: self.wtf8() }
    }

    fn object(&mut self) -> Object {
        self.byte();
        Object { span: self.span(), properties: self.list(Self::property) }
    }

    fn with(&mut self) -> Option<Object> {
        self.optional(Self::object)
    }

    fn property(&mut self) -> Property {
        match self.byte() {
            0 => Property::Spread(self.node()),
            1 => Property::Other(self.node()),
            _ => {
                let key = match self.byte() {
                    0 => Key::Other(self.node()),
                    1 => Key::String(self.wtf8()),
                    _ => Key::Name(self.utf8()),
                };
                Property::KeyValue(key, self.node())
            }
        }
    }

    fn phase(&mut self) -> Phase {
        [Phase::Evaluation, Phase::Source, Phase::Defer][usize::from(self.byte())]
    }

    fn callee(&mut self) -> Callee {
        if self.0[0] < 3 {
            return Callee::Import(self.phase());
        }
        self.byte();
        Callee::Expression(self.boxed())
    }

    fn template(&mut self, span: Span) -> Node {
        let holes = self.number();
        let head = self.optional(Self::wtf8);
        let pieces: Vec<Piece> = (0..holes).map(|_| self.optional(Self::wtf8)).collect();
        let tail = pieces.into_iter().map(|piece| (self.node(), piece)).collect();
        Node::Template { span, head, tail }
    }

    fn node(&mut self) -> Node {
        match self.0[0] {
            1 => return Node::String(self.string()),
            5 => return Node::Object(self.object()),
            _ => {}
        }
        let tag = self.byte();
        let span = self.span();
        match tag {
            0 => Node::Other { span, children: self.nodes() },
            2 => Node::Name { span, text: self.utf8() },
            3 => self.template(span),
            4 => Node::Binary { span, is_plus: self.flag(), left: self.boxed(), right: self.boxed() },
            6 => {
                let callee = self.callee();
                let arguments = self.list(|r| Argument { is_spread: r.flag(), span: r.span(), node: r.node() });
                Node::Call { span, callee, arguments, children: self.nodes() }
            }
            7 => {
                let (type_only, phase, side_effect) = (self.flag(), self.phase(), self.flag());
                Node::Import { span, type_only, phase, side_effect, source: self.string(), with: self.with() }
            }
            8 => Node::NamedExport { span, type_only: self.flag(), source: self.optional(|r| (r.string(), r.with())) },
            9 => Node::ExportAll { span, type_only: self.flag(), source: self.string(), with: self.with() },
            10 => Node::ImportType { span, source: self.string(), children: self.nodes(), with: self.with() },
            11 => {
                let external = |r: &mut Self| External { type_only: r.flag(), is_export: r.flag(), source: r.string() };
                Node::ImportEquals { span, external: self.optional(external) }
            }
            _ => Node::ModuleDeclaration { span, name: self.optional(Self::string), children: self.nodes() },
        }
    }
}
