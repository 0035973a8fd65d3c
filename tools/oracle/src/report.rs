//! Document 01's report of a module's information, and the lines of the program `cite`.

use deno_graph::analysis::*;
use deno_graph::graph::{Position, PositionRange};

pub fn encode(m: &ModuleInfo) -> Vec<u8> {
    let mut w = Writer(Vec::new());
    w.flag(m.is_script);
    w.list(&m.dependencies, Writer::dependency);
    w.list(&m.ts_references, Writer::reference);
    w.optional(m.self_types_specifier.as_ref(), Writer::specifier);
    w.optional(m.jsx_import_source.as_ref(), Writer::specifier);
    w.optional(m.jsx_import_source_types.as_ref(), Writer::specifier);
    w.list(&m.jsdoc_imports, |w, i| w.typed(&i.specifier, &i.resolution_mode));
    w.optional(m.source_map_url.as_ref(), Writer::specifier);
    w.0
}

struct Writer(Vec<u8>);

impl Writer {
    fn byte(&mut self, b: u8) {
        self.0.push(b);
    }

    fn flag(&mut self, b: bool) {
        self.byte(u8::from(b));
    }

    fn number(&mut self, mut n: usize) {
        while n >= 128 {
            self.byte((n % 128) as u8 | 0x80);
            n /= 128;
        }
        self.byte(n as u8);
    }

    fn text(&mut self, text: &str) {
        self.number(text.len());
        self.0.extend_from_slice(text.as_bytes());
    }

    fn list<T>(&mut self, items: &[T], write: impl Fn(&mut Self, &T)) {
        self.number(items.len());
        for item in items {
            write(self, item);
        }
    }

    fn optional<T>(&mut self, item: Option<&T>, write: impl Fn(&mut Self, &T)) {
        self.flag(item.is_some());
        if let Some(item) = item {
            write(self, item);
        }
    }

    fn range(&mut self, r: &PositionRange) {
        for n in [r.start.line, r.start.character, r.end.line, r.end.character] {
            self.number(n);
        }
    }

    fn specifier(&mut self, s: &SpecifierWithRange) {
        self.text(&s.text);
        self.range(&s.range);
    }

    fn typed(&mut self, s: &SpecifierWithRange, mode: &Option<TypeScriptTypesResolutionMode>) {
        self.byte(1);
        self.specifier(s);
        self.byte(match mode {
            None => 0,
            Some(TypeScriptTypesResolutionMode::Import) => 1,
            Some(TypeScriptTypesResolutionMode::Require) => 2,
        });
    }

    fn reference(&mut self, r: &TypeScriptReference) {
        match r {
            TypeScriptReference::Path(s) => {
                self.byte(0);
                self.specifier(s);
            }
            TypeScriptReference::Types { specifier, resolution_mode } => self.typed(specifier, resolution_mode),
        }
    }

    fn dependency(&mut self, d: &DependencyDescriptor) {
        match d {
            DependencyDescriptor::Static(d) => {
                self.byte(match d.kind {
                    StaticDependencyKind::Import => 0,
                    StaticDependencyKind::ImportDefer => 1,
                    StaticDependencyKind::ImportSource => 2,
                    StaticDependencyKind::ImportType => 3,
                    StaticDependencyKind::ImportEquals => 4,
                    StaticDependencyKind::Export => 5,
                    StaticDependencyKind::ExportType => 6,
                    StaticDependencyKind::ExportEquals => 7,
                    StaticDependencyKind::MaybeTsModuleAugmentation => 8,
                });
                self.optional(d.types_specifier.as_ref(), Self::specifier);
                self.text(&d.specifier);
                self.range(&d.specifier_range);
                self.flag(d.is_side_effect);
                self.attributes(&d.import_attributes);
            }
            DependencyDescriptor::Dynamic(d) => {
                self.byte(match d.kind {
                    DynamicDependencyKind::Import => 9,
                    DynamicDependencyKind::ImportDefer => 10,
                    DynamicDependencyKind::ImportSource => 11,
                    DynamicDependencyKind::Require => 12,
                });
                self.optional(d.types_specifier.as_ref(), Self::specifier);
                match &d.argument {
                    DynamicArgument::Expr => self.byte(0),
                    DynamicArgument::String(text) => {
                        self.byte(1);
                        self.text(text);
                    }
                    DynamicArgument::Template(parts) => {
                        self.byte(2);
                        self.list(parts, |w, part| match part {
                            DynamicTemplatePart::Expr => w.byte(0),
                            DynamicTemplatePart::String { value } => {
                                w.byte(1);
                                w.text(value);
                            }
                        });
                    }
                }
                self.range(&d.argument_range);
                self.attributes(&d.import_attributes);
            }
        }
    }

    fn attributes(&mut self, a: &ImportAttributes) {
        match a {
            ImportAttributes::None => self.byte(0),
            ImportAttributes::Unknown => self.byte(1),
            ImportAttributes::Known(map) => {
                self.byte(2);
                let mut pairs: Vec<_> = map.iter().collect();
                pairs.sort_by_key(|(key, _)| key.as_bytes());
                self.list(&pairs, |w, (key, value)| {
                    w.text(key);
                    match value {
                        ImportAttribute::Unknown => w.byte(0),
                        ImportAttribute::Known(text) => {
                            w.byte(1);
                            w.text(text);
                        }
                    }
                });
            }
        }
    }
}

/// What `cite` prints for a report over its source. The report counts characters, the lines count UTF-16 code units.
pub fn cite(m: &ModuleInfo, source: &str) -> Vec<u8> {
    let mut lines: Vec<(char, &PositionRange, &str)> = Vec::new();
    for d in &m.dependencies {
        let types = match d {
            DependencyDescriptor::Static(d) => {
                lines.push(('D', &d.specifier_range, &d.specifier));
                &d.types_specifier
            }
            DependencyDescriptor::Dynamic(d) => {
                let text = match &d.argument {
                    DynamicArgument::String(text) => text,
                    _ => "?",
                };
                lines.push(('D', &d.argument_range, text));
                &d.types_specifier
            }
        };
        lines.extend(types.iter().map(|t| ('T', &t.range, &*t.text)));
    }
    for r in &m.ts_references {
        let (TypeScriptReference::Path(s) | TypeScriptReference::Types { specifier: s, .. }) = r;
        lines.push(('R', &s.range, &s.text));
    }
    lines.extend(m.self_types_specifier.iter().map(|s| ('S', &s.range, &*s.text)));
    lines.extend(m.jsx_import_source.iter().map(|s| ('X', &s.range, &*s.text)));
    lines.extend(m.jsx_import_source_types.iter().map(|s| ('Y', &s.range, &*s.text)));
    lines.extend(m.jsdoc_imports.iter().map(|i| ('J', &i.specifier.range, &*i.specifier.text)));
    lines.extend(m.source_map_url.iter().map(|s| ('M', &s.range, &*s.text)));

    let rows: Vec<&str> = source.split('\n').collect();
    let units = |p: &Position| rows[p.line].chars().take(p.character).map(char::len_utf16).sum::<usize>();
    let place = |p: &Position| format!("{}:{}", p.line + 1, units(p) + 1);
    let mut out = format!("module {}\n", lines.len()).into_bytes();
    for (letter, range, text) in lines {
        out.extend(format!("{letter} {}-{} ", place(&range.start), place(&range.end)).bytes());
        for b in text.bytes() {
            if b < 32 || b == 127 || b == b'\\' {
                out.extend(format!("\\x{b:02X}").bytes());
            } else {
                out.push(b);
            }
        }
        out.push(b'\n');
    }
    out
}
