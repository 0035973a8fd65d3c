//! Sheets that are written here: the library accepts them, reads them back as they were meant, and what is out of form is not written.

mod stored;

use module_info::*;
use stored::{Item, stored};

/// Every stored sheet is read as the library judges it, and written back byte for byte.
#[test]
fn round_trips() {
    for Item { name, sheet, number, .. } in stored() {
        match Sheet::decode(&sheet) {
            Ok(decoded) => {
                assert_eq!(number, 0, "{name}");
                assert_eq!(decoded.encode().as_ref(), Ok(&sheet), "{name}");
            }
            Err(refusal) if sheet.is_empty() => assert_eq!((refusal, number), (Refusal::CutOff, 0), "{name}"),
            Err(refusal) => assert_eq!(refusal.number(), number, "{name}"),
        }
    }
}

/// Whatever positions are a little off: the form says what is wrong, or the library accepts the sheet.
#[test]
fn shifted() {
    let mut chance = 1u32;
    let mut shift = |p: usize| {
        chance = chance.wrapping_mul(1_664_525).wrapping_add(1_013_904_223);
        match chance >> 28 {
            0 => p + 1,
            1 => p.saturating_sub(1),
            _ => p,
        }
    };
    let (mut written, mut refused) = (0, 0);
    for Item { name, sheet, .. } in stored().into_iter().filter(|i| i.number == 0 && !i.sheet.is_empty()) {
        let mut decoded = Sheet::decode(&sheet).expect("a sheet");
        let Comments { leading, trailing } = &mut decoded.comments;
        let comments = leading.values_mut().chain(trailing.values_mut()).flatten();
        for span in comments.map(|c| &mut c.span).chain([&mut decoded.program.span]) {
            *span = Span::new(shift(span.start), shift(span.end));
        }
        decoded.program.first_item = decoded.program.first_item.map(&mut shift);
        match decoded.encode() {
            Ok(_) => written += 1,
            Err(OutOfForm::Refused(refusal)) => panic!("{name}: {refusal}"),
            Err(_) => refused += 1,
        }
    }
    assert!(written > 0 && refused > 0, "{written} written, {refused} refused");
}

const SOURCE: &str = r#"#!/usr/bin/env deno
/// <reference path="./units.d.ts" />
import source meter from './meter.wasm' with { "type": 'wasm' };
export { a } from "./é.ts"; export { b };
export * from "./all.ts";
let x: import("./type.ts").T<import("./inner.ts").U>;
import fs = require("node:fs"); import local = x.y;
declare module "./augmented.ts" { }
import(`./${x}/${"y"}.ts`, { with: { [k]: 1 }, ...o, m() {} });
require("./a" + x, ...rest); // last
//# sourceMappingURL=all.ts.map"#;

/// The only place of a part of the source.
fn at(part: &str) -> Span {
    assert_eq!(SOURCE.matches(part).count(), 1, "{part}");
    let start = SOURCE.find(part).expect("a part");
    Span::new(start, start + part.len())
}

fn string(part: &str) -> Str {
    Str { span: at(part), text: part[1..part.len() - 1].into() }
}

fn name(part: &str, text: &str) -> Node {
    Node::Name { span: at(part), text: text.to_string() }
}

fn other(part: &str, children: Vec<Node>) -> Node {
    Node::Other { span: at(part), children }
}

/// A sheet with every kind of node.
fn all_kinds() -> Sheet {
    let end = at("...rest);").end;
    let wasm = Object {
        span: at(r#"{ "type": 'wasm' }"#),
        properties: vec![Property::KeyValue(Key::String("type".into()), Node::String(string("'wasm'")))],
    };
    let inner = Node::ImportType { span: at(r#"import("./inner.ts").U"#), source: string("\"./inner.ts\""), children: vec![], with: None };
    let external = External { type_only: false, is_export: false, source: string("\"node:fs\"") };
    let template = Node::Template {
        span: at("`./${x}/${\"y\"}.ts`"),
        head: Some("./".into()),
        tail: vec![(name("x}/", "x"), Some("/".into())), (Node::String(string("\"y\"")), Some(".ts".into()))],
    };
    let with = Object { span: at("{ [k]: 1 }"), properties: vec![Property::KeyValue(Key::Other(name("k]", "k")), other("1 }", vec![]))] };
    let options = Object {
        span: at("{ with: { [k]: 1 }, ...o, m() {} }"),
        properties: vec![
            Property::KeyValue(Key::Name("with".to_string()), Node::Object(with)),
            Property::Spread(name("o, m", "o")),
            Property::Other(other("m() {}", vec![])),
        ],
    };
    let plus = Node::Binary {
        span: at("\"./a\" + x"),
        is_plus: true,
        left: Box::new(Node::String(string("\"./a\""))),
        right: Box::new(name("x, ...rest", "x")),
    };
    let argument = |is_spread, part, node| Argument { is_spread, span: at(part), node };
    let children = vec![
        Node::Import {
            span: at(r#"import source meter from './meter.wasm' with { "type": 'wasm' };"#),
            type_only: false,
            phase: Phase::Source,
            side_effect: false,
            source: string("'./meter.wasm'"),
            with: Some(wasm),
        },
        Node::NamedExport { span: at("export { a } from \"./é.ts\";"), type_only: false, source: Some((string("\"./é.ts\""), None)) },
        Node::NamedExport { span: at("export { b };"), type_only: false, source: None },
        Node::ExportAll { span: at("export * from \"./all.ts\";"), type_only: true, source: string("\"./all.ts\""), with: None },
        Node::ImportType { span: at("import(\"./type.ts\").T"), source: string("\"./type.ts\""), children: vec![inner], with: None },
        Node::ImportEquals { span: at("import fs = require(\"node:fs\");"), external: Some(external) },
        Node::ImportEquals { span: at("import local = x.y;"), external: None },
        Node::ModuleDeclaration {
            span: at("declare module \"./augmented.ts\" { }"),
            name: Some(string("\"./augmented.ts\"")),
            children: vec![],
        },
        Node::Call {
            span: Span::new(at("import(`").start, at("m() {} })").end),
            callee: Callee::Import(Phase::Evaluation),
            arguments: vec![
                argument(false, "`./${x}/${\"y\"}.ts`", template),
                argument(false, "{ with: { [k]: 1 }, ...o, m() {} }", Node::Object(options)),
            ],
            children: vec![],
        },
        Node::Call {
            span: at("require(\"./a\" + x, ...rest)"),
            callee: Callee::Expression(Box::new(name("require(\"./a\"", "require"))),
            arguments: vec![argument(false, "\"./a\" + x", plus), argument(true, "...rest", name("rest)", "rest"))],
            children: vec![],
        },
    ];
    let first = at("import source").start;
    let line = |part| Comment { kind: CommentKind::Line, span: at(part) };
    let mut comments = Comments::default();
    comments.leading.insert(first, vec![line("/// <reference path=\"./units.d.ts\" />")]);
    comments.trailing.insert(end, vec![line("// last"), line("//# sourceMappingURL=all.ts.map")]);
    Sheet {
        media: Media::TypeScript,
        source: SOURCE.to_string(),
        comments,
        program: Program { is_script: false, span: Span::new(0, end), has_shebang: true, first_item: Some(first) },
        root: Node::Other { span: Span::new(0, end), children },
    }
}

fn report(sheet: &Sheet) -> ModuleInfo {
    let bytes = sheet.encode().expect("a sheet in form");
    assert_eq!(Sheet::decode(&bytes).as_ref(), Ok(sheet));
    let mut buffer = [0; 4_096];
    let length = module_info(&bytes, &mut buffer).expect("an accepted sheet");
    ModuleInfo::decode(&buffer[..length]).expect("a report")
}

#[test]
fn every_node() {
    let info = report(&all_kinds());
    let lines: Vec<String> = info
        .dependencies
        .iter()
        .map(|d| match d {
            DependencyDescriptor::Static(d) => format!("{:?} {}", d.kind, d.specifier),
            DependencyDescriptor::Dynamic(d) => format!("{:?} {:?}", d.kind, d.argument),
        })
        .collect();
    let part = |value: &str| format!("String {{ value: {value:?} }}");
    let template = format!("Import Template([{}, Expr, {}, Expr, {}])", part("./"), part("/"), part(".ts"));
    assert_eq!(
        lines,
        [
            "ImportSource ./meter.wasm",
            "Export ./é.ts",
            "ExportType ./all.ts",
            "ImportType ./type.ts",
            "ImportType ./inner.ts",
            "ImportEquals node:fs",
            "MaybeTsModuleAugmentation ./augmented.ts",
            &*template,
            &*format!("Require Template([{}, Expr])", part("./a")),
        ]
    );
    assert_eq!(info.dependencies[0].import_attributes().get("type"), Some("wasm"));
    assert_eq!(info.dependencies[7].import_attributes(), &ImportAttributes::Unknown);
    assert_eq!(info.ts_references[0].specifier().text, "./units.d.ts");
    assert_eq!(info.source_map_url.map(|s| s.text).as_deref(), Some("all.ts.map"));
}

/// HTML-like comments act as line comments, and positions in them are the source's.
#[test]
fn html_comments() {
    let source = "<!--@ts-self-types='a'\n--># sourceMappingURL=b".to_string();
    let end = source.len();
    let span = Span::new(end, end);
    let mut sheet = Sheet {
        media: Media::JavaScript,
        source,
        comments: Comments::default(),
        program: Program { is_script: true, span, has_shebang: false, first_item: None },
        root: Node::Other { span, children: vec![] },
    };
    let open = Comment { kind: CommentKind::HtmlOpen, span: Span::new(0, 22) };
    let close = Comment { kind: CommentKind::HtmlClose, span: Span::new(23, end) };
    sheet.comments.leading.insert(end, vec![open]);
    sheet.comments.trailing.insert(end, vec![close]);
    let info = report(&sheet);
    let at = |line, start, end| PositionRange { start: Position { line, character: start }, end: Position { line, character: end } };
    assert_eq!(info.self_types_specifier, Some(SpecifierWithRange { text: "a".into(), range: at(0, 19, 22) }));
    assert_eq!(info.source_map_url, Some(SpecifierWithRange { text: "b".into(), range: at(1, 22, 23) }));
}

/// A small sheet with a change.
fn changed(change: impl FnOnce(&mut Sheet)) -> Result<Vec<u8>, OutOfForm> {
    let source = "/*é*/ f(/**/'a')//".to_string();
    let comment = |kind, start, end| Comment { kind, span: Span::new(start, end) };
    let mut sheet = Sheet {
        media: Media::JavaScript,
        source,
        comments: Comments::default(),
        program: Program { is_script: true, span: Span::new(7, 17), has_shebang: false, first_item: Some(7) },
        root: Node::Other { span: Span::new(7, 17), children: vec![Node::String(Str { span: Span::new(13, 16), text: "a".into() })] },
    };
    sheet.comments.leading.insert(7, vec![comment(CommentKind::Block, 0, 6)]);
    sheet.comments.leading.insert(13, vec![comment(CommentKind::Block, 9, 13)]);
    sheet.comments.trailing.insert(17, vec![comment(CommentKind::Line, 17, 19)]);
    assert!(sheet.encode().is_ok());
    change(&mut sheet);
    sheet.encode()
}

fn out(result: Result<Vec<u8>, OutOfForm>) -> OutOfForm {
    result.expect_err("a sheet out of form")
}

#[test]
fn positions() {
    assert_eq!(out(changed(|s| s.program.first_item = Some(20))), OutOfForm::Position(20)); // past the source
    assert_eq!(out(changed(|s| s.program.first_item = Some(3))), OutOfForm::Position(3)); // inside a character
    assert_eq!(out(changed(|s| s.program.span = Span::new(0, usize::MAX))), OutOfForm::Position(usize::MAX));
    assert_eq!(out(changed(|s| s.program.span = Span::new(9, 8))), OutOfForm::Span(Span::new(9, 8)));
    assert!(changed(|s| s.program.span = Span::new(19, 19)).is_ok());
}

#[test]
fn strings() {
    let string = |start, end| changed(|s| s.root = Node::String(Str { span: Span::new(start, end), text: "a".into() }));
    assert!(string(13, 16).is_ok());
    for (start, end) in [(13, 13), (13, 14), (13, 15), (14, 16), (12, 16), (13, 17)] {
        assert_eq!(out(string(start, end)), OutOfForm::Quotes(Span::new(start, end)));
        assert_eq!(out(string(start, end)).refusal(), Refusal::String);
    }
}

#[test]
fn comments() {
    let first = |s: &mut Sheet, change: fn(&mut Comment)| s.comments.leading.values_mut().take(1).flatten().for_each(change);
    let marks = |start, end| OutOfForm::Marks(Span::new(start, end));
    assert_eq!(out(changed(|s| first(s, |c| c.span.start = 1))), marks(1, 6));
    for kind in [CommentKind::Line, CommentKind::HtmlOpen, CommentKind::HtmlClose] {
        assert_eq!(out(changed(|s| drop(s.comments.leading.insert(7, vec![Comment { kind, span: Span::new(0, 6) }])))), marks(0, 6));
    }
    assert_eq!(out(changed(|s| first(s, |c| c.span = Span::new(9, 12)))), marks(9, 12)); // shorter than its marks
    assert_eq!(out(changed(|s| first(s, |c| c.span.end = 13))), OutOfForm::Overlap(Span::new(9, 13)));
    // the first and the last, without the one between them
    let group =
        vec![Comment { kind: CommentKind::Block, span: Span::new(0, 6) }, Comment { kind: CommentKind::Line, span: Span::new(17, 19) }];
    assert_eq!(out(changed(|s| drop(s.comments.trailing.insert(17, group)))), OutOfForm::Group(17));
    assert!(changed(|s| drop(s.comments.trailing.insert(19, vec![]))).is_ok()); // a group of none is no group
}

fn deep(levels: usize) -> Node {
    let leaf = Node::Other { span: Span::new(7, 7), children: vec![] };
    (1..levels).fold(leaf, |node, _| Node::Other { span: Span::new(7, 7), children: vec![node] })
}

/// A limit is kept, and one more is out of form.
fn limit(thing: &'static str, most: usize, change: impl Fn(&mut Sheet, usize)) {
    assert!(changed(|s| change(s, most)).is_ok(), "{thing}");
    assert_eq!(out(changed(|s| change(s, most + 1))), OutOfForm::Limit { thing, size: most + 1, most });
}

#[test]
fn limits() {
    limit("depth", 64, |s, n| s.root = deep(n));
    limit("text", 4_096, |s, n| s.root = Node::String(Str { span: Span::new(13, 16), text: (&*"a".repeat(n)).into() }));
    limit("name", 4_096, |s, n| s.root = Node::Name { span: Span::new(7, 8), text: "f".repeat(n) });
    limit("properties", 64, |s, n| {
        let properties = (0..n).map(|_| Property::Other(deep(1))).collect();
        s.root = Node::Object(Object { span: Span::new(7, 7), properties });
    });
    limit("source", 32_768, |s, n| s.source += &" ".repeat(n - s.source.len()));
    limit("comments", 1_024, |s, n| {
        (s.source, s.root) = ("//\n".repeat(n + 10), deep(1));
        let comment = |i| Comment { kind: CommentKind::Line, span: Span::new(3 * i, 3 * i + 2) };
        s.comments = Comments { leading: [(3 * n, (0..n).map(comment).collect())].into(), trailing: Default::default() };
    });
    limit("groups", 1_024, |s, n| {
        s.source += &" ".repeat(n);
        let comment = Comment { kind: CommentKind::Block, span: Span::new(0, 6) };
        s.comments = Comments { leading: (0..n).map(|i| (i + 6, vec![comment])).collect(), trailing: Default::default() };
    });
}

#[test]
fn sheet_length() {
    let wide = |n| changed(|s| s.root = Node::Other { span: Span::new(7, 7), children: vec![deep(1); n] });
    let bytes = wide(16_000).expect("a sheet").len();
    let most = 16_000 + (MAX_SHEET - bytes) / 4;
    assert!(wide(most).is_ok());
    assert_eq!(out(wide(most + 1)).refusal(), Refusal::SheetLength);
}

#[test]
fn uncooked() {
    let ask = |callee: &str, head: Piece| {
        let callee = Callee::Expression(Box::new(Node::Name { span: Span::new(7, 8), text: callee.to_string() }));
        let node = Node::Template { span: Span::new(13, 16), head, tail: vec![] };
        let argument = Argument { is_spread: false, span: Span::new(13, 16), node };
        changed(|s| s.root = Node::Call { span: Span::new(7, 17), callee, arguments: vec![argument], children: vec![] })
    };
    assert!(ask("require", Some("a".into())).is_ok());
    assert!(ask("f", None).is_ok());
    assert_eq!(out(ask("require", None)), OutOfForm::Refused(Refusal::Uncooked));
}
