//! The stored list of sheets with deno_graph's own answers: number, length and every byte of the library's answer, and the decoded reports.

mod stored;

use module_info::*;
use stored::{Item, stored};

/// Every answer, with buffers that hold the report, fit it, lack a byte, have one more and are empty.
#[test]
fn answers() {
    for Item { name, sheet, number, report } in stored() {
        let n = report.len();
        for size in [65_536, n, n.saturating_sub(1), n + 1, 0] {
            let mut buffer = vec![0xA5; size];
            let answer = module_info(&sheet, &mut buffer);
            let (expected, written) = match Refusal::from_number(number) {
                Some(refusal) => (Err(refusal), &[][..]),
                None if n > size => (Err(Refusal::Buffer), &[][..]),
                None => (Ok(n), &report[..]),
            };
            assert_eq!(answer, expected, "{name}, buffer {size}");
            let (head, tail) = buffer.split_at(written.len());
            assert!(head == written && tail.iter().all(|b| *b == 0), "{name}, buffer {size}: the bytes differ");
        }
    }
}

/// Every report decodes, encodes to itself, and no report is a part of another one.
#[test]
fn reports() {
    for Item { name, report, .. } in stored().into_iter().filter(|i| i.number == 0) {
        let info = ModuleInfo::decode(&report).unwrap_or_else(|e| panic!("{name}: {e}"));
        assert_eq!(encode(&info), report, "{name}");
        for n in 0..report.len() {
            let error = ModuleInfo::decode(&report[..n]).expect_err("a part is no report");
            assert_eq!(error, DecodeError { at: n, problem: Problem::CutOff }, "{name}");
        }
        let longer = [&report[..], &[0]].concat();
        let trailing = DecodeError { at: report.len(), problem: Problem::Trailing };
        assert_eq!(ModuleInfo::decode(&longer), Err(trailing), "{name}");
    }
}

/// No bytes are in the list, and get the default information.
#[test]
fn no_bytes() {
    let items: Vec<Item> = stored().into_iter().filter(|i| i.sheet.is_empty()).collect();
    assert_eq!(items.len(), 1);
    assert_eq!((items[0].number, ModuleInfo::decode(&items[0].report)), (0, Ok(ModuleInfo::default())));
}

/// The source map by ECMA-426 is refused as the report is; one that is found stands at its place.
#[test]
fn source_maps() {
    let mut found = 0;
    for Item { name, sheet, number, .. } in stored() {
        let answer = source_map(&sheet);
        assert_eq!(answer.as_ref().err().copied(), Refusal::from_number(number), "{name}");
        if let Ok(Some(map)) = answer {
            let source = source(&sheet);
            assert_eq!(map.text, source[offset(source, map.range.start)..offset(source, map.range.end)], "{name}");
            assert!(source[..offset(source, map.range.start)].ends_with("sourceMappingURL="), "{name}");
            found += 1;
        }
    }
    assert!(found > 0, "the list has source maps");
}

/// The source at each place has the text, and the JSDoc imports ascend.
#[test]
fn places() {
    for Item { name, sheet, report, .. } in stored().into_iter().filter(|i| i.number == 0 && !i.sheet.is_empty()) {
        let info = ModuleInfo::decode(&report).expect("a report");
        let source = source(&sheet);
        let place = |r: &PositionRange| &source[offset(source, r.start)..offset(source, r.end)];
        let quoted = |s: &SpecifierWithRange| {
            let inner = place(&s.range).strip_prefix(['"', '\'']).and_then(|p| p.strip_suffix(['"', '\'']));
            assert_eq!(inner, Some(&*s.text), "{name}");
        };
        let bare = |s: &SpecifierWithRange| assert_eq!(place(&s.range), s.text, "{name}");
        info.ts_references.iter().for_each(|r| quoted(r.specifier()));
        info.self_types_specifier.iter().for_each(quoted);
        info.jsx_import_source.iter().for_each(bare);
        info.jsx_import_source_types.iter().for_each(bare);
        info.jsdoc_imports.iter().for_each(|i| quoted(&i.specifier));
        info.source_map_url.iter().for_each(bare);
        for d in &info.dependencies {
            // `@deno-types` may be bare
            d.types_specifier().iter().for_each(|s| if place(&s.range) == s.text { bare(s) } else { quoted(s) });
            let range = d.as_static().map(|d| d.specifier_range).or(d.as_dynamic().map(|d| d.argument_range));
            assert!(range.is_some_and(|r| offset(source, r.start) <= offset(source, r.end)), "{name}");
        }
        let starts: Vec<Position> = info.jsdoc_imports.iter().map(|i| i.specifier.range.start).collect();
        assert!(starts.is_sorted_by(|a, b| a < b), "{name}: the JSDoc imports do not ascend");
    }
}

/// The source of an accepted sheet: a media byte, a length, the text.
fn source(sheet: &[u8]) -> &str {
    let groups = 1 + sheet[1..].iter().take_while(|b| **b >= 128).count();
    let length = sheet[1..=groups].iter().rev().fold(0, |n, b| 128 * n + usize::from(b % 128));
    std::str::from_utf8(&sheet[1 + groups..][..length]).expect("the source is UTF-8")
}

fn offset(source: &str, p: Position) -> usize {
    let line: usize = source.split_inclusive('\n').take(p.line).map(str::len).sum();
    let column: usize = source[line..].chars().take(p.character).map(char::len_utf8).sum();
    line + column
}

// ---- document 01's encoding, to show that decoding loses nothing ----

fn encode(info: &ModuleInfo) -> Vec<u8> {
    let mut out = vec![u8::from(info.is_script)];
    list(&mut out, &info.dependencies, dependency);
    list(&mut out, &info.ts_references, |out, r| {
        out.push(u8::from(matches!(r, TypeScriptReference::Types { .. })));
        specifier(out, r.specifier());
        if let TypeScriptReference::Types { resolution_mode, .. } = r {
            mode(out, *resolution_mode);
        }
    });
    optional(&mut out, &info.self_types_specifier, specifier);
    optional(&mut out, &info.jsx_import_source, specifier);
    optional(&mut out, &info.jsx_import_source_types, specifier);
    list(&mut out, &info.jsdoc_imports, |out, i| {
        out.push(1);
        specifier(out, &i.specifier);
        mode(out, i.resolution_mode);
    });
    optional(&mut out, &info.source_map_url, specifier);
    out
}

fn number(out: &mut Vec<u8>, mut n: usize) {
    while n >= 128 {
        out.push((n % 128) as u8 + 128);
        n /= 128;
    }
    out.push(n as u8);
}

fn text(out: &mut Vec<u8>, text: &str) {
    number(out, text.len());
    out.extend(text.as_bytes());
}

fn list<T>(out: &mut Vec<u8>, items: &[T], write: impl Fn(&mut Vec<u8>, &T)) {
    number(out, items.len());
    items.iter().for_each(|item| write(out, item));
}

fn optional<T>(out: &mut Vec<u8>, item: &Option<T>, write: impl Fn(&mut Vec<u8>, &T)) {
    out.push(u8::from(item.is_some()));
    item.iter().for_each(|item| write(out, item));
}

fn range(out: &mut Vec<u8>, r: &PositionRange) {
    for n in [r.start.line, r.start.character, r.end.line, r.end.character] {
        number(out, n);
    }
}

fn specifier(out: &mut Vec<u8>, s: &SpecifierWithRange) {
    text(out, &s.text);
    range(out, &s.range);
}

fn mode(out: &mut Vec<u8>, mode: Option<TypeScriptTypesResolutionMode>) {
    out.push(match mode {
        None => 0,
        Some(TypeScriptTypesResolutionMode::Import) => 1,
        Some(TypeScriptTypesResolutionMode::Require) => 2,
    });
}

fn dependency(out: &mut Vec<u8>, d: &DependencyDescriptor) {
    match d {
        DependencyDescriptor::Static(d) => {
            out.push(d.kind as u8);
            optional(out, &d.types_specifier, specifier);
            text(out, &d.specifier);
            range(out, &d.specifier_range);
            out.push(u8::from(d.is_side_effect));
        }
        DependencyDescriptor::Dynamic(d) => {
            out.push(9 + d.kind as u8);
            optional(out, &d.types_specifier, specifier);
            match &d.argument {
                DynamicArgument::Expr => out.push(0),
                DynamicArgument::String(value) => {
                    out.push(1);
                    text(out, value);
                }
                DynamicArgument::Template(parts) => {
                    out.push(2);
                    list(out, parts, |out, part| match part {
                        DynamicTemplatePart::Expr => out.push(0),
                        DynamicTemplatePart::String { value } => {
                            out.push(1);
                            text(out, value);
                        }
                    });
                }
            }
            range(out, &d.argument_range);
        }
    }
    match d.import_attributes() {
        ImportAttributes::None => out.push(0),
        ImportAttributes::Unknown => out.push(1),
        ImportAttributes::Known(map) => {
            out.push(2);
            let mut pairs: Vec<_> = map.iter().collect();
            pairs.sort_by_key(|(key, _)| key.as_bytes());
            list(out, &pairs, |out, (key, value)| {
                text(out, key);
                match value {
                    ImportAttribute::Unknown => out.push(0),
                    ImportAttribute::Known(value) => {
                        out.push(1);
                        text(out, value);
                    }
                }
            });
        }
    }
}
