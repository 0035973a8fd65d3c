//! Each entry with its rule, on the stored list of sheets: numbers, lengths and every byte of both buffers for sizes around the exact ones, and what
//! stands in the source at the offsets.

mod stored;

use module_info::*;
use stored::{Item, stored};

/// Both buffers after a call, with so many bytes in each.
fn call(sheet: &[u8], m: usize, k: usize) -> (Result<(usize, usize), Refusal>, Vec<u8>, Vec<u8>) {
    let (mut buffer, mut rules) = (vec![0xA5; m], vec![0xA5; k]);
    let answer = module_info_with_rules(sheet, &mut buffer, &mut rules);
    (answer, buffer, rules)
}

/// The report is the stored one; the second buffer is too short by a byte, just long enough and longer; 10 comes before 16.
#[test]
fn sizes() {
    for Item { name, sheet, number, report } in stored() {
        let m = report.len();
        let (answer, _, rules) = call(&sheet, 65_536, 65_536);
        let k = answer.map_or(0, |lengths| lengths.1);
        assert!(k <= m, "{name}: the rules are longer than the report");
        let less = k.saturating_sub(1);
        for (size, rules_size) in
            [(65_536, 65_536), (m, k), (m, k + 1), (m + 1, k), (m, less), (m.saturating_sub(1), k), (m.saturating_sub(1), less), (0, 0)]
        {
            let expected = match Refusal::from_number(number) {
                Some(refusal) => Err(refusal),
                None if m > size => Err(Refusal::Buffer),
                None if k > rules_size => Err(Refusal::Rules),
                None => Ok((m, k)),
            };
            let (answer, first, second) = call(&sheet, size, rules_size);
            assert_eq!(answer, expected, "{name}, buffers {size} and {rules_size}");
            let (m, k) = answer.unwrap_or((0, 0));
            assert!(first[..m] == report[..m] && first[m..].iter().all(|b| *b == 0), "{name}, buffers {size} and {rules_size}: the first");
            assert!(
                second[..k] == rules[..k] && second[k..].iter().all(|b| *b == 0),
                "{name}, buffers {size} and {rules_size}: the second"
            );
        }
    }
}

/// The rules that may be named for each entry, in the report's order.
fn allowed(info: &ModuleInfo) -> Vec<&'static [EntryRule]> {
    let mut all: Vec<&'static [EntryRule]> = Vec::new();
    all.extend(info.dependencies.iter().filter_map(|d| d.types_specifier()).map(|_| &[EntryRule::TsTypes, EntryRule::DenoTypes][..]));
    all.extend(info.ts_references.iter().map(|r| match r {
        TypeScriptReference::Path(_) => &[EntryRule::Path][..],
        TypeScriptReference::Types { .. } => &[EntryRule::Types],
    }));
    all.extend(info.self_types_specifier.iter().map(|_| &[EntryRule::SelfTypes][..]));
    all.extend(info.jsx_import_source.iter().map(|_| &[EntryRule::JsxImportSource][..]));
    all.extend(info.jsx_import_source_types.iter().map(|_| &[EntryRule::JsxImportSourceTypes][..]));
    all.extend(info.jsdoc_imports.iter().map(|_| &[EntryRule::Brace, EntryRule::Declaration][..]));
    all.extend(info.source_map_url.iter().map(|_| &[EntryRule::SourceMap][..]));
    all
}

/// What stands at an offset is what its rule begins with, in front of the entry's place.
#[test]
fn origins() {
    let mut named = Vec::new();
    for Item { name, sheet, report, .. } in stored().into_iter().filter(|i| i.number == 0) {
        let info = ModuleInfo::decode(&report).expect("a report");
        let (answer, _, rules) = call(&sheet, 65_536, 65_536);
        let origins = Origin::decode_all(&rules[..answer.expect("an accepted sheet").1]).unwrap_or_else(|e| panic!("{name}: {e}"));
        assert_eq!(origins.len(), info.from_comments().count(), "{name}");
        assert_eq!(origins.len(), allowed(&info).len(), "{name}");
        for ((origin, specifier), allowed) in origins.iter().zip(info.from_comments()).zip(allowed(&info)) {
            assert!(allowed.contains(&origin.rule), "{name}: {origin:?} for {specifier:?}");
            let (front, behind) = source(&sheet).split_at(origin.offset);
            let openings: &[&str] = match origin.rule {
                EntryRule::Brace => &["{"],
                EntryRule::Declaration => &["@import"],
                EntryRule::Path | EntryRule::Types => &["//", "<!--", "-->"],
                EntryRule::JsxImportSource | EntryRule::JsxImportSourceTypes => &["/*"],
                _ => &["//", "/*", "<!--", "-->"],
            };
            assert!(openings.iter().any(|o| behind.starts_with(o)), "{name}: {origin:?} for {specifier:?}");
            assert!(position(front) < specifier.range.start, "{name}: {origin:?} for {specifier:?}");
            named.push(origin.rule);
        }
    }
    assert!(EntryRule::ALL.iter().all(|rule| named.contains(rule)), "the list has entries of every rule");
}

/// The position behind a text.
fn position(front: &str) -> Position {
    let line = front.rfind('\n').map_or(0, |i| i + 1);
    Position { line: front.matches('\n').count(), character: front[line..].chars().count() }
}

/// The source of an accepted sheet: a media byte, a length, the text; no bytes have none.
fn source(sheet: &[u8]) -> &str {
    if sheet.is_empty() {
        return "";
    }
    let groups = 1 + sheet[1..].iter().take_while(|b| **b >= 128).count();
    let length = sheet[1..=groups].iter().rev().fold(0, |n, b| 128 * n + usize::from(b % 128));
    std::str::from_utf8(&sheet[1 + groups..][..length]).expect("the source is UTF-8")
}
