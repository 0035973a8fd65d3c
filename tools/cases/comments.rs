//! What comments give: the groups that count, the ten patterns, JSDoc imports; and lines and columns.

use crate::Cases;
use crate::sheets::*;

pub fn all(c: &mut Cases) {
    head_groups(c);
    members(c);
    patterns(c);
    listing(c);
    grammar(c);
    positions(c);
}

// ---- the groups that the pragmas come from ----

fn head_groups(c: &mut Cases) {
    // three groups with a reference each: leading 0, leading 2, trailing the end
    let comments = ["s", "i", "e"].map(|path| format!("///<reference path='{path}'/>\n"));
    let source = comments.concat();
    let size = comments[0].len();
    let end = source.len();
    let spans = [(0, 0, size - 1), (0, size, 2 * size - 1), (0, 2 * size, 3 * size - 1)];
    let all = [(0, 0, 0, 1), (0, 2, 1, 1), (1, end, 2, 1)];
    for item in [None, Some(2), Some(1)] {
        for shebang in [0, 1] {
            let doc = Doc { source: &source, comments: &spans, groups: &all, span: (0, end), shebang, item, ..Doc::default() };
            c.add(0, format!("head group, item {item:?}, shebang {shebang}"), doc.bytes());
            // the group that is looked for is on the other side
            let turned = [(0, end, 0, 1), (1, 0, 1, 1), (1, 2, 2, 1)];
            c.add(0, format!("head group, item {item:?}, shebang {shebang}, sides exchanged"), Doc { groups: &turned, ..doc }.bytes());
        }
    }
}

/// Which comment of a group counts.
fn members(c: &mut Cases) {
    let first = |what: &str, media: u8, bodies: [&str; 3], side: u8| {
        let source = bodies.concat();
        let mut at = 0;
        let spans = bodies.map(|b| {
            at += b.len();
            (u8::from(b.starts_with("/*")), at - b.len(), at)
        });
        let groups = [(side, if side == 0 { 0 } else { source.len() }, 0, 3)];
        (
            what.to_string(),
            Doc { media, source: &source, comments: &spans, groups: &groups, span: (0, source.len()), ..Doc::default() }.bytes(),
        )
    };
    for (what, sheet) in [
        first("self types, the first that reads", 0, ["//@ts-self-types=a", "/*@ts-self-types='b'*/", "//@ts-self-types='c'"], 0),
        first("references, each that reads", 0, ["///<reference path='a'/>", "///<reference lib='x'/>", "///<reference types='c'/>"], 0),
        first("references, no block", 0, ["/*/<reference path='a'/>*/", "///<reference path='b'/>", "//<reference path='c'/>"], 0),
        first("JSX source, the first block that reads", 1, ["//@jsxImportSource a", "/*@jsxImportSource b*/", "/*@jsxImportSource c*/"], 0),
        first("JSX source, behind one that does not read", 10, ["/*@jsxImportSource*/", "/*x*/", "/*@jsxImportSource c*/"], 0),
        first(
            "JSX source types, the first block that reads",
            10,
            ["//@jsxImportSourceTypes a", "/*@jsxImportSourceTypes b*/", "/*@jsxImportSourceTypes c*/"],
            0,
        ),
        first("JSX source and types", 1, ["/*@jsxImportSourceTypes a*/", "/*@jsxImportSource b*/", "/**/"], 0),
        first("source map, the last that reads", 4, ["//#sourceMappingURL=a", "/*#sourceMappingURL=b*/", "//#sourceMappingURL="], 1),
        first("source map, only in the trailing group", 4, ["//#sourceMappingURL=a", "//x", "//y"], 0),
        first("self types, only in the head group", 0, ["//@ts-self-types='a'", "/*@jsxImportSource b*/", "///<reference path='c'/>"], 1),
    ] {
        c.add(0, what, sheet);
    }
    let trailing = "//#sourceMappingURL=a";
    let n = trailing.len();
    let doc = Doc { source: trailing, comments: &[(0, 0, n)], groups: &[(1, n, 0, 1)], span: (0, n), script: 1, ..Doc::default() };
    c.add(0, "source map, a script", doc.bytes());
    c.add(0, "source map, trailing the program's start", Doc { groups: &[(1, 0, 0, 1)], script: 0, ..doc.clone() }.bytes());
    c.add(0, "source map, leading the program's end", Doc { groups: &[(0, n, 0, 1)], script: 0, ..doc }.bytes());
}

// ---- the ten patterns ----

/// An entry that a comment leads.
fn typed(comment: &str) -> Bytes {
    let source = format!("{comment}''");
    let end = comment.len();
    let span = [number(end), number(end + 2)].concat();
    let root = [vec![9], span.clone(), vec![0, 1], span, text(b"x"), vec![0]].concat();
    let comments = [(u8::from(comment.starts_with("/*")), 0, end)];
    Doc { source: &source, comments: &comments, groups: &[(0, end, 0, 1)], root, ..Doc::default() }.bytes()
}

/// A comment that leads the program's start and trails its end.
fn comment(media: u8, comment: &str) -> Bytes {
    let n = comment.len();
    let comments = [(u8::from(comment.starts_with("/*")), 0, n)];
    Doc { media, source: comment, comments: &comments, groups: &[(0, 0, 0, 1), (1, n, 0, 1)], span: (0, n), ..Doc::default() }.bytes()
}

#[rustfmt::skip]
const REFERENCES: [&str; 63] = [
    "/<reference path=\"a\"/>", "/ <reference path='a' />", "/\u{85}\u{3000}<reference path='a'/>", "/<REFerence path='a'/>",
    "/<reference\tpath='a'/>", "/<reference\npath='a'/>", "/<reference path='a'>", "/<reference path='a'/", "/<reference path='a'/ >",
    "/<referencepath='a'/>", " /<reference path='a'/>", "<reference path='a'/>", "/<reference path='a'\n/>", "/<reference path='a'\r/>",
    "/<reference path='a'\u{2028}/>", "/x<reference path='a'/>", "/<referenc path='a'/>", "/< reference path='a'/>", "/<reference />",
    "/<reference/> path='a'", "/<reference /> path='a'", "/<reference >/> path='a'", "/<reference path=''/>", "/<reference path='a\"/>",
    "/<reference path=\"a'/>", "/<reference path=a/>", "/<reference path='a/>", "/<reference path 'a'/>",
    "/<reference path='a' path='b'/>", "/<reference xpath='a' path='b'/>", "/<reference path= path='b'/>",
    "/<reference PATH\u{2003}=\u{A0}'a'/>", "/<reference  path='a'/>", "/<reference \u{FEFF}path='a'/>", "/<reference pat='a'/>",
    "/<reference path='é'/>", "/<reference path='a\nb'/>", "/<reference path='a=b'/>", "/<reference types='a'/>",
    "/<reference types=''/>", "/<reference tYpeſ='a'/>", "/<reference types ='a'/>", "/<reference types='a\"/>", "/<reference types=a/>",
    "/<reference type='a'/>", "/<reference types='a' path='b'/>", "/<reference types='a' path=b/>", "/<reference types='a' types='b'/>",
    "/<reference types='a' resolution-mode='import'/>", "/<reference types='a' resolution-mode='require'/>",
    "/<reference resolution-mode='require' types='a'/>", "/<reference types='a' reſolution-mode='import'/>",
    "/<reference types='a' RESOLUTION-MODE = \"import'/>", "/<reference types='a' resolution-mode='Import'/>",
    "/<reference types='a' resolution-mode=''/>", "/<reference types='a' resolution-mode='imports'/>",
    "/<reference types='a' resolution-mode=import/>", "/<reference types='a'/> resolution-mode='import'",
    "/<reference types='a'resolution-mode='import'/>", "/<reference types='a' resolution-mode='x' resolution-mode='import'/>",
    "/<reference types='a' resolution_mode='import'/>", "/<reference path='a' resolution-mode='import'/>",
    "/<reference types='a' resolution-mode=' import'/>",
];

#[rustfmt::skip]
const SELF_TYPES: [&str; 24] = [
    "@ts-self-types=\"a\"", "@ts-self-types='a'", "@ts-self-types='a\"", "\u{2029} @ts-self-types = \n'a' x", "@ts-self-types=''",
    "@ts-self-types='", "@ts-self-types='a", "@ts-self-types=a", "x@ts-self-types='a'", "@TS-SELF-TYPES='a'", "@tſ-ſelf-typeſ='a'",
    "@ts-self-types 'a'", "@ts-self-types=='a'", "@ts-self-type='a'", "@ts-self-typess='a'", "ts-self-types='a'", "@ts_self_types='a'",
    "@ts-self-types=\"'\"", "@ts-self-types='a\nb'", "@ts-self-types='é'", "@ts-types='a'", "\u{FEFF}@ts-self-types='a'",
    "*@ts-self-types='a'", "@ts-self-types=' '",
];

#[rustfmt::skip]
const TYPES: [&str; 36] = [
    "@ts-types=\"a\"", "@ts-types='a\"", " @ts-types = 'a'x", "@ts-types=''", "@ts-types='a", "@ts-types=a", "x@ts-types='a'",
    "@TS-TYPES='a'", "@tſ-typeſ='a'", "@ts-types='\n'", "@ts-type='a'", "@ts-types 'a'", "\u{B}@ts-types\u{1680}=\u{205F}'a'",
    "\u{180E}@ts-types='a'", "*@ts-types='a'", "@deno-types=\"a\"", "@deno-types='a\"", "@deno-types='a b'", "@deno-types=a",
    "@deno-types=a b", "@deno-types = a", "@deno-types=\"\"", "@deno-types=\"a", "@deno-types=' a", "@deno-types=a\"b\"",
    "@deno-types='a'b", "@deno-types=", "@deno-types= ", "@deno-types", "@deno-types==a", "@DENO-TYPES=a", "@deno-typeſ=é",
    "x@deno-types=a", "@deno-type=a", "@deno-types=\u{2003}a\u{2003}b", "@deno-types=''x",
];

#[rustfmt::skip]
const JSX: [&str; 22] = [
    "@jsxImportSource a", "* @jsxImportSource a", "**\n*@jsxImportSource\u{2003}\n a b", "@JSXimportſource a", "@jsxImportSource",
    "@jsxImportSource ", "@jsxImportSourcea", "x@jsxImportSource a", "*x@jsxImportSource a", "jsxImportSource a", "@jsxImportSource=a",
    "@jsxImportSources a", "@jsxImport a", "@jsxImportSource 'é'", "\u{FEFF}@jsxImportSource a", "/@jsxImportSource a",
    "@jsxImportSourceTypes a", "*\u{3000}@jsxImportSOURCETYPES\ta ", "@jsxImportSourceTypes", "@jsxImportſourceTypeſ a",
    "@jsxImportSource Types a", "@jsxImportSourceTypesa",
];

#[rustfmt::skip]
const SOURCE_MAPS: [&str; 23] = [
    "#sourceMappingURL=a", "@sourceMappingURL=a", "# sourceMappingURL = a b", "#\u{85}sourceMappingURL=a", "#sourcemappingurl=a",
    "#ſourceMappingURL=a", "#souſceMappingURL=a", "#sourceMappingURL=", "#sourceMappingURL= ", "#sourceMappingURL a",
    " #sourceMappingURL=a", "##sourceMappingURL=a", "sourceMappingURL=a", "#\u{FEFF}sourceMappingURL=a", "#sourceMappingURL=\n'a'",
    "#sourceMappingUR=a", "#sourceMappingURLs=a", "#sourceMappingURL==a", "#sourceMappingURL=\u{200B}a\u{2028}b", "$sourceMappingURL=a",
    "#@sourceMappingURL=a", "# sourceMappingURL\t=\t\"é", "#s ourceMappingURL=a",
];

fn patterns(c: &mut Cases) {
    for body in REFERENCES {
        c.add(0, format!("reference, {body}"), comment(4, &format!("//{body}")));
    }
    for body in SELF_TYPES {
        c.add(0, format!("self types, {body}"), comment(0, &format!("//{body}")));
    }
    for body in TYPES {
        c.add(0, format!("types, {body}"), typed(&format!("/*{body}*/")));
    }
    for body in JSX {
        c.add(0, format!("JSX, {body}"), comment(10, &format!("/*{body}*/")));
    }
    for body in SOURCE_MAPS {
        c.add(0, format!("source map, {body}"), comment(4, &format!("//{body}")));
    }
    c.add(0, "source map, a block", comment(4, "/*#sourceMappingURL=a*/"));
    c.add(0, "source map, up to a block's end", comment(4, "/*#sourceMappingURL=*/"));
    // White_Space and what stands next to it, each where the pattern asks for some
    let white = concat!(
        "\u{9}\u{A}\u{B}\u{C}\u{D} \u{85}\u{A0}\u{1680}\u{2000}\u{2001}\u{2002}\u{2003}\u{2004}\u{2005}\u{2006}",
        "\u{2007}\u{2008}\u{2009}\u{200A}\u{2028}\u{2029}\u{202F}\u{205F}\u{3000}"
    );
    let none = concat!(
        "\u{8}\u{E}\u{1C}\u{1F}!\u{84}\u{86}\u{9F}\u{A1}\u{167F}\u{1681}\u{180E}\u{1FFF}\u{200B}\u{2027}\u{202A}",
        "\u{202E}\u{2030}\u{205E}\u{2060}\u{2FFF}\u{3001}\u{FEFF}"
    );
    for (what, characters) in [("White_Space", white), ("no White_Space", none)] {
        let body: String = characters.chars().map(|w| format!("{{import{w}('')}}")).collect();
        c.add(0, format!("JSDoc import, {what}"), comment(2, &format!("/**{body}*/")));
        let body: String = characters.chars().map(|w| format!("@import{w}A{w}from''")).collect();
        c.add(0, format!("JSDoc declaration, {what}"), comment(3, &format!("/**{body}*/")));
        c.add(
            0,
            format!("reference, {what}"),
            comment(4, &format!("///{}<reference path=''/>", if characters == white { white } else { "\u{8}" })),
        );
    }
    c.add(0, "JSX, all White_Space", comment(1, &format!("/*{white}@jsxImportSource{white}a{white}*/")));
}

// ---- JSDoc imports ----

fn listing(c: &mut Cases) {
    for media in 0..11 {
        let source = "/**{import('a')}*//*@jsxImportSource b*//*@jsxImportSourceTypes d*///@ts-self-types='e'";
        let ends: Vec<usize> = source.match_indices("*/").map(|(i, _)| i + 2).chain([source.len()]).collect();
        let spans = [(1, 0, ends[0]), (1, ends[0], ends[1]), (1, ends[1], ends[2]), (0, ends[2], ends[3])];
        let doc = Doc { media, source, comments: &spans, groups: &[(0, 0, 0, 4)], ..Doc::default() };
        c.add(0, format!("media {media}"), doc.bytes());
    }
    for source in
        ["/*{import('a')}*/", "/* *{import('a')}*/", "//*{import('a')}", "/***/", "/****/", "/**{import('a')*/", "/*@import a from 'a'*/"]
    {
        c.add(0, format!("JSDoc, {source}"), comment(0, source));
    }
    // a reading lies wholly in its comment
    for (body, rest) in [
        ("{import('a')", "}"),
        ("{import('a'", ")}"),
        ("{import('a", "')}"),
        ("{import", "('a')}"),
        ("@import {", "} from 'a'"),
        ("@import a from 'a", "'"),
        ("@import a from '' with{'resolution-mode':'import'", "}"),
    ] {
        let source = format!("/**{body}*/{rest}");
        let end = body.len() + 5;
        let doc = Doc { media: 0, source: &source, comments: &[(1, 0, end)], groups: &[(0, 0, 0, 1)], ..Doc::default() };
        c.add(0, format!("JSDoc, cut off by its comment's end, {body}"), doc.bytes());
    }
    let source = "/**{import('a')}*//**{import('b')}*/";
    let half = source.len() / 2;
    let spans = [(1, 0, half), (1, half, 2 * half)];
    let mut case = |what: &str, groups: &[(u8, usize, usize, usize)]| {
        c.add(0, format!("JSDoc, {what}"), Doc { media: 0, source, comments: &spans, groups, ..Doc::default() }.bytes());
    };
    case("two comments in one group", &[(0, 0, 0, 2)]);
    case("two groups, the second comment first", &[(0, 0, 1, 1), (0, half, 0, 1)]);
    case("trailing groups", &[(1, 0, 0, 1), (1, 1, 1, 1)]);
    case("a comment in two groups", &[(0, 0, 0, 2), (1, 0, 0, 1)]);
}

#[rustfmt::skip]
const BRACES: [&str; 84] = [
    "{import(\"a\")}", "{import('a')}", "{import(\"a')}", "{import('')}", "{\u{2028}import\t(\n'a' )\r}", "{x import('a').A[] }",
    "{important import('a')}", "{import('a')", "{import('a'}", "{import'a')}", "{import(a)}", "{import('a)}", "{}import('a')}",
    "{x}{import('a')}", "{{import('a')}}", "{a{import('b')}}", "{import(\"{import('a')}\")}", "{Import('a')}", "{import('}')}",
    "{import('a'))}", "{import('a')x{y}", "{import import('a')}", "{importimport('a')}", "{impor t('a')}", "{imporx('a')}",
    "{impor import('a')}", "{iimport('a')}", "{éimport('é')}", "import('a')}", "{import('a')}{import('b')}", "{import('a'){import('b')}",
    "{import('a'),import('b')}", "{import()}", "{import(('a'))}", "{import('a''b')}", "{", "{import", "{import(", "{import('",
    "{import('a', {with:", "{import('a',)}", "{import('a',{})}", "{import('a',{with:{}})}", "{import('a' , { with : { } } ) }",
    "{import('a',{with:{},})}", "{import('a',{with:{}},)}", "{import('a',{with{}})}", "{import('a',{wit:{}})}", "{import('a',with:{}})}",
    "{import('a',{with:})}", "{import('a',{with:{}}}", "{import('a',{with:{})}", "{import('a',{'with':{}})}", "{import('a',{With:{}})}",
    "{import('a',{with:{'resolution-mode':'import'}})}", "{import('a',{with:{\"resolution-mode\":\"require\"}})}",
    "{import('a',{with:{'resolution-mode':'Import'}})}", "{import('a',{with:{'resolution-mode':''}})}",
    "{import('a',{with:{'Resolution-mode':'import'}})}", "{import('a',{with:{resolution-mode:'import'}})}",
    "{import('a',{with:{'resolution-mode':'x','resolution-mode':'import'}})}",
    "{import('a',{with:{'resolution-mode':'import','resolution-mode':'x'}})}",
    "{import('a',{with:{type:'json','resolution-mode':'require'}})}", "{import('a',{with:{'type':'json'}})}",
    "{import('a',{with:{'resolution-mode' : 'import' , }})}", "{import('a',{with:{,}})}", "{import('a',{with:{b:'1',,}})}",
    "{import('a',{with:{b:'1' 'c':'2'}})}", "{import('a',{with:{b:'1','c':'2'}})}", "{import('a',{with:{b'1'}})}",
    "{import('a',{with:{b:1}})}", "{import('a',{with:{b:'1}})}", "{import('a',{with:{9:'1'}})}", "{import('a',{with:{$:'1'}})}",
    "{import('a',{with:{b$9é:'1'}})}", "{import('a',{with:{b-c:'1'}})}", "{import('a',{with:{b c:'1'}})}",
    "{import('a',{with:{b}:'1'}})}", "{import('a',{with:{b,c:'1'}})}", "{import('a',{with:{'b'c:'1'}})}",
    "{import('a',{with:{b:'1';}})}", "{import('a',{with:{'':''}})}", "{import('a',{with:{é:'1'}})}",
    "{import('a',{with: {'resolution-mode': \"import'}})}",
];

#[rustfmt::skip]
const DECLARATIONS: [&str; 67] = [
    "@import A from 'a'", "@import A from \"a\"", "@import {A} from 'a'", "@import {A}from'a'", "@import {}from''",
    "@import * as A from 'a'", "@import *as A from'a'", "@import *\u{85}as\u{2003}A\u{3000}from\u{A0}'a'", "@import A, {B} from 'a'",
    "@import{A} from 'a'", "@import A from'a'", "@import Afrom 'a'", "@import A 'a'", "@import * asA from 'a'", "@import * as Afrom 'a'",
    "@import * A from 'a'", "@import * as from 'a'", "@import * as from from 'a'", "@import * as 9 from 'a'", "@import * from 'a'",
    "@import *", "@import * as A", "@import from from 'a'", "@import {A from 'a'", "@import { from 'a'", "@import {} 'a'",
    "@import {} from a", "@import {} from 'a", "@import {} from 'a\"", "@import {a}} from 'a'", "@import {{a} from 'b'",
    "@import {\n a,\n b\n}\n from\n 'a'", "@import $ from 'a'", "@import _ from 'a'", "@import 9 from 'a'", "@import a$9_ from 'a'",
    "@import é from 'a'", "@import \u{345} from 'a'", "@import a:b from 'a'", "@import a-b from 'a'", "@import a,b from 'a'",
    "@Import {} from 'a'", "@import {} From 'a'", "@imports {} from 'a'", "@import type {A} from 'a'", "import {} from 'a'", "@import",
    "@import ", "@import a from", "x@import {} from 'a'", "@import @import {} from 'a'", "@import {@import {} from 'a'}",
    "@import a from '@import b from \"c\"'", "{@import a from 'b'}", "@import a from 'b'@import c from 'd'",
    "@import {} from '{import(\"a\")}'", "@import {import('a')} from 'b'", "@import A from 'a' with {'resolution-mode':'import'}",
    "@import A from 'a'with{\"resolution-mode\" : \"require\",}", "@import A from 'a' with {",
    "@import A from 'a' with {resolution-mode:'import'}", "@import A from 'a' With {'resolution-mode':'import'}",
    "@import A from 'a' with\n{type:'x', 'resolution-mode':'import'}", "@import A from 'a' x with {'resolution-mode':'import'}",
    "@import A from 'a' with {'resolution-mode':'import' x}", "@import A from 'a' with: {'resolution-mode':'import'}",
    "@import A from 'a' with {'resolution-mode':'x','resolution-mode':'import'}",
];

fn grammar(c: &mut Cases) {
    for body in BRACES.iter().chain(&DECLARATIONS) {
        c.add(0, format!("JSDoc, {body}"), comment(0, &format!("/**{body}*/")));
    }
}

// ---- lines and columns ----

fn positions(c: &mut Cases) {
    let call_at = |start: usize, end: usize| {
        let place = [number(start), number(end)].concat();
        [vec![6, 0, 0, 0, 1, 0], place, leaf(), vec![0]].concat()
    };
    for source in ["a\né\r\nb\rc", "\u{2028}x\u{85}\u{B}\n\n\u{1D49C}\n", "\u{FEFF}𝒜中\né"] {
        let places: Vec<usize> = (0..=source.len()).filter(|p| source.is_char_boundary(*p)).collect();
        let calls: Vec<Bytes> = places.iter().map(|p| call_at(*p, source.len())).collect();
        c.add(0, format!("positions of {source}"), Doc { source, root: other(&calls), ..Doc::default() }.bytes());
    }
    for (what, source) in
        [("127 and 128 lines", "\n".repeat(128)), ("127 and 128 columns", "é".repeat(128)), ("columns of two groups", "x".repeat(300))]
    {
        let size = if source.starts_with('é') { 2 } else { 1 };
        let calls = [call_at(127 * size, 128 * size), call_at(128 * size, source.len())];
        c.add(0, format!("positions, {what}"), Doc { source: &source, root: other(&calls), ..Doc::default() }.bytes());
    }
    let value = "v".repeat(128);
    c.add(0, "a text of 128 bytes", bare(dynamic(string(&value))));
}
