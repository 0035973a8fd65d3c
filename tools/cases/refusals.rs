//! Refusals that ask for more than one wrong field: forms of numbers and texts, comments, groups, depths, and what stands behind the root.

use crate::Cases;
use crate::fields::LARGEST;
use crate::sheets::*;
use crate::tree::{PASSED_OVER, WALKED};

pub fn all(c: &mut Cases) {
    c.add(0, "no bytes", vec![]);
    numbers(c);
    texts(c);
    strings(c);
    comments(c);
    groups(c);
    depths(c);
    behind_the_root(c);
}

fn numbers(c: &mut Cases) {
    let groups: [(&str, &[u8]); 7] = [
        ("six groups", &[0x80, 0x80, 0x80, 0x80, 0x80, 1]),
        ("six groups, the last 0", &[0x80, 0x80, 0x80, 0x80, 0x80, 0]),
        ("five groups, the last 0", &[0x80, 0x80, 0x80, 0x80, 0]),
        ("ten groups", &[0xFF, 0xFF, 0xFF, 0xFF, 0xFF, 0xFF, 0xFF, 0xFF, 0xFF, 1]),
        ("five groups, all full", &[0xFF, 0xFF, 0xFF, 0xFF, 0x7F]),
        ("five groups, cut off", &[0xFF, 0xFF, 0xFF, 0xFF]),
        ("three groups, the last 0", &[0x81, 0x80, 0]),
    ];
    for (what, bytes) in groups {
        c.add(2, format!("source length, {what}"), [&[0], bytes].concat());
        c.add(2, format!("child count, {what}"), bare([&[0, 0, 0], bytes].concat()));
        c.add(2, format!("start, {what}"), bare([&[0], bytes].concat()));
    }
    c.add(4, "source length, the largest", [&[0], &LARGEST[..]].concat());
    c.add(6, "start, the largest", bare([&[0], &LARGEST[..]].concat()));
    c.add(6, "start, three groups", bare(vec![0, 0x80, 0x80, 1]));
    c.add(2, "source length, three groups", vec![0, 0x80, 0x80, 1]);
    c.add(4, "source length, three groups, over", vec![0, 0x80, 0x80, 3]);
    c.add(2, "length, over and not shortest", bare(vec![1, 0, 2, 0x81, 0xA0, 0]));
    c.add(2, "start, past the source and not shortest", bare(vec![0, 0x85, 0]));
    c.add(0, "source length, two groups", Doc { source: &"x".repeat(128), ..Doc::default() }.bytes());
    c.add(0, "child count, two groups", bare(other(&vec![name(""); 130])));
}

/// Byte sequences at the borders of what UTF-8 and WTF-8 allow.
fn texts(c: &mut Cases) {
    #[rustfmt::skip]
    const BOTH: [&[u8]; 14] = [
        b"\x00", b"\x7F", b"\xC2\x80", b"\xDF\xBF", b"\xE0\xA0\x80", b"\xE1\x80\x80", b"\xEC\xBF\xBF", b"\xED\x80\x80", b"\xED\x9F\xBF",
        b"\xEE\x80\x80", b"\xEF\xBF\xBF", b"\xF0\x90\x80\x80", b"\xF3\xBF\xBF\xBF", b"\xF4\x8F\xBF\xBF",
    ];
    #[rustfmt::skip]
    const NONE: [&[u8]; 33] = [
        b"\x80", b"\xBF", b"\x82\x80", b"\xBF\xBF", b"\xC2\x20", b"\xE1\x80\x3F", b"\xC0\x80", b"\xC1\xBF", b"\xC2", b"\xC2\x7F",
        b"\xC2\xC0", b"\xE0\x9F\xBF", b"\xE0\xA0", b"\xE1\x80", b"\xE1\x7F\x80", b"\xE1\x80\xC0", b"\xED\xA0", b"\xED\xC0\x80",
        b"\xF0\x8F\xBF\xBF", b"\xF0\x90\x80", b"\xF1\x80\x80\xC0", b"\xF1\x80\x7F\x80", b"\xF4\x90\x80\x80", b"\xF5\x80\x80\x80",
        b"\xF8\x88\x80\x80\x80", b"\xFE", b"\xFF", b"\xED\xA0\x80\xED\xB0\x80", b"\xED\xAF\xBF\xED\xBF\xBF",
        b"\xED\xA0\x80\xED\xA0\x80\xED\xB0\x80", b"a\x80", b"\xC2\x80\x80", b"\xED\xB0\x80\xED\xA0\x80\xED\xB0\x80",
    ];
    #[rustfmt::skip]
    const WTF8: [&[u8]; 10] = [
        b"\xED\xA0\x80", b"\xED\xAF\xBF", b"\xED\xB0\x80", b"\xED\xBF\xBF", b"\xED\xB0\x80\xED\xA0\x80", b"\xED\xA0\x80a\xED\xB0\x80",
        b"\xED\xA0\x80\xED\xA0\x80", b"\xED\xB0\x80\xED\xB0\x80", b"\xED\xA0\x80\xED\x9F\xBF", b"\xED\xA0\x80\xEE\x80\x80",
    ];
    let sequences = BOTH.iter().map(|s| (0, 0, s)).chain(NONE.iter().map(|s| (5, 5, s))).chain(WTF8.iter().map(|s| (5, 0, s)));
    for (in_utf8, in_wtf8, sequence) in sequences {
        let hex: String = sequence.iter().map(|b| format!("{b:02X}")).collect();
        c.add(in_utf8, format!("Name, text {hex}"), bare([vec![2, 0, 0], text(sequence)].concat()));
        c.add(in_wtf8, format!("argument, text {hex}"), bare(dynamic(string(sequence))));
    }
    let pair = b"\xED\xA0\x80\xED\xB0\x80";
    for (what, root) in [("ExportAll", [vec![9, 0, 0, 0], string(pair)].concat()), ("Module", [vec![12, 0, 0, 1], string(pair)].concat())] {
        c.add(5, format!("{what}.String, a surrogate pair"), bare(root));
    }
}

/// The place of a String, a node of its own or one that another holds.
fn strings(c: &mut Cases) {
    let mut case = |number, what: &str, source: &str, start: u8, end: u8| {
        for (name, front, back) in [("String", &[][..], &[][..]), ("ExportAll.String", &[9, 0, 0, 0], &[0])] {
            let root = [front, &[1, start, end, 0], back].concat();
            c.add(number, format!("{name}, {what}"), Doc { source, root, ..Doc::default() }.bytes());
        }
    };
    case(0, "two bytes", "\"\"", 0, 2);
    case(0, "single marks", "''", 0, 2);
    case(0, "marks inside", "'\"''", 0, 4);
    case(13, "no bytes", "''", 0, 0);
    case(13, "one byte", "''", 0, 1);
    case(13, "one byte, the source", "\"", 0, 1);
    case(13, "unlike marks", "\"'", 0, 2);
    case(13, "unlike marks, the other way", "'\"", 0, 2);
    case(13, "backticks", "``", 0, 2);
    case(13, "a byte late", "'' ", 1, 3);
}

fn comments(c: &mut Cases) {
    let mut case = |number, what: &str, source: &str, comments: &[(u8, usize, usize)]| {
        let groups = [(0, 0, 0, comments.len())];
        c.add(number, format!("comments, {what}"), Doc { source, comments, groups: &groups, ..Doc::default() }.bytes());
    };
    case(0, "two that touch", "////", &[(0, 0, 2), (0, 2, 4)]);
    case(0, "a gap", "// //", &[(0, 0, 2), (0, 3, 5)]);
    case(7, "the second starts before the end of the first", "/////", &[(0, 0, 3), (0, 2, 4)]);
    case(7, "the second starts where the first does", "////", &[(0, 0, 4), (0, 0, 4)]);
    case(7, "the second lies in front of the first", "////", &[(0, 2, 4), (0, 0, 2)]);
    case(6, "the second starts too early and inside a character", "//é//", &[(0, 0, 4), (0, 3, 6)]);
    case(7, "starts too early, its end past the source", "////", &[(0, 0, 4), (0, 2, 9)]);
    case(7, "starts too early, its end before its start", "////", &[(0, 0, 4), (0, 2, 0)]);
    case(7, "line, empty", "//", &[(0, 0, 0)]);
    case(7, "line, one byte", "//", &[(0, 0, 1)]);
    case(7, "line, one byte of the source", "/", &[(0, 0, 1)]);
    case(7, "line, its first byte", "x/", &[(0, 0, 2)]);
    case(7, "line, its second byte", "/x", &[(0, 0, 2)]);
    case(7, "line, a block's marks", "/**/", &[(0, 0, 4)]);
    case(7, "line, starts a byte late", "//x", &[(0, 1, 3)]);
    case(0, "line, with LF", "//\n", &[(0, 0, 3)]);
    case(0, "block, empty", "/**/", &[(1, 0, 4)]);
    case(0, "block, with its end mark inside", "/**/*/", &[(1, 0, 6)]);
    case(7, "block, three bytes", "/*/", &[(1, 0, 3)]);
    case(7, "block, two bytes", "/*", &[(1, 0, 2)]);
    case(7, "block, no bytes", "/**/", &[(1, 0, 0)]);
    case(7, "block, its first byte", "x**/", &[(1, 0, 4)]);
    case(7, "block, its second byte", "/x*/", &[(1, 0, 4)]);
    case(7, "block, its last byte but one", "/*x/", &[(1, 0, 4)]);
    case(7, "block, its last byte", "/**x", &[(1, 0, 4)]);
    case(7, "block, ends a byte early", "/*x*/", &[(1, 0, 4)]);
    case(7, "block, ends a byte late", "/**/x", &[(1, 0, 5)]);
    case(7, "block, a line's marks", "//*/", &[(1, 0, 4)]);
    case(7, "HTML opening, no bytes", "<!--", &[(2, 0, 0)]);
    case(7, "HTML opening, three bytes", "<!--", &[(2, 0, 3)]);
    case(7, "HTML opening, its last byte", "<!-x", &[(2, 0, 4)]);
    case(7, "HTML opening, the closing's marks", "-->x", &[(2, 0, 4)]);
    case(7, "HTML opening, a line's marks", "//--", &[(2, 0, 4)]);
    case(7, "HTML closing, two bytes", "-->", &[(3, 0, 2)]);
    case(7, "HTML closing, its last byte", "--x", &[(3, 0, 3)]);
    case(7, "HTML closing, the opening's marks", "<!--", &[(3, 0, 4)]);
    case(7, "line, an HTML opening's marks", "<!--", &[(0, 0, 4)]);
    case(6, "end before its start, no marks", "xxxx", &[(0, 3, 1)]);
    case(6, "end past the source, no marks", "xx", &[(0, 0, 3)]);
    case(6, "end inside a character, no marks", "xé", &[(0, 0, 2)]);
    case(7, "no marks, and the next one past the source", "xx", &[(0, 0, 2), (0, 9, 9)]);
}

/// Two comments, and groups that are right or not.
fn groups(c: &mut Cases) {
    let largest = 4_294_967_295;
    let mut case = |number, what: &str, groups: &[(u8, usize, usize, usize)]| {
        let doc = Doc { source: "////é", comments: &[(0, 0, 2), (0, 2, 4)], groups, ..Doc::default() };
        c.add(number, format!("groups, {what}"), doc.bytes());
    };
    case(0, "both comments", &[(0, 0, 0, 2)]);
    case(0, "each in one", &[(0, 0, 0, 1), (0, 1, 1, 1)]);
    case(0, "a later side at an earlier position", &[(0, 4, 0, 1), (1, 0, 1, 1)]);
    case(0, "one position on both sides", &[(0, 4, 0, 1), (1, 4, 1, 1)]);
    case(0, "they overlap", &[(0, 0, 0, 2), (0, 1, 1, 1)]);
    case(0, "the second comment first", &[(0, 0, 1, 1), (0, 1, 0, 1)]);
    case(7, "none", &[]);
    case(7, "the second comment in none", &[(0, 0, 0, 1)]);
    case(7, "the first comment in none", &[(0, 0, 1, 1)]);
    case(7, "count 0", &[(0, 0, 0, 2), (0, 1, 0, 0)]);
    case(7, "count 0 at the end", &[(0, 0, 0, 2), (0, 1, 2, 0)]);
    case(7, "count one over", &[(0, 0, 0, 3)]);
    case(7, "first one over", &[(0, 0, 1, 2)]);
    case(7, "first at the end", &[(0, 0, 0, 2), (0, 1, 2, 1)]);
    case(7, "the largest first", &[(0, 0, 0, 2), (0, 1, largest, 1)]);
    case(7, "the largest count", &[(0, 0, 0, 2), (0, 1, 1, largest)]);
    case(7, "the largest first and count", &[(0, 0, 0, 2), (0, 1, largest, largest)]);
    case(7, "one position twice", &[(0, 1, 0, 2), (0, 1, 0, 2)]);
    case(7, "descending", &[(0, 2, 0, 2), (0, 1, 0, 2)]);
    case(7, "trailing, descending", &[(1, 2, 0, 2), (1, 1, 0, 2)]);
    case(7, "leading behind trailing", &[(1, 0, 0, 2), (0, 1, 0, 2)]);
    case(6, "out of order and inside a character", &[(1, 6, 0, 2), (0, 5, 0, 2)]);
    case(6, "out of order and past the source", &[(1, 0, 0, 2), (0, 7, 0, 2)]);
    case(7, "out of order, then first too large", &[(0, 2, 0, 2), (0, 1, largest + 1, 2)]);
    case(2, "too far, then count too large", &[(0, 0, 9, largest + 1)]);
    case(7, "count 0, then a side", &[(0, 0, 0, 0), (2, 0, 0, 0)]);
    // cut off behind the position, out of order; behind the groups, with a comment in none
    let front = [4, 2, b'/', b'/', 1, 0, 0, 2];
    let mut cut = |number, what: &str, rest: &[u8]| c.add(number, format!("groups, {what}"), [&front, rest].concat());
    cut(7, "out of order, then cut off", &[2, 0, 1, 0, 1, 0, 0]);
    cut(2, "leading behind trailing, cut off at its position", &[2, 1, 0, 0, 1, 0]);
    cut(3, "leading behind trailing, then a side", &[3, 1, 0, 0, 1, 2]);
    cut(2, "too far, cut off at its count", &[1, 0, 0, 9]);
    cut(7, "a comment in none, then cut off", &[0]);
    cut(7, "a comment in none, then no script flag", &[0, 2]);
    c.add(7, "groups, no comments", Doc { groups: &[(0, 0, 0, 1)], ..Doc::default() }.bytes());
    c.add(7, "groups, no comments, count 0", Doc { groups: &[(0, 0, 0, 0)], ..Doc::default() }.bytes());
}

/// Nodes that hold a String, up to its tag.
#[rustfmt::skip]
const HOLDERS: [(&str, &[u8]); 6] = [
    ("Import.String", &[7, 0, 0, 0, 0, 0, 1]),
    ("NamedExport.String", &[8, 0, 0, 0, 1, 1]),
    ("ExportAll.String", &[9, 0, 0, 0, 1]),
    ("ImportType.String", &[10, 0, 0, 1]),
    ("ImportEquals.String", &[11, 0, 0, 1, 0, 0, 1]),
    ("Module.String", &[12, 0, 0, 1, 1]),
];

/// The node below so many Others.
fn below(levels: usize, n: Bytes) -> Bytes {
    [[0, 0, 0, 1].repeat(levels), n].concat()
}

/// The node below so many levels of all places, one in the other.
fn below_places(mut levels: usize, mut n: Bytes) -> Bytes {
    for (name, place) in WALKED.iter().chain(&PASSED_OVER).cycle() {
        // an Object that is held is a level of its own
        let more = if name.contains("Object.") && !name.starts_with("Object") { 2 } else { 1 };
        if more > levels {
            return below(levels, n);
        }
        n = place(n);
        levels -= more;
    }
    n
}

fn depths(c: &mut Cases) {
    c.add(0, "depth 64", bare(below(63, leaf())));
    c.add(4, "depth 65", bare(below(64, leaf())));
    // if a place counted no level or two, one of these would be answered otherwise
    c.add(0, "depth 64 through all places", bare(below_places(63, leaf())));
    c.add(4, "depth 65 through all places", bare(below_places(64, leaf())));
    let held =
        [import(0, 0, 0, Some(object(&[]))), named_export(0, Some(string("a")), Some(object(&[]))), import_type(&[], Some(object(&[])))];
    let more = [export_all(0, Some(object(&[]))), import_equals(&[1, 0, 0]), module(Some(string("a")), &[])];
    c.add(0, "depth 64 of Strings and Objects that are held", bare(below(61, other(&[held, more].concat()))));
    for (name, holder) in HOLDERS {
        c.add(4, format!("{name}, depth 65"), bare(below(63, holder.to_vec())));
    }
    c.add(3, "a String's place, depth 65 and not allowed", bare(below(63, vec![9, 0, 0, 0, 9])));
    c.add(3, "depth 65 and tag 13", bare(below(64, vec![13])));
    c.add(2, "depth 65 and cut off", bare(below(64, vec![])));
    c.add(4, "depth 65 and a start past the source", bare(below(64, vec![0, 9])));
    let many: Vec<Bytes> = (0..64u8).map(|i| named(std::str::from_utf8(&[b'0' + i]).expect("ASCII"), string(""))).collect();
    c.add(0, "Object, 64 properties", bare(export_all(0, Some(object(&many)))));
}

fn behind_the_root(c: &mut Cases) {
    let uncooked = dynamic(template(&UNCOOKED, &[]));
    c.add(8, "a byte behind the root", bare([leaf(), vec![0]].concat()));
    c.add(8, "a node behind the root", bare([leaf(), leaf()].concat()));
    c.add(9, "an uncooked piece", bare(uncooked.clone()));
    c.add(8, "an uncooked piece, and a byte behind the root", bare([uncooked.clone(), vec![0]].concat()));
    c.add(3, "an uncooked piece, and a later tag", bare([vec![0, 0, 0, 2], uncooked, vec![13]].concat()));
}
