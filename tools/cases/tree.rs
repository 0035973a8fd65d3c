//! What the tree gives: the walk, the kinds of entries, arguments, attributes and the types of an entry.

use crate::Cases;
use crate::fields::FORMS;
use crate::sheets::*;

pub fn all(c: &mut Cases) {
    walk(c);
    kinds(c);
    arguments(c);
    templates(c);
    chains(c);
    calls(c);
    attributes(c);
    types(c);
}

// ---- places of nodes ----

pub type Place = (&'static str, fn(Bytes) -> Bytes);

/// Where any node may stand, and the walk comes.
#[rustfmt::skip]
pub const WALKED: [Place; 24] = [
    ("Other.child", |n| other(&[n])),
    ("Other.child 2", |n| other(&[leaf(), n])),
    ("Template.hole", |n| template(&[Some(b""), None], &[n])),
    ("Template.hole 2", |n| template(&[Some(b""), None, None], &[leaf(), n])),
    ("Binary.left", |n| binary(1, n, leaf())),
    ("Binary.right", |n| binary(0, leaf(), n)),
    ("Object.spread", |n| object(&[spread(n)])),
    ("Object.other", |n| object(&[method(n)])),
    ("Object.computed key", |n| object(&[computed(n, leaf())])),
    ("Object.computed key's value", |n| object(&[computed(leaf(), n)])),
    ("Object.string key's value", |n| object(&[quoted("k", n)])),
    ("Object.name key's value", |n| object(&[named("k", n)])),
    ("Call.expression", |n| called(expression(n), &[], &[])),
    ("Call.argument 1", |n| called(expression(leaf()), &[(0, n)], &[])),
    ("Call.spread argument", |n| called(expression(leaf()), &[(1, n)], &[])),
    ("Call.argument 2", |n| called(vec![0], &[(0, leaf()), (0, n)], &[])),
    ("Call.child", |n| called(vec![0], &[], &[n])),
    ("ImportType.child", |n| import_type(&[n], None)),
    ("ImportType.Object.spread", |n| import_type(&[], Some(object(&[spread(n)])))),
    ("ImportType.Object.other", |n| import_type(&[], Some(object(&[method(n)])))),
    ("ImportType.Object.computed key", |n| import_type(&[], Some(object(&[computed(n, leaf())])))),
    ("ImportType.Object.value", |n| import_type(&[], Some(object(&[named("k", n)])))),
    ("Module.child", |n| module(Some(string("a")), &[n])),
    ("Module.child, no String", |n| module(None, &[n])),
];

/// Where any node may stand, and the walk does not come.
#[rustfmt::skip]
pub const PASSED_OVER: [Place; 8] = [
    ("Import.Object.spread", |n| import(0, 0, 0, Some(object(&[spread(n)])))),
    ("Import.Object.other", |n| import(0, 0, 0, Some(object(&[method(n)])))),
    ("Import.Object.computed key", |n| import(0, 0, 0, Some(object(&[computed(n, leaf())])))),
    ("Import.Object.value", |n| import(0, 0, 0, Some(object(&[named("k", n)])))),
    ("NamedExport.Object.spread", |n| named_export(0, Some(string("a")), Some(object(&[spread(n)])))),
    ("NamedExport.Object.value", |n| named_export(0, Some(string("a")), Some(object(&[named("k", n)])))),
    ("ExportAll.Object.spread", |n| export_all(0, Some(object(&[spread(n)])))),
    ("ExportAll.Object.value", |n| export_all(0, Some(object(&[quoted("k", n)])))),
];

// ---- the walk ----

fn walk(c: &mut Cases) {
    let uncooked = || dynamic(template(&UNCOOKED, &[]));
    for (name, place) in WALKED {
        c.add(0, format!("{name}, a call"), bare(place(import_call("x"))));
        c.add(9, format!("{name}, an uncooked piece"), bare(place(uncooked())));
    }
    for (name, place) in PASSED_OVER {
        c.add(0, format!("{name}, a call that is not walked"), bare(place(import_call("x"))));
        c.add(0, format!("{name}, an uncooked piece that is not walked"), bare(place(uncooked())));
    }
    let [b, d, e, f] = ["b", "d", "e", "f"].map(import_call);
    let all = || [b.clone(), d.clone(), e.clone(), f.clone()];
    let require = expression(name("require"));
    let mut order = |what: &str, root: Bytes| c.add(0, format!("order, {what}"), bare(root));
    order("children", other(&all()));
    order("holes", template(&[Some(b""), Some(b""), Some(b"")], &[b.clone(), d.clone()]));
    order("left and right", binary(1, b.clone(), d.clone()));
    let properties = [computed(b.clone(), d.clone()), spread(e.clone()), method(f.clone())];
    order("properties", object(&properties));
    order("callee, arguments, children", called(expression(b.clone()), &[(0, d.clone()), (0, e.clone())], std::slice::from_ref(&f)));
    order("a call behind its arguments and children", called(require, &[(0, b.clone()), (0, d.clone())], &[e.clone(), f.clone()]));
    order("nested import calls", dynamic(dynamic(b.clone())));
    order(
        "an import type before its children, its Object last",
        import_type(&[b.clone(), d.clone()], Some(object(&[spread(e.clone()), method(f.clone())]))),
    );
    order("a module before its children", module(Some(string("a")), &all()));
    order("a first argument's call, then its own", dynamic(binary(1, string("a"), b.clone())));
    order(
        "a call in the callee of a call that is none",
        called(expression(called(expression(b.clone()), &[], &[])), &[(0, d.clone())], &[]),
    );
}

fn kinds(c: &mut Cases) {
    let mut case = |what: String, root: Bytes| c.add(0, what, bare(root));
    for type_only in [0, 1] {
        for phase in 0..3 {
            for side_effect in [0, 1] {
                case(
                    format!("Import, type-only {type_only}, phase {phase}, side effect {side_effect}"),
                    import(type_only, phase, side_effect, None),
                );
            }
        }
        case(format!("NamedExport, type-only {type_only}"), named_export(type_only, Some(string("a")), None));
        case(format!("NamedExport, type-only {type_only}, no String"), named_export(type_only, None, None));
        case(format!("ExportAll, type-only {type_only}"), export_all(type_only, None));
        for export in [0, 1] {
            case(format!("ImportEquals, type-only {type_only}, export {export}"), import_equals(&[1, type_only, export]));
        }
    }
    case("ImportEquals, not external".into(), import_equals(&[0]));
    case("ImportType".into(), import_type(&[], None));
    case("Module, no String".into(), module(None, &[]));
    for value in
        ["a", "", "*", "a*", "*a", "./*", "../*", "/*", ".*", "..*", "./a", "../a", "/a", ".", "..", "*./", "*/", " ./*", "./", "../"]
    {
        case(format!("Module, {value:?}"), module(Some(string(value)), &[]));
    }
    case("Module, a surrogate and *".into(), module(Some(string(b"\xED\xA0\x80*")), &[]));
    case("Module, ./ and a surrogate and *".into(), module(Some(string(b"./\xED\xA0\x80*")), &[]));
    for callee in 0..3 {
        case(format!("Call, callee {callee}"), called(vec![callee], &[(0, string("a"))], &[]));
        case(format!("Call, callee {callee}, no argument"), called(vec![callee], &[], &[]));
    }
    for value in ["require", "Require", "requires", "requir", "equire", "", "import"] {
        case(format!("Call, Name {value:?}"), called(expression(name(value)), &[(0, string("a"))], &[]));
    }
    case("Call, require, no argument".into(), called(expression(name("require")), &[], &[]));
    case("Call, the String require".into(), called(expression(string("require")), &[(0, string("a"))], &[]));
    case("Call, Other with require".into(), called(expression(other(&[name("require")])), &[(0, string("a"))], &[]));
    for n in [string("a"), name("require"), template(&UNCOOKED, &[]), binary(1, string("a"), string("b")), object(&[])] {
        case(format!("{} is no entry", FORMS[n[0] as usize]), n);
    }
}

// ---- arguments ----

const SURROGATE: &[u8] = b"\xED\xB0\x80";

/// The import call with that argument.
fn argument(c: &mut Cases, number: u8, what: &str, n: Bytes) {
    c.add(number, format!("argument, {what}"), bare(dynamic(n)));
}

fn arguments(c: &mut Cases) {
    for (what, n) in [
        ("an empty String", string("")),
        ("a String with surrogates", string(b"\xED\xA0\x80x\xED\xBF\xBF\xC3\xA9")),
        ("Name", name("x")),
        ("Other", leaf()),
        ("Object", object(&[])),
        ("Call", called(vec![0], &[], &[])),
        ("ImportType", import_type(&[], None)),
    ] {
        argument(c, 0, what, n);
    }
    // its range is not that of the String in it
    let doc = Doc { source: "(\"s\")", root: vec![6, 0, 5, 0, 1, 1, 0, 5, 1, 1, 4, 1, b's', 0], ..Doc::default() };
    c.add(0, "argument, its own range", doc.bytes());
}

fn templates(c: &mut Cases) {
    let mut case = |number, what: &str, n: Bytes| argument(c, number, what, n);
    let (a, x, uncooked) = (|| string("a"), || name("x"), || template(&UNCOOKED, &[]));
    let [one, two, none]: [Option<&[u8]>; 3] = [Some(b"1"), Some(b"2"), Some(b"")];
    for (what, pieces) in [("a", &[one][..]), ("empty", &[none]), ("a surrogate", &[Some(SURROGATE)])] {
        case(0, &format!("a template without holes, {what}"), template(pieces, &[]));
    }
    for (what, pieces) in [
        ("1 x 2", &[one, two][..]),
        ("1 x", &[one, none]),
        ("x 2", &[none, two]),
        ("x", &[none, none]),
        ("1 x x 2", &[one, none, two]),
        ("x 1 x", &[none, one, none]),
        ("x and a surrogate", &[none, Some(SURROGATE)]),
    ] {
        case(0, &format!("a template, {what}"), template(pieces, &vec![x(); pieces.len() - 1]));
    }
    case(0, "a template with a String in its hole", template(&[one, two], &[a()]));
    for (what, pieces) in [("first", &[None, one][..]), ("last", &[one, None]), ("middle", &[one, None, two])] {
        case(9, &format!("a template, uncooked at its {what}"), template(pieces, &vec![x(); pieces.len() - 1]));
    }
    case(0, "an uncooked template in a hole", template(&[one, two], &[uncooked()]));
    case(0, "an uncooked template in a chain", binary(1, a(), uncooked()));
    case(0, "an uncooked template on the left", binary(1, uncooked(), a()));
    case(0, "an uncooked template in an Other", other(&[uncooked()]));
    case(0, "a template on the right", binary(1, a(), template(&[one], &[])));
    case(0, "a template on the left", binary(1, template(&[one], &[]), a()));
}

fn chains(c: &mut Cases) {
    let mut case = |what: &str, n: Bytes| argument(c, 0, what, n);
    let (a, b, x, empty) = (|| string("a"), || string("b"), || name("x"), || string(""));
    case("a+b", binary(1, a(), b()));
    case("a+x", binary(1, a(), x()));
    case("x+a", binary(1, x(), a()));
    case("a-b", binary(0, a(), b()));
    case("empty strings", binary(1, empty(), empty()));
    case("surrogates", binary(1, string(SURROGATE), string(SURROGATE)));
    case("(a+b)+c", binary(1, binary(1, a(), b()), string("c")));
    case("(a+x)+b", binary(1, binary(1, a(), x()), b()));
    case("(x+a)+b", binary(1, binary(1, x(), a()), b()));
    case("(x+a)+y", binary(1, binary(1, x(), a()), name("y")));
    case("a+(b+c)", binary(1, a(), binary(1, b(), string("c"))));
    case("a+(b-c)", binary(1, a(), binary(0, b(), string("c"))));
    case("(a-b)+c", binary(1, binary(0, a(), b()), string("c")));
    case("(a+b)-c", binary(0, binary(1, a(), b()), string("c")));
    case("((a+b)+c)+d", binary(1, binary(1, binary(1, a(), b()), string("c")), string("d")));
    case("((a-b)+c)+d", binary(1, binary(1, binary(0, a(), b()), string("c")), string("d")));
}

fn calls(c: &mut Cases) {
    let mut whole = |number, what: &str, n: Bytes| c.add(number, format!("call, {what}"), bare(n));
    let (a, uncooked) = (|| string("a"), || template(&UNCOOKED, &[]));
    whole(0, "a spread String", called(expression(name("require")), &[(1, a())], &[]));
    whole(9, "a spread uncooked template", called(vec![0], &[(1, uncooked())], &[]));
    whole(9, "source phase, uncooked", called(vec![1], &[(0, uncooked())], &[]));
    whole(9, "defer phase, uncooked", called(vec![2], &[(0, uncooked())], &[]));
    whole(9, "require, uncooked", called(expression(name("require")), &[(0, uncooked())], &[]));
    whole(0, "another Name, uncooked", called(expression(name("requires")), &[(0, uncooked())], &[]));
    whole(0, "another expression, uncooked", called(expression(uncooked()), &[(0, uncooked())], &[]));
    whole(0, "uncooked in the second argument", called(vec![0], &[(0, a()), (0, uncooked())], &[]));
    whole(0, "uncooked in a child", called(vec![0], &[(0, a())], &[uncooked()]));
    whole(9, "the second of two", other(&[import_call("a"), dynamic(uncooked())]));
}

// ---- attributes ----

fn attribute_objects() -> Vec<(&'static str, Vec<Bytes>)> {
    let (one, two, x) = (|| string("1"), || string("2"), || name("x"));
    let lone = || string(SURROGATE);
    vec![
        ("{}", vec![]),
        ("{a:1}", vec![named("a", one())]),
        ("{'a':1}", vec![quoted("a", one())]),
        ("{'':''}", vec![quoted("", string(""))]),
        ("{b:1,a:2}", vec![named("b", one()), named("a", two())]),
        ("{aa:1,a:2}", vec![named("aa", one()), named("a", two())]),
        ("{e-acute:1,z:2,Z:x}", vec![named("é", one()), named("z", two()), named("Z", x())]),
        ("{c:1,a:2,b:1}", vec![named("c", one()), named("a", two()), named("b", one())]),
        ("{a:1,a:2}", vec![named("a", one()), named("a", two())]),
        ("{a:1,'a':2}", vec![named("a", one()), quoted("a", two())]),
        ("{a:1,b:1,a:2}", vec![named("a", one()), named("b", one()), named("a", two())]),
        ("{a:1,a:x}", vec![named("a", one()), named("a", x())]),
        ("{a:x,a:1}", vec![named("a", x()), named("a", one())]),
        ("{a:x}", vec![named("a", x())]),
        ("{a:other}", vec![named("a", leaf())]),
        ("{a:template}", vec![named("a", template(&[Some(b"1")], &[]))]),
        ("{a:1+2}", vec![named("a", binary(1, one(), two()))]),
        ("{a:surrogate}", vec![named("a", lone())]),
        ("{a:1,a:surrogate}", vec![named("a", one()), named("a", lone())]),
        ("{a:xsurrogate}", vec![named("a", string(b"x\xED\xA0\x80"))]),
        ("{surrogate:1}", vec![quoted(SURROGATE, one())]),
        ("{a:1,surrogate:2}", vec![named("a", one()), quoted(SURROGATE, two())]),
        ("{U+D7FF:U+D7FF}", vec![quoted("\u{D7FF}", string("\u{D7FF}"))]),
        ("{U+FFFD:1}", vec![quoted("\u{FFFD}", one())]),
        ("{...x,a:1}", vec![spread(x()), named("a", one())]),
        ("{a:1,...x}", vec![named("a", one()), spread(x())]),
        ("{a(){},a:1}", vec![method(leaf()), named("a", one())]),
        ("{a:1,b(){}}", vec![named("a", one()), method(leaf())]),
        ("{['b']:2,a:1}", vec![computed(string("b"), two()), named("a", one())]),
        ("{a:1,['b']:2}", vec![named("a", one()), computed(string("b"), two())]),
    ]
}

fn attributes(c: &mut Cases) {
    for (what, properties) in attribute_objects() {
        let o = || object(&properties);
        c.add(0, format!("ExportAll, attributes {what}"), bare(export_all(0, Some(o()))));
        c.add(0, format!("ImportType, attributes {what}"), bare(import_type(&[], Some(o()))));
        c.add(0, format!("Call, with {what}"), bare(with_options(object(&[named("with", o())]))));
    }
    let a = || object(&[named("a", string("1"))]);
    c.add(0, "Import, attributes", bare(import(0, 0, 0, Some(a()))));
    c.add(0, "NamedExport, attributes", bare(named_export(0, Some(string("a")), Some(a()))));
    for (what, options) in option_objects() {
        c.add(0, format!("Call, options {what}"), bare(with_options(object(&options))));
    }
    let mut second = |what: &str, arguments: &[(u8, Bytes)]| c.add(0, format!("Call, {what}"), bare(called(vec![0], arguments, &[])));
    let with = || object(&[named("with", a())]);
    second("a spread second argument", &[(0, string("a")), (1, with())]);
    second("a Name for the second argument", &[(0, string("a")), (0, name("x"))]);
    second("a String for the second argument", &[(0, string("a")), (0, string("x"))]);
    second("an Other for the second argument", &[(0, string("a")), (0, other(&[with()]))]);
    second("options in the third argument", &[(0, string("a")), (0, object(&[])), (0, with())]);
    second("a spread third argument", &[(0, string("a")), (0, with()), (1, name("x"))]);
    second("a spread first argument", &[(1, string("a")), (0, with())]);
    let require = called(expression(name("require")), &[(0, string("a")), (0, with())], &[]);
    c.add(0, "Call, require with options", bare(require));
}

/// Objects for the second argument of a call.
fn option_objects() -> Vec<(&'static str, Vec<Bytes>)> {
    let [a, b, d] = ["a", "b", "d"].map(|key| object(&[named(key, string("1"))]));
    let (a, b, d) = (|| a.clone(), || b.clone(), || d.clone());
    let (x, unknown) = (|| name("x"), || object(&[spread(name("x"))]));
    vec![
        ("{}", vec![]),
        ("{x:{a}}", vec![named("x", a())]),
        ("{with:{}}", vec![named("with", object(&[]))]),
        ("{'with':{a}}", vec![quoted("with", a())]),
        ("{assert:{a}}", vec![named("assert", a())]),
        ("{'assert':{a}}", vec![quoted("assert", a())]),
        ("{With:{a}}", vec![named("With", a())]),
        ("{withs:{a}}", vec![named("withs", a())]),
        ("{wit:{a}}", vec![named("wit", a())]),
        ("{asserts:{a}}", vec![named("asserts", a())]),
        ("{x:{b},with:{a}}", vec![named("x", b()), named("with", a())]),
        ("{with:{a},x:{b}}", vec![named("with", a()), named("x", b())]),
        ("{with:{a},assert:{b}}", vec![named("with", a()), named("assert", b())]),
        ("{assert:{a},with:{b}}", vec![named("assert", a()), named("with", b())]),
        ("{with:{a},with:{b}}", vec![named("with", a()), named("with", b())]),
        ("{assert:{a},assert:{b}}", vec![named("assert", a()), named("assert", b())]),
        ("{with:{a},assert:{b},assert:{d}}", vec![named("with", a()), named("assert", b()), named("assert", d())]),
        ("{with:{a},assert:{b},with:{d}}", vec![named("with", a()), named("assert", b()), named("with", d())]),
        ("{assert:{a},with:{b},assert:{d}}", vec![named("assert", a()), named("with", b()), named("assert", d())]),
        ("{with:{a},x:{b},assert:{d}}", vec![named("with", a()), named("x", b()), named("assert", d())]),
        ("{with:{a},with:{}}", vec![named("with", a()), named("with", object(&[]))]),
        ("{with:x}", vec![named("with", x())]),
        ("{with:'s'}", vec![named("with", string("s"))]),
        ("{assert:x}", vec![named("assert", x())]),
        ("{with:x,with:{a}}", vec![named("with", x()), named("with", a())]),
        ("{with:{a},assert:x}", vec![named("with", a()), named("assert", x())]),
        ("{assert:x,with:{a}}", vec![named("assert", x()), named("with", a())]),
        ("{with:{...x}}", vec![named("with", unknown())]),
        ("{with:{...x},with:{a}}", vec![named("with", unknown()), named("with", a())]),
        ("{with:{a},assert:{...x}}", vec![named("with", a()), named("assert", unknown())]),
        ("{with:{a},...x}", vec![named("with", a()), spread(x())]),
        ("{...x,with:{a}}", vec![spread(x()), named("with", a())]),
        ("{with:{a},m(){}}", vec![named("with", a()), method(leaf())]),
        ("{with:{a},[k]:x}", vec![named("with", a()), computed(name("k"), x())]),
        ("{['with']:{a}}", vec![computed(string("with"), a())]),
        ("{with:{a},surrogate:x}", vec![named("with", a()), quoted(SURROGATE, x())]),
        ("{x:...x}", vec![named("x", unknown())]),
    ]
}

// ---- the types of an entry ----

/// The forms that give an entry, from 15 to 17, with a String from 12 to 15.
fn entries() -> Vec<(&'static str, Bytes)> {
    let string = || [vec![1, 12, 15], text(b"x")].concat();
    let at = |tag: u8, rest: &[u8]| [&[tag, 15, 17], rest].concat();
    vec![
        ("import call", [at(6, &[0, 1, 0, 16, 17]), string(), vec![0]].concat()),
        ("require", [at(6, &[3, 2, 12, 12, 7]), b"require".to_vec(), vec![1, 0, 16, 17], string(), vec![0]].concat()),
        ("Import", [at(7, &[0, 0, 0]), string(), vec![0]].concat()),
        ("NamedExport", [at(8, &[0, 1]), string(), vec![0]].concat()),
        ("ExportAll", [at(9, &[0]), string(), vec![0]].concat()),
        ("ImportType", [at(10, &[]), string(), vec![0, 0]].concat()),
        ("ImportEquals", [at(11, &[1, 0, 0]), string()].concat()),
        ("Module", [at(12, &[1]), string(), vec![0]].concat()),
    ]
}

fn types(c: &mut Cases) {
    let source = "//@ts-types=\"t\"\"\"";
    for (what, root) in entries() {
        for (where_, side, position) in [("its start", 0, 15), ("its String's start", 0, 12), ("one behind its start", 0, 16)] {
            let doc = Doc { source, comments: &[(0, 0, 15)], groups: &[(side, position, 0, 1)], root: root.clone(), ..Doc::default() };
            c.add(0, format!("{what}, types at {where_}"), doc.bytes());
        }
    }
    let export = || entries().swap_remove(4).1;
    let mut case = |what: &str, groups: &[(u8, usize, usize, usize)], root: Bytes| {
        c.add(0, format!("types, {what}"), Doc { source, comments: &[(0, 0, 15)], groups, root, ..Doc::default() }.bytes());
    };
    case("behind its start", &[(1, 15, 0, 1)], export());
    case("at its end", &[(0, 17, 0, 1)], export());
    case("two entries at one start", &[(0, 15, 0, 1)], [vec![0, 0, 0, 2], export(), export()].concat());
    // a group of two: the last comment counts
    for (what, first, last) in [
        ("the first of two comments", "//@ts-types='a'\n", "//x"),
        ("the last of two comments", "//x\n", "//@ts-types='a'"),
        ("both comments", "//@ts-types='a'\n", "/*@deno-types=b*/"),
    ] {
        let source = format!("{first}{last}''");
        let (middle, end) = (first.len(), first.len() + last.len());
        let at = |n: usize| n as u8;
        let root = vec![9, at(end), at(end + 2), 0, 1, at(end), at(end + 2), 1, b'x', 0];
        let comments = [(0, 0, middle - 1), (u8::from(last.starts_with("/*")), middle, end)];
        let groups = [(0, end, 0, 2)];
        c.add(
            0,
            format!("types, in {what}"),
            Doc { source: &source, comments: &comments, groups: &groups, root, ..Doc::default() }.bytes(),
        );
    }
}
