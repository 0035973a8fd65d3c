//! The nodes of sheets, and a sheet that has nothing but a root.

pub use crate::sheet_writer::{Bytes, Doc, list, number, text};

/// The root in a sheet that has nothing else.
pub fn bare(root: Bytes) -> Bytes {
    Doc { root, ..Doc::default() }.bytes()
}

// Nodes from 0 to 0, Strings from 0 to 2 and arguments from 1 to 2.

pub fn leaf() -> Bytes {
    other(&[])
}

pub fn other(children: &[Bytes]) -> Bytes {
    [vec![0, 0, 0], list(children)].concat()
}

pub fn string(value: impl AsRef<[u8]>) -> Bytes {
    [vec![1, 0, 2], text(value.as_ref())].concat()
}

pub fn name(value: &str) -> Bytes {
    [vec![2, 0, 0], text(value.as_bytes())].concat()
}

/// None is an uncooked piece.
pub fn template(pieces: &[Option<&[u8]>], holes: &[Bytes]) -> Bytes {
    assert_eq!(pieces.len(), holes.len() + 1);
    let pieces: Bytes = pieces.iter().flat_map(|p| p.map_or(vec![0], |p| [vec![1], text(p)].concat())).collect();
    [vec![3, 0, 0], number(holes.len()), pieces, holes.concat()].concat()
}

pub fn binary(plus: u8, left: Bytes, right: Bytes) -> Bytes {
    [vec![4, 0, 0, plus], left, right].concat()
}

pub fn object(properties: &[Bytes]) -> Bytes {
    [vec![5, 0, 0], list(properties)].concat()
}

pub fn spread(n: Bytes) -> Bytes {
    [vec![0], n].concat()
}

pub fn method(n: Bytes) -> Bytes {
    [vec![1], n].concat()
}

pub fn computed(key: Bytes, value: Bytes) -> Bytes {
    [vec![2, 0], key, value].concat()
}

pub fn quoted(key: impl AsRef<[u8]>, value: Bytes) -> Bytes {
    [vec![2, 1], text(key.as_ref()), value].concat()
}

pub fn named(key: &str, value: Bytes) -> Bytes {
    [vec![2, 2], text(key.as_bytes()), value].concat()
}

/// The callee is its byte, with the expression behind 3; an argument is its flag and its node.
pub fn called(callee: Bytes, arguments: &[(u8, Bytes)], further: &[Bytes]) -> Bytes {
    let arguments: Vec<Bytes> = arguments.iter().map(|(spread, n)| [vec![*spread, 1, 2], n.clone()].concat()).collect();
    [vec![6, 0, 0], callee, list(&arguments), list(further)].concat()
}

pub fn expression(n: Bytes) -> Bytes {
    [vec![3], n].concat()
}

pub fn import_call(value: &str) -> Bytes {
    called(vec![0], &[(0, string(value))], &[])
}

pub fn dynamic(argument: Bytes) -> Bytes {
    called(vec![0], &[(0, argument)], &[])
}

pub fn with_options(options: Bytes) -> Bytes {
    called(vec![0], &[(0, string("a")), (0, options)], &[])
}

pub fn optional(n: Option<Bytes>) -> Bytes {
    n.map_or(vec![0], |n| [vec![1], n].concat())
}

pub fn import(type_only: u8, phase: u8, side_effect: u8, object: Option<Bytes>) -> Bytes {
    [vec![7, 0, 0, type_only, phase, side_effect], string("a"), optional(object)].concat()
}

pub fn named_export(type_only: u8, source: Option<Bytes>, object: Option<Bytes>) -> Bytes {
    let there = source.map_or(vec![0], |source| [vec![1], source, optional(object)].concat());
    [vec![8, 0, 0, type_only], there].concat()
}

pub fn export_all(type_only: u8, object: Option<Bytes>) -> Bytes {
    [vec![9, 0, 0, type_only], string("a"), optional(object)].concat()
}

pub fn import_type(children: &[Bytes], object: Option<Bytes>) -> Bytes {
    [vec![10, 0, 0], string("a"), list(children), optional(object)].concat()
}

pub fn import_equals(flags: &[u8]) -> Bytes {
    [vec![11, 0, 0], flags.to_vec(), if flags[0] == 1 { string("a") } else { vec![] }].concat()
}

pub fn module(value: Option<Bytes>, children: &[Bytes]) -> Bytes {
    [vec![12, 0, 0], optional(value), list(children)].concat()
}

pub const UNCOOKED: [Option<&[u8]>; 1] = [None];
