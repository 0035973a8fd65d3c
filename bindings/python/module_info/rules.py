"""Each entry that a comment gives, with the rule that read it (document 01, "Rules of the entries")."""

import ctypes
from dataclasses import dataclass
from enum import IntEnum
from typing import List, Tuple

from .analysis import ModuleInfo, SpecifierWithRange
from .decode import _Reader, decode
from .library import BUFFER, _load
from .refusal import Refused


class EntryRule(IntEnum):
    """By document 01's numbers."""

    Path = 1
    Types = 2
    SelfTypes = 3
    JsxImportSource = 4
    JsxImportSourceTypes = 5
    Brace = 6
    Declaration = 7
    SourceMap = 8
    TsTypes = 9
    DenoTypes = 10


@dataclass(frozen=True)
class Origin:
    rule: EntryRule
    offset: int
    """A byte of the source: where the comment starts; for a brace or a declaration the smallest `{` or `@import` from which the entry is read."""


def from_comments(info: ModuleInfo) -> List[SpecifierWithRange]:
    """The entries that comments give, in the report's order, which is that of the origins."""
    found = [d.types_specifier for d in info.dependencies]
    found += [r.specifier for r in info.ts_references]
    found += [info.self_types_specifier, info.jsx_import_source, info.jsx_import_source_types]
    found += [i.specifier for i in info.jsdoc_imports]
    found.append(info.source_map_url)
    return [s for s in found if s is not None]


def module_info_with_rules(sheet: bytes, size: int = BUFFER, rules_size: int = BUFFER) -> Tuple[ModuleInfo, List[Origin]]:
    """What the module of a sheet asks for, and an origin for each of `from_comments`. Raises `Refused`."""
    buffer, rules = (ctypes.create_string_buffer(max(n, 1)) for n in (size, rules_size))
    lengths = (ctypes.c_uint64 * 2)()
    ask = _load().module_info_with_rules
    ask.restype = ctypes.c_uint64
    ask.argtypes = [*[ctypes.c_char_p, ctypes.c_size_t] * 3, ctypes.POINTER(ctypes.c_uint64)]
    number = ask(bytes(sheet), len(sheet), buffer, size, rules, rules_size, lengths)
    if number != 0:
        raise Refused(number)
    return decode(buffer.raw[: lengths[0]]), decode_rules(rules.raw[: lengths[1]])


def decode_rules(rules: bytes) -> List[Origin]:
    """The origins of the second buffer's bytes. Raises ValueError where they are none."""
    reader = _Reader(rules)
    origins = []
    while reader.at < len(rules):
        origins.append(Origin(EntryRule(reader.byte(10)), reader.number()))
    return origins
