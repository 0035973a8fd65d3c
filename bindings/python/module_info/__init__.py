"""Which modules a JavaScript or TypeScript module asks for, in code and in comments, as deno_graph 0.111.1 answers it.

A parser hands over a *sheet*: source, comments and syntax tree, in bytes (docs/01-scope.md). A proved library answers
it with a *report*; this package calls the library and decodes its reports. It needs Python 3.8 and nothing else;
`bindings/python/build` links the shared library.

    >>> from module_info import module_info, Refused
    >>> from pathlib import Path
    >>> info = module_info(Path("examples/tariff.ts.sheet").read_bytes())
    >>> info.dependencies[0].specifier
    './bands.ts'
    >>> try:
    ...     module_info(b"x")
    ... except Refused as refusal:
    ...     print(refusal.number, refusal.meaning)
    3 a byte or flag is outside its stated values, or a node has a tag its place doesn't allow
"""

from .analysis import (
    DependencyDescriptor,
    DynamicArgument,
    DynamicDependencyDescriptor,
    DynamicDependencyKind,
    ImportAttributes,
    JsDocImportInfo,
    ModuleInfo,
    PathReference,
    Position,
    PositionRange,
    SpecifierWithRange,
    StaticDependencyDescriptor,
    StaticDependencyKind,
    TypeScriptReference,
    TypeScriptTypesResolutionMode,
    TypesReference,
)
from .citation import Line, citation, lines
from .decode import decode, source_of
from .json_form import to_json
from .library import module_info, module_info_with_replaced, source_map
from .refusal import MEANINGS, Refused
from .rules import EntryRule, Origin, from_comments, module_info_with_rules

__all__ = [
    "DependencyDescriptor",
    "DynamicArgument",
    "DynamicDependencyDescriptor",
    "DynamicDependencyKind",
    "EntryRule",
    "ImportAttributes",
    "JsDocImportInfo",
    "Line",
    "MEANINGS",
    "ModuleInfo",
    "Origin",
    "PathReference",
    "Position",
    "PositionRange",
    "Refused",
    "SpecifierWithRange",
    "StaticDependencyDescriptor",
    "StaticDependencyKind",
    "TypeScriptReference",
    "TypeScriptTypesResolutionMode",
    "TypesReference",
    "citation",
    "decode",
    "from_comments",
    "lines",
    "module_info",
    "module_info_with_replaced",
    "module_info_with_rules",
    "source_map",
    "source_of",
    "to_json",
]
