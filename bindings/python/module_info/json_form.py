"""Module information as JSON, in the form that deno_graph's own serialisation gives it."""

import json
from typing import Any, Dict, Optional

from .analysis import (
    DependencyDescriptor,
    DynamicDependencyKind,
    ImportAttributes,
    ModuleInfo,
    PositionRange,
    SpecifierWithRange,
    StaticDependencyDescriptor,
    TypeScriptReference,
    TypeScriptTypesResolutionMode,
    TypesReference,
)


def to_json(info: ModuleInfo) -> str:
    """The JSON that deno_graph prints, on one line; attributes have their keys in ascending order."""
    members = {
        "script": info.is_script,
        "dependencies": [_dependency(d) for d in info.dependencies],
        "tsReferences": [_reference(r) for r in info.ts_references],
        "selfTypesSpecifier": _specifier(info.self_types_specifier),
        "jsxImportSource": _specifier(info.jsx_import_source),
        "jsxImportSourceTypes": _specifier(info.jsx_import_source_types),
        "jsdocImports": [_typed(i.specifier, i.resolution_mode) for i in info.jsdoc_imports],
        "sourceMapUrl": _specifier(info.source_map_url),
    }
    # what deno_graph leaves out: false flags, empty lists, absent things
    return json.dumps({k: v for k, v in members.items() if v}, ensure_ascii=False, separators=(",", ":"))


def _range(r: PositionRange) -> Any:
    return [[r.start.line, r.start.character], [r.end.line, r.end.character]]


def _specifier(s: Optional[SpecifierWithRange]) -> Optional[Dict[str, Any]]:
    return None if s is None else {"text": s.text, "range": _range(s.range)}


def _typed(s: SpecifierWithRange, mode: Optional[TypeScriptTypesResolutionMode]) -> Dict[str, Any]:
    return {"text": s.text, "range": _range(s.range), **({"resolutionMode": mode.value} if mode else {})}


def _reference(r: TypeScriptReference) -> Dict[str, Any]:
    if isinstance(r, TypesReference):
        return {"type": "types", **_typed(r.specifier, r.resolution_mode)}
    return {"type": "path", **_typed(r.specifier, None)}


def _attributes(a: Optional[ImportAttributes]) -> Dict[str, Any]:
    if a is None:
        return {}
    return {"importAttributes": "unknown" if a.known is None else {"known": a.known}}


def _dependency(d: DependencyDescriptor) -> Dict[str, Any]:
    types = {"typesSpecifier": _specifier(d.types_specifier)} if d.types_specifier else {}
    if isinstance(d, StaticDependencyDescriptor):
        return {
            "type": "static",
            "kind": d.kind.value,
            **types,
            "specifier": d.specifier,
            "specifierRange": _range(d.specifier_range),
            **({"sideEffect": True} if d.is_side_effect else {}),
            **_attributes(d.import_attributes),
        }
    argument: Any = d.argument
    if isinstance(argument, list):
        argument = [{"type": "expr"} if part is None else {"type": "string", "value": part} for part in argument]
    return {
        "type": "dynamic",
        **({} if d.kind is DynamicDependencyKind.Import else {"kind": d.kind.value}),
        **types,
        **({} if argument is None else {"argument": argument}),
        "argumentRange": _range(d.argument_range),
        **_attributes(d.import_attributes),
    }
