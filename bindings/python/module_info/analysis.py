"""The values of a report, under the names of deno_graph's src/analysis.rs and src/graph.rs."""

from dataclasses import dataclass, field
from enum import Enum
from typing import Dict, List, Optional, Union


@dataclass(frozen=True, order=True)
class Position:
    """A line and a column in it, both from 0. A line ends at LF; a column counts characters."""

    line: int
    character: int


@dataclass(frozen=True, order=True)
class PositionRange:
    start: Position
    end: Position


@dataclass(frozen=True)
class SpecifierWithRange:
    """A text, and the place where the source has it."""

    text: str
    range: PositionRange


class TypeScriptTypesResolutionMode(Enum):
    Import = "import"
    Require = "require"


class StaticDependencyKind(Enum):
    Import = "import"
    ImportDefer = "importDefer"
    ImportSource = "importSource"
    ImportType = "importType"
    ImportEquals = "importEquals"
    Export = "export"
    ExportType = "exportType"
    ExportEquals = "exportEquals"
    MaybeTsModuleAugmentation = "maybeTsModuleAugmentation"


class DynamicDependencyKind(Enum):
    Import = "import"
    ImportDefer = "importDefer"
    ImportSource = "importSource"
    Require = "require"


@dataclass(frozen=True)
class ImportAttributes:
    """An object of attributes. `known` is None where its keys cannot be analyzed, and a value where that cannot be."""

    known: Optional[Dict[str, Optional[str]]]


DynamicArgument = Union[str, List[Optional[str]], None]
"""A single text; the parts of a template, where None is an expression; or None, an expression that cannot be analyzed."""


@dataclass(frozen=True)
class StaticDependencyDescriptor:
    kind: StaticDependencyKind
    types_specifier: Optional[SpecifierWithRange]
    """What a pragma says of its types."""
    specifier: str
    specifier_range: PositionRange
    is_side_effect: bool
    import_attributes: Optional[ImportAttributes]
    """None where there is no object of attributes."""


@dataclass(frozen=True)
class DynamicDependencyDescriptor:
    kind: DynamicDependencyKind
    types_specifier: Optional[SpecifierWithRange]
    """What a pragma says of its types."""
    argument: DynamicArgument
    argument_range: PositionRange
    import_attributes: Optional[ImportAttributes]
    """None where there is no object of attributes."""


DependencyDescriptor = Union[StaticDependencyDescriptor, DynamicDependencyDescriptor]


@dataclass(frozen=True)
class PathReference:
    specifier: SpecifierWithRange


@dataclass(frozen=True)
class TypesReference:
    specifier: SpecifierWithRange
    resolution_mode: Optional[TypeScriptTypesResolutionMode]


TypeScriptReference = Union[PathReference, TypesReference]


@dataclass(frozen=True)
class JsDocImportInfo:
    specifier: SpecifierWithRange
    resolution_mode: Optional[TypeScriptTypesResolutionMode]


@dataclass(frozen=True)
class ModuleInfo:
    """What a module asks for."""

    is_script: bool = False
    """Whether nothing makes it an ES module for sure."""
    dependencies: List[DependencyDescriptor] = field(default_factory=list)
    ts_references: List[TypeScriptReference] = field(default_factory=list)
    """Triple-slash references."""
    self_types_specifier: Optional[SpecifierWithRange] = None
    """The pragma `@ts-self-types`."""
    jsx_import_source: Optional[SpecifierWithRange] = None
    """The pragma `@jsxImportSource`."""
    jsx_import_source_types: Optional[SpecifierWithRange] = None
    """The pragma `@jsxImportSourceTypes`."""
    jsdoc_imports: List[JsDocImportInfo] = field(default_factory=list)
    """Imports of types in JSDoc comments, ascending by the start of their places."""
    source_map_url: Optional[SpecifierWithRange] = None
    """The comment `sourceMappingURL`."""
