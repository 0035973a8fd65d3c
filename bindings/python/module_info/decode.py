"""The decoder of reports (document 01, "Report")."""

from typing import Callable, List, Optional, TypeVar

from .analysis import (
    DependencyDescriptor,
    DynamicArgument,
    DynamicDependencyDescriptor,
    DynamicDependencyKind,
    ImportAttributes,
    JsDocImportInfo,
    ModuleInfo,
    PathReference,
    Position,
    PositionRange,
    SpecifierWithRange,
    StaticDependencyDescriptor,
    StaticDependencyKind,
    TypeScriptReference,
    TypeScriptTypesResolutionMode,
    TypesReference,
)

T = TypeVar("T")
_STATIC = list(StaticDependencyKind)
_DYNAMIC = list(DynamicDependencyKind)
_MODES = [None, TypeScriptTypesResolutionMode.Import, TypeScriptTypesResolutionMode.Require]


def decode(report: bytes) -> ModuleInfo:
    """The module information of a report. Raises ValueError where the bytes are no report."""
    reader = _Reader(report)
    info = ModuleInfo(
        is_script=reader.flag(),
        dependencies=reader.list(reader.dependency),
        ts_references=reader.list(reader.reference),
        self_types_specifier=reader.optional(reader.specifier),
        jsx_import_source=reader.optional(reader.specifier),
        jsx_import_source_types=reader.optional(reader.specifier),
        jsdoc_imports=reader.list(reader.jsdoc_import),
        source_map_url=reader.optional(reader.specifier),
    )
    if reader.at < len(report):
        raise reader.problem("bytes follow the report")
    return info


def source_of(sheet: bytes) -> str:
    """The source of an accepted sheet, which stands behind its media byte; no bytes have none."""
    if not sheet:
        return ""
    reader = _Reader(sheet)
    reader.take(1)
    return reader.text()


class _Reader:
    def __init__(self, report: bytes) -> None:
        self.bytes = report
        self.at = 0

    def problem(self, message: str) -> ValueError:
        return ValueError(f"byte {self.at}: {message}")

    # ---- fields ----

    def take(self, n: int) -> bytes:
        part = self.bytes[self.at : self.at + n]
        if len(part) < n:
            raise self.problem("the report is cut off")
        self.at += n
        return part

    def byte(self, last: int) -> int:
        b = self.take(1)[0]
        if b > last:
            raise self.problem("a byte or flag is outside its stated values")
        return b

    def flag(self) -> bool:
        return self.byte(1) == 1

    def number(self) -> int:
        value = 0
        for group in range(5):
            b = self.take(1)[0]
            value |= (b & 127) << (7 * group)
            if b < 128:
                if (group > 0 and b == 0) or value > 4_294_967_295:
                    break
                return value
        raise self.problem("a number is not shortest or too large")

    def text(self) -> str:
        return self.take(self.number()).decode("utf-8")

    def list(self, item: Callable[[], T]) -> List[T]:
        return [item() for _ in range(self.number())]

    def optional(self, item: Callable[[], T]) -> Optional[T]:
        return item() if self.flag() else None

    # ---- places ----

    def position(self) -> Position:
        return Position(line=self.number(), character=self.number())

    def range(self) -> PositionRange:
        return PositionRange(start=self.position(), end=self.position())

    def specifier(self) -> SpecifierWithRange:
        return SpecifierWithRange(text=self.text(), range=self.range())

    def mode(self) -> Optional[TypeScriptTypesResolutionMode]:
        return _MODES[self.byte(2)]

    # ---- entries ----

    def reference(self) -> TypeScriptReference:
        if self.flag():
            return TypesReference(specifier=self.specifier(), resolution_mode=self.mode())
        return PathReference(specifier=self.specifier())

    def jsdoc_import(self) -> JsDocImportInfo:
        if not self.flag():
            raise self.problem("a byte or flag is outside its stated values")
        return JsDocImportInfo(specifier=self.specifier(), resolution_mode=self.mode())

    def dependency(self) -> DependencyDescriptor:
        kind = self.byte(12)
        types = self.optional(self.specifier)
        if kind < 9:
            return StaticDependencyDescriptor(
                kind=_STATIC[kind],
                types_specifier=types,
                specifier=self.text(),
                specifier_range=self.range(),
                is_side_effect=self.flag(),
                import_attributes=self.attributes(),
            )
        return DynamicDependencyDescriptor(
            kind=_DYNAMIC[kind - 9],
            types_specifier=types,
            argument=self.argument(),
            argument_range=self.range(),
            import_attributes=self.attributes(),
        )

    def argument(self) -> DynamicArgument:
        kind = self.byte(2)
        if kind == 0:
            return None
        if kind == 1:
            return self.text()
        return self.list(lambda: self.optional(self.text))

    def attributes(self) -> Optional[ImportAttributes]:
        kind = self.byte(2)
        if kind == 0:
            return None
        if kind == 1:
            return ImportAttributes(known=None)
        pairs = self.list(lambda: (self.text(), self.optional(self.text)))
        keys = [key.encode() for key, _ in pairs]
        if any(a >= b for a, b in zip(keys, keys[1:])):
            raise self.problem("the keys of attributes do not ascend")
        return ImportAttributes(known=dict(pairs))
