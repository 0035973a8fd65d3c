"""The lines that the program `cite` prints (document 01, "Report"; docs/READING.md)."""

from dataclasses import dataclass
from typing import List, Optional, Sequence

from .analysis import ModuleInfo, Position, PositionRange, SpecifierWithRange, StaticDependencyDescriptor


@dataclass(frozen=True)
class Line:
    letter: str
    range: PositionRange
    """As the report has it: columns count characters."""
    text: Optional[str]
    """None where a dependency has no single text."""

    def printed(self, source: str) -> str:
        """The line over the source, without its end: columns count UTF-16 code units."""
        rows = source.split("\n")
        return f"{self.letter} {_place(self.range.start, rows)}-{_place(self.range.end, rows)} {_printed(self.text)}"


def lines(info: ModuleInfo, replaced: Sequence[int] = ()) -> List[Line]:
    """The entries of a report, in its order, each with its letter. `replaced` says how many characters were replaced in each dependency's text."""
    found: List[Line] = []

    def add(letter: str, specifier: Optional[SpecifierWithRange]) -> None:
        if specifier is not None:
            found.append(Line(letter, specifier.range, specifier.text))

    for i, d in enumerate(info.dependencies):
        letter = "d" if any(replaced[i : i + 1]) else "D"
        if isinstance(d, StaticDependencyDescriptor):
            found.append(Line(letter, d.specifier_range, d.specifier))
        else:
            found.append(Line(letter, d.argument_range, d.argument if isinstance(d.argument, str) else None))
        add("T", d.types_specifier)
    for r in info.ts_references:
        add("R", r.specifier)
    add("S", info.self_types_specifier)
    add("X", info.jsx_import_source)
    add("Y", info.jsx_import_source_types)
    for j in info.jsdoc_imports:
        add("J", j.specifier)
    add("M", info.source_map_url)
    return found


def citation(info: ModuleInfo, source: str, replaced: Sequence[int] = ()) -> str:
    """What `cite` prints of a sheet with this source."""
    found = lines(info, replaced)
    return f"module {len(found)}\n" + "".join(f"{line.printed(source)}\n" for line in found)


def _place(p: Position, rows: List[str]) -> str:
    units = len(rows[p.line][: p.character].encode("utf-16-le")) // 2
    return f"{p.line + 1}:{units + 1}"


def _printed(text: Optional[str]) -> str:
    if text is None:
        return "?"
    return "".join(f"\\x{ord(c):02X}" if ord(c) < 32 or c in "\x7f\\" else c for c in text)
