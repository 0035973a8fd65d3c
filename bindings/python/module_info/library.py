"""The proved library, as bindings/python/build links it."""

import ctypes
import os
from pathlib import Path
from typing import List, Optional, Tuple

from .analysis import ModuleInfo, Position, PositionRange, SpecifierWithRange
from .decode import decode
from .refusal import Refused

BUFFER = 65_536
"""The buffer that `cite` lends for a report, in bytes."""

_library: Optional[ctypes.CDLL] = None


def _load() -> ctypes.CDLL:
    global _library
    if _library is None:
        default = Path(__file__).resolve().parents[3] / "target/python/libmodule_info.so"
        name = os.environ.get("MODULE_INFO_SO", str(default))
        try:
            library = ctypes.CDLL(name)
        except OSError as e:
            raise OSError(f"the library cannot be loaded: {e} (bindings/python/build links it, MODULE_INFO_SO names another)")
        library.module_info_answer.argtypes = [ctypes.c_char_p, ctypes.c_size_t, ctypes.c_char_p, ctypes.c_size_t]
        library.module_info_answer.restype = ctypes.c_uint64
        library.module_info_source_map.argtypes = [ctypes.c_char_p, ctypes.c_size_t, ctypes.POINTER(ctypes.c_uint64)]
        library.module_info_source_map.restype = ctypes.c_uint64
        library.module_info_with_replaced_answer.argtypes = [
            *library.module_info_answer.argtypes, ctypes.POINTER(ctypes.c_size_t), ctypes.c_size_t,
        ]
        library.module_info_with_replaced_answer.restype = ctypes.c_uint64
        _library = library
    return _library


def report(sheet: bytes, size: int = BUFFER) -> bytes:
    """The report of a sheet, if it is no longer than `size` bytes. Raises `Refused` with the first refusal in checking order."""
    buffer = ctypes.create_string_buffer(max(size, 1))
    answer = _load().module_info_answer(bytes(sheet), len(sheet), buffer, size)
    number, length = answer % 256, answer // 256
    if number != 0:
        raise Refused(number)
    return buffer.raw[:length]


def module_info(sheet: bytes, size: int = BUFFER) -> ModuleInfo:
    """What the module of a sheet asks for. Raises `Refused`."""
    return decode(report(sheet, size))


def module_info_with_replaced(sheet: bytes, size: int = BUFFER) -> Tuple[ModuleInfo, List[int]]:
    """The same, with how many characters were replaced in the text of each dependency: a lone surrogate is reported as U+FFFD."""
    buffer = ctypes.create_string_buffer(max(size, 1))
    notes = (ctypes.c_size_t * (1 + size // 4))()
    answer = _load().module_info_with_replaced_answer(bytes(sheet), len(sheet), buffer, size, notes, len(notes))
    number, length = answer % 256, answer // 256
    if number != 0:
        raise Refused(number)
    return decode(buffer.raw[:length]), notes[2 : 1 + notes[0] : 2]  # two numbers for each dependency, and this is the second


def source_map(sheet: bytes) -> Optional[SpecifierWithRange]:
    """The source map as ECMA-426 names it, which is not that of the report (docs/DIFFERENCES.md). Raises `Refused`."""
    sheet = bytes(sheet)
    places = (ctypes.c_uint64 * 6)()
    answer = _load().module_info_source_map(sheet, len(sheet), places)
    if answer % 256 != 0:
        raise Refused(answer)
    if answer == 0:
        return None
    start, end, *positions = places
    first, last = (Position(*positions[i : i + 2]) for i in (0, 2))
    return SpecifierWithRange(sheet[start:end].decode(), PositionRange(first, last))
