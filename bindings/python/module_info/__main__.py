"""python3 -m module_info cite|json FILE ..

Prints the citation, or the module information as deno_graph's JSON, of each sheet; `-` is standard input. Of several sheets
a citation stands under a line `== FILE`, and JSON has a line for each. The status is 0; 1 if a sheet was refused, which
standard error says; 2 if the use is wrong, or reading or writing failed.
"""

import sys
from typing import List

from . import Refused, citation, module_info_with_replaced, source_of, to_json

LONGEST = 65_537


def read(name: str) -> bytes:
    """The sheet, or one byte more than the longest has."""
    if name == "-":
        return sys.stdin.buffer.read(LONGEST)
    with open(name, "rb") as file:
        return file.read(LONGEST)


def main(arguments: List[str]) -> int:
    if len(arguments) < 2 or arguments[0] not in ("cite", "json"):
        print(__doc__, end="", file=sys.stderr)
        return 2
    status = 0
    for name in arguments[1:]:
        try:
            sheet = read(name)
            info, replaced = module_info_with_replaced(sheet)
            out = citation(info, source_of(sheet), replaced) if arguments[0] == "cite" else to_json(info) + "\n"
        except Refused as refusal:
            print(f"module_info: {name}: {refusal}", file=sys.stderr)
            status = 1
            if arguments[0] == "json":
                continue
            out = f"refused {refusal.number}\n"
        if arguments[0] == "cite" and len(arguments) > 2:
            out = f"== {name}\n{out}"
        sys.stdout.buffer.write(out.encode())
    sys.stdout.buffer.flush()
    return status


if __name__ == "__main__":
    try:
        sys.exit(main(sys.argv[1:]))
    except OSError as e:
        print(f"module_info: {e}", file=sys.stderr)
        sys.exit(2)
