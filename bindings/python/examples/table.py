#!/usr/bin/env python3
"""table.py FOLDER

Prints a table of modules by series, as CSV: for each folder of sheets (a series), each letter of a citation and each
module, how many scripts ask for it, and at how many places. A folder's sheets are its files NAME.sheet; a series is named by
its path from FOLDER, or by FOLDER's own name. The module is `?` where a script asks for one that has no single text.
A refused sheet is named on standard error; the status is then 1.
"""

import csv
import sys
from collections import defaultdict
from pathlib import Path

sys.path.insert(0, str(Path(__file__).resolve().parents[1]))
from module_info import Refused, lines, module_info  # noqa: E402


def main(folder: Path) -> int:
    status = 0
    scripts = defaultdict(set)
    places = defaultdict(int)
    for sheet in sorted(folder.rglob("*.sheet")):
        try:
            found = lines(module_info(sheet.read_bytes()))
        except Refused as refusal:
            print(f"table: {sheet}: {refusal}", file=sys.stderr)
            status = 1
            continue
        series = folder.resolve().name if sheet.parent == folder else sheet.parent.relative_to(folder).as_posix()
        for line in found:
            if line.letter != "M":  # a source map is no module
                row = (series, line.letter, "?" if line.text is None else line.text)
                scripts[row].add(sheet.name)
                places[row] += 1
    table = csv.writer(sys.stdout, lineterminator="\n")
    table.writerow(["series", "letter", "module", "scripts", "places"])
    table.writerows([*row, len(scripts[row]), places[row]] for row in sorted(places))
    return status


if __name__ == "__main__":
    if len(sys.argv) != 2:
        sys.exit(__doc__)
    sys.exit(main(Path(sys.argv[1])))
