#!/usr/bin/env python3
"""graph.py SHEET ..

Prints which scripts ask for which modules, as a graph for Graphviz: an arrow from each script to each module, with the letters
of the citation. Modules stand under the text that the scripts have for them; nothing is resolved, so `./a.ts` of two scripts
may be two files. An arrow to `?` stands for a module that has no single text.
"""

import sys
from collections import defaultdict
from pathlib import Path

sys.path.insert(0, str(Path(__file__).resolve().parents[1]))
from module_info import lines, module_info  # noqa: E402


def quoted(text: str) -> str:
    return '"' + text.replace("\\", "\\\\").replace('"', '\\"') + '"'


def graph(sheets) -> str:
    out = ["digraph modules {", "  rankdir=LR; ranksep=2; nodesep=0.05;", '  node [shape=plain, fontname="sans-serif"]; edge [fontsize=10];']
    for sheet in sheets:
        script = quoted("script " + sheet.stem)
        out.append(f"  {script} [label={quoted(sheet.stem)}, shape=box];")
        letters = defaultdict(set)
        for line in lines(module_info(sheet.read_bytes())):
            if line.letter != "M":  # a source map is no module
                letters["?" if line.text is None else line.text].add(line.letter)
        for module, found in letters.items():
            out.append(f"  {script} -> {quoted(module)} [label={quoted(' '.join(sorted(found)))}];")
    return "\n".join([*out, "}", ""])


if __name__ == "__main__":
    if len(sys.argv) < 2:
        sys.exit(__doc__)
    sys.stdout.buffer.write(graph(map(Path, sys.argv[1:])).encode())
