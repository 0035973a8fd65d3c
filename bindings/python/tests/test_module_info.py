"""The package on the stored list of sheets with deno_graph's own answers, and on examples/.

REPLAY names the list, else crates/replay/data/replay.bin of the repository; its format stands at the head of tools/replay.rs.
"""

import doctest
import os
import shutil
import subprocess
import sys
import tempfile
import unittest
from pathlib import Path

import module_info as package
from module_info import ModuleInfo, Position, Refused, citation, decode, module_info, module_info_with_replaced, source_map, source_of, to_json
from module_info import EntryRule, Origin, from_comments, module_info_with_rules
from module_info.library import report

ROOT = Path(__file__).resolve().parents[3]
EXAMPLES = sorted((ROOT / "examples").glob("*.sheet"))


def stored():
    rest = Path(os.environ.get("REPLAY", ROOT / "crates/replay/data/replay.bin")).read_bytes()

    def take(n):
        nonlocal rest
        part, rest = rest[:n], rest[n:]
        return part

    def number():
        return int.from_bytes(take(4), "little")

    for index in range(number()):
        sheet = take(number())
        refusal = take(1)[0]
        yield index, sheet, refusal, take(number())


def python(*arguments, **options):
    return subprocess.run([sys.executable, *map(str, arguments)], stderr=subprocess.PIPE, **options)


def run(*arguments, **options):
    return python("-m", "module_info", *arguments, **options)


class Answers(unittest.TestCase):
    def test_stored(self):
        for index, sheet, number, expected in stored():
            with self.subTest(sheet=index):
                if number == 0:
                    self.assertEqual(report(sheet), expected)
                    self.assertEqual(report(sheet, len(expected)), expected)
                    self.assertIsInstance(module_info(sheet), ModuleInfo)
                    number = 10
                with self.assertRaises(Refused) as refused:
                    module_info(sheet, len(expected) - 1 if expected else 0)
                self.assertEqual(refused.exception.number, number)

    def test_parts(self):
        for _, _, _, expected in stored():
            for n in range(len(expected)):
                with self.assertRaises(ValueError):
                    decode(expected[:n])
            if expected:
                with self.assertRaises(ValueError):
                    decode(expected + b"\0")

    def test_examples(self):
        for sheet in EXAMPLES:
            with self.subTest(sheet=sheet.name):
                info, replaced = module_info_with_replaced(sheet.read_bytes())
                self.assertEqual(info, module_info(sheet.read_bytes()))
                self.assertEqual(len(replaced), len(info.dependencies))
                printed = citation(info, source_of(sheet.read_bytes()), replaced)
                self.assertEqual(printed, sheet.with_suffix(".citation").read_text("utf-8"))
                self.assertEqual(to_json(info) + "\n", sheet.with_suffix(".json").read_text("utf-8"))

    def test_no_bytes(self):
        """The default information, in eight zero bytes."""
        info = module_info(b"")
        self.assertEqual(report(b""), bytes(8))
        self.assertEqual((info, citation(info, source_of(b"")), to_json(info)), (decode(bytes(8)), "module 0\n", "{}"))
        for size in 0, 7:
            with self.assertRaises(Refused) as refused:
                report(b"", size)
            self.assertEqual(refused.exception.number, 10)

    def test_source_map(self):
        """By ECMA-426: an empty run is found, which the report's pattern does not read; refusals are the report's."""
        for run, expected in (b"", ""), (b"a.map ", "a.map"), (b"a b", None):
            source = b"/*# sourceMappingURL=" + run + b"*/"
            end = len(source)
            sheet = bytes([4, end]) + source + bytes([1, 1, 0, end, 1, 1, end, 0, 1, 0, 0, end, 0, 0, 0, 0, end, 0])
            found = source_map(sheet)
            self.assertEqual(found and found.text, expected)
            if found:
                self.assertEqual((found.range.start, found.range.end), (Position(0, 21), Position(0, 21 + len(expected))))
        self.assertIsNone(source_map(b""))
        for index, sheet, number, _ in stored():
            with self.subTest(sheet=index):
                try:
                    source_map(sheet)
                    refused = 0
                except Refused as refusal:
                    refused = refusal.number
                self.assertEqual(refused, number)

    def test_rules(self):
        """An origin for each entry that a comment gives; 10 before 16."""
        source = b'/** {{import("./a.ts").A}} @import {@import {} from "b" */'
        end = len(source)
        sheet = bytes([0, end]) + source + bytes([1, 1, 0, end, 1, 0, end, 0, 1, 0, end, end, 0, 0, 0, end, end, 0])
        info, origins = module_info_with_rules(sheet)
        self.assertEqual([s.text for s in from_comments(info)], ["./a.ts", "b"])
        self.assertEqual(origins, [Origin(EntryRule.Brace, 4), Origin(EntryRule.Declaration, source.index(b"@import"))])
        self.assertEqual(module_info_with_rules(sheet, len(report(sheet)), 4), (info, origins))
        self.assertEqual(module_info_with_rules(b"", 8, 0), (decode(bytes(8)), []))
        for size, rules_size, number in (len(report(sheet)), 3, 16), (len(report(sheet)) - 1, 3, 10), (len(report(sheet)) - 1, 4, 10):
            with self.assertRaises(Refused) as refused:
                module_info_with_rules(sheet, size, rules_size)
            self.assertEqual(refused.exception.number, number)
        for index, sheet, number, expected in stored():
            with self.subTest(sheet=index):
                try:
                    info, origins = module_info_with_rules(sheet)
                    self.assertEqual(info, decode(expected))
                    self.assertEqual(len(origins), len(from_comments(info)))
                    refused = 0
                except Refused as refusal:
                    refused = refusal.number
                self.assertEqual(refused, number)

    def test_words(self):
        os.chdir(ROOT)
        self.assertEqual(doctest.testmod(package).failed, 0)


class CommandLine(unittest.TestCase):
    def test_cite(self):
        done = run("cite", *EXAMPLES, stdout=subprocess.PIPE)
        expected = b"".join(b"== %s\n%s" % (str(s).encode(), s.with_suffix(".citation").read_bytes()) for s in EXAMPLES)
        self.assertEqual((done.returncode, done.stdout, done.stderr), (0, expected, b""))

    def test_refused(self):
        done = run("cite", "-", input=b"x", stdout=subprocess.PIPE)
        self.assertEqual((done.returncode, done.stdout), (1, b"refused 3\n"))
        self.assertIn(b"-: refused 3: a byte or flag is outside its stated values", done.stderr)
        self.assertEqual(run("json", "-", input=b"x", stdout=subprocess.PIPE).stdout, b"")

    def test_no_bytes(self):
        for command, expected in ("cite", b"module 0\n"), ("json", b"{}\n"):
            done = run(command, "-", input=b"", stdout=subprocess.PIPE)
            self.assertEqual((done.returncode, done.stdout, done.stderr), (0, expected, b""))

    def test_failures(self):
        self.assertEqual(run().returncode, 2)
        self.assertEqual(run("cite").returncode, 2)
        self.assertEqual(run("cite", "no such file").returncode, 2)
        self.assertEqual(run("cite", ROOT).returncode, 2)
        if os.path.exists("/dev/full"):
            with open("/dev/full", "wb") as full:
                self.assertEqual(run("cite", EXAMPLES[0], stdout=full).returncode, 2)


TABLE = """\
series,letter,module,scripts,places
north,D,./archive.tsx,1,1
north,D,./contract.ts,1,1
north,D,./money.tsx,1,1
north,D,?,1,1
north,D,npm:preact@10,2,2
north,J,./series.js,1,1
north,X,https://example.org/jsx,1,1
north,X,npm:preact@10,1,1
north,Y,npm:@types/preact,1,1
series,J,./a.ts,1,1
series,J,./b.ts,1,1
series,J,./c.ts,1,1
series,J,{import('./c.ts')},1,1
"""


class Scripts(unittest.TestCase):
    folder = ROOT / "bindings/python/examples"

    def test_table(self):
        with tempfile.TemporaryDirectory() as temporary:
            series = Path(temporary) / "series"
            (series / "north").mkdir(parents=True)
            shutil.copy(ROOT / "examples/notes.js.sheet", series)
            for name in "bill.tsx", "dashboard.jsx":
                shutil.copy(ROOT / f"examples/{name}.sheet", series / "north")
            done = python(self.folder / "table.py", series, stdout=subprocess.PIPE)
            self.assertEqual((done.returncode, done.stdout.decode(), done.stderr), (0, TABLE, b""))
            (series / "bad.sheet").write_bytes(b"x")
            done = python(self.folder / "table.py", series, stdout=subprocess.PIPE)
            self.assertEqual((done.returncode, done.stdout.decode()), (1, TABLE))
            self.assertIn(b"bad.sheet: refused 3", done.stderr)

    def test_graph(self):
        """docs/modules.svg is what Graphviz draws of docs/modules.dot."""
        names = "wmbus-decoder.js", "meter.d.ts", "tariff.ts", "bill.tsx", "dashboard.jsx"
        done = python(self.folder / "graph.py", *(ROOT / f"examples/{name}.sheet" for name in names), stdout=subprocess.PIPE)
        self.assertEqual(done.stdout, (ROOT / "docs/modules.dot").read_bytes())


if __name__ == "__main__":
    unittest.main()
