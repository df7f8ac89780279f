"""tools/capture as people run it: captures shown, sorted, told apart and made, and files that are damaged, truncated, huge, missing or none."""

import os
import pathlib
import random
import resource
import subprocess
import sys
import tempfile
import unittest
import unittest.mock

ROOT = pathlib.Path(__file__).resolve().parent.parent.parent
COMMAND = os.environ.get("HERMITIAN_CAPTURE", str(ROOT / "tools" / "capture"))
EXAMPLE = ROOT / "examples" / "r3.capture"


class Run(unittest.TestCase):
    def setUp(self):
        folder = tempfile.TemporaryDirectory()
        self.addCleanup(folder.cleanup)
        self.folder = pathlib.Path(folder.name)

    def run_it(self, *words, given=None, status=0, limit=None):
        """Runs the command, with a limit on the size of files if there is one: it ends with that status, and in words."""

        def limited():
            if limit is not None:
                resource.setrlimit(resource.RLIMIT_FSIZE, (limit, limit))

        made = subprocess.run(
            [sys.executable, COMMAND, *map(str, words)], input=given, capture_output=True, check=False, timeout=60, preexec_fn=limited
        )
        self.assertEqual(made.returncode, status, made.stderr.decode())
        self.assertNotIn("Traceback", made.stderr.decode())
        return made.stdout, made.stderr.decode()

    def file(self, name, held):
        path = self.folder / name
        path.write_bytes(held)
        return path

    def shuffled(self):
        held = EXAMPLE.read_bytes()
        records = [held[6 + 33 * i : 39 + 33 * i] for i in range(64)]
        random.Random(1).shuffle(records)
        return held[:6] + b"".join(records)

    def lines(self, shown):
        return dict(line.split(None, 1) for line in shown.decode().splitlines())


class Shown(Run):
    def test_example(self):
        for words, given in [((EXAMPLE,), None), (("-",), EXAMPLE.read_bytes())]:
            lines = self.lines(self.run_it("show", *words, given=given)[0])
            self.assertEqual(lines["rate"], "39")
            self.assertIn("in place order", lines["version"])
            self.assertEqual(lines["doubtful"], "0")
            self.assertEqual(lines["message"], "0" * 39)
            self.assertEqual(lines["total"], "210")
            self.assertTrue(lines["tests"].startswith("1 "))
            self.assertTrue(lines["changed"].startswith("7 "))
            self.assertTrue(lines["margin"].startswith("none"))
            self.assertTrue(lines["mark"].startswith("yes"))

    def test_margin_without_mark(self):
        """The second frame of tests/c/table.c, at rate 49 with eight doubtful places: the margin is 8 gaps of 5, and it is not known to be cheapest."""
        columns = [[40 * (symbol != 0) for symbol in range(16)] for _ in range(64)]
        ten = [6, 7, 34, 35, 42, 43, 50, 51, 62, 63]
        for i, place in enumerate(ten):
            columns[place][place // 4] = 5 if i < 8 else 6 if i == 8 else 0
        columns[63][0] = 6
        table = self.file("table", " ".join(str(cost) for column in columns for cost in column).encode())
        out = self.folder / "made"
        self.run_it("make", out, "--rate", 49, "--doubtful", "6,7,34,35,42,43,50,51", "--table", table)
        lines = self.lines(self.run_it("show", out)[0])
        self.assertEqual(lines["margin"], "40")
        self.assertEqual(lines["doubtful"], "6 7 34 35 42 43 50 51")

    def test_none_near_and_blank(self):
        table = self.file("table", bytes(2048))
        out = self.folder / "blank"
        self.run_it("make", out, "--rate", 39, "--table", table)
        shown, said = self.run_it("show", out, status=1)
        self.assertIn(b"blank     0 1 2 3", shown)
        self.assertIn("refused 12", said)
        self.assertIn("too many blank places", said)

    def test_faulty_files(self):
        held = EXAMPLE.read_bytes()
        huge = self.folder / "huge"
        with open(huge, "wb") as file:
            file.write(held)
            file.truncate(1 << 32)

        def spoilt(at, byte):
            return held[:at] + bytes([byte]) + held[at + 1 :]

        cases = [(b"", 11), (held[:-1], 11), (held[:5], 11), (held[:1000], 11), (held + b"\n", 11), (spoilt(0, 9), 10), (spoilt(1, 0), 11)]
        cases += [(spoilt(3, 60), 1), (spoilt(5, 80), 4), (spoilt(6, 200), 5), (spoilt(6, 7), 6), (b"\xff" * 2118, 10)]
        for number, (bytes_given, refusal) in enumerate(cases):
            path = self.file(f"faulty{number}", bytes_given)
            for words in [("show", path), ("sort", path, self.folder / "out"), ("diff", path, EXAMPLE), ("diff", EXAMPLE, path)]:
                shown, said = self.run_it(*words, status=1)
                self.assertIn(f"{path}: refused {refusal}: ", said)
                self.assertEqual(shown, b"")
        self.assertIn("refused 11", self.run_it("show", huge, status=1)[1])
        self.assertFalse((self.folder / "out").exists())

    def test_files_that_cannot_be_read(self):
        missing = self.folder / "missing"
        for words in [("show", missing), ("sort", missing, self.folder / "out"), ("diff", EXAMPLE, missing), ("show", self.folder)]:
            said = self.run_it(*words, status=2)[1]
            self.assertTrue(said.startswith("capture: "), said)
            self.assertEqual(said.count("\n"), 1)
        self.assertIn("No such file", self.run_it("show", missing, status=2)[1])


class Sorted(Run):
    def test_sorting(self):
        mixed, out = self.file("mixed", self.shuffled()), self.folder / "out"
        self.assertIn(b"not in place order", self.run_it("show", mixed)[0])
        self.run_it("sort", mixed, out)
        self.assertEqual(out.read_bytes(), EXAMPLE.read_bytes())
        self.assertEqual(self.run_it("sort", "-", "-", given=self.shuffled())[0], EXAMPLE.read_bytes())
        self.run_it("sort", mixed, mixed)
        self.assertEqual(mixed.read_bytes(), EXAMPLE.read_bytes())
        self.assertEqual(sorted(path.name for path in self.folder.iterdir()), ["mixed", "out"])

    def test_nowhere_to_write(self):
        self.run_it("sort", EXAMPLE, self.folder / "no" / "folder", status=2)
        self.run_it("sort", EXAMPLE, self.folder, status=2)
        self.assertEqual(list(self.folder.iterdir()), [])
        kept = self.file("kept", b"as it was")
        self.run_it("sort", EXAMPLE, kept, status=2, limit=1000)
        self.assertEqual(kept.read_bytes(), b"as it was")
        self.assertEqual(list(self.folder.iterdir()), [kept])
        self.run_it("sort", self.file("short", b"short"), kept, status=1)
        self.assertEqual(kept.read_bytes(), b"as it was")


class Told(Run):
    def test_alike(self):
        mixed = self.file("mixed", self.shuffled())
        self.assertEqual(self.run_it("diff", EXAMPLE, mixed), (b"", ""))

    def test_apart(self):
        held = bytearray(EXAMPLE.read_bytes())
        held[3] = 40
        held[5] = 9
        held[6 + 33 * 20 + 1 + 2 * 12] = 1
        shown, _ = self.run_it("diff", EXAMPLE, self.file("other", held), status=1)
        self.assertEqual(shown.decode().splitlines(), ["rate 39 and 40", "doubtful 0 and 9", "place 20 symbol c costs 40 and 296"])


class Made(Run):
    def test_from_a_table(self):
        held = EXAMPLE.read_bytes()
        table = b"".join(held[7 + 33 * i : 39 + 33 * i] for i in range(64))
        costs = [int.from_bytes(table[i : i + 2], "big") for i in range(0, 2048, 2)]
        text = "\n".join(",".join(map(str, costs[16 * p : 16 * p + 16])) for p in range(64)).encode()
        for name, given in [("bytes", table), ("text", text)]:
            out = self.folder / f"{name}.capture"
            self.run_it("make", out, "--rate", 39, "--doubtful", "0", "--table", self.file(name, given))
            self.assertEqual(out.read_bytes(), held)

    def test_from_bits(self):
        values = self.file("bits", " ".join(["-8 9 10 -11"] * 64).encode())
        made = self.run_it("make", "-", "--rate", 6, "--bits", values)[0]
        self.assertEqual(made[:5], bytes([1, 8, 66, 6, 0]))
        column = [int.from_bytes(made[6 + 2 * s : 8 + 2 * s], "big") for s in range(16)]
        self.assertEqual(column[0b1001], 0)
        self.assertEqual(column[0b0110], 8 + 9 + 10 + 11)
        self.assertEqual(column[0b1111], 9 + 10)
        lines = self.lines(self.run_it("show", "-", given=made)[0])
        self.assertEqual(lines["message"], "900000")

    def test_refused(self):
        table, out = self.file("table", bytes(2048)), self.folder / "out"
        self.assertIn("refused with 1", self.run_it("make", out, "--rate", 53, "--table", table, status=1)[1])
        self.assertIn("refused with 4", self.run_it("make", out, "--rate", 39, "--doubtful", "5,5", "--table", table, status=1)[1])
        self.assertFalse(out.exists())

    def test_no_sense(self):
        table, out = self.file("table", bytes(2048)), self.folder / "out"
        words = self.file("words", b"one two three")
        few = self.file("few", b"1 2 3")
        binary = self.file("binary", b"\xff\x00" * 700)
        large = self.file("large", b" ".join([b"65536"] * 1024))
        bits = self.file("values", b" ".join([b"128"] * 256))
        for source in [("--table", words), ("--table", few), ("--table", binary), ("--table", large), ("--bits", few), ("--bits", bits), ("--bits", table)]:
            said = self.run_it("make", out, "--rate", 39, *source, status=2)[1]
            self.assertTrue(said.startswith("capture: "), said)
        self.run_it("make", out, "--rate", 39, "--table", self.folder / "missing", status=2)
        self.run_it("make", out, "--rate", 39, "--doubtful", "64", "--table", table, status=2)
        self.run_it("make", out, "--rate", 39, "--doubtful", "x", "--table", table, status=2)
        self.run_it("make", out, "--rate", -1, "--table", table, status=2)
        self.run_it("make", out, "--rate", "y", "--table", table, status=2)
        self.run_it("make", out, "--rate", 39, "--table", table, "--bits", bits, status=2)
        self.run_it("make", out, "--rate", 39, status=2)
        self.run_it("make", out, status=2)
        self.run_it(status=2)
        self.run_it("unknown", status=2)
        self.assertFalse(out.exists())


class Helped(Run):
    def test_help(self):
        self.assertIn(b"exit status", self.run_it("--help")[0])
        for name in ["show", "sort", "diff", "make"]:
            self.assertIn(name.encode(), self.run_it("--help")[0])
            self.assertIn(b"usage", self.run_it(name, "--help")[0])

    def test_without_a_library(self):
        with unittest.mock.patch.dict(os.environ, {"HERMITIAN_LIBRARY": str(self.folder / "none.so")}):
            self.assertIn("HERMITIAN_LIBRARY", self.run_it("show", EXAMPLE, status=2)[1])


if __name__ == "__main__":
    unittest.main()
