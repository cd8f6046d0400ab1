#!/usr/bin/env python3
"""Tests of tools/reasons.py over tables of bad scripts and arguments, each with what is to be found.

    tools/test_reasons.py                   # the tables by tools/reasons.py alone
    tools/test_reasons.py --program FILE    # the same, and that the built program refuses each, and the same line
    tools/test_reasons.py --program FILE --random N    # and N scripts that are made at random
    tools/test_reasons.py --cases FOLDER    # writes the scripts for `rt try --cases FOLDER`
"""
import argparse
import os
import pathlib
import random
import subprocess
import sys
import tempfile
import unittest

sys.dont_write_bytecode = True
HERE = pathlib.Path(__file__).resolve().parent
sys.path[:0] = [str(HERE)]
import reasons
import scripts

SIZES = "--device d --blocks 200 --workers 2 --block 2 --heap 1 --memory 372"
BOTH = "--device d --blocks 400 --workers 2 --block 2 --heap 1 --memory 744"  # for the two queues of `sweep`
EDGES = bytes(15) + b"\1"  # the edge from 0 to 1
FILES = {"edges.bin": EDGES, "two.bin": bytes(32), "odd.bin": bytes(40), "three.bin": bytes(24), "empty.bin": b""}
LONG = "n" * 256
LAST = 2**64 - 1

# Scripts for two workers, with the first bad line and a part of what is said of it; 0 and nothing where no line is bad.
SCRIPTS = [
    (b"", 0, ""),
    (b"\n\n# nothing\n   # at all\n \r\n\r\n", 0, ""),
    (b"push 5 1\r\n  pop  \npop", 0, ""),
    (b"push  5   1\npush 00000000000000000005 18446744073709551615", 0, ""),
    (b"#push 5\n#\xff\t\n", 0, ""),
    (b"psh 5 1", 1, "'psh' is no command"),
    (b"Push 5 1", 1, "'Push' is no command"),
    (b"pop\npop # the smallest", 2, "nothing can follow `pop` and its fields: a comment has a line of its own"),
    (b"push 5", 1, "`push` wants 2 fields in a script of pairs, and has 1"),
    (b"push 5 1 7", 1, "and has 3"),
    (b"push 5,1", 1, "and has 1"),
    (b"push -5 1", 1, "'-5' has a sign"),
    (b"push +5 1", 1, "'+5' has a sign"),
    (b"push 5 1.5", 1, "'1.5' is no number in decimal digits"),
    (b"push 0x5 1", 1, "'0x5' is no number"),
    (b"push 5 1_0", 1, "'1_0' is no number"),
    (b"push 5 \xb2", 1, r"'\xb2' is no number"),
    (b"push 5 \xd9\xa3", 1, r"'\xd9\xa3' is no number"),
    (b"push 18446744073709551616 1", 1, "is above 18446744073709551615"),
    (b"push 000000000000000000005 1", 1, "has 21 digits"),
    (b"push\t5 1", 1, "it has a tab"),
    (b"push 5\t1", 1, "it has a tab"),
    (b"push 5 1\t", 1, "it has a tab"),
    (b"\tpop", 1, "it has a tab"),
    (b"\t", 1, "it has a tab"),
    (b"pop\r\r\n", 1, "it has a carriage return within"),
    (b"push 5 1\rpop\r", 1, "it has a carriage return within"),
    (b"pop\0", 1, r"'pop\x00' is no command"),
    (b"\xef\xbb\xbfpush 5 1", 1, "byte order mark"),
    (b"pop\x0b", 1, "is no command"),
    (b"pop\xc2\xa0", 1, "is no command"),
    (b"pop\n\n \n# x\n top 5 ", 5, "`top` wants no fields"),
    (b"pop\npsh\npsh2", 2, "'psh' is no command"),
    (b"ppq 2 pair up\npush 5 1", 0, ""),
    (b"  ppq  2  pair  down \r\npush 5 1", 0, ""),
    (b"ppq 2 triple down\npush 5 1 7\npush 5 1", 3, "`push` wants 3 fields in a script of triples, and has 2"),
    (b"ppq 2 triple up\n", 0, ""),
    (b"ppq 2 triple up\nppq 2 triple up\n", 2, "a head stands on line 1 alone"),
    (b"# head\nppq 2 pair up\n", 2, "a head stands on line 1 alone"),
    (b"\nppq 2 pair up\n", 2, "a head stands on line 1 alone"),
    (b"ppq 2 pair\n", 1, "a head is `ppq 2`"),
    (b"ppq 1 pair up\n", 1, "a head is `ppq 2`"),
    (b"ppq 02 pair up\n", 1, "a head is `ppq 2`"),
    (b"ppq 2 pairs up\n", 1, "a head is `ppq 2`"),
    (b"ppq 2 pair Up\n", 1, "a head is `ppq 2`"),
    (b"ppq 2 pair up # smallest first\n", 1, "a head is `ppq 2`"),
    (b"ppq\t2 pair up\n", 1, "it has a tab"),
    (b"gen 7 4\nsize\ngen 7 4294967297", 3, "4294967297 records are more than the 4294967296 of one `gen`"),
    (b"gen 7", 1, "`gen` wants 2 fields"),
    (b"bulk_pop\n", 1, "`bulk_pop` wants 1 field"),
    (b"bulk_pop 18446744073709551615\ndrain 18446744073709551615", 0, ""),
    (b"bulk_pop_limit 5 1\n", 1, "`bulk_pop_limit` wants 3 fields"),
    (b"drain all\n", 1, "'all' is no number"),
    (b"bulk two.bin\nsize", 0, ""),
    (b"bulk empty.bin\nsize", 0, ""),
    (b"bulk\n", 1, "`bulk` wants 1 field"),
    (b"bulk two.bin two.bin\n", 1, "`bulk` wants 1 field in a script of pairs, and has 2"),
    (b"bulk none.bin\n", 1, "there is no file none.bin"),
    (b"size\nbulk odd.bin\n", 2, "odd.bin: it has 40 bytes: 2 pairs of 16 bytes, and 8 bytes left over"),
    (b"ppq 2 triple up\nbulk two.bin\n", 2, "two.bin: it has 32 bytes: 1 triple of 24 bytes, and 8 bytes left over"),
    (b"ppq 2 triple up\nbulk three.bin\n", 0, ""),
    (b"bulk three.bin\n", 1, "three.bin: it has 24 bytes"),
    (b"pop\nbulk none.bin\npsh\n", 2, "there is no file none.bin"),
    (b"pop\npsh\nbulk none.bin\n", 2, "'psh' is no command"),
    (b"bulk na\xefve.bin\n", 1, "has other bytes than"),
    (b"bulk \x7f\n", 1, "has other bytes than"),
    (b"bulk " + LONG.encode(), 1, "has 256 bytes"),
    (b"bulk_begin\nbulk_push 0 5 1\nbulk_push 1 5 1\n\n# x\nbulk_end\n", 0, ""),
    (b"bulk_begin", 2, "the bulk session that line 1 began is still open at the end"),
    (b"bulk_begin\n", 2, "still open at the end"),
    (b"bulk_begin\n\n", 3, "still open at the end"),
    (b"push 5 1\nlimit_begin 5 0\nlimit_pop\n# end", 5, "the limit session that line 2 began is still open"),
    (b"bulk_begin\nbulk_push 2 5 1\nbulk_end", 2, "there is no pass 2: with --workers 2 the passes are 0 to 1"),
    (b"bulk_begin\nbulk_push 4294967296 5 1\nbulk_end", 2, "there is no pass 4294967296"),
    (b"bulk_begin\nbulk_push 5 1\nbulk_end", 2, "`bulk_push` wants 3 fields"),
    (b"bulk_begin\npush 5 1\n", 2, "a bulk session is open since line 1, and `push` stands outside sessions"),
    (b"bulk_begin\nsize\n", 2, "`size` stands outside sessions"),
    (b"bulk_begin\nbulk two.bin\n", 2, "`bulk` stands outside sessions"),
    (b"bulk_begin\nbulk_begin\n", 2, "`bulk_begin` stands outside sessions"),
    (b"bulk_begin\nlimit_pop\n", 2, "`limit_pop` stands in a limit session alone"),
    (b"bulk_end\n", 1, "no session is open, and `bulk_end` stands in a bulk session alone"),
    (b"bulk_push 0 5 1\n", 1, "no session is open"),
    (b"limit_pop\n", 1, "no session is open"),
    (b"limit_begin 5 0\nlimit_push 0 5 0\nlimit_top\nlimit_pop\nlimit_end\npop", 0, ""),
    (b"limit_begin 5 3\nlimit_push 0 5 2\n", 2, "the record 5 2 is below the limit 5 3 of line 1"),
    (b"ppq 2 pair down\nlimit_begin 5 3\nlimit_push 0 5 3\nlimit_push 0 5 4\n", 4, "the record 5 4 is below the limit 5 3 of line 2"),
    (b"limit_begin 5 3\nlimit_push 2 5 3\n", 2, "there is no pass 2"),
    (b"limit_begin 5 3\npop\n", 2, "a limit session is open since line 1, and `pop` stands outside"),
    (b"limit_begin 5 3\nbulk_end\n", 2, "`bulk_end` stands in a bulk session alone"),
    (b"limit_begin 5\n", 1, "`limit_begin` wants 2 fields"),
    (b"limit_begin 5 0\nlimit_end\nlimit_end\n", 3, "no session is open"),
    (b"ppq 2 triple up\nlimit_begin 5 0 9\nlimit_push 0 5 0 8\n", 3, "the record 5 0 8 is below the limit 5 0 9 of line 2"),
    (b"bulk_begin\nbulk_end 1\n", 2, "`bulk_end` wants no fields"),
]

# Arguments behind the program's name, with a part of what is said of them; nothing where they are good.
ARGUMENTS = [
    (f"run s.ppq {SIZES}", ""),
    (f"run {SIZES} s.ppq --form text", ""),
    ("run --heap=1 --block=2 s.ppq --blocks=00200 --device=d --workers 2 --memory-bytes 5952 --form bytes", ""),
    ("", "there is no command"),
    ("rum s.ppq", "there is no command 'rum'"),
    (f"Run s.ppq {SIZES}", "there is no command 'Run'"),
    (f"run {SIZES}", "SCRIPT is missing"),
    (f"run s.ppq t.ppq {SIZES}", "'t.ppq' is one word too many: there is a file already, 's.ppq'"),
    (f"run s.ppq {SIZES} --heap 1", "--heap stands twice"),
    (f"run s.ppq {SIZES} --heap=1", "--heap stands twice"),
    (f"run s.ppq {SIZES} --memory-bytes 5952", "--memory and --memory-bytes are both there"),
    (f"run s.ppq {SIZES} --form", "--form has no value"),
    (f"run s.ppq {SIZES} --form lines", "--form is text or bytes, and not 'lines'"),
    (f"run s.ppq {SIZES} --form=", "--form is text or bytes, and not ''"),
    (f"run s.ppq {SIZES} --heep 1", "'--heep' is no option of `ppq run`"),
    (f"run s.ppq {SIZES} -h", "'-h' is no option"),
    (f"run s.ppq {SIZES} --help", "'--help' is no option"),
    (f"run s.ppq {SIZES} --", "'--' is no option"),
    (f"run s.ppq {SIZES} -", "'-' is no option"),
    (f"run -- s.ppq {SIZES}", "'--' is no option"),
    (f"run s.ppq {SIZES} --until 5", "'--until' is no option of `ppq run`"),
    (f"run s.ppq {SIZES} --hea 1", "'--hea' is no option"),
    ("run s.ppq --device -d --blocks 200 --workers 2 --block 2 --heap 1 --memory 372", "the value '-d' of --device begins with `-`"),
    ("run s.ppq --device=-d --blocks 200 --workers 2 --block 2 --heap 1 --memory 372", "the value '-d' of --device begins with `-`"),
    ("run s.ppq --device= --blocks 200 --workers 2 --block 2 --heap 1 --memory 372", "--device is empty"),
    ("run s.ppq --blocks 200 --workers 2 --block 2 --heap 1 --memory 372", "--device is missing: the name of the device file"),
    ("run s.ppq --device d --workers 2 --block 2 --heap 1 --memory 372", "--blocks is missing: the blocks of the device, 0 to 65536"),
    ("run s.ppq --device d --blocks 200 --block 2 --heap 1 --memory 372", "--workers is missing: the workers, 1 to 64"),
    ("run s.ppq --device d --blocks 200 --workers 2 --heap 1 --memory 372", "--block is missing: the records of a block, 2 to 65536"),
    ("run s.ppq --device d --blocks 200 --workers 2 --block 2 --memory 372", "--heap is missing: the blocks of a heap, 1 to 64"),
    ("run s.ppq --device d --blocks 200 --workers 2 --block 2 --heap 1", "--memory or --memory-bytes is missing"),
    ("run s.ppq --device d --blocks 65537 --workers 2 --block 2 --heap 1 --memory 372", "--blocks 65537 is out of its range: the blocks of the device, 0 to 65536"),
    ("run s.ppq --device d --blocks 200 --workers 0 --block 2 --heap 1 --memory 372", "--workers 0 is out of its range"),
    ("run s.ppq --device d --blocks 200 --workers 65 --block 2 --heap 1 --memory 372", "--workers 65 is out of its range"),
    ("run s.ppq --device d --blocks 200 --workers 2 --block 1 --heap 1 --memory 372", "--block 1 is out of its range"),
    ("run s.ppq --device d --blocks 200 --workers 2 --block 65537 --heap 1 --memory 372", "--block 65537 is out of its range"),
    ("run s.ppq --device d --blocks 200 --workers 2 --block 2 --heap 65 --memory 372", "--heap 65 is out of its range"),
    ("run s.ppq --device d --blocks 200 --workers 2 --block 2 --heap 1 --memory 268435457", "--memory 268435457 is out of its range"),
    ("run s.ppq --device d --blocks 200 --workers 2 --block 2 --heap 1 --memory-bytes 4294967297", "--memory-bytes 4294967297 is out of its range"),
    ("run s.ppq --device d --blocks 200 --workers 2 --block 2 --heap 1 --memory 32M", "--memory: '32M' is no number in decimal digits"),
    ("run s.ppq --device d --blocks 200 --workers 2 --block 2 --heap 1 --memory 32M", "digits (`--memory-bytes 33554432`)"),
    ("serve --device d --blocks 200 --workers 2 --block 2 --heap 1 --memory-bytes 3G", "--memory-bytes: '3G' is no number in decimal digits (`--memory-bytes 3221225472`)"),
    ("run s.ppq --device d --blocks 200 --workers +2 --block 2 --heap 1 --memory 372", "--workers: '+2' has a sign"),
    ("run s.ppq --device d --blocks 200 --workers 2 --block 2 --heap= --memory 372", "--heap: '' is no number"),
    ("run s.ppq --device d --blocks 000000000000000000200 --workers 2 --block 2 --heap 1 --memory 372", "has 21 digits"),
    (f"sim three.bin {SIZES} --until 5 --events 5", ""),
    (f"sim three.bin {SIZES} --until 5", "--events is missing: the most events that are handled, 0 to 4294967296"),
    (f"sim three.bin {SIZES} --events 5", "--until is missing"),
    (f"sim three.bin {SIZES}", "no event is handled, 0 to 18446744073709551615; --events is missing"),
    (f"sim three.bin {SIZES} --until 5 --events 4294967297", "--events 4294967297 is out of its range"),
    (f"sim three.bin {SIZES} --until 5 --events 5 --form text", "'--form' is no option of `ppq sim`"),
    (f"sim {SIZES} --until 5 --events 5", "AGENDA is missing"),
    (f"sweep edges.bin {BOTH} --nodes 2", ""),
    (f"sweep edges.bin {BOTH}", "--nodes is missing: the nodes, 0 to 4294967296"),
    (f"sweep edges.bin {BOTH} --nodes 4294967297", "--nodes 4294967297 is out of its range"),
    (f"sweep edges.bin {BOTH} --nodes 500M", "--nodes: '500M' is no number in decimal digits: write 500000000"),
    (f"sweep edges.bin {BOTH} --nodes M", "--nodes: 'M' is no number in decimal digits"),
    (f"sweep edges.bin {BOTH} --nodes=", "--nodes: '' is no number"),
    (f"sweep edges.bin {BOTH} --nodes 2 --form text", "'--form' is no option of `ppq sweep`"),
    (f"sweep {BOTH} --nodes 2", "EDGES is missing"),
]

# Good arguments with a script or an agenda that is refused by them: the status, and a part of what is said.
REFUSED = [
    (f"run none.ppq {SIZES}", 11, "there is no file none.ppq in "),
    (f"run . {SIZES}", 3, ". is a folder"),
    (f"run long.ppq {SIZES}", 12, "long.ppq has 1048577 bytes, and at most 1048576 are allowed"),
    (f"run folder.ppq {SIZES}", 3, "folder.ppq, line 2: . is a folder"),
    ("run s.ppq --device d --blocks 200 --workers 2 --block 2 --heap 1 --memory 371", 7, "--memory 371 is below the fixed part of these sizes: --memory 372 is the least; --block 2 and --blocks 80 do with this budget"),
    ("run s.ppq --device d --blocks 200 --workers 2 --block 2 --heap 1 --memory-bytes 5951", 7, "--memory-bytes 5952 is the least"),
    ("run s.ppq --device d --blocks 200 --workers 2 --block 2 --heap 1 --memory 5", 7, "--memory 372 is the least"),
    (f"sim none.bin {SIZES} --until 5 --events 5", 11, "there is no file none.bin"),
    (f"sweep none.bin {BOTH} --nodes 2", 11, "there is no file none.bin"),
    (f"sweep odd.bin {BOTH} --nodes 2", 14, "odd.bin: it has 40 bytes: 2 pairs of 16 bytes, and 8 bytes left over"),
    ("sweep edges.bin --device d --blocks 400 --workers 2 --block 2 --heap 1 --memory 743 --nodes 2", 7, "--memory 744 is the least"),
    (f"sim odd.bin {SIZES} --until 5 --events 5", 13, "odd.bin: it has 40 bytes: 1 triple of 24 bytes, and 16 bytes left over"),
]


class Program:
    """The built program, in the current folder; or none."""

    def __init__(self, file):
        self.file = file

    def ended(self, words):
        """Returns the status of the program, and its report."""
        ran = subprocess.run([self.file, *words], stdout=subprocess.DEVNULL, stderr=subprocess.PIPE, text=True)
        return ran.returncode, ran.stderr


PROGRAM = Program(None)


class Case(unittest.TestCase):
    """A test in a folder of its own, which has the files."""

    def setUp(self):
        folder = tempfile.TemporaryDirectory()
        self.addCleanup(folder.cleanup)
        self.addCleanup(os.chdir, os.getcwd())
        os.chdir(folder.name)
        write_files(pathlib.Path())

    def finds(self, words, status, part):
        """Whether these words are refused with a status, for a reason that has this part, and by the program too."""
        found, why = reasons.refusal_of(words) or (0, "")
        self.assertEqual(found, status, why)
        self.assertIn(part, why)
        if PROGRAM.file:
            ended, report = PROGRAM.ended(words)
            self.assertEqual(ended, status, report)
            return report
        return None


def write_files(folder):
    for name, data in FILES.items():
        (folder / name).write_bytes(data)
    (folder / "s.ppq").write_bytes(b"pop\n")
    (folder / "long.ppq").write_bytes(b"#" * (scripts.LONGEST + 1))
    (folder / "folder.ppq").write_bytes(b"pop\nbulk .\n")


class Refusals(Case):
    def check_script(self, script, line, part):
        pathlib.Path("s.ppq").write_bytes(script)
        report = self.finds(f"run s.ppq {SIZES}".split(), 1 if line else 0, f"s.ppq, line {line}: " if line else "")
        if line:
            self.assertIn(part, reasons.refusal_of(f"run s.ppq {SIZES}".split())[1])
            self.assertIn(report, (None, f"ppq: line {line}: bad line\n"))

    def test_of_scripts(self):
        for row in SCRIPTS:
            with self.subTest(row[0]):
                self.check_script(*row)

    def test_of_arguments(self):
        for words, part in ARGUMENTS:
            with self.subTest(words):
                self.finds(words.split(), 2 if part else 0, part)
        for words in (f"run \udcff {SIZES}", f"run s.ppq {SIZES} --form=\udcff"):
            self.finds(words.split(), 2, "an argument is no UTF-8 text")
        self.finds(["run", "", *SIZES.split()], 2, "the name of the file is empty")

    def test_of_files_and_budgets(self):
        for words, status, part in REFUSED:
            with self.subTest(words):
                self.finds(words.split(), status, part)


class Reasons(Case):
    """What is seen after an end that was not to be known before."""

    def after(self, status, words):
        return reasons.reason_of(status, words.split())

    def test_of_devices(self):
        words = "run s.ppq --device {} --blocks 200 --workers 2 --block 2 --heap 1 --memory 372"
        os.mkdir("folder")
        for device, part in (("no/d", "its folder no is not there"), ("folder", "folder is a folder"), ("./s.ppq", "./s.ppq is the file s.ppq, which the program reads"), ("s.ppq/d", "Not a directory")):
            self.assertIn(part, self.after(10, words.format(device)))
        pathlib.Path("b.ppq").write_bytes(b"bulk two.bin\n")
        self.assertIn("two.bin is the file two.bin", self.after(10, words.format("two.bin").replace("s.ppq", "b.ppq")))
        with open("d", "wb") as file:
            reasons.fcntl.flock(file, reasons.fcntl.LOCK_EX)
            self.assertEqual(self.after(10, words.format("d")), "another program has d, and its lock")
        self.assertIsNone(self.after(10, words.format("d")))
        self.assertIn("the device e is not there any more", self.after(5, words.format("e")))
        self.assertIn("/dev/full is no plain file", self.after(5, words.format("/dev/full")))
        self.assertIn("gave back other bytes", self.after(5, words.format("d")))

    def test_of_room(self):
        pathlib.Path("g.ppq").write_bytes(b"gen 7 1000\npop\n")
        words = "run g.ppq --device d --blocks 200 --workers 2 --block 2 --heap 1 --memory {}"
        self.assertEqual(self.after(6, words.format(372)), "1000 records at once, as many as may come, want 1080 blocks of 2: --blocks 1080, with a budget of at least 1252 records")
        self.assertIsNone(self.after(6, words.format(9999).replace("200", "1080")))
        pathlib.Path("g.ppq").write_bytes(b"gen 7 4000000\n")
        self.assertIn("a device has at most 65536: --workers 2 --block 4096 --heap 1 ", self.after(6, words.format(9999)).replace("--blocks 2034 ", ""))

    def test_of_budgets_of_servers(self):
        words = "serve --device d --blocks 200 --workers 2 --block 2 --heap 1 --memory-bytes {}"
        self.assertIn("--memory-bytes 5952 is the least", reasons.refusal_of(words.format(5951).split())[1])
        self.assertIsNone(reasons.refusal_of(words.format(5952).split()))
        self.assertRegex(self.after(7, words.format(5952)), "^--memory-bytes 5952 is below .*: --memory-bytes 8928 is the least.*, of triples$")
        self.assertIsNone(self.after(7, words.format(8928)))

    def test_of_edges(self):
        words = f"sweep e.bin {BOTH.replace('400', '20800').replace('744', '21144')} --nodes 9"
        greater = "and an edge leads to a greater node"
        for edge, part in (((5, 5), f"from 5 to 5, {greater}"), ((6, 5), f"from 6 to 5, {greater}; that need not be a cycle"), ((5, 9), "from 5 to 9, and with --nodes 9 the last node is 8"), ((2**63, 5), f"from {2**63} to 5, {greater}")):
            pathlib.Path("e.bin").write_bytes(EDGES * 5000 + reasons.struct.pack(">2Q", *edge) + bytes(16))
            self.assertIn(f"edge 5001 leads {part}", self.after(14, words))
            self.assertEqual(reasons.edge_refusal(words.split()), (14, self.after(14, words)))
            if PROGRAM.file:
                self.assertEqual(PROGRAM.ended(words.split()), (14, "ppq: edge 5001 is bad\n"))

    def test_of_edges_that_are_not_looked_at(self):
        words = f"sweep two.bin {BOTH} --nodes 9"
        self.assertEqual(reasons.edge_refusal(words.split())[0], 14)
        for other in (words.replace("two.bin", "edges.bin"), words.replace("two.bin", "empty.bin"), words.replace("400", "0"), f"run s.ppq {SIZES}"):
            self.assertIsNone(reasons.edge_refusal(other.split()))
        with open("two.bin", "r+b") as file:
            file.truncate(reasons.LONGEST_LOOK + 16)
        self.assertIsNone(reasons.edge_refusal("sweep two.bin --device d --blocks 16000 --workers 1 --block 1024 --heap 1 --memory 999999 --nodes 9".split()))

    def test_of_the_system(self):
        words = f"run s.ppq {SIZES}"
        self.assertIn("the budget is 5952 bytes", self.after(8, words))
        self.assertEqual(self.after(9, words), "a file became shorter while it was read: s.ppq (4 bytes now)")
        self.assertEqual(self.after(137, words), "the program was ended by signal 9 SIGKILL: the system does so when memory is short")

    def test_are_none_where_nothing_is_seen(self):
        words = f"run s.ppq {SIZES}"
        self.assertEqual([self.after(it, words) for it in (0, 1, 2, 3, 7, 11, 12, 13, 14, 99)], [None] * 10)

    def test_are_printed(self):
        for words, status, part in ((["after", "1", "run", "s.ppq", *SIZES.split()], 0, ""), (["before", "run", "s.ppq"], 2, "ppq: why: --device is missing"), (["before", "sweep", "two.bin", *BOTH.split(), "--nodes", "9"], 14, "edge 1 leads from 0 to 0"), (["after", "6"], 0, ""), (["x"], 1, "Says why")):
            ran = subprocess.run([sys.executable, HERE / "reasons.py", *words], capture_output=True, text=True)
            self.assertEqual(ran.returncode, status, ran.stderr)
            self.assertIn(part, ran.stderr)


def random_script(maker):
    """Returns a script of commands, some of which are spoiled."""
    lines = [maker.choice(("# x", "", "pop", "push 5 1", "push 7 2", "top", "size", "bulk two.bin", "bulk_begin", "bulk_push 1 5 1", "bulk_end", "limit_begin 5 1", "limit_push 0 5 1", "limit_top", "limit_pop", "limit_end", "drain 3", "gen 7 3", "bulk_pop 2", "bulk_pop_limit 5 1 2")) for _ in range(maker.randrange(8))]
    text = bytearray("\n".join(lines).encode())
    for _ in range(maker.randrange(3)):
        at, byte = maker.randrange(len(text) + 1), maker.choice(b" \t\r\n#-0123456789\0\xffps_")
        text[at : at + maker.randrange(2)] = bytes([byte])
    return maker.choice((b"", b"", b"ppq 2 pair up\n", b"ppq 2 pair down\n", b"ppq 2 triple up\n", b"ppq 2 triple\n")) + bytes(text)


class Random(Case):
    count = 0

    def test_scripts(self):
        maker = random.Random(60)
        for _ in range(self.count if PROGRAM.file else 0):
            script = random_script(maker)
            pathlib.Path("s.ppq").write_bytes(script)
            refusal = reasons.refusal_of(f"run s.ppq {SIZES}".split())
            wanted = f"ppq: {refusal[1].split(': ')[0].split(', ')[1]}: bad line\n" if refusal else ""
            ended, report = PROGRAM.ended(f"run s.ppq {SIZES}".split())
            self.assertEqual((ended, report), (refusal[0] if refusal else 0, wanted), script)


def write_cases(folder):
    """Writes the scripts as cases of `rt try`: each with the report that is wanted of it in a file beside the cases."""
    folder.mkdir()
    for number, (script, line, _) in enumerate(SCRIPTS):
        (folder / f"{number:03}").write_bytes(script)
        print(f"{number:03} {f'ppq: line {line}: bad line' if line else 'good'}")


def main():
    parser = argparse.ArgumentParser(description=__doc__, formatter_class=argparse.RawDescriptionHelpFormatter)
    parser.add_argument("--program", type=os.path.abspath)
    parser.add_argument("--random", type=int, default=0)
    parser.add_argument("--cases", type=pathlib.Path)
    options = parser.parse_args()
    if options.cases:
        return write_cases(options.cases)
    PROGRAM.file, Random.count = options.program, options.random
    return unittest.main(argv=sys.argv[:1])


if __name__ == "__main__":
    main()
