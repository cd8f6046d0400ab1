#!/usr/bin/env python3
"""Tests of tools/records.py: each runs the program, in a folder of its own."""
import os
import pathlib
import signal
import struct
import subprocess
import sys
import tempfile
import time
import unittest

RECORDS = pathlib.Path(__file__).resolve().parent / "records.py"
LAST = 2**64 - 1

# Lines that are no pair, each after `1 2`, with what is said of the second line.
BAD_LINES = {
    "5": "1 field, and a pair has 2 numbers",
    "5 1 1": "3 fields, and a pair has 2 numbers",
    "-5 1": "'-5' has a sign",
    "5 +1": "'+1' has a sign",
    "5 1.0": "'1.0' is no number in decimal digits",
    "5 1_0": "'1_0' is no number in decimal digits",
    "0x5 1": "'0x5' is no number in decimal digits",
    "5 \xb2": r"'\xc2\xb2' is no number in decimal digits",
    "5 ;": "';' is no number in decimal digits",
    "5 18446744073709551616": "18446744073709551616 is above 18446744073709551615",
    "5 000000000000000000001": "'000000000000000000001' has 21 digits, and at most 20 are allowed",
    "5 1 # five": "4 fields, and a pair has 2 numbers",
}


class Records(unittest.TestCase):
    def setUp(self):
        folder = tempfile.TemporaryDirectory()
        self.addCleanup(folder.cleanup)
        self.folder = pathlib.Path(folder.name)

    def call(self, *words, given="", status=0):
        """Runs the program, and returns what it prints and what it says."""
        given = given if isinstance(given, bytes) else given.encode()
        ran = subprocess.run([sys.executable, RECORDS, *words], cwd=self.folder, input=given, capture_output=True)
        self.assertEqual(ran.returncode, status, ran.stderr)
        return ran.stdout.decode(), ran.stderr.decode()

    def made(self, what, kind, given, *words):
        """Returns the numbers of the file that is made of an input."""
        self.call(what, kind, "r.bin", *words, given=given)
        data = (self.folder / "r.bin").read_bytes()
        return list(struct.unpack(f">{len(data) // 8}Q", data))

    def refused(self, what, kind, given, *words):
        """Returns what is said of an input that is refused, which leaves no file and an older one as it was."""
        (self.folder / "r.bin").write_bytes(b"old")
        _, said = self.call(what, kind, "r.bin", *words, given=given, status=1)
        self.assertEqual([it.name for it in self.folder.iterdir()], ["r.bin"])
        self.assertEqual((self.folder / "r.bin").read_bytes(), b"old")
        front = "records.py: standard input: "
        self.assertTrue(said.startswith(front), said)
        return said[len(front) : -1]

    def test_lines_become_records(self):
        self.assertEqual(self.made("from-text", "pair", f"5 1\n{LAST} 258"), [5, 1, LAST, 258])
        self.assertEqual(self.made("from-text", "triple", "1 2 3\n"), [1, 2, 3])
        self.assertEqual(self.made("from-text", "pair", ""), [])
        self.assertEqual(self.made("from-text", "pair", "# a b\n\n  5\t001  \r\n \n"), [5, 1])

    def test_the_first_bad_line_is_named(self):
        for line, fault in BAD_LINES.items():
            with self.subTest(line):
                self.assertEqual(self.refused("from-text", "pair", f"1 2\n{line}\n3 4\nx"), f"line 2: {fault}")

    def test_lines_are_counted_over_pieces(self):
        lines = "".join(f"{i} {i}\n" for i in range(60_000))
        self.assertEqual(self.refused("from-text", "pair", f"{lines}x 1\n{lines}"), "line 60001: 'x' is no number in decimal digits")
        commented = f"#\n{lines}5 1"
        self.assertEqual(self.made("from-text", "pair", commented)[-4:], [59_999, 59_999, 5, 1])

    def test_csv_becomes_records(self):
        self.assertEqual(self.made("from-csv", "pair", '5, 1\r\n"3",9\n'), [5, 1, 3, 9])
        self.assertEqual(self.made("from-csv", "pair", "5,1,7\n3,9,8\n", "--columns", "3,1"), [7, 5, 8, 3])
        self.assertEqual(self.made("from-csv", "pair", "time,who,place\n5,ann,7\n", "--columns", "place,time"), [7, 5])
        self.assertEqual(self.made("from-csv", "pair", "time,place\n5,7\n", "--header"), [5, 7])

    def test_the_first_bad_line_of_csv_is_named(self):
        bad = [("1,2\n3\n", "line 2: 1 field, and a pair has 2 numbers"), ("1,2\n3,\n", "line 2: '' is no number in decimal digits"), ("a,b\n", "line 1: 'a' is no number in decimal digits")]
        for given, fault in bad:
            with self.subTest(given):
                self.assertEqual(self.refused("from-csv", "pair", given), fault)
        self.assertEqual(self.refused("from-csv", "pair", "a,b\n1,2\n", "--columns", "a,c"), "line 1: there is no column 'c'")
        self.assertEqual(self.refused("from-csv", "pair", "1,2\n3,4\n", "--columns", "1,3"), "line 1: 1 field, and a pair has 2 numbers")
        self.assertEqual(self.refused("from-csv", "pair", '1,2\n"3"4,5\n'), "line 2: ',' expected after '\"'")
        self.assertEqual(self.refused("from-csv", "pair", '1,"\n2"\n3,4\nx,5'), "line 1 to 4: '\\n2' is no number in decimal digits")

    def test_frames_become_records(self):
        pairs = struct.pack(">I2Q", 16, 3, 9) + struct.pack(">IQ", 8, 1) + b"\0\0\0\1e" + struct.pack(">I2Q", 16, 5, 1)
        self.assertEqual(self.made("from-frames", "pair", pairs), [3, 9, 5, 1])
        self.assertIn("2 frames left out", self.call("from-frames", "pair", "r.bin", given=pairs)[1])
        self.assertEqual(self.refused("from-frames", "triple", pairs), "frame 1 has 16 bytes, and a triple has 24")
        self.assertEqual(self.refused("from-frames", "pair", pairs[:-1]), "the frames stop early")

    def test_text_and_back(self):
        text = "".join(f"{i * 7919 % 10007} {i} {LAST - i}\n" for i in range(5_000))
        self.call("from-text", "triple", "r.bin", given=text)
        self.assertEqual(self.call("to-text", "triple", "r.bin")[0], text)

    def test_a_file_is_checked(self):
        for text, said in (("", "0 pairs, from none to none, in ascending order"), ("1 2\n", "1 pair, from 1 2 to 1 2, in ascending order"), ("2 1\n1 2\n", "2 pairs, from 1 2 to 2 1, in descending order")):
            self.call("from-text", "pair", "r.bin", given=text)
            self.assertEqual(self.call("check", "pair", "r.bin")[0], f"{said}\n")
        self.call("from-text", "pair", "r.bin", given="".join(f"{i} 0\n" for i in [*range(5_000), 7]))
        self.assertEqual(self.call("check", "pair", "r.bin")[0], "5001 pairs, from 0 0 to 4999 0, in no order\n")

    def test_a_broken_length_is_told(self):
        (self.folder / "r.bin").write_bytes(bytes(40))
        for what in "check", "to-text":
            said = self.call(what, "pair", "r.bin", status=1)[1]
            self.assertEqual(said, "records.py: r.bin: it has 40 bytes: 2 pairs of 16 bytes, and 8 bytes left over\n")
        self.assertIn("No such file", self.call("check", "pair", "none.bin", status=1)[1])

    def test_no_file_is_left_when_it_is_stopped(self):
        begun = subprocess.Popen([sys.executable, RECORDS, "from-text", "pair", "r.bin"], cwd=self.folder, stdin=subprocess.PIPE)
        while not any(self.folder.iterdir()):
            time.sleep(0.01)
        begun.send_signal(signal.SIGTERM)
        begun.communicate()
        self.assertEqual((begun.returncode, [*self.folder.iterdir()]), (143, []))

    def test_only_a_plain_file_is_replaced(self):
        os.mkfifo(self.folder / "pipe")
        self.assertIn("pipe is no plain file", self.call("from-text", "pair", "pipe", given="1 2\n", status=1)[1])
        (self.folder / "link").symlink_to("target")
        self.call("from-text", "pair", "link", given="1 2\n")
        self.assertEqual((self.folder / "target").stat().st_size, 16)

    def test_arguments_are_refused(self):
        for words in (["from-text", "pair"], ["from-text", "four", "r.bin"], ["to-text", "pair", "r.bin", "x"], ["from-text", "pair", "r.bin", "--header"], ["from-csv", "pair", "r.bin", "--columns", "1"]):
            with self.subTest(words):
                self.call(*words, status=2)


if __name__ == "__main__":
    unittest.main()
