#!/usr/bin/env python3
"""Tests of tools/build.py, in a folder of its own with small crates and a program in place of `rt`."""
import os
import pathlib
import shutil
import signal
import subprocess
import sys
import tempfile
import time
import unittest

TOP = pathlib.Path(__file__).resolve().parent.parent
CRATES = """# low crates first
low:
side:
mid: low clap
high: mid side
app: high
other_app: low
alone: low
"""
# It notes when it begins and ends, and whether it works in the folder itself or in a copy, makes what the crate has, and fails in the
# crate that the file `fails` names.
RT = """#!/bin/sh
name=$(basename "$PWD")
case "$PWD" in */build-*) at=copy;; *) at=here;; esac
echo "begin $name $at $*" >> {top}/calls
sleep 0.1
[ ! -f {top}/slow ] || sleep 20
echo "end $name $at" >> {top}/calls
if [ "$1" = run ]; then mkdir -p out; touch "out/$name"; echo "$(echo $name | tr _ -): usage: words" >&2; exit 2; fi
if [ "$(cat {top}/fails 2> /dev/null)" = "$name" ]; then echo "$name has a hole"; exit 1; fi
"""


class Build(unittest.TestCase):
    def setUp(self):
        folder = tempfile.TemporaryDirectory()
        self.addCleanup(folder.cleanup)
        self.top = pathlib.Path(folder.name)
        (self.top / "tools").mkdir()
        shutil.copy(TOP / "tools" / "build.py", self.top / "tools")
        (self.top / "crates.txt").write_text(CRATES)
        for line in CRATES.splitlines()[1:]:
            (self.top / "crates" / line.partition(":")[0] / "src").mkdir(parents=True)
        rt = self.top / "rt"
        rt.write_text(RT.format(top=self.top))
        rt.chmod(0o755)
        self.command = [sys.executable, self.top / "tools" / "build.py", "app", "other_app"]
        self.settings = {**os.environ, "PATH": f"{self.top}:/usr/bin:/bin"}

    def call(self):
        ran = subprocess.run(self.command, env=self.settings, capture_output=True, text=True)
        return ran.returncode, ran.stdout, ran.stderr

    def calls(self):
        return (self.top / "calls").read_text().splitlines()

    def test_proves_each_crate_behind_those_that_it_uses(self):
        status, printed, said = self.call()
        self.assertEqual((status, printed), (0, ""), said)
        calls = self.calls()
        begun = {tuple(it.split()[1:3]): place for place, it in enumerate(calls) if it.startswith("begin")}
        ended = {tuple(it.split()[1:3]): place for place, it in enumerate(calls) if it.startswith("end")}
        proved = {(name, at) for name in ("low", "side", "mid", "high") for at in ("copy", "here")}
        self.assertEqual(begun.keys(), proved | {("app", "here"), ("other_app", "here")})
        self.assertEqual(len(calls), 20)
        for name in ("low", "side", "mid", "high"):
            self.assertLess(ended[name, "copy"], begun[name, "here"])
        for name, below in (("mid", "low"), ("high", "mid"), ("high", "side")):
            self.assertLess(ended[below, "here"], begun[name, "copy"])
        for name, below in (("app", "high"), ("other_app", "low")):
            self.assertLess(ended[below, "here"], begun[name, "here"])
        self.assertIn("begin app here run", calls)
        self.assertRegex(said, "4 of 4 crates are proved, high the last, 0 min\nppq: app is linked, 0 min")

    @unittest.skipIf(len(os.sched_getaffinity(0)) < 2, "one processor")
    def test_links_a_program_once_its_crates_are_proved(self):
        self.call()
        calls = self.calls()
        self.assertLess(calls.index("begin other_app here run"), calls.index("end high here"))

    @unittest.skipIf(len(os.sched_getaffinity(0)) < 2, "one processor")
    def test_proves_crates_that_wait_for_nobody_side_by_side(self):
        self.call()
        self.assertEqual([it.split()[0] for it in self.calls()[:2]], ["begin", "begin"])

    def test_says_what_a_crate_that_fails_said(self):
        (self.top / "fails").write_text("mid")
        status, _, said = self.call()
        self.assertEqual(status, 125)
        self.assertTrue(said.endswith("mid has a hole\nppq: mid could not be built\n"), said)
        self.assertFalse([it for it in self.calls() if it.startswith("begin high")])

    def test_ends_if_a_program_does_not_say_its_usage(self):
        (self.top / "rt").write_text("#!/bin/sh\n")
        self.assertEqual(self.call()[0], 125)

    def test_ends_what_runs_if_it_is_interrupted(self):
        (self.top / "slow").touch()
        begun = subprocess.Popen(self.command, env=self.settings, stderr=subprocess.DEVNULL)
        while not (self.top / "calls").exists():
            time.sleep(0.02)
        time.sleep(0.2)
        begun.send_signal(signal.SIGTERM)
        self.assertEqual(begun.wait(timeout=10), 130)
        self.assertFalse([it for it in self.calls() if it.startswith("end")])

    def test_ends_all_that_runs_if_it_is_interrupted_twice(self):
        (self.top / "rt").write_text(f"#!/bin/sh\ntrap 'sleep 0.5; echo stopped >> {self.top}/calls; exit 1' TERM\necho begin >> {self.top}/calls\nsleep 9\n")
        begun = subprocess.Popen(self.command, env=self.settings, stderr=subprocess.DEVNULL)
        while not (self.top / "calls").exists():
            time.sleep(0.02)
        time.sleep(0.2)
        for _ in range(2):
            begun.send_signal(signal.SIGINT)
            time.sleep(0.2)
        self.assertEqual(begun.wait(timeout=10), 130)
        self.assertEqual(self.calls().count("stopped"), self.calls().count("begin"))


if __name__ == "__main__":
    unittest.main()
