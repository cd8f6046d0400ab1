#!/usr/bin/env python3
"""Tests of `./ppq pack`, with the built program: the tarball is unpacked into an empty folder and used there."""
import os
import pathlib
import re
import shutil
import subprocess
import sys
import tempfile
import unittest

TOP = pathlib.Path(__file__).resolve().parent.parent
SIZES = "--device ppq.device --blocks 200 --workers 2 --block 2 --heap 1 --memory 800".split()


def is_built():
    ran = subprocess.run([TOP / "ppq", "--version"], capture_output=True, text=True)
    return ran.stdout.endswith(", built\n")


def path_without_rt():
    """Returns a path on which python3 is and `rt` is not."""
    folders = [pathlib.Path(sys.executable).parent, *map(pathlib.Path, os.environ["PATH"].split(":"))]
    return ":".join(str(it) for it in folders if not (it / "rt").exists())


def way_into_a_root():
    """Returns the command that runs another one in a root of its own, or None if this machine allows none."""
    ways = ["chroot"], ["unshare", "--map-root-user", "chroot"]
    return next((it for it in ways if shutil.which(it[0]) and subprocess.run([*it, "/", "true"], capture_output=True).returncode == 0), None)


@unittest.skipUnless(is_built(), "the program is not built here, so nothing is packed")
class Pack(unittest.TestCase):
    @classmethod
    def setUpClass(cls):
        folder = tempfile.TemporaryDirectory()
        cls.addClassCleanup(folder.cleanup)
        cls.here = pathlib.Path(folder.name)
        tarball = subprocess.run([TOP / "ppq", "pack"], cwd=cls.here, check=True, capture_output=True, text=True).stdout.strip()
        cls.tarball = pathlib.Path(tarball)
        subprocess.run(["tar", "xzf", tarball], cwd=cls.here, check=True)
        cls.packed = cls.here / cls.tarball.name[: -len(".tar.gz")]

    def call(self, *command, given=None):
        """Calls a command of the packed folder, in it and without `rt`; returns its status, and what it printed and said."""
        ran = subprocess.run(command, cwd=self.packed, env={"PATH": path_without_rt()}, input=given, capture_output=True, text=True)
        return ran.returncode, ran.stdout, ran.stderr

    def test_has_its_sums_and_nothing_beside_the_folder(self):
        self.assertEqual({it.name for it in self.here.iterdir()}, {self.tarball.name, self.packed.name})
        sums = dict(reversed(it.split("  ")) for it in (self.packed / "SHA256SUMS").read_text().splitlines())
        packed = subprocess.run(["tar", "tzf", self.tarball], capture_output=True, text=True).stdout.splitlines()
        files = {it.partition("/")[2] for it in packed if not it.endswith("/")}
        self.assertEqual({*sums, "SHA256SUMS"}, files)
        self.assertEqual(self.call("sha256sum", "--quiet", "-c", "SHA256SUMS"), (0, "", ""))

    def test_has_the_version_and_the_logic(self):
        name = self.call("./ppq", "--version")[1]
        self.assertRegex(name, r"^ppq [\d.]+, logic [0-9a-f]{16}, packed\n$")
        self.assertEqual((self.packed / "VERSION").read_text().splitlines()[0] + ", packed\n", name)
        self.assertEqual(self.packed.name, name.split(",")[0].replace(" ", "-"))

    def test_runs_at_once(self):
        self.assertEqual(self.call("./ppq", "run", "examples/first.ppq", *SIZES), (0, "3 9\n", ""))
        status, printed, said = self.call("./ppq", "run", "examples/first.ppq")
        self.assertEqual((status, printed), (0, "3 9\n"))
        self.assertIn("ppq: with the sizes that suit it: ", said)
        self.assertIn("--workers 4", self.call("./ppq", "sizes", "20M", "--workers", "4")[1])

    def test_simulates_and_sweeps(self):
        self.call("tools/records.py", "from-text", "triple", "agenda.bin", given="5 1 2\n")
        journal = "5 1 2 2\n6 2 1 0\nend empty count 2\n"
        self.assertEqual(self.call("./ppq", "sim", "agenda.bin", *SIZES, "--until", "100", "--events", "1000"), (0, journal, ""))
        self.call("tools/records.py", "from-text", "pair", "edges.bin", given="0 1\n0 2\n1 2\n")
        self.assertEqual(self.call("./ppq", "sweep", "edges.bin", *SIZES, "--nodes", "3"), (0, "0 0\n1 1\n2 2\n", ""))

    def test_serves(self):
        client = "from ppq_client import Queue\nwith Queue(['./ppq', 'serve', '--load', '1K']) as it:\n    it.push(5, 1)\n    print(it.pop())\n"
        (self.packed / "clients/python/try.py").write_text(client)
        status, printed, said = self.call(sys.executable, "-B", "clients/python/try.py")
        self.assertEqual((status, printed), (0, "(5, 1)\n"), said)

    def test_runs_the_examples(self):
        for script in sorted(self.packed.glob("examples/*.sh")):
            arguments = [] if script.name in ("frames.sh", "record-files.sh", "serve.sh") else ["2000"]
            status, _, said = self.call(script, *arguments)
            self.assertEqual(status, 0, f"{script.name}: {said}")

    def test_says_why(self):
        self.assertIn("ppq: why: there is no file none.ppq", self.call("./ppq", "run", "none.ppq")[2])

    def test_says_what_a_run_took(self):
        (self.packed / "big.ppq").write_text("gen 1 1000000\ndrain 1000000\n")
        status, printed, said = self.call("./ppq", "run", "big.ppq", "--stats", "--memory-bytes", "16777216")
        self.assertEqual((status, printed[:14]), (0, "count 1000000 "), said)
        resident, written, read = map(float, re.search(r" ([\d.]+) MiB resident, (\d+) bytes written, (\d+) bytes read\n$", said).groups())
        self.assertTrue(8 < resident < 32, said)
        # the device was written and read, and the line of the output
        moved = (self.packed / "ppq.device").stat().st_size
        self.assertTrue(moved and written >= moved + len(printed) and read >= moved, f"{said}{moved}")

    def test_builds_nothing(self):
        for word in "build", "try", "pack", "new":
            said = f"ppq: this is a packed program, and has no sources: `./ppq {word}` works in the repository alone\n"
            self.assertEqual(self.call("./ppq", word), (125, "", said))
        self.assertIn("This is a packed program", self.call("./ppq", "--help")[1])

    def test_has_the_documents_that_its_manual_names(self):
        names = re.findall(r"[\w/-]+\.(?:md|py|ppq)\b", (self.packed / "man/ppq.1").read_text().replace("\\-", "-"))
        self.assertEqual([it for it in names if not (self.packed / it).exists()], [])

    def test_packs_the_same_bytes_again(self):
        with tempfile.TemporaryDirectory() as folder:
            subprocess.run([TOP / "ppq", "pack", "again"], cwd=folder, check=True, capture_output=True)
            self.assertEqual(pathlib.Path(folder, "again").read_bytes(), self.tarball.read_bytes())
            self.assertEqual(subprocess.run([TOP / "ppq", "pack", "no/folder"], cwd=folder, capture_output=True).returncode, 1)
            self.assertEqual(os.listdir(folder), ["again"])

    def test_needs_nothing_but_the_c_library(self):
        way = way_into_a_root()
        if way is None:
            self.skipTest("a run in an empty root: this machine allows no other root")
        with tempfile.TemporaryDirectory() as root:
            shutil.copytree(self.packed, f"{root}/packed")
            libraries = subprocess.run(["ldd", self.packed / "bin/ppq"], check=True, capture_output=True, text=True).stdout
            for library in re.findall(r"(/\S+) \(0x", libraries):
                os.makedirs(root + os.path.dirname(library), exist_ok=True)
                shutil.copy(library, root + library)
            ran = subprocess.run([*way, root, "/packed/bin/ppq", "run", "/packed/examples/first.ppq", *SIZES], capture_output=True, text=True)
            self.assertEqual((ran.returncode, ran.stdout, ran.stderr), (0, "3 9\n", ""))


if __name__ == "__main__":
    result = unittest.main(exit=False).result
    for reason in dict.fromkeys(it for _, it in result.skipped):
        print(f"left out: {reason}", file=sys.stderr)
    sys.exit(not result.wasSuccessful())
