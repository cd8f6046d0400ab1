#!/usr/bin/env python3
"""Tests of the launcher `ppq`: a copy of it in a folder of its own calls a small program in place of the built one."""
import os
import pathlib
import pty
import shutil
import signal
import subprocess
import tempfile
import time
import unittest

TOP = pathlib.Path(__file__).resolve().parent.parent
PROGRAM = """#!/bin/sh
echo "$*"
"""
TOOK = r"ppq: the run took \d+\.\d\d s, \d+\.\d\d s of processor time, (less than )?\d+\.\d MiB resident, \d+ bytes written, \d+ bytes read\n"
FIRST = "`./ppq build` first (it takes about an hour)"
WORDS = "run s.ppq --device a --blocks 78 --workers 1 --block 2 --heap 1 --memory 900".split()


class Launcher(unittest.TestCase):
    def setUp(self):
        folder = tempfile.TemporaryDirectory()
        self.addCleanup(folder.cleanup)
        self.top = pathlib.Path(folder.name) / "top"
        self.here = pathlib.Path(folder.name) / "here"
        self.program, self.server = (self.top / "crates" / it / "out" / it for it in ("ppq", "ppq_serve"))
        for program in self.program, self.server:
            program.parent.mkdir(parents=True)
        self.here.mkdir()
        for name in "ppq", "CHANGELOG.md", "README.md", "crates.txt":
            shutil.copy(TOP / name, self.top)
        shutil.copytree(TOP / "tools", self.top / "tools")
        self.put(PROGRAM)
        (self.here / "s.ppq").write_text("pop\n")

    def put(self, text):
        """Makes this both programs."""
        for program in self.program, self.server:
            program.write_text(text)
            program.chmod(0o755)

    def put_rt(self, status=1, said=""):
        """Puts a command `rt` on the path, which notes how it was called, says this, and ends with a status."""
        self.put_as_rt(f'echo "$PWD" "$@" > {self.top}/called\nprintf "{said}" >&2\nexit {status}\n')

    def put_as_rt(self, lines):
        """Puts these lines of the shell on the path as a command `rt`."""
        rt = self.top / "rt"
        rt.write_text(f"#!/bin/sh\n{lines}")
        rt.chmod(0o755)

    def call(self, *words, path=None):
        """Calls the launcher; returns its status, and what was printed and said."""
        settings = {"PATH": path or f"{self.top}:{pathlib.Path(shutil.which('python3')).parent}:/usr/bin:/bin"}
        ran = subprocess.run([self.top / "ppq", *words], cwd=self.here, env=settings, capture_output=True, text=True)
        return ran.returncode, ran.stdout, ran.stderr

    def bare_path(self):
        """Returns a path with what the launcher needs, but python3."""
        folder = self.top / "bin"
        folder.mkdir()
        for name in "awk bash cat date dirname find grep head mktemp readlink rm sed sh tail touch".split():
            (folder / name).symlink_to(shutil.which(name))
        return str(folder)

    def test_hands_words_on_as_they_are(self):
        words = "run s.ppq --device a b --blocks=5 --workers 1 --block 2 --heap 1 --memory-bytes 9"
        self.assertEqual(self.call(*words.split()), (0, f"{words}\n", ""))

    def test_chooses_the_sizes_that_are_missing(self):
        status, printed, said = self.call("run", "s.ppq", "--block", "2", "--heap", "1")
        chosen = "run s.ppq --block 2 --heap 1 --device ppq.device --blocks 76 --workers 1 --memory 468"
        self.assertEqual((status, printed, said), (0, f"{chosen}\n", f"ppq: with the sizes that suit it: ./ppq {chosen}\n"))

    def test_goes_on_without_python(self):
        status, printed, said = self.call("run", "s.ppq", path=self.bare_path())
        self.assertEqual((status, printed, said), (0, "run s.ppq\n", "ppq: there is no python3, so no sizes are chosen\n"))
        self.assertEqual(self.call("sizes", "5", path=str(self.top / "bin"))[0], 127)

    def test_answers_at_once(self):
        self.program.unlink()
        self.put_rt()
        self.assertRegex(self.call("--version")[1], r"^ppq \d+\.\d+, logic [0-9a-f]{16}, not built: ")
        self.assertEqual([self.call(*words)[0] for words in ([], ["--help"], ["rum"], ["run"])], [2, 0, 2, 2])
        self.assertFalse((self.top / "called").exists())

    def test_says_whether_it_is_built(self):
        self.assertRegex(self.call("--version")[1], ", built\n$")
        self.assertRegex(self.call("build")[1], ", built\n$")
        (self.top / "crates" / "ppq" / "src").mkdir()
        os.utime(self.program, (0, 0))
        self.assertIn("built before the last change", self.call("--version")[1])

        self.server.unlink()
        self.assertIn(", not built: ", self.call("--version")[1])

    def test_serves_with_the_sizes_that_suit_a_load(self):
        sizes = "--device ppq.device --blocks 80 --workers 1 --block 2 --heap 1 --memory 476"
        for load in ["--load", "4"], ["--load=4"]:
            status, printed, said = self.call("serve", *load, "--block", "2", "--heap", "1")
            chosen = "--block 2 --heap 1 --device ppq.device --blocks 80 --workers 1 --memory 476"
            self.assertEqual((status, printed, said), (0, f"{chosen}\n", f"ppq: with the sizes that suit it: ./ppq serve {chosen}\n"))
        for load in [], ["--load", "4"]:
            self.assertEqual(self.call("serve", *load, *sizes.split()), (0, f"{sizes}\n", ""))
        self.assertIn("--blocks 7890 ", self.call("serve")[1])

    def test_refuses_a_load_for_which_no_sizes_do(self):
        refused = {"3G": "3000000000 records at once want 91630 blocks of 65536 records, and there are at most 65536"}
        refused |= {"4 --blocks 79": "4 records at once want 80 blocks of 2 records, and there are at most 79"}
        for load, why in refused.items():
            words = f"serve --load {load} --block 2 --heap 1" if "blocks" in load else f"serve --load {load}"
            self.assertEqual(self.call(*words.split()), (2, "", f"ppq: why: --load: {why}\n"))
        self.assertEqual(self.call("serve", "--load", "4M", "--load=5M"), (2, "", "ppq: why: --load stands twice\n"))
        self.assertEqual(self.call("serve", "--blocks", "79")[0], 0)

    def test_builds_nothing_for_a_server(self):
        self.put_rt()
        os.utime(self.server, (0, 0))
        (self.top / "crates" / "ppq" / "src").mkdir()
        said = self.call("serve", "--load", "4K")
        self.assertEqual((said[:2], said[2].splitlines()[-1]), ((125, ""), f"ppq: not built since the last change of its sources: {FIRST}"))
        self.server.unlink()
        said = self.call("serve", "--load", "4K")
        self.assertEqual((said[:2], said[2].splitlines()[-1]), ((125, ""), f"ppq: not built: {FIRST}"))
        self.assertFalse((self.top / "called").exists())

    def test_says_why_a_server_ended(self):
        self.put("#!/bin/sh\necho 'ppq-serve: no free block' >&2\nexit 6\n")
        said = self.call("serve", "--load", "4K")[2].splitlines()
        self.assertEqual(said[1], "ppq-serve: no free block")
        self.assertRegex(said[2], "^ppq: why: the client pushed more records")
        self.assertEqual(self.call("serve", "--load", "x")[0], 2)
        self.assertEqual(self.call("try", "serve")[0], 2)
        self.program.unlink()
        self.assertRegex(self.call("serve", "s.ppq")[2], "one word too many: `ppq serve` has no file\nppq: so nothing is built")

    def test_refuses_before_it_builds_or_tries(self):
        self.program.unlink()
        self.put_rt()
        (self.here / "b.ppq").write_text("pop\npsh\n")
        (self.here / "z.bin").write_bytes(bytes(16))
        refused = {"sweep z.bin --nodes 5": 14, "run none.ppq": 11, "run b.ppq": 1, "sim s.ppq --until 5 --events 5": 13, "run s.ppq --heap 99": 2, "run s.ppq --memory 9": 7}
        for words, status in refused.items():
            for front in [], ["try"]:
                ended, _, said = self.call(*front, *words.split())
                self.assertEqual(ended, status, said)
                self.assertRegex(said, "ppq: why: .*\nppq: so nothing is built or run: the program would end with status ")
        self.assertFalse((self.top / "called").exists())

    def test_makes_a_crate_of_ones_own(self):
        (self.top / "bench").mkdir()
        shutil.copy(TOP / "bench" / "expected.py", self.top / "bench")
        shutil.copytree(TOP / "crates" / "ppq_example" / "src", self.top / "crates" / "ppq_example" / "src")
        self.assertEqual(self.call("new", "my_queue")[0], 0)
        made = self.top / "crates" / "my_queue"
        self.assertIn("MACHINES: u64 = 1_000;", (made / "src" / "main.rt").read_text())
        self.assertRegex((made / "stdout").read_text(), "^5000 pieces at .* 1000 waiting, device used: false\n$")
        self.assertEqual(self.call("new", "my_library", "--library")[0], 0)
        self.assertTrue((self.top / "crates" / "my_library" / "src" / "lib.rt").exists())
        lines = (self.top / "crates.txt").read_text().splitlines()
        self.assertEqual(lines[-2:], ["my_queue: ppq_checked ppq_device ppq_edge", "my_library: ppq_device"])
        for name in "my_queue", "ppq_text", "My", "a-b", "":
            self.assertEqual(self.call("new", name)[0], 2)
        self.assertEqual(lines, (self.top / "crates.txt").read_text().splitlines())

    def test_packs_only_what_is_built(self):
        self.program.unlink()
        self.put_rt()
        status, printed, said = self.call("pack")
        self.assertEqual((status, printed), (125, ""))
        self.assertRegex(said, r"^ppq .*, not built: ./ppq build proves and builds it, .*\nppq: so nothing is packed\n$")
        self.assertEqual([it.name for it in self.here.iterdir()], ["s.ppq"])
        self.assertFalse((self.top / "called").exists())

    def test_builds_where_nothing_is_refused(self):
        self.program.unlink()
        self.put_rt()
        for line in (self.top / "crates.txt").read_text().splitlines():
            (self.top / "crates" / line.partition(":")[0].split(" ")[0]).mkdir(exist_ok=True)
        self.assertEqual([self.call(*words)[0] for words in (["build"], ["run", "s.ppq"])], [125, 125])
        self.assertTrue((self.top / "called").exists())

    def test_tries_with_the_files_of_the_caller(self):
        self.put_rt(0)
        (self.here / "b.bin").write_bytes(bytes(16))
        (self.here / "s.ppq").write_text("bulk b.bin\npop\n")
        self.assertEqual(self.call("try", *WORDS)[0], 0)
        here = self.here.resolve()
        words = f"{self.top.resolve()}/crates/ppq try --seconds 300 --data b.bin={here}/b.bin -- run {here}/s.ppq --device {here}/a {' '.join(WORDS[4:])}\n"
        self.assertEqual((self.top / "called").read_text(), words)

    def test_says_why_a_try_ended(self):
        self.put_rt(10)
        self.assertIn("ppq: why: its folder no is not there\n", self.call("try", *[it if it != "a" else "no/a" for it in WORDS])[2])
        self.put_rt(5)
        self.assertNotIn("why", self.call("try", *WORDS)[2])
        self.put_rt(5, r"run=ended status=5 runners=1 races=unchecked proved=no\n")
        self.assertIn(" proved=no\nppq: why: the device a is not there any more\n", self.call("try", *WORDS)[2])

    def test_says_that_a_try_came_to_no_end(self):
        self.put_rt(6, r"checked: no-answer: too late\nrun=no-answer proved=no\n")
        status, printed, said = self.call("try", *WORDS)
        self.assertEqual((status, printed), (124, ""))
        self.assertRegex(said, r"too late\nrun=no-answer proved=no\nppq: the try did not come to an end \(.*\); this says nothing about your input\. Try again, or ./ppq build\n$")
        self.put_rt(6, r"run=ended status=6 runners=1 proved=no\n")
        self.assertEqual(self.call("try", *WORDS)[0], 6)

    def test_tells_a_try_to_stop_only_once(self):
        told = self.top / "told"
        self.put_as_rt(f"trap 'echo told >> {told}' TERM\necho begun\nwhile [ ! -e {told} ]; do sleep 0.02; done\nfor _ in 1 2 3 4 5 6 7 8 9; do sleep 0.05; done\nexit 143\n")
        settings = {"PATH": f"{self.top}:{os.environ['PATH']}"}
        begun = subprocess.Popen([self.top / "ppq", "try", *WORDS], cwd=self.here, env=settings, stdout=subprocess.PIPE, stderr=subprocess.DEVNULL, text=True, start_new_session=True)
        self.assertEqual(begun.stdout.readline(), "begun\n")
        os.killpg(begun.pid, signal.SIGTERM)
        while not told.exists():
            time.sleep(0.01)
        os.killpg(begun.pid, signal.SIGTERM)
        self.assertEqual((begun.communicate()[0], begun.returncode, told.read_text()), ("", 143, "told\n"))

    def test_adds_why_the_program_ended(self):
        self.put("#!/bin/sh\necho 'ppq: line 2: bad line' >&2\nexit 1\n")
        (self.here / "s.ppq").write_text("pop\npsh\n")
        words = "run s.ppq --device a --blocks 5 --workers 1 --block 2 --heap 1 --memory 900".split()
        said = "ppq: line 2: bad line\nppq: why: s.ppq, line 2: 'psh' is no command\n"
        self.assertEqual(self.call(*words), (1, "", said))
        self.assertEqual(self.call(*words, path=self.bare_path()), (1, "", "ppq: line 2: bad line\n"))

    def test_adds_nothing_after_status_0(self):
        self.put("#!/bin/sh\necho note >&2\n")
        self.assertEqual(self.call(*WORDS), (0, "", "note\n"))

    def test_tells_a_signal(self):
        self.put("#!/bin/sh\nkill -9 $$\n")
        self.assertEqual(self.call(*WORDS), (137, "", "ppq: why: the program was ended by signal 9 SIGKILL: the system does so when memory is short\n"))

    def test_has_a_write_fail_at_the_limit_of_a_file(self):
        self.put("#!/bin/sh\nhead -c 4096 /dev/zero > a\n[ $? -eq 1 ] && exit 5\n")
        limited = ["bash", "-c", 'ulimit -f 1; exec "$@"', "", self.top / "ppq", *WORDS]
        ran = subprocess.run(limited, cwd=self.here, capture_output=True, text=True)
        why = "ppq: why: the limit of a file's size is 1024 bytes (`ulimit -f`), and the device may get 2496\n"
        self.assertEqual((ran.returncode, ran.stderr.splitlines(True)[-1]), (5, why))

    def test_hands_standard_input_on(self):
        self.put("#!/bin/sh\ncat\n")
        ran = subprocess.run([self.top / "ppq", *WORDS], cwd=self.here, input="text", capture_output=True, text=True)
        self.assertEqual(ran.stdout, "text")

    def test_says_what_a_run_took(self):
        for place in 1, 4, len(WORDS):
            status, printed, said = self.call(*WORDS[:place], "--stats", *WORDS[place:])
            self.assertEqual((status, printed), (0, " ".join(WORDS) + "\n"))
            self.assertRegex(said, f"^{TOOK}$")
        self.assertIn(f" {len(printed)} bytes written", said)

    def test_says_what_a_run_took_that_failed(self):
        self.put("#!/bin/sh\necho 'ppq: cannot read' >&2\nexit 3\n")
        self.assertRegex(self.call("sim", "s.ppq", "--stats")[2], f"^ppq: cannot read\n{TOOK}")
        self.put("#!/bin/sh\nkill -9 $$\n")
        status, _, said = self.call(*WORDS, "--stats")
        self.assertRegex(f"{status} {said}", f"^137 {TOOK}ppq: why: the program was ended by signal 9")

    def test_runs_without_python_where_it_cannot_say_what_that_took(self):
        said = "ppq: there is no python3, so nothing says what the run took\n"
        self.assertEqual(self.call(*WORDS, "--stats", path=self.bare_path()), (0, " ".join(WORDS) + "\n", said))

    def test_leaves_the_signals_of_the_program_as_they_were(self):
        self.put("#!/bin/sh\ngrep Sig[BI] /proc/self/status\n")
        # signals 1 to 31: the C library has some above for itself
        with_stats, without = ([int(it, 16) % 2**31 for it in self.call(*words)[1].split()[1::2]] for words in ([*WORDS, "--stats"], WORDS))
        self.assertEqual(with_stats, without)

    def test_tries_without_stats(self):
        self.put_rt()
        self.assertIn("'--stats' is no option", self.call("try", *WORDS, "--stats")[2])

    def shown_on_a_terminal(self, program, both=False):
        """Returns what a run writes to a terminal: its standard error, or both outputs."""
        self.put(program)
        terminal, end = pty.openpty()
        subprocess.run([self.top / "ppq", *WORDS, "--stats"], cwd=self.here, stdout=end if both else subprocess.DEVNULL, stderr=end, check=True)
        os.close(end)
        shown = os.read(terminal, 65536).decode().replace("\r\n", "\n")
        os.close(terminal)
        return shown

    def test_shows_on_a_terminal_how_far_a_long_run_is(self):
        self.assertRegex(self.shown_on_a_terminal("#!/bin/sh\n"), f"^{TOOK}$")
        progress = r"(\r\033\[Kppq: [2-9] s, 0 bytes written, \d+ bytes read)+"
        self.assertRegex(self.shown_on_a_terminal("#!/bin/sh\nsleep 2.7\n"), f"^{progress}\r\033\\[K{TOOK}$")
        self.assertRegex(self.shown_on_a_terminal("#!/bin/sh\nprintf '3 '\nsleep 2.7\necho 9\n", both=True), f"^3 9\n{TOOK}$")

    def test_keeps_the_status_where_it_cannot_say_what_a_run_took(self):
        for end in ">/dev/full", ">&-":
            ran = subprocess.run(["bash", "-c", f'"$@" 2{end}', "", self.top / "ppq", *WORDS, "--stats"], cwd=self.here, capture_output=True, text=True)
            self.assertEqual((ran.returncode, ran.stdout), (0, " ".join(WORDS) + "\n"))

    def test_hands_signals_on(self):
        self.put("#!/bin/sh\ntrap 'echo stopped; exit 7' TERM INT HUP\necho begun\nwhile :; do sleep 0.02; done\n")
        for number in signal.SIGTERM, signal.SIGINT, signal.SIGHUP:
            for words in WORDS, [*WORDS, "--stats"]:
                begun = subprocess.Popen([self.top / "ppq", *words], cwd=self.here, stdout=subprocess.PIPE, stderr=subprocess.DEVNULL, text=True)
                self.assertEqual(begun.stdout.readline(), "begun\n")
                begun.send_signal(number)
                self.assertEqual((begun.communicate()[0], begun.returncode), ("stopped\n", 7))

    def test_prints_sizes(self):
        self.assertIn("--blocks 9854", self.call("sizes", "20M", "--workers", "4")[1])
        self.assertEqual(self.call("sizes", "x")[0], 2)


if __name__ == "__main__":
    unittest.main()
