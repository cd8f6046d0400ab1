#!/usr/bin/env python3
"""Tests of tools/sizes.py: the sizes that it chooses, and that they have room for what scripts and agendas reach."""
import os
import pathlib
import random
import subprocess
import sys
import tempfile
import unittest

sys.dont_write_bytecode = True
HERE = pathlib.Path(__file__).resolve().parent
sys.path[:0] = [str(HERE), str(HERE.parent / "bench")]
import scripts
import sim
import sizes
from sizes import Sizes

LAST = 2**64 - 1
COMMANDS = ("push 5 1", "pop", "bulk_pop 3", "drain 2", "gen 7 4", "bulk_pop_limit 9 0 2", "top", "size")
# Words without sizes, and what is added to them on a machine of four cores.
FILLED = {
    "push 1 2\npop\n": "--device ppq.device --blocks 78 --workers 1 --block 4096 --heap 8 --memory 704668",
    "gen 7 4000000\ndrain 4000000\n": "--device ppq.device --blocks 2042 --workers 4 --block 4096 --heap 8 --memory 1052660",
    "bulk_begin\nbulk_push 6 1 2\nbulk_end\n": "--device ppq.device --blocks 102 --workers 7 --block 4096 --heap 8 --memory 1392844",
}


def least_held(lines):
    """Returns the load of a script of pairs, by a list."""
    held, most = [], 0
    for line in lines:
        word, *rest = line.split()
        numbers = [*map(int, rest)]
        if word in ("push", "gen"):
            held += [tuple(numbers)] if word == "push" else [(10 + it, 0) for it in range(numbers[1])]
        elif word == "bulk_pop_limit":
            below = sorted(it for it in held if it < tuple(numbers[:2]))
            held = sorted(held)[min(len(below), numbers[2]) :]
        elif word in ("pop", "bulk_pop", "drain"):
            held = sorted(held)[numbers[0] if numbers else 1 :]
        most = max(most, len(held))
    return most


def most_waiting(events):
    """Returns how many events wait at once at most, by the machine of bench/sim.py."""
    places, waiting = sim.roster(), sorted(events)
    most = len(waiting)
    while waiting:
        time, target, word = waiting.pop(0)
        _, ahead = sim.answered(places, time, target, word)
        waiting = sorted(waiting + ahead)
        most = max(most, len(waiting))
    return most


class Chosen(unittest.TestCase):
    def test_suits_three_machines(self):
        rows = ((2_000_000, 1, 1024, 3984, 262_144), (20_000_000, 4, 4096, 9854, 2_097_152), (1_000_000_000, 4, 32_768, 61_124, 67_108_864))
        for load, workers, block, blocks, memory in rows:
            chosen = Sizes(load, {"memory": memory}, workers)
            self.assertEqual((chosen.block, chosen.heap, chosen.blocks, chosen.fault()), (block, 8, blocks, None))

    def test_has_the_formulas_of_the_documents(self):
        self.assertEqual((sizes.fixed(2, 2, 1, 200), sizes.fixed(4, 4096, 8, 2048)), (372, 526_336))
        self.assertEqual((sizes.room(4, 2, 2), sizes.room(4_000_000, 4, 4096)), (84, 2042))

    def test_keeps_what_is_given(self):
        given = {"workers": 2, "block": 2, "heap": 1, "blocks": 200, "memory": 372}
        for names in ([], ["workers"], ["block", "heap"], [*given]):
            kept = {it: given[it] for it in names}
            chosen = Sizes(100, kept, 4)
            self.assertEqual({it: getattr(chosen, it) for it in names}, kept)

    def test_has_room_and_budget_for_each_load(self):
        for load in (0, 1, 4096, 10**6, 10**9, 2_100_000_000):
            for workers in (1, 4, 64):
                for queues in (1, 2):
                    self.assertIsNone(Sizes(load // queues, {}, workers, queues).fault())

    def test_says_what_does_not_do(self):
        self.assertIn("91642 blocks of 65536 records", Sizes(3 * 10**9, {}, 4).fault())
        least = f"--memory 64106 (1.0 MB) is the least, and with --workers 1 {Sizes(4 * 10**6, {'memory': 1024}, 1).least()} (0.9 MB)"
        self.assertEqual(Sizes(4 * 10**6, {"memory": 1024}, 4).fault(), f"the budget is 1024 records, and its fixed part 64106: {least}")
        self.assertTrue(Sizes(500 * 10**6, {"memory": 2**22}, 1, 2).fault(24).endswith(": --memory 5697284 (136.7 MB) is the least"))

    def test_suits_a_slow_disk(self):
        self.assertEqual([(it.block, it.heap) for it in (Sizes(10**6, {}, 1, slow=True), Sizes(10**6, {}, 4, slow=True))], [(8192, 4), (8192, 6)])


class Loads(unittest.TestCase):
    def test_of_scripts_are_enough(self):
        maker = random.Random(1)
        for _ in range(300):
            lines = [maker.choice(COMMANDS) for _ in range(maker.randrange(30))]
            script = scripts.read("\n".join(lines).encode(), 4)
            self.assertGreaterEqual(sizes.load_of_script(script), least_held(lines), lines)
        exact = ["gen 1 5", "pop", "drain 3", "push 1 1", "bulk_pop 9", "push 1 1"]
        self.assertEqual(sizes.load_of_script(scripts.read("\n".join(exact).encode(), 4)), 5)

    def test_of_agendas_are_enough(self):
        maker = random.Random(2)
        for _ in range(100):
            events = [(maker.randrange(9), maker.randrange(18), maker.choice((0, 1, 5, 2**40, LAST))) for _ in range(maker.randrange(1, 40))]
            self.assertLessEqual(most_waiting(events), 2 * len(events), events)


class Words(unittest.TestCase):
    def setUp(self):
        folder = tempfile.TemporaryDirectory()
        self.addCleanup(folder.cleanup)
        self.addCleanup(os.chdir, os.getcwd())
        os.chdir(folder.name)
        cores, sizes.cores = sizes.cores, lambda: 4
        self.addCleanup(setattr, sizes, "cores", cores)

    def filled(self, words):
        return " ".join(sizes.filled(words.split()))

    def printed(self, words):
        """Returns what the program did with these words."""
        return subprocess.run([sys.executable, HERE / "sizes.py", *words.split()], capture_output=True, text=True)

    def test_of_scripts_are_filled(self):
        for script, added in FILLED.items():
            pathlib.Path("s.ppq").write_text(script)
            self.assertEqual(self.filled("run s.ppq"), f"run s.ppq {added}")

    def test_of_files_are_filled(self):
        pathlib.Path("two.bin").write_bytes(bytes(48))
        agenda = "sim two.bin --until 5 --events 1 --block 2 --heap 1 --workers 2 --memory 372"
        self.assertEqual(self.filled(agenda), f"{agenda} --device ppq.device --blocks {sizes.room(3, 2, 2)}")
        edges = "sweep two.bin --nodes 5 --block 2 --heap 1"
        for given, added, workers in ((f"{edges} --workers 2", "", 2), (edges, " --workers 1", 1)):
            blocks = 2 * sizes.room(3, workers, 2)
            self.assertEqual(self.filled(given), f"{given} --device ppq.device --blocks {blocks}{added} --memory {4 * sizes.fixed(workers, 2, 1, blocks // 2)}")
        pathlib.Path("s.ppq").write_text("bulk two.bin")
        self.assertEqual(sizes.load_of_script(sizes.read_script("s.ppq")), 3)

    def test_of_servers_are_filled(self):
        """A budget in bytes is taken for triples, which its client may have."""
        for budget in 2**22, 2**25, 2**32:
            full = sizes.filled(["serve", "--memory-bytes", str(budget)], 10**6)
            blocks, _, block, heap = (int(it) for it in full[-7::2])
            self.assertLessEqual(5 * 24 * sizes.fixed(1, block, heap, blocks), 3 * budget)
            self.assertLessEqual(sizes.room(10**6, 1, block), blocks)

    def test_stay_where_the_program_refuses_them_or_nothing_is_missing(self):
        pathlib.Path("s.ppq").write_text("pop\n")
        full = "run s.ppq --device d --blocks 78 --workers 1 --block 2 --heap 1 --memory-bytes 5000"
        for words in (full, "", "run", "rum s.ppq", "run s.ppq --heap", "run s.ppq --heap 1 --heap 1", "run s.ppq --heap 0", "sim s.ppq", "run s.ppq --memory 32M"):
            self.assertEqual(self.filled(words), words)

    def test_are_printed(self):
        ran = self.printed("20M --workers 4 --memory 32M")
        self.assertEqual(ran.stdout, "--device ppq.device --blocks 9854 --workers 4 --block 4096 --heap 8 --memory-bytes 33554432\n")
        self.assertIn("at most 646 MB", ran.stderr)
        self.assertIn("ppq: --memory-bytes 33554432 is 33.6 MB, with 381 buffers for runs; the smallest --memory is 534142 (8.5 MB)\n", ran.stderr)
        self.assertIn("argument --memory: 8G is above the largest budget, 4G\n", self.printed("20M --memory 8G").stderr)
        self.assertRegex(self.printed("500M --queues 2 --memory 64M").stderr, r"^ppq: no: .*: --memory \d+ \(\d+\.\d MB\) is the least\n$")

    def test_of_the_most_edges_are_printed(self):
        self.assertIn("--blocks 65536 --workers 1 --block 65536", self.printed("1071251456 --queues 2").stdout)
        self.assertEqual(self.printed("1071251457 --queues 2").stdout, "")

    def test_are_refused_where_they_are_no_sizes(self):
        for words in ("", "x", "5 --heap 65", "5 --memory 1T", "5G", "5 --memory 9 --memory-bytes 9"):
            self.assertNotEqual(self.printed(words).returncode, 0, words)


if __name__ == "__main__":
    unittest.main()
