#!/usr/bin/env python3
"""Tests of ppq_client.py: random operations against heapq, the ends of a server, and when it answers.

    test_ppq_client.py SERVER WORD..    the words of a server that spills, with blocks of 16 records
"""

import contextlib
import heapq
import os
import pathlib
import random
import signal
import struct
import subprocess
import sys
import tempfile
import threading
import unittest

from ppq_client import ROUND, Ended, Queue

try:
    import numpy
except ImportError:
    numpy = None

server = sys.argv[1:]
KINDS = [(kind, order) for kind in ("pair", "triple") for order in ("up", "down")]
STEPS = 1_500
MANY = 80_000
# A server that notes its process in a file, answers by these bytes, whatever it is asked, and stays.
DUMB = """
import os, pathlib, sys, time
pathlib.Path(sys.argv[1]).write_text(str(os.getpid()))
os.write(1, bytes.fromhex(sys.argv[2]))
time.sleep(600)
"""


def with_word(name, value):
    """The words of the server with another value of one of them."""
    words = list(server)
    words[words.index(name) + 1] = value
    return words


def frame(operations):
    return struct.pack(">I", len(operations)) + operations


FIRST = frame(b"ppq-serve 1 pair up")
EMPTY = frame(struct.pack(">Q", 0))


def ends(given, words=None):
    """Runs the server on these bytes: its status, what it wrote, and its report."""
    ran = subprocess.run(words or server, input=given, stdout=subprocess.PIPE, stderr=subprocess.PIPE)
    return ran.returncode, ran.stdout, ran.stderr.decode()


class Interrupt(Exception):
    """What the handler of a signal raises."""


@contextlib.contextmanager
def interrupted(seconds, once=lambda function: True):
    """Interrupts what is done in it after so many seconds, or some more until this holds of the function that is at work."""

    def handle(number, at):
        if once(at.f_code.co_name):
            raise Interrupt
        signal.setitimer(signal.ITIMER_REAL, seconds)

    before = signal.signal(signal.SIGALRM, handle)
    signal.setitimer(signal.ITIMER_REAL, seconds)
    try:
        yield
    finally:
        signal.setitimer(signal.ITIMER_REAL, 0)
        signal.signal(signal.SIGALRM, before)


class Model:
    """A plain heap. Where the greatest comes out first, numbers below 0 stand in it."""

    def __init__(self, kind, order, seed):
        self.random = random.Random(seed)
        self.numbers = 2 if kind == "pair" else 3
        self.sign = 1 if order == "up" else -1
        self.heap = []

    def key(self, record):
        return tuple(self.sign * number for number in record)

    def record(self):
        if self.random.random() < 0.5:
            return tuple(self.random.randrange(40) for _ in range(self.numbers))
        return tuple(self.random.choice([0, 2**64 - 1, self.random.randrange(2**64)]) for _ in range(self.numbers))

    def records(self, most):
        return [self.record() for _ in range(self.random.randrange(most))]

    def push(self, records):
        for record in records:
            heapq.heappush(self.heap, self.key(record))

    def least(self):
        return self.key(self.heap[0]) if self.heap else None

    def take(self, count):
        return [self.key(heapq.heappop(self.heap)) for _ in range(min(count, len(self.heap)))]

    def is_below(self, limit):
        return bool(self.heap) and self.heap[0] < self.key(limit)

    def take_below(self, limit, count):
        taken = []
        while len(taken) < count and self.is_below(limit):
            taken += self.take(1)
        return taken


class Operations(unittest.TestCase):
    def step(self, queue, model):
        what = model.random.randrange(7)
        if what == 0:
            record = model.record()
            queue.push(*record)
            model.push([record])
        elif what == 1:
            records = model.records(60)
            queue.push_many(records)
            model.push(records)
        elif what == 2:
            records = model.records(60)
            queue.push_bytes(b"".join(struct.pack(f">{model.numbers}Q", *record) for record in records))
            model.push(records)
        elif what == 3:
            self.assertEqual(queue.pop(), (model.take(1) or [None])[0])
        elif what == 4:
            self.assertEqual(queue.top(), model.least())
        elif what == 5:
            count = model.random.choice([0, 1, 5, 40, 41])
            self.assertEqual(queue.pop_many(count), model.take(count))
        else:
            limit, count = model.record(), model.random.choice([0, 1, 3, 50])
            popped, all_of_them = queue.pop_below(limit, count)
            self.assertEqual(popped, model.take_below(limit, count))
            self.assertEqual(all_of_them, not model.is_below(limit))
        self.assertEqual(len(queue), len(model.heap))

    def test_random_operations(self):
        for seed, (kind, order) in enumerate(KINDS):
            with self.subTest(kind=kind, order=order), Queue(server, kind, order) as queue:
                model = Model(kind, order, seed)
                for _ in range(STEPS):
                    self.step(queue, model)
                many = [model.record() for _ in range(MANY)]
                queue.push_many(many)
                model.push(many)
                self.assertEqual(len(queue), len(model.heap))
                self.assertGreater(MANY, ROUND)
                self.assertEqual(queue.pop_many(10**9), model.take(10**9))
                self.assertEqual((queue.pop(), queue.top(), len(queue)), (None, None, 0))

    def test_it_spills(self):
        device = server[server.index("--device") + 1]
        with Queue(server) as queue:
            queue.push_many((number, 0) for number in range(MANY))
            queue.flush()
            self.assertGreater(os.path.getsize(device), 16 * MANY // 2)
            popped, all_of_them = queue.pop_below((MANY - 1, 0), MANY)
            self.assertEqual((popped, all_of_them), ([(number, 0) for number in range(MANY - 1)], True))

    def test_a_simulator(self):
        """Pushes that depend on pops: each event makes one or two later ones, up to a time."""
        events, counted = [(1, 1), (1, 2)], []
        with Queue(server) as queue:
            queue.push_many(events)
            heapq.heapify(events)
            while (event := queue.pop()) is not None:
                self.assertEqual(event, heapq.heappop(events))
                counted.append(event)
                time, number = event
                for later in [(time + 1 + number % 7, number * 5 % 1009), (time + 60, number + 1)]:
                    if later[0] < 110:
                        queue.push(*later)
                        heapq.heappush(events, later)
        self.assertEqual(counted, sorted(counted))
        self.assertEqual(events, [])

    def test_a_simulator_by_batches(self):
        """By `pop_below` up to the shortest delay behind the least event, the events come as they come one by one."""
        events, counted, delay = [(1, 1), (1, 2)], [], 3
        with Queue(server) as queue:
            queue.push_many(events)
            heapq.heapify(events)
            while (first := queue.top()) is not None:
                batch, all_of_them = queue.pop_below((first[0] + delay, 0), 50)
                for event in batch:
                    self.assertEqual(event, heapq.heappop(events))
                    time, number = event
                    for later in [(time + delay + number % 7, number * 5 % 1009), (time + 60, number + 1)]:
                        if later[0] < 110:
                            queue.push(*later)
                            heapq.heappush(events, later)
                counted += batch
        self.assertEqual(counted, sorted(counted))
        self.assertEqual(events, [])

    @unittest.skipIf(numpy is None, "NumPy is not here")
    def test_arrays(self):
        for kind, order in KINDS:
            with self.subTest(kind=kind, order=order), Queue(server, kind, order) as queue:
                columns = 2 if kind == "pair" else 3
                array = numpy.random.default_rng(1).integers(0, 2**64, (MANY, columns), dtype="u8", endpoint=False)
                queue.push_array(array)
                wanted = sorted(map(tuple, array.tolist()), reverse=order == "down")
                self.assertEqual([tuple(row) for row in queue.pop_array(MANY + 1).tolist()], wanted)
                self.assertEqual(queue.pop_array(5).shape, (0, columns))

    @unittest.skipIf(numpy is None, "NumPy is not here")
    def test_arrays_that_are_none(self):
        with Queue(server) as queue:
            wrong = [[[1, -1]], [[1.0, 2.0]], [[0.5, 2]], [[True, False]], [["1", "2"]], [[2**64, 1]], [[1, 2, 3]], [1, 2]]
            for array in wrong:
                with self.subTest(array=array), self.assertRaises(ValueError):
                    queue.push_array(array)
            self.assertEqual(len(queue), 0)
            for kind in ("u1", "i8", ">u8", "<i4"):
                queue.push_array(numpy.array([[1, 2]], dtype=kind))
                queue.push_array(numpy.empty((0, 2), dtype=kind))
            self.assertEqual(queue.pop_many(9), [(1, 2)] * 4)

    def test_arguments(self):
        with self.assertRaisesRegex(ValueError, "^the kind is pair or triple, not 'pairs'$"):
            Queue(server, "pairs")
        with self.assertRaisesRegex(ValueError, "^the order is up or down, not 'Up'$"):
            Queue(server, "pair", "Up")
        with Queue(server) as queue:
            for wrong in [(1,), (1, 2, 3), (-1, 0), (2**64, 0), (1.5, 0), ("1", 0), (None, 0)]:
                for call in [lambda it: queue.push(*it), queue.pop_below, lambda it: queue.push_many([(1, 2), it, (3, 4)])]:
                    with self.assertRaises(ValueError) as raised:
                        call(wrong)
                    self.assertEqual(str(raised.exception), f"{wrong!r} is no record of 2 whole numbers from 0 to 2**64-1")
            with self.assertRaises(ValueError):
                queue.push_bytes(b"123")
            self.assertEqual(len(queue), 0)

    def test_records_of_a_generator(self):
        """They are taken in rounds, and a round is added whole or not at all."""
        with Queue(server) as queue:
            sizes = []

            def records(bad):
                for number in range(2 * ROUND):
                    if number % ROUND == 0:
                        sizes.append(len(queue))
                    yield (number, -1 if number == bad else 0)

            with self.assertRaises(ValueError):
                queue.push_many(records(ROUND + 5))
            self.assertEqual(sizes, [0, ROUND])
            self.assertEqual(queue.pop_many(10**9), [(number, 0) for number in range(ROUND)])

    def test_float_times(self):
        times = [0.0, 5e-324, 1e-9, 0.1, 0.1 + 2**-55, 1.0, 1.5, 2.0**60, 1e300, float("inf")]
        with Queue(server) as queue:
            for number, time in reversed([*enumerate(times)]):
                queue.push(struct.unpack(">Q", struct.pack(">d", time))[0], number)
            popped = [(struct.unpack(">d", struct.pack(">Q", time))[0], number) for time, number in queue.pop_many(99)]
            self.assertEqual(popped, [(time, number) for number, time in enumerate(times)])


class Ends(unittest.TestCase):
    def test_end_of_input(self):
        self.assertEqual(ends(FIRST), (0, EMPTY, ""))
        push = frame(b"+" + struct.pack(">QQ", 5, 1) + b"+" + struct.pack(">QQ", 3, 9) + b"p")
        answer = frame(struct.pack(">QQ", 3, 9)) + frame(struct.pack(">Q", 1))
        self.assertEqual(ends(FIRST + push), (0, EMPTY + answer, ""))

    def test_requests_that_are_none(self):
        record = struct.pack(">QQ", 5, 1)
        wrong = [b"x", b"+" + record[:15], b"+" + record + b"q", b"P", b"P" + struct.pack(">I", 2) + record]
        wrong += [b"P" + struct.pack(">I", 2**32 - 1) + record, b"n1234567", b"b" + record + b"1234567", b"\0"]
        for operations in wrong:
            with self.subTest(operations=operations):
                given = FIRST + frame(b"+" + record) + frame(b"+" + record + operations)
                status, output, report = ends(given)
                self.assertEqual((status, output), (1, EMPTY + frame(struct.pack(">Q", 1))))
                self.assertIn("request 3", report)

    def test_first_frames_that_are_none(self):
        for first in [b"", b"ppq-serve 2 pair up", b"ppq-serve 1 pair", b"ppq-serve 1 pairs up", b"ppq-serve 1 pair up "]:
            with self.subTest(first=first):
                status, output, report = ends(frame(first))
                self.assertEqual((status, output), (1, b""))
                self.assertIn("request 1", report)

    def test_frames_that_are_cut(self):
        request = frame(b"+" + struct.pack(">QQ", 5, 1) + b"p")
        for cut in range(1, len(request)):
            with self.subTest(cut=cut):
                self.assertEqual(ends(FIRST + request[:cut])[:2], (1, EMPTY))
        self.assertEqual(ends(FIRST + struct.pack(">I", 2**32 - 1))[:2], (1, EMPTY))
        self.assertEqual(ends(b"")[:2], (1, b""))

    def test_no_free_block(self):
        with self.assertRaises(Ended) as ended, Queue(with_word("--blocks", "64")) as queue:
            queue.push_many((number, 0) for number in range(MANY))
            queue.flush()
        self.assertEqual(ended.exception.status, 6)
        self.assertTrue(ended.exception.report)

    def test_words_that_are_none(self):
        with self.assertRaises(Ended) as ended:
            Queue(server + ["--form", "bytes"])
        self.assertEqual(ended.exception.status, 2)

    def test_a_budget_below_the_fixed_part(self):
        workers, block, heap, blocks = (int(server[server.index(name) + 1]) for name in ("--workers", "--block", "--heap", "--blocks"))
        need = block * (workers * (heap + 6) + 72) + blocks
        said = f"ppq-serve: memory too small, need {need}\n"
        self.assertEqual(ends(FIRST, with_word("--memory", "1")), (7, b"", said))
        self.assertEqual(ends(FIRST, with_word("--memory", str(need - 1))), (7, b"", said))
        self.assertEqual(ends(FIRST, with_word("--memory", str(need))), (0, EMPTY, ""))

    def test_a_device_that_cannot_be_made(self):
        self.assertEqual(ends(FIRST, with_word("--device", "no such folder/device")), (10, b"", "ppq-serve: cannot make the device\n"))

    def test_a_server_that_ended(self):
        queue = Queue(server)
        with self.assertRaises(Ended) as ended:
            queue._ask(queue._frames, b"?")
        self.assertEqual(ended.exception.status, 1)
        for call in [lambda: queue.push(1, 2), queue.pop, lambda: queue.pop_many(3), lambda: queue.push_many([(1, 2)])]:
            with self.assertRaises(Ended):
                call()
        queue.close()

    def test_a_server_that_was_killed(self):
        queue = Queue(server)
        queue._server.kill()
        with self.assertRaisesRegex(Ended, "^ppq-serve was killed by signal 9$") as ended:
            queue.pop()
        self.assertEqual(ended.exception.status, -signal.SIGKILL)

    def test_a_queue_that_is_closed(self):
        with Queue(server) as queue:
            queue.push(1, 2)
        with self.assertRaises(Interrupt), Queue(server) as other:
            raise Interrupt
        for closed in queue, other:
            for call in [lambda: closed.push(1, 2), closed.pop, lambda: closed.push_many([(1, 2)])]:
                with self.assertRaisesRegex(Ended, "^the queue is closed$"):
                    call()
            closed.close()

    def test_what_it_reports(self):
        talks = ["sh", "-c", 'echo "with these sizes" >&2; exec "$@"', "", *server]
        with Queue(talks) as queue:
            queue.push(1, 2)
            self.assertEqual(queue.report, "")
        self.assertEqual(queue.report, "with these sizes")
        with self.assertRaisesRegex(Ended, "^ppq-serve ended with status 1: with these sizes\nppq-serve: request 2"):
            queue = Queue(talks)
            queue._ask(queue._frames, b"?")
        self.assertIn("request 2", queue.report)


class Interrupts(unittest.TestCase):
    """After a call that was interrupted no answer is taken for that of another one."""

    def dumb(self, answer):
        """The words of a server that answers so, whatever it is asked, and the file that has its process."""
        folder = tempfile.TemporaryDirectory()
        self.addCleanup(folder.cleanup)
        file = pathlib.Path(folder.name) / "process"
        return [sys.executable, "-c", DUMB, str(file), answer.hex()], file

    def is_over(self, queue):
        for call in [queue.pop, queue.top, lambda: queue.push(1, 2), lambda: queue.pop_many(3), queue.flush]:
            with self.assertRaisesRegex(Ended, "^a call was interrupted, so its answer is lost$") as ended:
                queue._pushes += b"+"
                call()
            self.assertIsNone(ended.exception.status)
        self.assertEqual(queue._server.returncode, -signal.SIGKILL)
        queue.close()

    def test_a_call_that_waits(self):
        record = frame(struct.pack(">QQ", 1, 2))
        many = [(number, 0) for number in range(MANY)]  # more than a pipe holds
        calls = [lambda it: it.pop(), lambda it: it.top(), lambda it: it.pop_many(3), lambda it: it.pop_below((9, 9)), lambda it: it.push_many(many)]
        for answer in EMPTY, EMPTY + record[:7], EMPTY + record + EMPTY[:3]:
            for call in calls:
                queue = Queue(self.dumb(answer)[0])
                with self.assertRaises(Interrupt), interrupted(0.02, lambda it: it in ("_send", "_read", "_piece")):
                    call(queue)
                self.is_over(queue)

    def test_the_first_answer(self):
        for answer in b"", EMPTY[:5]:
            words, file = self.dumb(answer)
            with self.assertRaises(Interrupt), interrupted(0.05, lambda it: it == "_read" and file.exists() and file.read_text()):
                Queue(words)
            with self.assertRaises(ProcessLookupError):
                os.kill(int(file.read_text()), 0)

    def test_a_call_at_any_time(self):
        """The next answer is right, or there is none. An answer that was whole can be lost on its way to the caller."""
        for turn in range(60):
            with Queue(server) as queue:
                queue.push_many((number, 0) for number in range(20_000))
                popped, step = [], turn % 3
                with self.assertRaises(Interrupt), interrupted(0.0003 * (turn + 1)):
                    while True:
                        popped += [queue.pop()] if step == 0 else queue.pop_many(step)
                try:
                    following = queue.pop()
                except Ended as ended:
                    self.assertIsNone(ended.status)
                else:
                    self.assertIn(following, [(len(popped), 0), (len(popped) + max(step, 1), 0)])


class Talk(unittest.TestCase):
    """A server over pipes that stay open."""

    def setUp(self):
        self.server = subprocess.Popen(server, stdin=subprocess.PIPE, stdout=subprocess.PIPE, stderr=subprocess.PIPE)

    def tearDown(self):
        self.server.kill()
        self.server.communicate()

    def send(self, *parts):
        self.server.stdin.write(b"".join(parts))
        self.server.stdin.flush()

    def wants(self, answer):
        self.assertEqual(self.server.stdout.read(len(answer)), answer)

    def test_an_answer_waits_for_no_other_request(self):
        self.send(FIRST)
        self.wants(EMPTY)
        for count in range(1, 4):
            self.send(frame(b"+" + struct.pack(">QQ", 5, count)))
            self.wants(frame(struct.pack(">Q", count)))

    def test_requests_byte_by_byte(self):
        given = FIRST + frame(b"+" + struct.pack(">QQ", 5, 1)) + frame(b"p")
        for at in range(len(given)):
            self.send(given[at : at + 1])
        one = frame(struct.pack(">Q", 1))
        self.wants(EMPTY + one + frame(struct.pack(">QQ", 5, 1)) + EMPTY)

    def test_many_requests_at_once(self):
        requests = frame(b"+" + struct.pack(">QQ", 5, 1)) * 2_000
        self.send(FIRST, requests)
        self.wants(EMPTY + b"".join(frame(struct.pack(">Q", count)) for count in range(1, 2_001)))

    def test_a_large_answer_waits_for_its_reader(self):
        records = b"".join(struct.pack(">QQ", number, 0) for number in range(ROUND))
        self.send(FIRST, frame(b"P" + struct.pack(">I", ROUND) + records))
        self.wants(EMPTY + frame(struct.pack(">Q", ROUND)))
        asks = threading.Thread(target=self.send, args=[frame(b"n" + struct.pack(">Q", ROUND))] * 2)
        asks.start()
        self.wants(b"".join(frame(records[at : at + 16]) for at in range(0, len(records), 16)) + EMPTY)
        asks.join()
        self.wants(EMPTY)

    def test_a_reader_that_went_away(self):
        self.send(FIRST)
        self.wants(EMPTY)
        self.server.stdout.close()
        self.send(frame(b"t"))
        self.server.stdin.close()
        self.server.wait()
        self.assertEqual(self.server.returncode, 4)
        self.server.stdin = self.server.stdout = None


if __name__ == "__main__":
    unittest.main(argv=sys.argv[:1])
