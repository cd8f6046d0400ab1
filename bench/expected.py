#!/usr/bin/env python3
"""Prints what a program of this repository prints, from a heap of Python in place of the queue.

    bench/expected.py machines        # crates/ppq_example: a simulator of machines
    bench/expected.py threads         # crates/ppq_threads: records that threads push
    bench/expected.py script FILE     # a script of examples/

`docs/check` compares this with the output that the gate wants of these programs.
"""
import bisect
import heapq
import os
import struct
import sys

WORD = (1 << 64) - 1
MIX = 0x9E3779B97F4A7C15


def machines(count=120_000, pieces=600_000, used="true"):
    def event(time, target, word):
        mixed = (time ^ (target << 20)) * MIX & WORD
        return (min(time + 1 + (mixed >> 44), WORD), target, word)

    events = [event(0, number, 1) for number in range(count)]
    heapq.heapify(events)
    clock = most = order = 0
    for _ in range(pieces):
        clock, target, word = events[0]
        most = max(most, word)
        order = (order * 31 + target) & WORD
        heapq.heapreplace(events, event(clock, target, word + 1))
    print(f"{pieces} pieces at {clock}, at most {most} of one machine, order {order}, {len(events)} waiting, device used: {used}")


def threads():
    each, workers, horizon = 50_000, 4, 1 << 39

    def seen(events):
        order = 0
        for _, number in events:
            order = (order * 31 + number) & WORD
        return f"{len(events)} events, in order: true, their numbers {order}"

    def event(number):
        mixed = number * MIX & WORD
        return ((mixed ^ mixed >> 29) >> 24, number)

    events = [event(number) for number in range(workers * each)]
    heapq.heapify(events)
    print(f"{len(events)} events by 4 threads")
    taken = []
    while events[0] < (horizon, 0):
        key, number = events[0]
        taken.append((key, number))
        heapq.heapreplace(events, (key + horizon, number))
    print(f"below {horizon}: {seen(taken)}")
    print(f"after it: {seen([heapq.heappop(events) for _ in range(len(events))])}, device used: true")


class Records:
    """Records in the order of a script's head: each a tuple of its fields, negative ones in the order down."""

    def __init__(self, head):
        self.count = 3 if head[2:3] == ["triple"] else 2
        self.sign = -1 if head[3:4] == ["down"] else 1
        self.items = []

    def record(self, fields):
        return tuple(self.sign * it for it in fields)

    def line(self, record):
        return " ".join(str(self.sign * it) for it in record)

    def add(self, records):
        self.items = sorted(self.items + [self.record(it) for it in records])

    def add_file(self, file):
        """Adds the records of a record file."""
        with open(file, "rb") as it:
            self.add(struct.iter_unpack(">" + "Q" * self.count, it.read()))

    def add_generated(self, seed, count):
        """Adds the records of `gen`."""
        records, word = [], seed
        for number in range(count):
            word = (word * 6364136223846793005 + 1442695040888963407) & WORD
            records.append((word, number, seed)[: self.count])
        self.add(records)

    def below(self, limit):
        """Returns how many records there are before a limit, or at all."""
        return bisect.bisect_left(self.items, self.record(limit)) if limit else len(self.items)

    def removed(self, count):
        """Takes the first so many records out, and returns them."""
        first = self.items[:count]
        del self.items[:count]
        return first

    def lines(self, count):
        return [self.line(it) for it in self.removed(count)]


def summary(records, count):
    """Returns the line of `drain`."""
    out = records.removed(count)
    if not out:
        return "count 0"
    total = sum(records.sign * it[0] for it in out) & WORD
    return f"count {len(out)} first {records.line(out[0])} last {records.line(out[-1])} sum {total}"


def answers(head, lines, folder):
    """Yields the lines that a script prints, over one list of records in order."""
    records, limit = Records(head), None
    for line in lines:
        word, *rest = line.split()
        numbers = [int(it) for it in rest if it.isdigit()]
        below, empty = records.below(limit), "limit" if limit else "empty"
        if word in ("push", "bulk_push", "limit_push"):
            bisect.insort(records.items, records.record(numbers[-records.count :]))
        elif word in ("pop", "limit_pop"):
            yield records.lines(1)[0] if below else empty
        elif word in ("top", "limit_top"):
            yield records.line(records.items[0]) if below else empty
        elif word == "size":
            yield str(len(records.items))
        elif word == "bulk":
            records.add_file(f"{folder}/{rest[0]}")
        elif word == "gen":
            records.add_generated(*numbers)
        elif word == "bulk_pop":
            yield from records.lines(*numbers)
        elif word == "bulk_pop_limit":
            *bound, most = numbers
            count = records.below(bound)
            yield from records.lines(min(count, most))
            yield "all" if count <= most else "more"
        elif word == "drain":
            yield summary(records, *numbers)
        elif word == "limit_begin":
            limit = numbers
        elif word == "limit_end":
            limit = None
        elif word not in ("bulk_begin", "bulk_end"):
            raise ValueError(f"no command: {line}")


def script(file):
    with open(file, encoding="utf-8") as it:
        lines = [line.strip() for line in it]
    head = lines[0].split() if lines and lines[0].startswith("ppq ") else []
    lines = [it for it in lines[1 if head else 0 :] if it and not it.startswith("#")]
    for answer in answers(head, lines, os.path.dirname(file) or "."):
        print(answer)


PROGRAMS = {"machines": machines, "threads": threads, "script": script}

if __name__ == "__main__":
    PROGRAMS[sys.argv[1]](*sys.argv[2:])
