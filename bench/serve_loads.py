"""The loads of serve.cpp by the client in Python, or over heapq. bench/serve calls it, with the same words but `echo`."""
import heapq
import pathlib
import sys
import time

sys.dont_write_bytecode = True
sys.path[:0] = [str(pathlib.Path(__file__).resolve().parent.parent / "clients" / "python")]
from ppq_client import Queue

MASK = 2**64 - 1


def drawn(state=7):
    while True:
        state ^= state << 13 & MASK
        state ^= state >> 7
        state ^= state << 17 & MASK
        yield state


class Heap:
    """heapq by the calls of the client."""

    def __init__(self):
        self.heap = []

    def push_many(self, records):
        for record in records:
            heapq.heappush(self.heap, record)

    def pop_many(self, count):
        return [heapq.heappop(self.heap) for _ in range(min(count, len(self.heap)))]

    def close(self):
        pass


def sum_of(sum_before, records):
    for first, second in records:
        sum_before = (sum_before * 31 + first + second) & MASK
    return sum_before


def run(load, queue, count, batch):
    """Executes a load, and returns the sum."""
    numbers, total = drawn(), 0
    for at in range(0, count, batch):
        queue.push_many([(next(numbers) >> 16, next(numbers)) for _ in range(min(batch, count - at))])
    if load == "through":
        while records := queue.pop_many(batch):
            total = sum_of(total, records)
        return total
    for at in range(0, count, batch):
        records = queue.pop_many(min(batch, count - at))
        total = sum_of(total, records)
        queue.push_many([(first + (next(numbers) >> 16), next(numbers)) for first, _ in records])
    return total


def main():
    load, count, batch, *server = sys.argv[1:]
    begin = time.perf_counter()
    queue = Heap() if server == ["heap"] else Queue(server)
    total = run(load, queue, int(count), int(batch))
    queue.close()
    print(f"{time.perf_counter() - begin:.6f} {total:016x}")


if __name__ == "__main__":
    main()
