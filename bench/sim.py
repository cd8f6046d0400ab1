#!/usr/bin/env python3
"""The machine of `ppq sim` (docs/simulation.md) over a heap in Python: `sim.py AGENDA UNTIL EVENTS` writes the journal of
the events of a record file, with the program's roster."""
import heapq
import struct
import sys

LAST = 2**64 - 1


def roster():
    """Count, Relay and Fork by turns at 12 places, and Mortal at 4 more, each with the number that it keeps."""
    return [[("count", "relay", "fork")[i % 3], 0] for i in range(12)] + [["mortal", 0] for _ in range(4)]


def answered(places, time, target, word):
    """Returns what is replied to an event, as text, and what follows from it."""
    if target >= len(places) or places[target] is None:
        return "lost", []
    place, ahead = places[target], []
    kind, kept = place
    if kind == "count":
        place[1] = reply = (kept + word) & LAST
    elif kind == "relay":
        place[1], reply = (kept + 1) & LAST, word
        ahead = [(1, word - 1)] if word > 0 else []
    elif kind == "fork":
        place[1], reply = word, kept
        ahead = [(1, word // 2), (2, word // 2)] if word > 1 else []
    else:
        place[1] = reply = (kept + 1) & LAST
        if word == 0:
            places[target] = None
    return reply, [(time + by, (target + by) % len(places), rest) for by, rest in ahead if time + by <= LAST]


def journal(events, until, most):
    """Yields the lines of a run of these events."""
    agenda, places, count = list(events), roster(), 0
    heapq.heapify(agenda)
    while True:
        if not agenda or agenda[0][0] > until or count == most:
            how = "empty" if not agenda else "until" if agenda[0][0] > until else "full"
            yield f"end {how} count {count}\n"
            return
        time, target, word = heapq.heappop(agenda)
        count += 1
        reply, ahead = answered(places, time, target, word)
        for event in ahead:
            heapq.heappush(agenda, event)
        yield f"{time} {target} {word} {reply}\n"


if __name__ == "__main__":
    name, until, most = sys.argv[1:]
    with open(name, "rb") as it:
        sys.stdout.writelines(journal(struct.iter_unpack(">QQQ", it.read()), int(until), int(most)))
