"""Prints the line of `gen SEED COUNT` and `drain COUNT`, by a sort of the records that the rule of docs/scripts.md gives."""

import sys

seed, count = int(sys.argv[1]), int(sys.argv[2])
records, key = [], seed
for value in range(count):
    key = (key * 6364136223846793005 + 1442695040888963407) % 2**64
    records.append((key, value))
records.sort()
(first, last), total = (records[0], records[-1]), sum(key for key, _ in records) % 2**64
print(f"count {count} first {first[0]} {first[1]} last {last[0]} {last[1]} sum {total}")
