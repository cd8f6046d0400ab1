#!/usr/bin/env python3
"""Says how many blocks are written at most, by the clause `transfers` of `run_words` (docs/promises.md, "Counted work").

    examples/writes.py RECORDS SESSIONS WORKERS BLOCK HEAP

RECORDS is how many records are pushed in all, by any command; SESSIONS how many lines `bulk`, `gen`, `bulk_begin` and
`limit_begin` there are; BLOCK the records of a block (2 to 65536), and HEAP the blocks of a heap (1 to 64). WORKERS are
1 to 64. As many blocks are read at most.
"""
import sys

RANGES = range(0, 2**64), range(0, 2**64), range(1, 65), range(2, 65537), range(1, 65)


def records_at_most(records, sessions, workers, block, heap):
    """How many records lie in the blocks that are written, each block counted as full; None where nothing is proved."""
    stores = -(-records // (heap * block))
    runs = 2 * stores + (workers + 2) * sessions
    return 8 * (records + workers * block * (stores + sessions)) + 2 * block * runs if runs < 8**8 else None


def main(records, sessions, workers, block, heap):
    most = records_at_most(records, sessions, workers, block, heap)
    if most is None:
        sys.exit("no bound: there may be 8^8 runs or more")
    print(f"at most {most // block} blocks of {block} records are written")


if __name__ == "__main__":
    words = sys.argv[1:]
    if len(words) != 5 or not all(it.isdecimal() and int(it) in known for it, known in zip(words, RANGES)):
        sys.exit(__doc__)
    main(*map(int, words))
