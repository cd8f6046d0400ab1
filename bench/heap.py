"""The peer: runs a script of `push` and `pop` over Python's heapq."""

import heapq
import sys

heap = []
out = []
with open(sys.argv[1]) as script:
    for line in script:
        if line == "pop\n":
            out.append("%d %d\n" % heapq.heappop(heap) if heap else "empty\n")
        else:
            _, key, value = line.split(" ")
            heapq.heappush(heap, (int(key), int(value)))
sys.stdout.write("".join(out))
