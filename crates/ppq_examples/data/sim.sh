#!/bin/sh
# Simulates an agenda that is larger than the budget, by the built program, and compares the journal with that of a heap in
# Python. It makes the agenda from text, 200,000 events or as many as its argument says, and runs in a folder of its own
# that it removes at the end. It needs `./ppq`, which proves and builds the program first.
set -eu
top=$(cd "$(dirname "$0")/.." && pwd)
count=${1:-200000}
work=$(mktemp -d)
trap 'rm -rf "$work"' EXIT
cd "$work"

# text: a time, one of the first 12 places, and a word
awk -v count="$count" 'BEGIN { x = 7; for (i = 0; i < count; i++) { x = (x * 16807) % 2147483647; print x % 50021, x % 12, x % 1000003 } }' > events.txt
"$top/tools/records.py" from-text triple agenda.bin < events.txt

# as many events are handled as there are at first; `room` of docs/storage.md for twice as many, since a fork sends two
blocks=$((2 * ((2 * count + 255) / 256) + 72 + 4 * 4))
until=18446744073709551615
"$top/ppq" sim agenda.bin --device ppq.device --blocks "$blocks" --workers 4 --block 256 --heap 1 \
    --memory "$((256 * (4 + 24 + 72) + blocks))" --until "$until" --events "$count" > by_ppq.txt

"$top/bench/sim.py" agenda.bin "$until" "$count" > by_python.txt
cmp by_ppq.txt by_python.txt
tail -n 1 by_ppq.txt
