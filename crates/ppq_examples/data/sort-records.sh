#!/bin/sh
# Sorts a record file that is larger than the budget, by the built program, and compares with `sort`. It makes the file
# from text, 100,000 records or as many as its argument says, and runs in a folder of its own that it removes at the
# end. It needs `./ppq`, which proves and builds the program first.
set -eu
top=$(cd "$(dirname "$0")/.." && pwd)
count=${1:-100000}
work=$(mktemp -d)
trap 'rm -rf "$work"' EXIT
cd "$work"

# text: keys and values in no order, some of them equal
awk -v count="$count" 'BEGIN { x = 7; for (i = 0; i < count; i++) { x = (x * 16807) % 2147483647; print x % 50021, x % 7 } }' > records.txt
"$top/tools/records.py" from-text pair records.bin < records.txt

# all of them in, and out again, smallest first
printf 'bulk records.bin\nbulk_pop %s\n' "$count" > sort.ppq
# `room` of docs/storage.md; the smallest budget for these sizes holds 25,600 records and one a block of the device
blocks=$((2 * ((count + 255) / 256) + 72 + 4 * 4))
"$top/ppq" run sort.ppq --device ppq.device --blocks "$blocks" --workers 4 --block 256 --heap 1 --memory "$((256 * (4 + 24 + 72) + blocks))" > by_ppq.txt

LC_ALL=C sort -n -k1,1 -k2,2 records.txt > by_sort.txt
cmp by_ppq.txt by_sort.txt
echo "$count records in the order of sort"
