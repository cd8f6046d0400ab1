#!/bin/sh
# Computes the levels of named dependencies by the built program, and goes back to their names; then those of a graph that
# is larger than the budget, 100,000 edges or as many as its argument says, and compares with `sort` and one pass in `awk`.
# It runs in a folder of its own that it removes at the end. It needs `./ppq`, which proves and builds the program first.
set -eu
top=$(cd "$(dirname "$0")/.." && pwd)
count=${1:-100000}
work=$(mktemp -d)
trap 'rm -rf "$work"' EXIT
cd "$work"

# what needs what; a name that needs nothing and is not needed stands twice
cat > needs.txt <<'TEXT'
app net
app log
net core
net log
log core
tests app
docs docs
TEXT

# names in an order in which each stands behind all that it needs; its number is that of its line, from 0
awk '{ print $2, $1 }' needs.txt | tsort > names.txt

# an edge from what is needed to what needs it
awk 'NR == FNR { number[$1] = NR - 1; next } $1 != $2 { print number[$2], number[$1] }' names.txt needs.txt > edges.txt
"$top/tools/records.py" from-text pair edges.bin edges.txt

"$top/ppq" sweep edges.bin --device ppq.device --blocks 400 --workers 2 --block 2 --heap 1 --memory 744 --nodes "$(wc -l < names.txt)" > levels.txt

# each name with its level
cut -d ' ' -f 2 levels.txt | paste -d ' ' - names.txt | LC_ALL=C sort -n > by_name.txt
cat > wanted.txt <<'TEXT'
0 core
0 docs
1 log
2 net
3 app
4 tests
TEXT
cmp by_name.txt wanted.txt
cat by_name.txt

# a graph of a tenth as many nodes, whose edges stand in no order
nodes=$((count / 10 + 2))
awk -v count="$count" -v nodes="$nodes" 'BEGIN { x = 7; while (count > 0) { x = (x * 16807) % 2147483647; u = x % nodes; x = (x * 16807) % 2147483647; v = x % nodes; if (u < v) { print u, v; count-- } } }' > edges.txt
"$top/tools/records.py" from-text pair edges.bin edges.txt

# for each queue `room` of docs/storage.md, and the smallest budget for these sizes
blocks=$((2 * ((count + 255) / 256) + 72 + 4 * 4))
"$top/ppq" sweep edges.bin --device ppq.device --blocks "$((2 * blocks))" --workers 4 --block 256 --heap 1 \
    --memory "$((2 * (256 * (4 + 24 + 72) + blocks)))" --nodes "$nodes" > by_ppq.txt

# an edge lifts the level of its target above that of its source, which is known by then
LC_ALL=C sort -n edges.txt | awk -v nodes="$nodes" '{ if (level[$2] <= level[$1]) level[$2] = level[$1] + 1 } END { for (v = 0; v < nodes; v++) print v, level[v] + 0 }' > by_sort.txt
cmp by_ppq.txt by_sort.txt
echo "$count edges, $nodes nodes, the same levels"
