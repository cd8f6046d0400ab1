#!/bin/sh
# Executes a script in both forms by the built program, over a record file that `tools/records.py` makes, and shows that
# `read_frames.py` reads from the frames what the lines say. It needs `./ppq`, which proves and builds the program first;
# it runs in a folder of its own and leaves nothing behind.
set -eu
top=$(cd "$(dirname "$0")/.." && pwd)
work=$(mktemp -d)
trap 'rm -rf "$work"' EXIT
cd "$work"

printf '5 1\n3 9\n18446744073709551615 0\n5 1\n3 2\n' | "$top/tools/records.py" from-text pair records.bin
printf '%s\n' 'bulk records.bin' size top 'bulk_pop_limit 5 1 1' 'bulk_pop_limit 5 1 9' pop 'limit_begin 6 0' limit_pop limit_pop limit_end 'push 7 7' 'drain 9' pop > both.ppq
sizes="--device ppq.device --blocks 200 --workers 2 --block 2 --heap 1"

"$top/ppq" run both.ppq $sizes --memory 372 > lines.txt
"$top/ppq" run both.ppq $sizes --memory-bytes 5952 --form bytes | "$top/examples/read_frames.py" > frames.txt
cmp lines.txt frames.txt
echo "$(wc -l < lines.txt) answers, the same in both forms"
