#!/bin/sh
# Runs the smallest client of a server over the built program, in a folder of its own that it removes at the end, and
# compares what it prints. It needs python3, and that `./ppq build` was called before.
set -eu
top=$(cd "$(dirname "$0")/.." && pwd)
work=$(mktemp -d)
trap 'rm -rf "$work"' EXIT
cd "$work"

cat > wanted.txt <<'LINES'
10 1
11 2
13 3
13 3
16 4
16 4
17 4
22 5
22 5
LINES
python3 "$top/examples/serve_small.py" "$top/ppq" serve --load 1000 --device ppq.device 2> sizes.txt > printed.txt
cmp printed.txt wanted.txt
cat printed.txt
