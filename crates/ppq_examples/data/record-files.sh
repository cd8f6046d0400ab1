#!/bin/sh
# Makes a record file from text, looks into it, and shows that the order of its bytes is that of its records, and that
# `tools/records.py` makes and reads the same. It runs in a folder of its own and leaves nothing behind.
set -eu
top=$(cd "$(dirname "$0")/.." && pwd)
work=$(mktemp -d)
trap 'rm -rf "$work"' EXIT
cd "$work"

cat > records.txt <<'TEXT'
5 1
3 9
18446744073709551615 0
5 1
3 2
TEXT

# text to records
while read -r key value; do printf '%016X%016X' "$key" "$value"; done < records.txt | basenc --base16 -d > records.bin

# records to text
od -An -v -w16 -t u8 --endian=big records.bin | awk '{ print $1, $2 }' > back.txt
cmp records.txt back.txt

# the same by a program
"$top/tools/records.py" from-text pair by_program.bin records.txt
cmp records.bin by_program.bin
"$top/tools/records.py" to-text pair records.bin | cmp - records.txt

# 16 bytes a record, and no header
test "$(wc -c < records.bin)" -eq 80

# sorted by their bytes, and sorted as numbers: the same
od -An -v -w16 -t x1 records.bin | LC_ALL=C sort | tr -d ' \n' | tr a-f A-F | basenc --base16 -d > by_bytes.bin
od -An -v -w16 -t u8 --endian=big by_bytes.bin | awk '{ print $1, $2 }' > by_bytes.txt
LC_ALL=C sort -n -k1,1 -k2,2 records.txt > by_numbers.txt
cmp by_bytes.txt by_numbers.txt

echo "5 records, the same both ways"
