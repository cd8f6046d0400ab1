#!/usr/bin/env python3
"""Makes record files of text, of CSV or of frames, and looks into them. docs/record-files.md says what a record file is.

    tools/records.py from-text KIND RECORDS [FROM]
    tools/records.py from-csv KIND RECORDS [FROM] [--header] [--columns A,B[,C]]
    tools/records.py from-frames KIND RECORDS [FROM]
    tools/records.py to-text KIND RECORDS
    tools/records.py check KIND RECORDS

KIND is `pair` or `triple`: records of two or three numbers, 16 or 24 bytes. RECORDS is the record file, and FROM the file
that it is made of; if FROM is left out, that is standard input. RECORDS gets its name only when it is whole. If anything
fails, what had the name stays as it was.

from-text    a record's numbers on each line, in decimal, apart by spaces or tabs. Blank lines and those that begin with
             `#` are skipped.
from-csv     a record's numbers on each line, apart by commas. --columns says which columns are the numbers, in their order:
             by places from 1, or by the names that the first line has. --header skips that line too.
from-frames  the records among the frames that `ppq run .. --form bytes` wrote. The other frames are left out, and counted
             on standard error.
to-text      prints the records, one a line.
check        says how many records there are, which are the smallest and the greatest, and whether they are in order.

It ends with 1 if a file is bad, and names the first bad line; and with 2 if the arguments are.
"""
import argparse
import array
import contextlib
import csv
import itertools
import os
import signal
import sys

sys.dont_write_bytecode = True
from fields import DIGITS, KINDS, MOST_RECORDS, length_fault, number_fault, shown

PIECE = 1 << 18  # bytes of a text that are taken at once
BATCH = 2048  # lines of a CSV file, or records, that are taken at once


class Bad(Exception):
    """What is wrong with a file."""


def row_fault(row, kind):
    """Returns what is wrong with the fields of a line, or None."""
    if len(row) != KINDS[kind]:
        return f"{len(row)} field{'s' * (len(row) != 1)}, and a {kind} has {KINDS[kind]} numbers"
    return next(filter(None, map(number_fault, row)), None)


def array_of(fields):
    """Returns the numbers of fields, which are texts or bytes, in one array; None if one of them is no number."""
    joined = fields[0][:0].join(fields)
    if not (joined.isascii() and joined.isdigit() and all(fields)) or max(map(len, fields)) > DIGITS:
        return None
    try:
        return array.array("Q", map(int, fields))
    except OverflowError:
        return None


def turned(numbers):
    """Returns numbers whose bytes have the most significant first, or were read so."""
    if sys.byteorder == "little":
        numbers.byteswap()
    return numbers


def packed(rows, lines, kind):
    """Returns rows of fields as the bytes of records. An empty row is skipped; `lines` has the number of each row's line."""
    numbers = array.array("Q")
    for line, row in zip(lines, rows):
        fault = row and row_fault(row, kind)
        if fault:
            raise Bad(f"line {line}: {fault}")
        numbers.extend(map(int, row))
    return turned(numbers).tobytes()


def numbers_of(piece, count):
    """Returns the numbers of a piece of text if each line is a record, else None."""
    if b";" in piece:
        return None
    # Each line feed is made a field of its own, which is then every (count + 1)th.
    fields = piece.replace(b"\n", b" ; ").split()
    ends = fields[count :: count + 1]
    del fields[count :: count + 1]
    return array_of(fields) if {*ends} == {b";"} and len(fields) == count * len(ends) else None


def row_of(line):
    """Returns the fields of a line of text, and none of a comment."""
    return [] if line.lstrip().startswith(b"#") else [it.decode("latin-1") for it in line.split()]


def pieces_of(stream):
    """Yields a text in pieces of whole lines."""
    rest = b""
    while read := stream.read(PIECE):
        whole, end, rest = (rest + read).rpartition(b"\n")
        yield whole + end
    yield rest + b"\n" * bool(rest)


def packed_text(stream, kind):
    """Yields the records of a text."""
    line = 1
    for piece in pieces_of(stream):
        numbers = numbers_of(piece, KINDS[kind])
        yield packed(map(row_of, piece.split(b"\n")), itertools.count(line), kind) if numbers is None else turned(numbers).tobytes()
        line += piece.count(b"\n")


def places_of(columns, names):
    """Returns the places from 0 of columns, which are given by places from 1 or by these names."""
    missing = [it for it in columns if not it.isdigit() and it not in names]
    if missing:
        raise Bad(f"line 1: there is no column {shown(missing[0])}")
    return [int(it) - 1 if it.isdigit() else names.index(it) for it in columns]


def rows_of(stream, columns, header):
    """Yields the lines of a CSV file in batches: their numbers, and the fields of these columns, or all."""
    reader = csv.reader(stream, skipinitialspace=True, strict=True)
    try:
        names = next(reader, []) if header else []
        places, before = columns and places_of(columns, names), reader.line_num
        while rows := [*itertools.islice(reader, BATCH)]:
            # A field in quotes may have line feeds in it.
            alone = reader.line_num - before == len(rows)
            lines = itertools.count(before + 1) if alone else itertools.repeat(f"{before + 1} to {reader.line_num}")
            yield lines, [[row[i] for i in places if i < len(row)] for row in rows] if places else rows
            before = reader.line_num
    except csv.Error as error:
        raise Bad(f"line {reader.line_num}: {error}") from None


def packed_csv(stream, kind, columns, header):
    """Yields the records of a CSV file."""
    for lines, rows in rows_of(stream, columns, header):
        numbers = array_of([*itertools.chain.from_iterable(rows)]) if {*map(len, rows)} == {KINDS[kind]} else None
        yield packed(rows, lines, kind) if numbers is None else turned(numbers).tobytes()


def frames(stream):
    """Yields the frames of a stream of bytes."""
    while head := stream.read(4):
        length = int.from_bytes(head, "big")
        frame = stream.read(length)
        if len(head) < 4 or len(frame) < length:
            raise Bad("the frames stop early")
        yield frame


def packed_frames(stream, kind):
    """Yields the frames that are records. One that no command writes about such records is refused."""
    width = 8 * KINDS[kind]
    others, left_out = (1, 8, 2 * width + 16), 0
    for number, frame in enumerate(frames(stream), 1):
        if len(frame) == width:
            yield frame
        elif len(frame) in others:
            left_out += 1
        else:
            raise Bad(f"frame {number} has {len(frame)} bytes, and a {kind} has {width}")
    if left_out:
        print(f"records.py: {left_out} frame{'s' * (left_out != 1)} left out, which are no records", file=sys.stderr)


@contextlib.contextmanager
def whole_file(name):
    """A new file, which gets this name when all is written. If anything fails it is removed."""
    target = os.path.realpath(name)
    if os.path.exists(target) and not os.path.isfile(target):
        raise Bad(f"{name} is no plain file")
    part = f"{target}.{os.getpid()}.part"
    try:
        with open(part, "xb") as file:
            yield file
        os.replace(part, target)
    finally:
        with contextlib.suppress(FileNotFoundError):
            os.unlink(part)


def write_records(name, pieces, kind):
    """Writes the bytes of records to a record file."""
    length = 0
    with whole_file(name) as file:
        for piece in pieces:
            length += len(piece)
            if length > 8 * KINDS[kind] * MOST_RECORDS:
                raise Bad(f"there are more than {MOST_RECORDS} records")
            file.write(piece)


def make(words):
    """Makes a record file of text, of CSV or of frames."""
    text = {"newline": "", "encoding": "utf-8", "errors": "surrogateescape"}
    with open(words.source or 0, **text) if words.what == "from-csv" else open(words.source or 0, "rb") as stream:
        if words.what == "from-text":
            pieces = packed_text(stream, words.kind)
        elif words.what == "from-csv":
            pieces = packed_csv(stream, words.kind, words.columns, words.header)
        else:
            pieces = packed_frames(stream, words.kind)
        try:
            write_records(words.records, pieces, words.kind)
        except Bad as fault:
            raise Bad(f"{words.source or 'standard input'}: {fault}") from None


def batches_of(name, kind):
    """Yields the numbers of a record file, those of so many records at once."""
    with open(name, "rb") as file:
        fault = length_fault(os.fstat(file.fileno()).st_size, kind)
        if fault:
            raise Bad(f"{name}: {fault}")
        while piece := file.read(8 * KINDS[kind] * BATCH):
            yield turned(array.array("Q", piece))


def to_text(words):
    """Prints the records of a file, one a line."""
    signal.signal(signal.SIGPIPE, signal.SIG_DFL)
    line = " ".join(["%d"] * KINDS[words.kind]) + "\n"
    for numbers in batches_of(words.records, words.kind):
        sys.stdout.write(line * (len(numbers) // KINDS[words.kind]) % tuple(numbers))


def check(words):
    """Prints what there is to say of a record file."""
    count, last, ends, up, down = 0, [], [], True, True
    for numbers in batches_of(words.records, words.kind):
        records = [*zip(*[iter(numbers)] * KINDS[words.kind])]
        joined = last + records
        ascending = sorted(joined)
        up, down = up and joined == ascending, down and joined == ascending[::-1]
        count, last = count + len(records), records[-1:]
        ends = [min(ends + ascending[:1]), max(ends + ascending[-1:])]
    order = "in ascending order" if up else "in descending order" if down else "in no order"
    least, greatest = (" ".join(map(str, it)) for it in ends) if ends else ("none", "none")
    print(f"{count} {words.kind}{'s' * (count != 1)}, from {least} to {greatest}, {order}")


def parsed():
    """Reads the arguments."""
    parser = argparse.ArgumentParser(prog="tools/records.py", description=__doc__, formatter_class=argparse.RawDescriptionHelpFormatter)
    parser.add_argument("what", choices=["from-text", "from-csv", "from-frames", "to-text", "check"])
    parser.add_argument("kind", choices=[*KINDS])
    parser.add_argument("records")
    parser.add_argument("source", nargs="?")
    parser.add_argument("--header", action="store_true")
    parser.add_argument("--columns", type=lambda text: text.split(","))
    words = parser.parse_args()
    if words.source and not words.what.startswith("from-"):
        parser.error(f"{words.what} reads one file")
    if (words.header or words.columns) and words.what != "from-csv":
        parser.error("--header and --columns go with from-csv")
    if words.columns and (len(words.columns) != KINDS[words.kind] or "0" in words.columns):
        parser.error(f"a {words.kind} is made of {KINDS[words.kind]} columns, from 1")
    words.header = words.header or not all(map(str.isdigit, words.columns or []))
    return words


def main():
    words = parsed()
    signal.signal(signal.SIGTERM, lambda *_: sys.exit(143))
    try:
        {"to-text": to_text, "check": check}.get(words.what, make)(words)
    except (Bad, OSError) as fault:
        sys.exit(f"records.py: {fault}")


if __name__ == "__main__":
    main()
