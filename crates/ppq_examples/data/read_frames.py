#!/usr/bin/env python3
"""Reads the frames that `ppq run .. --form bytes` writes from a pipe, and prints what each says.

A size of 0 and a `drain` of no record are one frame, 8 zero bytes: a program knows which one it asked for."""
import struct
import sys

WORDS = {b"e": "empty", b"l": "limit", b"a": "all", b"m": "more"}
NUMBERS = {
    8: "{}",
    16: "{} {}",
    24: "{} {} {}",
    48: "count {} first {} {} last {} {} sum {}",
    64: "count {} first {} {} {} last {} {} {} sum {}",
}


def frames(stream):
    while head := stream.read(4):
        length = int.from_bytes(head, "big")
        frame = stream.read(length)
        if len(head) < 4 or len(frame) < length:
            sys.exit("the frames stop early")
        yield frame


for frame in frames(sys.stdin.buffer):
    if frame in WORDS:
        print(WORDS[frame])
    else:
        print(NUMBERS[len(frame)].format(*struct.unpack(f">{len(frame) // 8}Q", frame)))
