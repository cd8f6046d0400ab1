import struct
import subprocess
import sys


def answer(server, operations):
    """Sends one request; returns the frames of its answer, the last of which is how many records there are."""
    server.stdin.write(struct.pack(">I", len(operations)) + operations)
    server.stdin.flush()
    frames = []
    while not frames or len(frames[-1]) != 8:
        head = server.stdout.read(4)
        frame = server.stdout.read(int.from_bytes(head, "big"))
        if len(head) < 4 or not frame:
            sys.exit(server.wait())
        frames.append(frame)
    return frames


with subprocess.Popen(sys.argv[1:], stdin=subprocess.PIPE, stdout=subprocess.PIPE) as server:
    answer(server, b"ppq-serve 1 pair up")
    answer(server, b"+" + struct.pack(">QQ", 10, 1))
    while (least := answer(server, b"p")[0]) != b"e":
        time, number = struct.unpack(">QQ", least)
        print(time, number)
        if number < 4:  # an event of which two others come, at times that depend on it
            later = [(time + number, number + 1), (time + 3 * number, number + 2)]
            answer(server, b"".join(b"+" + struct.pack(">QQ", *event) for event in later))
