"""What bench/faults and bench/refuse both want: a library that lets a call of the C library fail, and runs beneath it. And what
all want that write a table: its lines, the day and the machine, and its place in a file."""

import dataclasses
import datetime
import os
import pathlib
import struct
import subprocess

from peers import BENCH

LIBRARY, NOTES_FILE, DEVICE = "faults.so", "notes", "device"
NOTES = struct.Struct("=4Q")  # calls, how many failed, and of the one that failed its place and its offset
SECONDS = 60


@dataclasses.dataclass
class Run:
    """How a run ended, what it printed, and what was noted of its calls."""

    status: int
    output: bytes
    report: str
    calls: int
    failed: bool
    place: int
    offset: int


def build_library(folder):
    """Builds the library into a folder."""
    subprocess.run(["cc", "-O2", "-shared", "-fPIC", "-o", folder / LIBRARY, BENCH / "faults.c", "-ldl", "-lpthread"], check=True)


def run_beneath(folder, command, call="", nth=0, how="fail", error=0, given=b""):
    """Runs a command in the folder of the library, with these bytes on its standard input. Where a call is named, the one with
    that number fails."""
    notes = folder / NOTES_FILE
    notes.write_bytes(bytes(NOTES.size))
    environment = dict(os.environ)
    if call:
        environment |= {
            "LD_PRELOAD": str(folder / LIBRARY),
            "FAULTS_CALL": call,
            "FAULTS_NTH": str(nth),
            "FAULTS_HOW": how,
            "FAULTS_ERROR": str(error),
            "FAULTS_DEVICE": DEVICE,
            "FAULTS_NOTES": str(notes),
        }
    try:
        run = subprocess.run(command, cwd=folder, input=given, capture_output=True, env=environment, timeout=SECONDS)
    except subprocess.TimeoutExpired:
        return Run(-1, b"", f"no end within {SECONDS} s", *NOTES.unpack(notes.read_bytes()))
    return Run(run.returncode, run.stdout, run.stderr.decode(errors="replace"), *NOTES.unpack(notes.read_bytes()))


def frame(request):
    """The frame of a request to ppq-serve."""
    return struct.pack(">I", len(request)) + request


def line(cells):
    """A line of a table."""
    return "| " + " | ".join(cells) + " |"


def machine():
    """The day, and the machine that a table is of."""
    names = [line.split(":")[1].strip() for line in pathlib.Path("/proc/cpuinfo").read_text().splitlines() if line.startswith("model name")]
    day = datetime.date.today()
    return f"{day.day} {day:%B %Y}, {len(names)} cores ({names[0]})"


def put_into(file, mark, lines):
    """Writes a table in the place of the one in a file, between `<!-- MARK -->` and `<!-- end -->`. Says whether there is one."""
    head, begins, rest = file.read_text().partition(f"<!-- {mark} -->\n")
    _, ends, tail = rest.partition("<!-- end -->\n")
    if begins and ends:
        file.write_text(head + begins + "\n".join(lines) + "\n" + ends + tail)
    return bool(begins and ends)
