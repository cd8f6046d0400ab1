#!/usr/bin/env python3
"""Says why the program refuses its arguments, or why it ended as it did, as far as that can be seen from outside.

    tools/reasons.py before WORDS..         # what the program would refuse before it touches a device
    tools/reasons.py after STATUS WORDS..   # why it ended with this status

WORDS are the program's arguments, and the current folder is that of the program. What is found is one line on standard
error. `before` ends with the status that the program would end with, and `after` with 0. Where nothing is refused, `before`
also looks at the edges of a file of at most 64 MB.
"""
import array
import fcntl
import operator
import os
import resource
import signal
import stat
import struct
import sys

sys.dont_write_bytecode = True
import arguments
import scripts
import sizes
from fields import KINDS, length_fault, shown

USAGE, BAD_LINE, NO_READ, TOO_SMALL, NO_FILE, TOO_LONG, BAD_AGENDA, BAD_EDGE = 2, 1, 3, 7, 11, 12, 13, 14
BATCH = 4096  # edges that are read at once
LONGEST_LOOK = 64_000_000  # bytes of a file of edges that is looked at beforehand


def status_of(name):
    """Returns what the system says of a file, None if it is not there, or what is wrong with asking."""
    try:
        return os.stat(name), None
    except FileNotFoundError:
        return None, None
    except OSError as error:
        return None, f"{name}: {error.strerror}"


def file_refusal(name, absent):
    """Returns the status and why if there is no plain file of this name; `absent` is the status if there is nothing."""
    found, fault = status_of(name)
    if found is None:
        return (NO_READ, fault) if fault else (absent, f"there is no file {name} in {os.getcwd()}")
    if not stat.S_ISREG(found.st_mode):
        return NO_READ, f"{name} is {'a folder' if stat.S_ISDIR(found.st_mode) else 'no plain file'}"
    if not os.access(name, os.R_OK):
        return NO_READ, f"{name} may not be read"
    return None


def records_refusal(name, kind, absent, broken):
    """Returns the status and why if a file has no whole records; `broken` is the status if its length is wrong."""
    refusal = file_refusal(name, absent)
    fault = None if refusal else length_fault(os.path.getsize(name), kind)
    return (broken, f"{name}: {fault}") if fault else refusal


def script_refusal(given, name):
    """Returns the status and why if a script is refused."""
    refusal = file_refusal(name, NO_FILE)
    if refusal:
        return refusal
    length = os.path.getsize(name)
    if length > scripts.LONGEST:
        return TOO_LONG, f"{name} has {length} bytes, and at most {scripts.LONGEST} are allowed: more records come by `bulk` and `gen`"
    with open(name, "rb") as file:
        script = scripts.read(file.read(), given.number("--workers"))
    for line, refusal in ((it.line, records_refusal(it.file, script.kind, BAD_LINE, BAD_LINE)) for it in script.commands if it.file):
        if refusal:
            return refusal[0], f"{name}, line {line}: {refusal[1]}"
    return (BAD_LINE, f"{name}, line {script.bad[0]}: {script.bad[1]}") if script.bad else None


def with_sizes(given, dropped=(), served="pair"):
    """Returns the sizes of a command's arguments, but for those that are dropped, which are chosen anew."""
    return sizes.of_arguments(given, [it for it in (*arguments.SIZES[1:], given.unit) if it not in dropped], served=served)


def too_small(given, served="pair"):
    """Returns why a budget is below its fixed part, or None; of a server if its records are of this kind."""
    asked = with_sizes(given, served=served)
    if asked.memory >= asked.least():
        return None
    unit = sizes.width_of(given, served) if given.unit == "--memory-bytes" else 1
    smaller = with_sizes(given, ("--block", "--blocks"), served)
    hint = f"; --block {smaller.block} and --blocks {smaller.blocks} do with this budget" if smaller.fault() is None else ""
    return f"{given.unit} {given.number(given.unit)} is below the fixed part of these sizes: {given.unit} {asked.least() * unit} is the least{hint}"


def refusal_of(words):
    """Returns the status and why if the program refuses its words before it makes a device, in the order of its causes."""
    given = arguments.split(words)
    fault = arguments.fault_of(given)
    if fault:
        return USAGE, fault
    name = given.values.get(arguments.FILE)
    if given.command == "serve":
        refusal = None
    elif given.command == "run":
        refusal = script_refusal(given, name)
    elif given.command == "sim":
        refusal = records_refusal(name, "triple", NO_FILE, BAD_AGENDA)
    else:
        refusal = records_refusal(name, "pair", NO_FILE, BAD_EDGE)
    fault = None if refusal else too_small(given)
    return (TOO_SMALL, fault) if fault else refusal


def files_of(given):
    """Returns the files that a command reads."""
    if given.command == "serve":
        return []
    name = given.values[arguments.FILE]
    return [name, *(it.file for it in sizes.read_script(name).commands if it.file)] if given.command == "run" else [name]


def full_length(given):
    """Returns the length of a device all of whose blocks are written, in bytes."""
    return given.number("--blocks") * given.number("--block") * sizes.width_of(given)


def free_bytes(name):
    """Returns how many bytes there are for a file on its file system."""
    system = os.statvfs(name)
    return system.f_bavail * system.f_frsize


def output_fault(given):
    """Returns why standard output took not all."""
    found = os.fstat(1)
    if stat.S_ISFIFO(found.st_mode) or stat.S_ISSOCK(found.st_mode):
        return "standard output is a pipe whose reader has ended"
    limit = resource.getrlimit(resource.RLIMIT_FSIZE)[0]
    if stat.S_ISREG(found.st_mode) and 0 <= limit <= found.st_size:
        return f"standard output is a file of {found.st_size} bytes, and the limit of a file's size is {limit} (`ulimit -f`)"
    return "standard output is a file, and its disk is full" if stat.S_ISREG(found.st_mode) and free_bytes(1) < 1 << 20 else None


def block_fault(given):
    """Returns why a block of the device failed."""
    name, full = given.values["--device"], full_length(given)
    found, _ = status_of(name)
    if found is None:
        return f"the device {name} is not there any more"
    if not stat.S_ISREG(found.st_mode):
        return f"the device {name} is no plain file; it must take {full} bytes"
    limit = resource.getrlimit(resource.RLIMIT_FSIZE)[0]
    if 0 <= limit < full:
        return f"the limit of a file's size is {limit} bytes (`ulimit -f`), and the device may get {full}"
    free = free_bytes(name)
    if free < full - 512 * found.st_blocks:
        return f"the disk of {name} has {free} bytes free, and the device, which may get {full} bytes, has {512 * found.st_blocks}"
    return f"{name} gave back other bytes than were written, or the disk failed: does another program write to it?"


def room_fault(given):
    """Returns how many blocks would do where none was free. How many records a server got, its client knows alone."""
    if given.command == "serve":
        return "the client pushed more records than the device has room for; `./ppq sizes LOAD` says what a load wants"
    asked = with_sizes(given)
    if asked.fits(asked.block):
        return None
    wanted = asked.queues * asked.room(asked.block)
    what = f"{asked.load} records at once, as many as may come, want {wanted} blocks of {asked.block}"
    if wanted <= sizes.MOST_BLOCKS:
        return f"{what}: --blocks {wanted}, with a budget of at least {asked.least() - asked.blocks + wanted} records"
    larger = with_sizes(given, ("--block", "--blocks", given.unit))
    return f"{what}, and a device has at most {sizes.MOST_BLOCKS}" + (f": {' '.join(larger.words())} would do" if larger.fault() is None else "")


def memory_fault(given):
    """Returns what there is of memory where an allocation failed."""
    limit = resource.getrlimit(resource.RLIMIT_AS)[0]
    budget = with_sizes(given).memory * sizes.width_of(given)
    if limit >= 0:
        return f"the budget is {budget} bytes, and the limit of memory {limit} (`ulimit -v`)"
    with open("/proc/meminfo") as file:
        free = next(int(it.split()[1]) << 10 for it in file if it.startswith("MemAvailable:"))
    return f"the budget is {budget} bytes, and {free} bytes of memory are free now"


def changed_fault(given):
    """Returns which files may have become shorter while they were read."""
    now = [f"{it} ({sizes.length_of(it)} bytes now)" for it in dict.fromkeys(files_of(given))]
    return f"a file became shorter while it was read: {' or '.join(now)}"


def is_locked(name):
    """Whether another process has a lock on a file."""
    with open(name, "rb") as file:
        try:
            fcntl.flock(file, fcntl.LOCK_EX | fcntl.LOCK_NB)
        except BlockingIOError:
            return True
    return False


def device_fault(given):
    """Returns why no device was made."""
    name = given.values["--device"]
    folder = os.path.dirname(name) or "."
    found, fault = status_of(name)
    if fault:
        return fault
    if found is None:
        return f"its folder {folder} {'may not be written' if os.path.isdir(folder) else 'is not there'}"
    if stat.S_ISDIR(found.st_mode):
        return f"{name} is a folder"
    same = [it for it in files_of(given) if os.path.exists(it) and os.path.samefile(it, name)]
    if same:
        return f"{name} is the file {same[0]}, which the program reads"
    if not os.access(name, os.R_OK | os.W_OK):
        return f"{name} may not be written"
    return f"another program has {name}, and its lock" if stat.S_ISREG(found.st_mode) and is_locked(name) else None


def budget_fault(given):
    """Returns why a budget is below its fixed part that was not seen to be so before: the records of a server are triples."""
    fault = too_small(given, "triple")
    return f"{fault}, of triples" if fault else None


def are_edges(piece, nodes):
    """Whether all records of a piece are edges between so many nodes."""
    numbers = array.array("Q", piece)
    if sys.byteorder == "little":
        numbers.byteswap()
    starts, ends = numbers[::2], numbers[1::2]
    return max(ends) < nodes and all(map(operator.lt, starts, ends))


def edge_fault(given):
    """Returns what is wrong with the first bad edge of a file."""
    if given.command != "sweep":
        return None
    name, nodes, before = given.values[arguments.FILE], given.number("--nodes"), 0
    with open(name, "rb") as file:
        while (piece := file.read(16 * BATCH)) and are_edges(piece, nodes):
            before += len(piece) // 16
    for number, (start, end) in enumerate(struct.iter_unpack(">2Q", piece), before + 1):
        if start >= end:
            other = "; that need not be a cycle: other numbers of the nodes may do" * (start > end)
            return f"{name}: edge {number} leads from {start} to {end}, and an edge leads to a greater node{other}"
        if end >= nodes:
            return f"{name}: edge {number} leads from {start} to {end}, and with --nodes {nodes} the last node is {nodes - 1}"
    return None


def edge_refusal(words):
    """Returns the status and why if a file of edges has a bad one, of good arguments. A file that is longer than a look
    allows is not read, nor one for which the device may have no room: the program may meet that first."""
    given = arguments.split(words)
    if given.command != "sweep" or os.path.getsize(given.values[arguments.FILE]) > LONGEST_LOOK or room_fault(given):
        return None
    fault = edge_fault(given)
    return (BAD_EDGE, fault) if fault else None


def signal_fault(number):
    """Returns what a signal was that nobody sent to stop the program, or None."""
    if number in (signal.SIGHUP, signal.SIGINT, signal.SIGTERM):
        return None
    name = signal.Signals(number).name if number in {*signal.Signals} else ""
    by = ": the system does so when memory is short" * (number == signal.SIGKILL)
    return f"the program was ended by signal {number} {name}{by}"


SEEN = {4: output_fault, 5: block_fault, 6: room_fault, TOO_SMALL: budget_fault, 8: memory_fault, 9: changed_fault, 10: device_fault, BAD_EDGE: edge_fault}


def reason_of(status, words):
    """Returns why the program ended with this status, or None if that cannot be seen."""
    if status > 128:
        return signal_fault(status - 128)
    refusal = refusal_of(words)
    if refusal:
        return refusal[1] if refusal[0] == status else None
    return SEEN[status](arguments.split(words)) if status in SEEN else None


def say(reason):
    if reason:
        print(f"ppq: why: {reason}", file=sys.stderr)


def main():
    what, *words = sys.argv[1:] or [""]
    if what == "before":
        status, reason = refusal_of(words) or edge_refusal(words) or (0, None)
        say(reason)
        return status
    if what != "after" or not words or not words[0].isdigit():
        sys.exit(__doc__)
    say(reason_of(int(words[0]), words[1:]))
    return 0


if __name__ == "__main__":
    sys.exit(main())
