#!/usr/bin/env python3
"""Executes a program, and says on standard error what that took: `./ppq run --stats` calls it.

    tools/stats.py PROGRAM WORDS..

Signals are handed on to the program. The status is that of the program, or 128 and the number of the signal that ended it.
If standard error is a terminal and standard output is none, a line shows after two seconds how long the program has run, and
how much it has written and read; at the end that line is removed.
"""
import os
import resource
import signal
import sys
import time

HANDED_ON = signal.SIGHUP, signal.SIGINT, signal.SIGTERM
FIRST, NEXT = 2, 0.5  # seconds until the line is shown, and until it is written again
ERASE = "\r\033[K"


def say(text):
    """Writes to standard error. If that fails, nothing else changes."""
    try:
        os.write(2, text.encode())
    except OSError:
        pass


def start(command):
    """Starts a program, to which signals are handed on from then on, and returns the number of its process."""
    signal.pthread_sigmask(signal.SIG_BLOCK, HANDED_ON)
    # Python ignores SIGPIPE, and the program is not to
    process = os.posix_spawn(command[0], command, os.environ, setsigmask=[], setsigdef=[signal.SIGPIPE])
    for name in HANDED_ON:
        signal.signal(name, lambda number, _: os.kill(process, number))
    signal.pthread_sigmask(signal.SIG_UNBLOCK, HANDED_ON)
    return process


def moved(process):
    """Returns how many bytes a process has written and read so far, in words, or nothing if the system does not say."""
    try:
        with open(f"/proc/{process}/io") as file:
            counts = dict(line.split(": ") for line in file)
    except OSError:
        return ""
    return f", {int(counts['wchar'])} bytes written, {int(counts['rchar'])} bytes read"


def show(process, began):
    """Shows how far a program is, in the place of what was shown before."""
    say(f"{ERASE}ppq: {time.monotonic() - began:.0f} s{moved(process)}")


def wait(process, began):
    """Waits until a program has ended; its process stays, so that it can be asked what it took."""
    shows = os.isatty(2) and not os.isatty(1)
    if shows:
        signal.signal(signal.SIGALRM, lambda *_: show(process, began))
        signal.setitimer(signal.ITIMER_REAL, FIRST, NEXT)
    os.waitid(os.P_PID, process, os.WEXITED | os.WNOWAIT)
    signal.setitimer(signal.ITIMER_REAL, 0)
    if shows and time.monotonic() - began > FIRST:
        say(ERASE)


def resident(used):
    """Returns the most memory that was resident, in words. The system counts that of this process too, before the program
    takes its place."""
    own = resource.getrusage(resource.RUSAGE_SELF).ru_maxrss
    return f"{used.ru_maxrss / 1024:.1f} MiB" if used.ru_maxrss > own else f"less than {own / 1024:.1f} MiB"


def main():
    began = time.monotonic()
    process = start(sys.argv[1:])
    wait(process, began)
    signal.pthread_sigmask(signal.SIG_BLOCK, HANDED_ON)  # nobody is there any more to hand them on to
    seconds, bytes_moved = time.monotonic() - began, moved(process)
    _, status, used = os.wait4(process, 0)
    took = f"{seconds:.2f} s, {used.ru_utime + used.ru_stime:.2f} s of processor time, {resident(used)} resident{bytes_moved}"
    say(f"ppq: the run took {took}\n")
    return 128 + os.WTERMSIG(status) if os.WIFSIGNALED(status) else os.WEXITSTATUS(status)


if __name__ == "__main__":
    sys.exit(main())
