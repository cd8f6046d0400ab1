#!/usr/bin/env python3
"""Proves the crates below the programs and builds these, by `rt`: `./ppq build` calls it.

    tools/build.py PROGRAM..

PROGRAM is the crate of a program. A crate is proved once those that it uses are. That with the longest chain of others behind it
gets all processors, and others that wait for nobody are proved beside it with what it leaves. Two `rt` that work in one folder of a
crate wait for each other, and each works in the folders of all crates below; so each crate is proved in one of some copies of the
sources, and then taken over here, which takes a second. A program is linked here, once its crates are proved. Standard error says
which are done. It ends with 125 if a crate is not proved or a program not built, and with 130 if it is interrupted; what was proved
until then stays.
"""
import collections
import os
import pathlib
import shutil
import signal
import subprocess
import sys
import tempfile
import time

TOP = pathlib.Path(__file__).resolve().parent.parent
CRATES = TOP / "crates"
MEMORY_OF_A_CRATE, MEMORY_OF_A_JOB = 3_000_000, 1_200_000  # KiB that a proof takes at most, or nearly, and for each job more
MOST_JOBS = 4  # of one crate
NOT_BUILT, INTERRUPTED = 125, 130
ENDING = (signal.SIGHUP, signal.SIGINT, signal.SIGTERM)


def uses():
    """Returns the crates of the repository, each with those of them that it uses."""
    rows = [it.partition("#")[0].partition(":") for it in (TOP / "crates.txt").read_text().splitlines()]
    lists = {head.split()[0]: tail.split() for head, colon, tail in rows if colon}
    return {name: [it for it in lists[name] if it in lists] for name in lists}


def closure(names, lists):
    """Returns these crates and all below them, the lowest first."""
    found = {}

    def visit(name):
        if name not in found:
            for it in lists[name]:
                visit(it)
            found[name] = None

    for name in names:
        visit(name)
    return list(found)


def lines_of(name):
    """Returns about how many lines the proof of a crate has to read."""
    files = [it for folder in ("src", "specs", "proofs") for it in (CRATES / name / folder).rglob("*") if it.is_file()]
    return 1 + sum(it.read_bytes().count(b"\n") for it in files)


def chains(names, lists):
    """Returns for each crate the lines of the longest chain of crates that wait for it, itself among them."""
    behind = collections.Counter()
    for name in reversed(names):
        behind[name] += lines_of(name)
        for it in lists[name]:
            behind[it] = max(behind[it], behind[name])
    return behind


def lanes():
    """Returns how many jobs the crate with the longest chain behind it gets, and how many others run beside it: one a processor each,
    as many as memory holds."""
    with open("/proc/meminfo") as file:
        free = next(int(it.split()[1]) for it in file if it.startswith("MemAvailable:"))
    processors = len(os.sched_getaffinity(0))
    more = max(0, min(MOST_JOBS, processors) - 1)
    jobs = 1 + max(0, min(more, (free - MEMORY_OF_A_CRATE) // MEMORY_OF_A_JOB))
    left = free - MEMORY_OF_A_CRATE - (jobs - 1) * MEMORY_OF_A_JOB
    return jobs, max(0, min(processors - 1, left // MEMORY_OF_A_CRATE))


class Build:
    """The crates that are to be proved, those that are being proved, and those that are."""

    def __init__(self, programs):
        self.programs = programs
        self.lists = uses()
        self.names = [it for it in closure(programs, self.lists) if it not in programs]
        self.behind = chains(self.names, self.lists)
        self.done, self.running = [], {}
        self.copies, self.free = 0, []
        # (on the disk of the repository, since a copy grows to some gigabytes, and where no rt looks for crates)
        out = CRATES / programs[0] / "out"
        out.mkdir(exist_ok=True)
        self.begun, self.folder = time.monotonic(), tempfile.TemporaryDirectory(prefix="build-", dir=out)
        self.text = "the programs are proved and built, which takes about an hour the first time"

    def say(self, text=None):
        """Says what is done: on a terminal in one line that is written again and again, elsewhere in a line of its own."""
        self.text, is_new = text or self.text, text is not None
        line = f"ppq: {self.text}, {int(time.monotonic() - self.begun) // 60} min"
        if os.isatty(2):
            os.write(2, f"\r\033[K{line}".encode())
        elif is_new:
            os.write(2, f"{line}\n".encode())

    def copy(self):
        """Returns a copy of the sources in which no rt works."""
        if self.free:
            return self.free.pop()
        self.copies += 1
        top = pathlib.Path(self.folder.name, f"copy-{self.copies}")
        shutil.copytree(CRATES, top / "crates", symlinks=True, ignore=shutil.ignore_patterns("out", "must-fail"))
        for name in ("crates.txt", "HANDLES"):
            if (TOP / name).exists():
                shutil.copy(TOP / name, top)
        return top

    def start(self, name, command, top=TOP):
        """Starts a command of rt in the folder of a crate; what it writes goes to a file."""
        with open(f"{self.folder.name}/{name}", "wb") as log:
            process = subprocess.Popen(command, cwd=top / "crates" / name, stdin=subprocess.DEVNULL, stdout=log, stderr=log, start_new_session=True)
        self.running[name] = process, top

    def said(self, name):
        """Returns what rt wrote of a crate."""
        return pathlib.Path(self.folder.name, name).read_bytes()

    def give_up(self, name):
        """Ends the build, with what was written of the crate that failed."""
        os.write(2, b"\r\033[K" * os.isatty(2) + self.said(name) + f"ppq: {name} could not be built\n".encode())
        sys.exit(NOT_BUILT)

    def ready(self):
        """Returns the crates that wait for nobody, those with the longest chain behind them first."""
        waiting = [it for it in self.names if it not in self.running and it not in self.done]
        return sorted((it for it in waiting if all(below in self.done for below in self.lists[it])), key=lambda it: -self.behind[it])

    def start_ready(self, jobs, beside):
        """Starts a crate that has a longer chain behind it than all that run, with so many jobs; and up to so many beside it, with one
        job each, which get a processor where it leaves one."""
        for name in self.ready():
            if all(self.behind[name] > self.behind[it] for it in self.running):
                self.start(name, ["rt", "lib", "--jobs", str(jobs)], self.copy())
            elif len(self.running) <= beside:
                self.start(name, ["nice", "-n", "10", "rt", "lib", "--jobs", "1"], self.copy())

    def start_program(self, beside):
        """Starts the link of a program whose crates are all here, beside up to so many others. No two programs are linked at once."""
        ready = [it for it in self.programs if it not in self.done and all(below in self.done for below in self.lists[it])]
        if ready and not any(it in self.running for it in self.programs) and len(self.running) <= beside:
            self.say(f"{ready[0]} is linked")
            self.start(ready[0], ["nice", "-n", "10", "rt", "run"])

    def take_over(self, name):
        """Has a crate that was proved in a copy here too."""
        self.start(name, ["rt", "lib"])
        if self.running[name][0].wait() != 0:
            self.give_up(name)
        del self.running[name]

    def end_crate(self, name, process, top):
        """Takes over a crate whose proof ended, and says so."""
        if process.returncode != 0:
            self.give_up(name)
        self.free.append(top)
        self.take_over(name)
        self.done.append(name)
        self.say(f"{sum(it in self.names for it in self.done)} of {len(self.names)} crates are proved, {name} the last")

    def end_program(self, name, process):
        """Sees what a program did that was linked: without words it prints its usage and ends with 2, which shows that it was built."""
        usage, said = f"{name.replace('_', '-')}: usage: ".encode(), self.said(name).splitlines()[-1:]
        if process.returncode != 2 or not said or not said[0].startswith(usage):
            self.give_up(name)
        self.done.append(name)

    def wait(self):
        """Waits until a crate is proved or a program linked."""
        while not any(process.poll() is not None for process, _ in self.running.values()):
            time.sleep(0.2)
            self.say()
        for name in [it for it, (process, _) in self.running.items() if process.poll() is not None]:
            process, top = self.running.pop(name)
            if name in self.programs:
                self.end_program(name, process)
            else:
                self.end_crate(name, process, top)

    def run(self):
        self.say(self.text)
        jobs, beside = lanes()
        while len(self.done) < len(self.names) + len(self.programs):
            self.start_ready(jobs, beside)
            self.start_program(beside)
            self.wait()
        for name in self.programs:
            os.utime(CRATES / name / "out" / name)
        os.write(2, b"\r\033[K" * os.isatty(2))

    def stop(self):
        """Ends what still runs."""
        for process, _ in self.running.values():
            if process.poll() is None:
                os.killpg(process.pid, signal.SIGTERM)
                process.wait()


def interrupt(*_):
    """Ends at the first signal, and lets no second one keep `stop` from its work: Ctrl-C comes from the terminal, and from
    `ppq` too."""
    for number in ENDING:
        signal.signal(number, signal.SIG_IGN)
    sys.exit(INTERRUPTED)


def main(programs):
    for number in ENDING:
        signal.signal(number, interrupt)
    build = Build(programs)
    try:
        build.run()
    finally:
        build.stop()


if __name__ == "__main__":
    main(sys.argv[1:])
