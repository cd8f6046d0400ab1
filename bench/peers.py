"""What bench/device and bench/latency both want: the sizes of their loads, and the programs that are compared with."""

import pathlib
import subprocess
import sys

TOP = pathlib.Path(__file__).resolve().parent.parent
PROGRAM = TOP / "crates" / "ppq" / "out" / "ppq"
SERVER = TOP / "crates" / "ppq_serve" / "out" / "ppq_serve"
BENCH = TOP / "bench"
SEED = 7
MILLION = 1_000_000
BLOCK = 4096
HEAP = 8
# The workers, the block and the heap of rows: those that all loads have, and those that suit the number of workers.
USUAL = {"ppq, 1": (1, BLOCK, HEAP), "ppq, 4": (4, BLOCK, HEAP)}
SUITED = {"ppq, 1, heap 32": (1, BLOCK, 32), "ppq, 4, block 8192": (4, 8192, 6)}
MEMORY = 1_048_576  # records of 16 bytes: 16 MiB
STXXL_PACKAGES = ["libstxxl-dev", "libstxxl1v5"]


def room(load, block, workers):
    """How many blocks are enough for so many records."""
    return 2 * -(-load // block) + 72 + 4 * workers


def words(program, script, device, load, workers, block=BLOCK, heap=HEAP, memory=MEMORY):
    """The command that runs a script of such a load."""
    sizes = {"blocks": room(load, block, workers), "workers": workers, "block": block, "heap": heap, "memory": memory}
    named = [word for name, size in sizes.items() for word in (f"--{name}", str(size))]
    return [program, "run", script, "--device", device, *named]


def called(calls, load, count, workers, block=BLOCK, heap=HEAP):
    """The command that executes a load of crates/ppq_bench."""
    return [calls, load, *map(str, (SEED, count, workers, block, heap)), "device"]


def without_notes(output):
    """An output without the lines in which STXXL says what it does."""
    if not output.startswith(b"[STXXL-"):
        return output
    return b"".join(line for line in output.splitlines(True) if not line.startswith(b"[STXXL-"))


def build(command, where):
    """Builds a program, whose output is of no interest unless it fails."""
    built = subprocess.run(command, cwd=where, stdout=subprocess.PIPE, stderr=subprocess.STDOUT)
    return built.returncode, built.stdout


def build_stxxl(folder, source="queues.cpp", queue_bytes=MEMORY * 16):
    """The peer over STXXL, whose queues have so many bytes each; none where its package cannot be had. What is not
    installed is unpacked into the folder."""
    peer, root = folder / f"stxxl.{pathlib.Path(source).stem}.{queue_bytes}", pathlib.Path("/usr")
    if not (root / "include" / "stxxl").exists():
        root = folder / "root" / "usr"
        if not root.exists():
            build(["apt-get", "download", *STXXL_PACKAGES], folder)
        for package in folder.glob("libstxxl*.deb"):
            build(["dpkg-deb", "-x", package, folder / "root"], folder)
    flags = ["-O3", "-DNDEBUG", "-DSTXXL", f"-DQUEUE_BYTES={queue_bytes}", "-w", "-std=c++14", "-fopenmp", f"-I{root}/include", f"-L{root}/lib"]
    made = build(["c++", *flags, "-o", peer, BENCH / source, "-lstxxl", "-lpthread", f"-Wl,-rpath,{root}/lib"], folder)
    (folder / "stxxl.cfg").write_text(f"disk={folder}/stxxl.disk,0,syscall direct=off delete\n")
    if made[0] == 0:
        return peer
    print("bench: no rows of STXXL: its packages cannot be had; `apt-get update` may help", file=sys.stderr)
    return None


def stxxl_settings(folder):
    """What the environment of a peer over STXXL has."""
    files = {"STXXLCFG": str(folder / "stxxl.cfg"), "STXXLLOGFILE": "/dev/null", "STXXLERRLOGFILE": "/dev/null"}
    return files | {"OMP_NUM_THREADS": "1"}


class Peers:
    """The programs that are compared with, built in a folder."""

    def __init__(self, folder):
        self.folder = folder
        self.heap, self.sort = folder / "heap", folder / "external_sort"
        sources = {self.heap: "queues.cpp", self.sort: "external_sort.cpp", folder / "measured": "measured.cpp"}
        for peer, source in sources.items():
            subprocess.run(["c++", "-O2", "-o", peer, BENCH / source], check=True)
        self.stxxl = build_stxxl(folder)
        self.settings = stxxl_settings(folder)

    def sorting(self, count):
        """The external sort of the records of `gen`."""
        return [self.sort, str(SEED), str(count), str(MEMORY), str(BLOCK), "device"]

    def queues(self, load, count):
        """The heap in memory, and STXXL where it is there."""
        peers = {"heap in memory": self.heap, "STXXL": self.stxxl}
        return [(name, [peer, load, str(SEED), str(count)]) for name, peer in peers.items() if peer]
