#!/usr/bin/env python3
"""Chooses sizes by docs/choosing-sizes.md and the formulas of docs/storage.md.

    tools/sizes.py LOAD [--workers P] [--block B] [--heap H] [--blocks D] [--memory M | --memory-bytes N] [--width W]
                   [--disk slow] [--queues 2]

LOAD is the most records that are held at once; K, M and G stand for 10^3, 10^6 and 10^9 of them. It prints options for the
program: those that are given, and the others as they suit the load. --memory is in records, as it is for the program; with
K, M or G behind it, it is in KiB, MiB or GiB. --width is the bytes of a record, 16 if it is left out. --disk slow is for a
disk of some 0.5 ms a call. --queues 2 is for `ppq sweep`, whose two queues have half of the blocks and of the budget each,
and which gets one worker: more were no faster. On standard error it says how large the device gets, and what the budget
holds.

    tools/sizes.py fill WORDS..

prints the words of the program, each with a zero byte after it, and behind them those sizes that `run`, `sim`, `sweep` or
`serve` lacks. It says on standard error what it took. Words that the program refuses stay as they are. The words of `serve`
may have `--load LOAD`, which the program does not get; 16M is taken if it is left out, and a load for which the sizes do not
do ends it with 2. Since the client of a server names its records later, `--memory-bytes` is taken for triples there.
"""
import argparse
import os
import shlex
import sys

sys.dont_write_bytecode = True
import arguments
import scripts
from fields import KINDS, shown

MOST_BLOCKS, MOST_MEMORY = (arguments.NUMBERS[it][1] for it in ("--blocks", "--memory"))
LEAST_BLOCK, MOST_BLOCK, _ = arguments.NUMBERS["--block"]
MOST_POOL = 65_536  # buffers
MOST_CHOSEN_WORKERS = 4  # more were not measured
BLOCK, SLOW_BLOCK = 4096, 8192  # records of a block to begin with
DEVICE = "ppq.device"
SERVED = "16M"  # the load of a server if none is said


def room(load, workers, block):
    """How many blocks are enough for so many records."""
    return 2 * -(-load // block) + 72 + 4 * workers


def fixed(workers, block, heap, blocks):
    """The fixed part of a budget, in records."""
    return block * (workers * heap + 6 * workers + 72) + blocks


def budget_text(records, width):
    """A budget in records, and in megabytes of records of so many bytes."""
    return f"{records} ({records * width / 1e6:.1f} MB)"


def cores():
    """The workers that are chosen where all of them have work."""
    return min(MOST_CHOSEN_WORKERS, len(os.sched_getaffinity(0)))


class Sizes:
    """Sizes for a load: those of `given`, by their names without hyphens, and the others as they suit it. `queues` queues
    share the blocks and the budget."""

    def __init__(self, load, given, workers, queues=1, slow=False):
        self.load, self.given, self.queues = load, given, queues
        self.workers = given.get("workers", workers)
        self.heap = given.get("heap", (4 if self.workers == 1 else 6) if slow else 8)
        self.block = given.get("block") or self.fitting_block(SLOW_BLOCK if slow else BLOCK)
        self.blocks = self.blocks_of(self.block)
        self.memory = given.get("memory", min(2 * self.least(), MOST_MEMORY))

    def room(self, block):
        """How many blocks of so many records each queue wants."""
        return room(self.load, self.workers, block)

    def fits(self, block):
        """Whether the device can have as many blocks of so many records as the load wants."""
        return self.queues * self.room(block) <= self.given.get("blocks", MOST_BLOCKS)

    def blocks_of(self, block):
        """The blocks of the device: those that are given, or as many as the load wants and a device can have."""
        return self.given.get("blocks", min(self.queues * self.room(block), MOST_BLOCKS))

    def least_of(self, block):
        """The smallest budget with blocks of so many records."""
        return self.queues * fixed(self.workers, block, self.heap, self.blocks_of(block) // self.queues)

    def least(self):
        return self.least_of(self.block)

    def is_tight(self, block):
        """Whether the smallest budget is above three fifths of the one that is given."""
        return 5 * self.least_of(block) > 3 * self.given.get("memory", 2 * MOST_MEMORY)

    def fitting_block(self, usual):
        """The block: the usual one, or a larger one if the load wants that, or a smaller one if the budget does."""
        block = usual
        while block < MOST_BLOCK and not self.fits(block):
            block *= 2
        while block > LEAST_BLOCK and self.is_tight(block) and self.fits(block // 2) and self.least_of(block // 2) < self.least_of(block):
            block //= 2
        return block if self.fits(block) or "blocks" not in self.given else usual

    def device_megabytes(self, width):
        """How large the device gets at most, with records of so many bytes."""
        return round(self.blocks * self.block * width / 1e6)

    def pool(self):
        """How many buffers the budget of one queue leaves for runs."""
        return min(MOST_POOL, (self.memory - self.least()) // self.queues // self.block)

    def least_budget(self, width):
        """Says which budget is the least, with records of so many bytes, and which with one worker."""
        alone = Sizes(self.load, {**self.given, "workers": 1}, 1, self.queues)
        with_one = "" if self.workers == 1 else f", and with --workers 1 {budget_text(alone.least(), width)}"
        return f"--memory {budget_text(self.least(), width)} is the least{with_one}"

    def fault(self, width=16):
        """Returns why these sizes do not do, with records of so many bytes, or None."""
        if not self.fits(self.block):
            return f"{self.load} records at once want {self.queues * self.room(self.block)} blocks of {self.block} records, and there are at most {self.given.get('blocks', MOST_BLOCKS)}"
        if self.memory < self.least():
            return f"the budget is {self.memory} records, and its fixed part {self.least()}: {self.least_budget(width)}"
        return None

    def words(self, names=arguments.SIZES[1:] + ("--memory",)):
        """The options with these names."""
        return [word for it in names for word in (it, str(getattr(self, it[2:])))]


def amount(text, step):
    """Returns a number that may have K, M or G behind it."""
    power = "KMG".find(text[-1:]) + 1 if text else 0
    digits = text[:-1] if power else text
    if not (digits.isascii() and digits.isdigit()):
        raise argparse.ArgumentTypeError(f"{shown(text)} is no number, or one with K, M or G behind it")
    return int(digits) * step**power


def load_of(text):
    return amount(text, 1000)


def size_of(name):
    """Returns what reads an option of the program, and refuses what is out of its range."""

    def size(text):
        fault = arguments.value_fault(name, text)
        if fault:
            raise argparse.ArgumentTypeError(fault)
        return int(text)

    return size


def budget_of(text):
    """Returns a budget and whether it is in bytes."""
    in_bytes = text[-1:] in "KMG"
    value = amount(text, 1024)
    if in_bytes and value > arguments.NUMBERS["--memory-bytes"][1]:
        raise argparse.ArgumentTypeError(f"{text} is above the largest budget, 4G")
    return size_of(arguments.BUDGETS[in_bytes])(str(value)), in_bytes


def parsed(words):
    """Reads the arguments of a load."""
    parser = argparse.ArgumentParser(prog="ppq sizes", description=__doc__, formatter_class=argparse.RawDescriptionHelpFormatter, usage="ppq sizes LOAD [OPTION..]")
    parser.add_argument("load", type=load_of, metavar="LOAD")
    for name in arguments.SIZES[1:]:
        parser.add_argument(name, type=size_of(name))
    budget = parser.add_mutually_exclusive_group()
    budget.add_argument("--memory", type=budget_of)
    budget.add_argument("--memory-bytes", type=lambda text: (size_of("--memory-bytes")(text), True))
    parser.add_argument("--width", type=int, choices=range(1, 65), metavar="W", default=16)
    parser.add_argument("--disk", choices=["slow"])
    parser.add_argument("--queues", type=int, choices=[1, 2], default=1)
    return parser.parse_args(words)


def report(sizes, width, budget):
    """Says what sizes come to, with a budget that is written so."""
    print(f"ppq: the device gets at most {sizes.device_megabytes(width)} MB", file=sys.stderr)
    megabytes = f"{sizes.memory * width / 1e6:.1f} MB"
    print(f"ppq: {budget} is {megabytes}, with {sizes.pool()} buffers for runs; the smallest --memory is {budget_text(sizes.least(), width)}", file=sys.stderr)


def print_sizes(words):
    """Prints the options for a load."""
    options = parsed(words)
    budget, in_bytes = options.memory or options.memory_bytes or (None, False)
    given = {it: value for it in ("workers", "block", "heap", "blocks") if (value := getattr(options, it)) is not None}
    given.update({} if budget is None else {"memory": budget // options.width if in_bytes else budget})
    sizes = Sizes(options.load, given, cores() if options.queues == 1 else 1, options.queues, options.disk == "slow")
    if sizes.fault():
        sys.exit(f"ppq: no: {sizes.fault(options.width)}")
    chosen = sizes.words() if not in_bytes else [*sizes.words()[:-2], "--memory-bytes", str(budget)]
    print(*["--device", DEVICE, *chosen])
    report(sizes, options.width, " ".join(chosen[-2:]))


def length_of(name):
    """Returns the length of a file; 0 if it cannot be had, as the program says by itself."""
    try:
        return os.path.getsize(name)
    except OSError:
        return 0


def read_script(name):
    """Reads a script for as many workers as there can be; an empty one if it cannot be read."""
    try:
        with open(name, "rb") as file:
            data = file.read(scripts.LONGEST)
    except OSError:
        data = b""
    return scripts.read(data, arguments.NUMBERS["--workers"][1])


def load_of_script(script):
    """Returns at least the load of a script: what `limit_pop` and `bulk_pop_limit` remove counts as if it stayed."""
    held = most = 0
    for command in script.commands:
        if command.word in ("push", "bulk_push", "limit_push"):
            held += 1
        elif command.word == "bulk":
            held += length_of(command.file) // (8 * KINDS[script.kind])
        elif command.word == "gen":
            held += command.numbers[1]
        elif command.word in ("pop", "bulk_pop", "drain"):
            held -= min(held, *command.numbers or (1,))
        most = max(most, held)
    return most


def workers_of_script(script):
    """Returns the workers that suit a script: one if it pushes and pops singly, else the cores; and one for each pass."""
    together = any(it.word in ("gen", "bulk", "bulk_begin", "limit_begin") for it in script.commands)
    passes = [it.numbers[0] + 1 for it in script.commands if it.word in ("bulk_push", "limit_push")]
    return max(cores() if together else 1, *passes, 1)


def width_of(given, served="pair"):
    """Returns the bytes of a record of a command. Of which kind those of a server are, its client says later: `served`."""
    kinds = {"sim": "triple", "sweep": "pair", "serve": served}
    return 8 * KINDS[kinds.get(given.command) or read_script(given.values[arguments.FILE]).kind]


def needs_of(given, load=None):
    """Returns the load of a command, and the workers that suit it. That of a server is handed in."""
    if given.command == "serve":
        return load_of(SERVED) if load is None else load, 1
    file = given.values[arguments.FILE]
    if given.command == "run":
        script = read_script(file)
        return load_of_script(script), workers_of_script(script)
    records = length_of(file) // width_of(given)
    if given.command == "sim":
        # Of each event of the agenda at most two wait at once, by the kinds of the roster's places (docs/simulation.md).
        return records + min(records, given.number("--events")), cores()
    return records, 1


def of_arguments(given, names, load=None, served="pair"):
    """Returns sizes for a command: those of its arguments that have these names, and the others as they suit it; those of a
    server for records of this kind."""
    load, workers = needs_of(given, load)
    known = {it[2:]: given.number(it) for it in names}
    if "memory-bytes" in known:
        known["memory"] = known.pop("memory-bytes") // width_of(given, served)
    return Sizes(load, known, workers, 2 if given.command == "sweep" else 1)


def refuse(fault):
    """Ends as the program does with a wrong argument, and says what is wrong with the load of a server."""
    print(f"ppq: why: --load{fault}", file=sys.stderr)
    sys.exit(2)


def without_load(words):
    """Returns the words of a server without --load, and what that is, if it is there."""
    kept, load = [], None
    rest = iter(words if words[:1] == ["serve"] else ())
    for word in rest:
        name, equals, value = word.partition("=")
        if name != "--load":
            kept.append(word)
            continue
        if load is not None:
            refuse(" stands twice")
        try:
            load = load_of(value if equals else next(rest, ""))
        except argparse.ArgumentTypeError as fault:
            refuse(f": {fault}")
    return (kept, load) if kept else (words, None)


def filled(words, load=None):
    """Returns the program's words with the sizes that are missing."""
    given = arguments.split(words)
    lacking = [] if given.fault or arguments.lacks_file(given) else arguments.missing(given)
    if not {*lacking} & {*arguments.SIZES, "--memory"} or any(arguments.value_fault(*it) for it in given.values.items()):
        return words
    # sizes for triples do for pairs too
    chosen = of_arguments(given, [it for it in (*arguments.SIZES[1:], *arguments.BUDGETS) if it in given.values], load, "triple")
    if load is not None and not chosen.fits(chosen.block):
        refuse(f": {chosen.fault()}")
    if chosen.fault():
        print(f"ppq: this may not do: {chosen.fault(width_of(given))}", file=sys.stderr)
    device = ["--device", DEVICE] if "--device" in lacking else []
    return [*words, *device, *chosen.words([it for it in lacking if it != "--device"])]


def main():
    if sys.argv[1:2] != ["fill"]:
        return print_sizes(sys.argv[1:])
    words, load = without_load(sys.argv[2:])
    full = filled(words, load)
    if full != words:
        print("ppq: with the sizes that suit it:", shlex.join(["./ppq", *full]), file=sys.stderr)
    sys.stdout.buffer.write(b"".join(os.fsencode(it) + b"\0" for it in full))


if __name__ == "__main__":
    main()
