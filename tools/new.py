#!/usr/bin/env python3
"""Makes a crate of one's own in this workspace: `./ppq new` calls it.

    tools/new.py NAME              # a program over the queue: the simulator of crates/ppq_example, with fewer machines
    tools/new.py NAME --library    # a library with one function

It writes the folder crates/NAME and a line of crates.txt, and prints what to do next. It ends with 2 if the name is none, or is
taken.
"""
import io
import contextlib
import pathlib
import re
import sys

sys.dont_write_bytecode = True
TOP = pathlib.Path(__file__).resolve().parent.parent
sys.path[:0] = [str(TOP / "bench")]
import expected

EXAMPLE = TOP / "crates" / "ppq_example" / "src" / "main.rt"
MACHINES, PIECES = 1_000, 5_000  # few enough for `rt try`
USES = {"program": "ppq_checked ppq_device ppq_edge", "library": "ppq_device"}
LIBRARY = """//! What this library is for.
#![tactic(auto)]

use ppq_device::Pair;

/// The record that comes first in the order of a queue.
pub fn first(a: Pair, b: Pair) -> Pair {
    if a < b { a } else { b }
}
"""
NEXT = {
    "program": "cd crates/{name}; rt try    # runs it before any proof\nrt check; rt run           # proves it, and the crates below it the first time, and runs it\n",
    "library": "cd crates/{name}; rt check    # proves it, and the crates below it the first time\n",
}


def program(name):
    """Returns the files of a program: the example with fewer machines, and what it prints."""
    text = EXAMPLE.read_text().replace("ppq_example", name).replace("120,000", f"{MACHINES:,}")
    text = re.sub(r"(MACHINES: u64 = )\S+;", rf"\g<1>{MACHINES:_};", text)
    text = re.sub(r"(PIECES: u64 = )\S+;", rf"\g<1>{PIECES:_};", text)
    printed = io.StringIO()
    with contextlib.redirect_stdout(printed):
        expected.machines(MACHINES, PIECES, "false")
    return {"src/main.rt": text, "stdout": printed.getvalue()}


def refusal(name, table):
    """Returns why a crate cannot have this name, or None."""
    if not re.fullmatch(r"[a-z][a-z0-9_]*", name):
        return f"{name} is no name of a crate: small letters, digits and _ are"
    if (TOP / "crates" / name).exists() or re.search(rf"^{name}\b", table, re.M):
        return f"there is a crate {name} already"
    return None


def main(words):
    kind = "library" if "--library" in words else "program"
    names = [it for it in words if it != "--library"]
    if len(names) != 1:
        print("ppq: usage: ./ppq new NAME [--library]", file=sys.stderr)
        return 2
    name, table = names[0], TOP / "crates.txt"
    why = refusal(name, table.read_text())
    if why:
        print(f"ppq: {why}", file=sys.stderr)
        return 2
    for file, text in (program(name) if kind == "program" else {"src/lib.rt": LIBRARY}).items():
        path = TOP / "crates" / name / file
        path.parent.mkdir(parents=True, exist_ok=True)
        path.write_text(text)
    with open(table, "a") as it:
        it.write(f"{name}: {USES[kind]}\n")
    print(NEXT[kind].format(name=name), end="")
    return 0


if __name__ == "__main__":
    sys.exit(main(sys.argv[1:]))
