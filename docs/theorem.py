#!/usr/bin/env python3
"""Prints the theorem as the sources have it: the contracts of the four commands, and each definition that a clause of them
reaches, behind the first clause that does, in the order of use.

    docs/theorem.py           # compares docs/theorem.md with the sources; ends with 1 if they differ
    docs/theorem.py --into    # writes docs/theorem.md

Definitions are those of `specs/`; types of `src/` and words of the kit do not count. Those of the grammar and of the arguments
are left out, since laws say what they mean (`lines_mean`, `words_mean`), but for the sizes that arguments give.
"""
import glob
import os
import re
import sys

TOP = os.path.dirname(os.path.dirname(os.path.realpath(__file__)))
PAGE = "docs/theorem.md"
CALL = "crates/ppq_cli/src/top_call.rt"
COMMANDS = {
    "run_words": CALL,
    "SimsWords": "crates/ppq_cli/specs/SimWords.antt",
    "SweepsWords": "crates/ppq_cli/specs/SweepWords.antt",
    "serve_words": "crates/ppq_serve_cli/src/top_call.rt",
}
CALLS = [it for it in COMMANDS.values() if it.endswith(".rt")]
LAWFUL = ("ppq_script", "ppq_words")  # the crates of the grammar and of the arguments
LAWLESS = ("sizes_at", "sizes_for", "half_sizes_for", "in_unit", "in_records")  # their words that no law speaks of

HEAD = """# The theorem

This page is made by `docs/theorem.py` from the sources, and `docs/check` compares both. It has the contract of `run_words`, and then for each of its clauses the definitions that it reaches and no clause before it did, in the order of use, with their comments; then the same of the records that are the contracts of `ppq sim` and `ppq sweep`, and of `serve_words`, the contract of `ppq-serve`. `docs/promises.md` says in words what each clause promises, what is assumed, and what the theorem does not say. Not printed are the definitions of the grammar (`crates/ppq_script/specs`) and of the arguments (`crates/ppq_words/specs`), which have laws above them (`lines_mean`, `words_mean`), but for the sizes that arguments give; types of `src/`; and words of the kit. `Reading`, also called `Arguments`, is what the arguments say, and `Reading R` is a script as it was read. Among the words of the kit `x.old` and `x.now` are a value before and after a call, `A ⊎ B` is "one of both", and `A × B` is "both".
"""

DEFINED = re.compile(r"\s*(?:abbrev pub|unfoldable pub|pub record|pub data) ([\w-]+)")
USED = re.compile(r"^(?:ghost |pub )?use Rattle\.([\w.]+)\.\{([^}]*)\}", re.M)
MOVED = re.compile(r"^pub use Rattle\.([\w.]+) as (\w+)$", re.M)
NAMED = re.compile(r"(?<![\w.])[A-Za-z_][\w-]*")
COMMENT = re.compile(r"^\s*(?:--|//).*", re.M)


def text_of(file):
    with open(f"{TOP}/{file}", encoding="utf-8") as it:
        return it.read()


def place_of_file(file):
    """Returns the crate and the module of a file."""
    return file.split("/")[1], os.path.basename(file).partition(".")[0]


def file_of(place):
    """Returns the file of `specs/` that has a crate's module."""
    return f"crates/{place[0]}/specs/{place[1]}.antt"


def place_of(path):
    """Returns the crate and the module of `specs/` that a path names, and none for a path into the kit or into `src/`."""
    parts = [it for it in path.split(".") if it != "specs"]
    at = max((i for i, it in enumerate(parts) if it.startswith("ppq_")), default=None)
    return None if at is None or "declared" in parts else (parts[at], ".".join(parts[at + 1 :]))


def imports_of(text):
    """Returns the words that a file takes from `specs/`, by their names there, each with its crate, module and name."""
    found = {}
    for path, names in USED.findall(text):
        place = place_of(path)
        for name in names.split(",") if place else []:
            there, _, here = name.strip().partition(" as ")
            found[here or there] = (*place, there)
    return found


class Definitions:
    """The definitions of all `specs/`: each is the paragraph of its file that has it, with its comment."""

    def __init__(self):
        self.paragraphs, self.moved = {}, {}
        self.imports = {place_of_file(it): imports_of(text_of(it)) for it in CALLS}
        for file in sorted(glob.glob("crates/*/specs/*.antt", root_dir=TOP)):
            place, text = place_of_file(file), text_of(file)
            self.imports[place] = imports_of(text)
            self.moved |= {(place[0], it): place_of(path) for path, it in MOVED.findall(text) if place_of(path)}
            for paragraph in re.split(r"\n\s*\n", text):
                heads = map(DEFINED.match, paragraph.splitlines())
                self.paragraphs |= {(*place, it[1]): paragraph.strip("\n") for it in heads if it}

    def found_at(self, crate, module, name):
        """Returns the definition that a word of a module names, and none for a word that is no definition of `specs/`."""
        crate, module = self.moved.get((crate, module), (crate, module))
        there = self.imports.get((crate, module), {}).get(name)
        return (crate, module, name) if (crate, module, name) in self.paragraphs else self.found_at(*there) if there else None

    def reached(self, text, place, known=()):
        """Returns the definitions that a text of a module names, those that these name, and so on, but for those that are
        known: in the order of use."""
        found, todo = {}, [(text, place)]
        for text, place in todo:
            for word in NAMED.findall(COMMENT.sub("", text)):
                it = self.found_at(*place, word)
                if it and it not in found and it not in known:
                    found[it] = None
                    todo.append((self.paragraphs[it], it[:2]))
        return list(found)


def contract_of(name):
    """Returns a command's contract as it stands, and each of its clauses by its name."""
    file = COMMANDS[name]
    text = text_of(file)
    if file in CALLS:
        contract = f"pub fn {name}<" + text.partition(f"pub fn {name}<")[2].partition("\n{\n")[0]
        clauses = re.findall(r"^ *(?:requires|ensures) (\w+) (.*)", contract, re.M)
    else:
        contract = next(it for it in re.split(r"\n\s*\n", text) if f"pub record {name}\n" in it)
        clauses = re.findall(r"^ *pub (\w+) : (.*)", contract, re.M)
    return contract.strip("\n"), dict(clauses)


def theorem():
    """Returns the definitions, and for each clause of `run_words` those that it reaches."""
    known = Definitions()
    return known, {name: known.reached(text, place_of_file(CALL)) for name, text in contract_of("run_words")[1].items()}


def printed(definitions, names):
    """Returns the lines that print definitions, by their files, each paragraph once."""
    files = {}
    for it in names:
        if it[0] not in LAWFUL or it[2] in LAWLESS:
            files.setdefault(file_of(it), {})[definitions.paragraphs[it]] = None
    for file, paragraphs in files.items():
        yield from [f"`{file}`:", "", "```text", "\n\n".join(paragraphs), "```", ""]


def page():
    """Returns the page as the sources have it."""
    definitions, known, lines = Definitions(), set(), [HEAD]
    for command, file in COMMANDS.items():
        contract, clauses = contract_of(command)
        lines += [f"## `{command}`", "", f"`{file}`:", "", f"```{'rust' if file in CALLS else 'text'}", contract, "```", ""]
        for name, clause in clauses.items():
            reached = definitions.reached(clause, place_of_file(file), known)
            known |= {*reached}
            more = list(printed(definitions, reached))
            lines += [f"### `{name}` of `{command}`", "", *more] if more else []
    return "\n".join(lines).rstrip("\n") + "\n"


def main(words):
    made = page()
    if words[:1] == ["--into"]:
        with open(f"{TOP}/{PAGE}", "w", encoding="utf-8") as it:
            it.write(made)
        return 0
    return 0 if made == text_of(PAGE) else print(f"{PAGE} is not what docs/theorem.py makes of the sources") or 1


if __name__ == "__main__":
    sys.exit(main(sys.argv[1:]))
