"""Compares the words of docs/definitions.md with the sources; `docs/check` calls it.

1. Each heading names files of `crates/CRATE/specs` that are there.
2. Each word of the code that stands in brackets is declared: in `specs/`, as an item, a variant or a ghost member of a
   trait in `src/`, as a crate, or as a command of scripts.
3. Each word of a `specs/` folder that a clause of an exported function or method uses stands there. Exported is what
   `src/lib.rt` lists by `pub use` of a module of its own. Types and their variants are left out: the sources say what
   they are, and contracts use them under their own names.

What is not compared: the sentences. They are written by hand beside the comments of `specs/`, and if both differ the
definition in `specs/` is right. Nor are the words looked for that only clauses inside a crate use.
"""
import glob
import os
import re

TOP = os.path.dirname(os.path.dirname(os.path.realpath(__file__)))
PAGE = "docs/definitions.md"
ITEM = re.compile(r"\b(?:struct|enum|trait|fn|type|const|mod|ghost) (\w+)|^\s+(\w+)(?: \{.*\}|\(.*\))?,$", re.M)
DECLARED = re.compile(r"^\s*(?:(?:abbrev|unfoldable|record|data|pub) )*pub (?:(?:abbrev|unfoldable|record|data) )*([^\s:(){]+)", re.M)
IMPORTED = re.compile(r"ghost use Rattle\.ppq_\w+\.specs\.(?!declared|.*\.declared)[\w.]+\.\{([^}]*)\}")
FUNCTION = re.compile(r"^( *)pub fn (\w+)(.*?)^\1\{", re.M | re.S)


def text_of(file):
    with open(f"{TOP}/{file}", encoding="utf-8") as it:
        return it.read()


def files_of(pattern):
    return sorted(glob.glob(pattern, root_dir=TOP, recursive=True))


def check_headings(page):
    """Returns the files that headings name and that are not there."""
    found = []
    for heading in re.findall(r"^## .*", page, re.M):
        for crates, files in re.findall(r"((?:`\w+`(?:, )?)+): ([\w, ]+)", heading):
            crate = re.findall(r"`(\w+)`", crates)[-1]
            names = [f"crates/{crate}/specs/{it}.antt" for it in re.split(r",\s*", files)]
            found += [f"{PAGE}: there is no {it}" for it in names if not os.path.exists(f"{TOP}/{it}")]
    return found


def check_declared(page):
    """Returns the words in brackets that nothing declares."""
    known = {os.path.basename(it) for it in files_of("crates/*")} | {"gen", "bulk", "bulk_begin", "limit_begin"}
    for file in files_of("crates/*/specs/*.antt"):
        text = text_of(file)
        known |= set(DECLARED.findall(text)) | set(re.findall(r"^\s+(?:pub )?(\w+) :", text, re.M))
        known.add(os.path.basename(file)[:-5])
    for file in files_of("crates/*/src/**/*.rt"):
        known |= {one or other for one, other in ITEM.findall(text_of(file))}
    for file in files_of("crates/*/src/lib.rt"):
        known |= set(re.findall(r"\w+", " ".join(re.findall(r"pub use [^;]*;", text_of(file)))))
    words = [word for bracket in re.findall(r"\(([^()]*`[^()]*)\)", page) for word in re.findall(r"`(\w+)`", bracket)]
    return [f"{PAGE}: nothing declares `{it}`" for it in dict.fromkeys(words) if it not in known]


def exported(crate):
    """Returns the names that a crate lists by `pub use` of a module of its own."""
    names = set()
    for path, many, one in re.findall(r"^pub use (\w+)::(?:\{([^}]*)\}|(\w+));", text_of(f"crates/{crate}/src/lib.rt"), re.M):
        if not path.startswith("ppq_"):
            names |= set(re.findall(r"\w+", many or one))
    return names


def clauses_of(crate):
    """Yields each exported function or method of a crate, the words of its file by their names there, and its clauses."""
    names = exported(crate)
    for file in files_of(f"crates/{crate}/src/**/*.rt"):
        text = text_of(file)
        parts = [it.strip().split(" as ") for group in IMPORTED.findall(text) for it in group.split(",")]
        words = {it[-1]: it[0] for it in parts}
        for match in FUNCTION.finditer(text):
            blocks = re.findall(r"^impl(?:<[^{]*?>)? (\w+)", text[: match.start()], re.M)
            owner = blocks[-1] if match.group(1) and blocks else match.group(2)
            if owner in names:
                lines = re.findall(r"^\s*(?:ensures|requires) .*", match.group(3), re.M)
                yield match.group(2), words, " ".join(lines)


def check_complete(page):
    """Returns the words of exported contracts that the page does not have."""
    there = set(re.findall(r"`([^`\s]+)`", page))
    missing = {}
    for file in files_of("crates/*/src/lib.rt"):
        crate = file.split("/")[1]
        for function, words, clauses in clauses_of(crate):
            for here, word in words.items():
                if word not in there and re.fullmatch(r"\w+", word) and re.search(rf"(?<!\w){here}(?!\w)", clauses):
                    missing.setdefault(word, f"`{function}` in {crate}")
    return [f"{PAGE}: no line has `{word}`, which a clause of {where} uses" for word, where in sorted(missing.items())]


def check_words():
    page = text_of(PAGE)
    return check_headings(page) + check_declared(page) + check_complete(page)
