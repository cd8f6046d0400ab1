"""The grammar of scripts, as docs/scripts.md has it: the commands of a script up to its first bad line, and what is wrong with
that one."""
import typing

from fields import KINDS, number_fault, shown

LONGEST = 1_048_576  # bytes of a script
MOST_GENERATED = 2**32  # records of one `gen`
MOST_PASS = 2**32 - 1
LONGEST_NAME = 255  # bytes of the name of a record file

# The fields behind each command's word: a record, the number of a pass, or a number.
COMMANDS = {
    "push": ("record",),
    "pop": (),
    "top": (),
    "size": (),
    "bulk": ("file",),
    "gen": ("seed", "count"),
    "bulk_pop": ("count",),
    "bulk_pop_limit": ("record", "count"),
    "drain": ("count",),
    "bulk_begin": (),
    "bulk_push": ("pass", "record"),
    "bulk_end": (),
    "limit_begin": ("record",),
    "limit_push": ("pass", "record"),
    "limit_top": (),
    "limit_pop": (),
    "limit_end": (),
}
# The commands that stand in a session, and in which kind; all others stand outside.
STANDS = {"bulk_push": "bulk", "bulk_end": "bulk", "limit_push": "limit", "limit_top": "limit", "limit_pop": "limit", "limit_end": "limit"}


class Command(typing.NamedTuple):
    """A command, with the number of its line."""

    line: int
    word: str
    numbers: typing.Tuple[int, ...] = ()
    file: str = ""


class Script(typing.NamedTuple):
    """What a script has in front of its first bad line, and that line with what is wrong with it."""

    kind: str
    down: bool
    commands: typing.List[Command]
    bad: typing.Optional[typing.Tuple[int, str]]


def text_of(line):
    """Returns a line without one carriage return at its end."""
    return line[:-1] if line.endswith("\r") else line


def fields_of(text):
    """Returns the fields of a line's text."""
    return [it for it in text.split(" ") if it]


def head_of(fields):
    """Returns the kind of records and whether they go down, if these fields are a head, else None."""
    is_head = len(fields) == 4 and fields[:2] == ["ppq", "2"] and fields[2] in KINDS and fields[3] in ("up", "down")
    return (fields[2], fields[3] == "down") if is_head else None


def head_fault(fields, line):
    """Returns what is wrong with a line that begins as a head does."""
    return "a head is `ppq 2`, then `pair` or `triple`, then `up` or `down`" if line == 1 else "a head stands on line 1 alone"


def unseen_fault(text):
    """Returns which byte that is hard to see makes a line bad, or None."""
    if text.startswith("\xef\xbb\xbf"):
        return "it begins with a byte order mark, which is to go"
    if "\t" in text:
        return "it has a tab, and only spaces separate fields"
    if "\r" in text:
        return "it has a carriage return within, and lines end with a line feed"
    return None


def file_fault(field):
    """Returns what is wrong with the name of a record file, or None."""
    if not all("!" <= it <= "~" for it in field):
        return f"the name {shown(field)} has other bytes than those from `!` to `~`"
    if len(field) > LONGEST_NAME:
        return f"the name of the file has {len(field)} bytes, and at most {LONGEST_NAME} are allowed"
    return None


def shape_of(word, kind):
    """Returns what each field behind a command's word is: each number of a record by itself."""
    return [one for it in COMMANDS[word] for one in (["number"] * KINDS[kind] if it == "record" else [it])]


def field_fault(what, field):
    """Returns what is wrong with a field, or None."""
    if what == "file":
        return file_fault(field)
    fault = number_fault(field)
    if fault is None and what == "pass" and int(field) > MOST_PASS:
        return f"there is no pass {int(field)}"
    return fault


def text_fault(fields, line, kind):
    """Returns what is wrong with the fields of a command, or None."""
    word, *rest = fields
    if word == "ppq":
        return head_fault(fields, line)
    if word not in COMMANDS:
        return f"{shown(word)} is no command"
    shape = shape_of(word, kind)
    if len(rest) > len(shape) and any(it.startswith("#") for it in rest):
        return f"nothing can follow `{word}` and its fields: a comment has a line of its own"
    if len(rest) != len(shape):
        return f"`{word}` wants {len(shape) or 'no'} field{'s' * (len(shape) != 1)} in a script of {kind}s, and has {len(rest)}"
    fault = next(filter(None, map(field_fault, shape, rest)), None)
    if fault is None and word == "gen" and int(rest[1]) > MOST_GENERATED:
        return f"{int(rest[1])} records are more than the {MOST_GENERATED} of one `gen`"
    return fault


def command_of(fields, line, kind):
    """Returns the command that good fields are."""
    word, *rest = fields
    if word == "bulk":
        return Command(line, word, (), rest[0])
    return Command(line, word, tuple(map(int, rest)))


class Session:
    """The session in which a line stands."""

    def __init__(self, down):
        self.down, self.kind, self.began, self.limit = down, None, 0, None

    def fault(self, command, workers):
        """Returns why a command may not stand here in a script for so many workers, or None."""
        wanted = STANDS.get(command.word)
        if wanted != self.kind:
            here = f"a {self.kind} session is open since line {self.began}" if self.kind else "no session is open"
            return f"{here}, and `{command.word}` stands {f'in a {wanted} session alone' if wanted else 'outside sessions'}"
        if command.word in ("bulk_push", "limit_push") and command.numbers[0] >= workers:
            return f"there is no pass {command.numbers[0]}: with --workers {workers} the passes are 0 to {workers - 1}"
        if command.word == "limit_push" and (command.numbers[1:] > self.limit if self.down else command.numbers[1:] < self.limit):
            return f"the record {' '.join(map(str, command.numbers[1:]))} is below the limit {' '.join(map(str, self.limit))} of line {self.began}"
        return None

    def go_on(self, command):
        """Takes a command that begins or ends a session."""
        if command.word in ("bulk_begin", "limit_begin"):
            self.kind, self.began, self.limit = command.word.split("_")[0], command.line, command.numbers
        elif command.word in ("bulk_end", "limit_end"):
            self.kind = None


def line_fault(text, fields, line, kind):
    """Returns what is wrong with the text of a line that is no comment, or None."""
    fault = text_fault(fields, line, kind)
    return fault and (unseen_fault(text) or fault)


def read(data, workers):
    """Reads a script, which is bytes, for so many workers."""
    lines = data.decode("latin-1").split("\n")
    lines = [*map(text_of, lines[:-1] if lines[-1] == "" else lines)]
    head = head_of(fields_of(lines[0])) if lines else None
    kind, down = head or ("pair", False)
    session, commands = Session(down), []
    for line, text in enumerate(lines, 1):
        fields = fields_of(text)
        if not fields or fields[0].startswith("#") or line == 1 and head:
            continue
        fault = line_fault(text, fields, line, kind)
        command = None if fault else command_of(fields, line, kind)
        fault = fault or session.fault(command, workers)
        if fault:
            return Script(kind, down, commands, (line, fault))
        session.go_on(command)
        commands.append(command)
    bad = (len(lines) + 1, f"the {session.kind} session that line {session.began} began is still open at the end") if session.kind else None
    return Script(kind, down, commands, bad)
