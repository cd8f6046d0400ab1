"""The arguments of the program's commands, as docs/scripts.md has them ("Arguments"): their values, and what is wrong with
them."""
import re
import typing

from fields import LAST, number_fault, shown

# The numbers: their least and greatest values, and what they are.
NUMBERS = {
    "--blocks": (0, 65_536, "the blocks of the device"),
    "--workers": (1, 64, "the workers"),
    "--block": (2, 65_536, "the records of a block"),
    "--heap": (1, 64, "the blocks of a heap"),
    "--memory": (0, 268_435_456, "the budget, in records"),
    "--memory-bytes": (0, 4_294_967_296, "the budget, in bytes"),
    "--until": (0, LAST, "the time after which no event is handled"),
    "--events": (0, 2**32, "the most events that are handled"),
    "--nodes": (0, 2**32, "the nodes"),
}
BUDGETS = ("--memory", "--memory-bytes")
SIZES = ("--device", "--blocks", "--workers", "--block", "--heap")
# Each command with what its file is, if it has one, and the options that it has beside the sizes: those that must stand, and
# others.
COMMANDS = {
    "run": ("SCRIPT", (), ("--form",)),
    "sim": ("AGENDA", ("--until", "--events"), ()),
    "sweep": ("EDGES", ("--nodes",), ()),
    "serve": (None, (), ()),
}
FILE = ""  # the name under which the values have the file


class Arguments(typing.NamedTuple):
    """The values of arguments by their names, and what is wrong with how they stand, if anything is."""

    command: str
    values: typing.Dict[str, str]
    fault: typing.Optional[str]

    def number(self, name):
        """Returns the number under a name, which must be a good one."""
        return int(self.values[name])

    @property
    def unit(self):
        """The option that has the budget."""
        return BUDGETS["--memory-bytes" in self.values]


def options_of(command):
    _, needed, free = COMMANDS[command]
    return (*SIZES, *BUDGETS, *needed, *free)


def use_fault(name, value, values):
    """Returns what is wrong with a value under a name, where these stand already; or None."""
    if value is None:
        return f"{name} has no value"
    if value.startswith("-"):
        return f"the value {shown(value)} of {name} begins with `-`"
    if name in values:
        return f"{name} stands twice" if name else f"{shown(value)} is one word too many: there is a file already, {shown(values[FILE])}"
    return None


def lacks_file(arguments):
    """Whether a command has no file and should."""
    return COMMANDS[arguments.command][0] is not None and FILE not in arguments.values


def is_text(word):
    """Whether a word is UTF-8 text."""
    try:
        word.encode()
    except UnicodeEncodeError:
        return False
    return True


def split(words):
    """Splits the words of a command into names and values."""
    command, *rest = words or [""]
    values = {}
    if command not in COMMANDS:
        return Arguments(command, values, f"there is no command {shown(command)}" if words else "there is no command")
    if not all(map(is_text, rest)):
        return Arguments(command, values, "an argument is no UTF-8 text")
    while rest:
        word = rest.pop(0)
        name, equals, value = word.partition("=") if word.startswith("-") else (FILE, "=", word)
        if name not in (FILE, *options_of(command)):
            return Arguments(command, values, f"{shown(name)} is no option of `ppq {command}`")
        if name == FILE and COMMANDS[command][0] is None:
            return Arguments(command, values, f"{shown(value)} is one word too many: `ppq {command}` has no file")
        value = value if equals else rest.pop(0) if rest else None
        fault = use_fault(name, value, values)
        if fault:
            return Arguments(command, values, fault)
        values[name] = value
    return Arguments(command, values, None)


def is_shortened(value):
    """Whether a value is a number with K, M or G behind it, as `ppq sizes` takes them."""
    return re.fullmatch("[0-9]{1,20}[KMG]", value) is not None


def in_bytes(name, value):
    """Returns how a budget with K, M or G behind it is written for the program, in brackets; else nothing."""
    if name not in BUDGETS or not is_shortened(value):
        return ""
    count = int(value[:-1]) << 10 * ("KMG".index(value[-1]) + 1)
    return f" (`--memory-bytes {count}`)" if count <= NUMBERS["--memory-bytes"][1] else ""


def value_fault(name, value):
    """Returns what is wrong with the value of an option, or None."""
    if name in NUMBERS:
        least, greatest, what = NUMBERS[name]
        if name not in SIZES + BUDGETS and is_shortened(value):
            return f"{name}: {shown(value)} is no number in decimal digits: write {int(value[:-1]) * 1000 ** ('KMG'.index(value[-1]) + 1)}"
        fault = number_fault(value)
        if fault:
            return f"{name}: {fault}{in_bytes(name, value)}"
        return None if least <= int(value) <= greatest else f"{name} {value} is out of its range: {what}, {least} to {greatest}"
    if name == "--form" and value not in ("text", "bytes"):
        return f"--form is text or bytes, and not {shown(value)}"
    return None if value else f"{name or 'the name of the file'} is empty"


def missing(arguments):
    """Returns the names of the options that must stand and do not: those of the command, or if all of these are there, the
    sizes; of the budget's two names `--memory`."""
    needed = [it for it in COMMANDS[arguments.command][1] if it not in arguments.values]
    sizes = [it for it in SIZES if it not in arguments.values]
    return needed or sizes + ["--memory"] * all(it not in arguments.values for it in BUDGETS)


def missing_fault(name):
    least, greatest, what = NUMBERS.get(name, (None, None, "the name of the device file"))
    return f"{name}{' or --memory-bytes' * (name == '--memory')} is missing: {what}" + f", {least} to {greatest}" * (name in NUMBERS)


def fault_of(arguments):
    """Returns what is wrong with arguments, or None."""
    if arguments.fault:
        return arguments.fault
    if lacks_file(arguments):
        return f"{COMMANDS[arguments.command][0]} is missing"
    if all(it in arguments.values for it in BUDGETS):
        return "--memory and --memory-bytes are both there, and one alone may be"
    faults = [value_fault(*it) for it in arguments.values.items()]
    return next(filter(None, faults), None) or "; ".join(map(missing_fault, missing(arguments))) or None
