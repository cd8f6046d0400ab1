"""What numbers and records are in text and in record files, for the other programs of this folder."""

LAST = 2**64 - 1  # the greatest number
DIGITS = 20  # the most digits of a number
KINDS = {"pair": 2, "triple": 3}  # how many numbers a record of each kind has, of 8 bytes each
MOST_RECORDS = 2**32  # of a record file


def shown(text):
    """A text as a message has it: in quotes, not too long, what cannot be seen escaped."""
    return ascii(text if len(text) <= 40 else f"{text[:40]}..")


def number_fault(field):
    """Returns what is wrong with a field that should be a number, or None."""
    if field[:1] in ("-", "+") and field[1:].isdigit():
        return f"{shown(field)} has a sign"
    if not (field.isascii() and field.isdigit()):
        return f"{shown(field)} is no number in decimal digits"
    if len(field) > DIGITS:
        return f"{shown(field)} has {len(field)} digits, and at most {DIGITS} are allowed"
    if int(field) > LAST:
        return f"{field} is above {LAST}"
    return None


def length_fault(length, kind):
    """Returns what is wrong with the length of a file of records of a kind, in bytes, or None."""
    width = 8 * KINDS[kind]
    if length % width:
        whole = length // width
        return f"it has {length} bytes: {whole} {kind}{'s' * (whole != 1)} of {width} bytes, and {length % width} bytes left over"
    if length // width > MOST_RECORDS:
        return f"it has {length // width} {kind}s, and at most {MOST_RECORDS} are allowed"
    return None
