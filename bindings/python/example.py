"""A small order in Python by ctypes, with the shared library alone: its messages are
written and posted, and it is completed and checked.

    python3 example.py [PATH/libkieselbrot.so.1]

Without a path the loader looks for the library where it looks for all of them. The names of
the functions have the major version in them, kieselbrot_1_check for kieselbrot_check, so that
a library of another major version has none of them; kieselbrot_version has one name in all.
The header kieselbrot.h says what each function takes and answers. The program checks its own
results and ends with status 1 if one is not as expected.
"""

import ctypes
import sys
from ctypes import POINTER, Structure, c_size_t, c_uint8, c_uint16, c_uint32, c_uint64

MAJOR = 1
FIELDS = (14, 15, 17, 22, 60, 61, 101, 102, 103, 104, 105, 106, 107, 108, 109)
SHEET_SLOT_SIZE = 26
SHEET_SIZE = 390
DRAFT_SIZE = 465
MESSAGE_MAX = 34
CLIENT, ADVISER = 1, 2


class Version(Structure):
    _fields_ = [("major", c_uint32), ("minor", c_uint32), ("patch", c_uint32)]


class Record(Structure):
    _fields_ = [("first32", c_uint32), ("first33", c_uint32), ("last02", c_uint32)]


class CheckAnswer(Structure):
    _fields_ = [("number", c_uint8), ("field", c_uint8), ("rule", c_uint8), ("class_", c_uint8)]


class WriteAnswer(Structure):
    _fields_ = [("number", c_uint8), ("length", c_size_t)]


class PostAnswer(Structure):
    _fields_ = [("number", c_uint8), ("standing", c_uint8)]


class CompleteAnswer(Structure):
    _fields_ = [
        ("number", c_uint8),
        ("field", c_uint8),
        ("rule", c_uint8),
        ("set", c_uint16),
        ("ones", c_uint32),
        ("count", c_size_t),
        ("skipped", c_size_t),
    ]


class ChargeAnswer(Structure):
    _fields_ = [("number", c_uint8), ("kopecks", c_uint64)]


BYTES = POINTER(c_uint8)
GIVEN = Record(20231001, 20240101, 20231231)


class Refused(Exception):
    """The number of a refusal."""


def function(library, name, answer, *arguments):
    """A function of this major version, with its types."""
    found = getattr(library, f"kieselbrot_{MAJOR}_{name}")
    found.restype, found.argtypes = answer, arguments
    return found


class Library:
    """The functions that this example takes."""

    def __init__(self, path):
        library = ctypes.CDLL(path)
        library.kieselbrot_version.restype = Version
        self.version = library.kieselbrot_version()
        if self.version.major != MAJOR:
            raise OSError(f"{path} is of major version {self.version.major}, not {MAJOR}")
        self.write = function(
            library, "write", WriteAnswer,
            c_uint8, c_uint8, c_uint8, c_uint32, BYTES, c_size_t, BYTES, c_size_t,
        )
        self.post = function(library, "post", PostAnswer, BYTES, c_size_t, BYTES, c_size_t)
        self.complete = function(
            library, "complete", CompleteAnswer,
            BYTES, c_size_t, BYTES, c_size_t, c_uint32, Record,
        )
        self.check = function(library, "check", CheckAnswer, BYTES, c_size_t, c_uint32, Record)
        self.charge = function(
            library, "charge", ChargeAnswer, c_uint64, c_uint64, c_uint64, c_uint64
        )


class Draft:
    """What the messages of an order come to."""

    def __init__(self, library):
        self.library = library
        self.bytes = (c_uint8 * DRAFT_SIZE)()

    def give(self, party, field, revision, text):
        """Posts a text as a message of version 2: 'n' newer, 's' same, 'o' older."""
        encoded = text.encode("cp1251")
        given = (c_uint8 * len(encoded)).from_buffer_copy(encoded)
        message = (c_uint8 * MESSAGE_MAX)()
        written = self.library.write(
            2, party, field, revision, given, len(encoded), message, MESSAGE_MAX
        )
        if written.number != 0:
            raise Refused(written.number)
        posted = self.library.post(self.bytes, DRAFT_SIZE, message, written.length)
        if posted.number != 0:
            raise Refused(posted.number)
        return chr(posted.standing)

    def complete(self, date, record=GIVEN):
        """The sheet as a dictionary of texts by field, and the fields that were filled."""
        sheet = (c_uint8 * SHEET_SIZE)()
        answer = self.library.complete(self.bytes, DRAFT_SIZE, sheet, SHEET_SIZE, date, record)
        if answer.number != 0:
            raise Refused(answer.number)
        checked = self.library.check(sheet, SHEET_SIZE, date, record)
        expect(checked.number == 0, "a completed sheet passes the check")
        filled = [field for slot, field in enumerate(FIELDS) if answer.set >> slot & 1]
        return texts(sheet), filled


def texts(sheet):
    """The texts of a sheet by field."""
    held = bytes(sheet)
    starts = range(0, SHEET_SIZE, SHEET_SLOT_SIZE)
    slots = (held[start : start + SHEET_SLOT_SIZE] for start in starts)
    return {field: slot[1 : 1 + slot[0]].decode("cp1251") for field, slot in zip(FIELDS, slots)}


def expect(kept, what):
    if not kept:
        sys.exit(f"not as expected: {what}")


def main():
    path = sys.argv[1] if len(sys.argv) > 1 else f"libkieselbrot.so.{MAJOR}"
    library = Library(path)
    version = library.version
    print(f"version {version.major}.{version.minor}.{version.patch}")

    draft = Draft(library)
    order = {
        14: "004525987",
        15: "40102810845370000004",
        17: "03100643000000014800",
        60: "7701569743",
        61: "6730054024",
        102: "770301001",
        103: "772801001",
        104: "18201061201010000510",
    }
    for field, text in order.items():
        expect(draft.give(ADVISER, field, 1, text) == "n", "a new text")
    expect(draft.give(ADVISER, 14, 1, order[14]) == "s", "the same text again")
    expect(draft.give(CLIENT, 14, 1, "044525000") == "o", "the adviser's stands")

    sheet, filled = draft.complete(20240115)
    for field, text in sheet.items():
        print(field, text, "(proposed)" if field in filled else "")
    expect(sheet[101] == "01", "the status")
    expect(filled == [22, 101, 105, 106, 107, 108, 109], "the filled fields")

    draft.give(ADVISER, 104, 2, "0")
    try:
        draft.complete(20240115)
        expect(False, "a KBK of 0 is refused")
    except Refused as refused:
        expect(refused.args == (10,), "the refusal of a KBK of 0")
    try:
        draft.give(ADVISER, 16, 1, "")
        expect(False, "a field that is not listed is refused")
    except Refused as refused:
        expect(refused.args == (4,), "the refusal of field 16")

    charge = library.charge(1_000_000, 50, 3_000, 200_000)
    expect((charge.number, charge.kopecks) == (0, 5_000), "a charge of 0.5 percent")


if __name__ == "__main__":
    main()
