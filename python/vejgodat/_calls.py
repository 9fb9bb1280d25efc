"""The C calls from Python: arrays in, answers out, refusals as exceptions."""
import array
import numbers
import operator
import os
import sys
from collections import namedtuple

import numpy as np

from ._declarations import ffi

if sys.byteorder != "little":
    raise ImportError("vejgodat gives tables of int64 to the library, which takes little-endian ones")

lib = ffi.dlopen(os.path.join(os.path.dirname(os.path.abspath(__file__)), "libvejgodat.so"))

BYTE, NUMBER, SUM, ENTRY = np.dtype("u1"), np.dtype("<u4"), np.dtype("<u8"), np.dtype("<i8")
# how the library takes an array: bytes are counted as bytes, lists of unsigned numbers by their entries
TAKEN = {BYTE: ("uint8_t[]", 1), ENTRY: ("uint8_t[]", 8), NUMBER: ("uint32_t[]", 1), SUM: ("uint64_t[]", 1)}
LISTS = {ENTRY: "q", NUMBER: "I", SUM: "Q"}


class Refused(Exception):
    """A call refused: the first check that failed, its words, and where a table, mesh or part fails or what of a message
    isn't the area's, else None."""

    def __init__(self, number, text, place=None):
        super().__init__(number, text, place)
        self.number, self.text, self.place = number, text, place

    def __str__(self):
        return f"refusal {self.number}, {self.text}" + (f": {self.place}" if self.place else "")


WrongField = namedtuple("WrongField", "field due found text")
WrongField.__doc__ = "What is wrong with a header: the field, the number that is due (0 where several are), the one there, words."
Fault = namedtuple("Fault", "number kind at face text")
Fault.__doc__ = "Where an object fails: the check's number, the kind, the rank, tree or record, the face or None, all in words."


def given(name, value, dtype, writable=False):
    """The value as an array that the library takes as it is: of that dtype, one dimension, end to end in memory. Lists of
    integers are converted where each fits; an array is never converted, nor are its bytes taken for something else."""
    if isinstance(value, (list, tuple)) and dtype in LISTS and not writable:
        try:
            return np.frombuffer(array.array(LISTS[dtype], value), dtype)
        except (TypeError, OverflowError) as error:
            raise type(error)(f"{name}: {error}") from None
    if isinstance(value, (bytes, bytearray)) and dtype is BYTE:
        value = np.frombuffer(value, BYTE)
    if type(value) not in (np.ndarray, np.memmap):
        raise TypeError(f"{name}: a numpy array of {dtype} is needed, not {type(value).__name__}")
    if value.dtype != dtype:
        raise TypeError(f"{name}: dtype {dtype} ({dtype.str}) is needed, not {value.dtype} ({value.dtype.str})")
    if value.ndim != 1:
        raise ValueError(f"{name}: one dimension is needed, not {value.ndim}")
    if not (value.flags.c_contiguous and value.flags.aligned):
        raise ValueError(f"{name}: the array must stand end to end in memory, and aligned")
    if writable and not value.flags.writeable:
        raise ValueError(f"{name}: the array can't be written")
    return value


def real(name, value):
    if not isinstance(value, numbers.Real):
        raise TypeError(f"{name}: a number is needed, not {type(value).__name__}")
    return float(value)


def words(text):
    return ffi.string(text).decode()


def call(name, *arguments):
    """Call vejgodat_NAME. An array stands for its address and its length; every other argument is a number."""
    passed = []
    for argument in arguments:
        if isinstance(argument, np.ndarray):
            kind, times = TAKEN[argument.dtype]
            passed += [ffi.from_buffer(kind, argument), times * argument.size]
        else:
            passed.append(argument if type(argument) is float else operator.index(argument))
    return getattr(lib, "vejgodat_" + name)(*passed)


def ask(name, *arguments):
    """Call, and raise Refused where the answer, a refusal or a struct that has one, says so."""
    answer = call(name, *arguments)
    number = answer if isinstance(answer, int) else answer.refusal
    if number != lib.VEJGODAT_OK:
        raise Refused(number, words(lib.vejgodat_refusal_text(number)), place(number, arguments))
    return answer


def written(name, length, *arguments):
    """The bytes that a call writes into a buffer of that length."""
    out = np.zeros(length, BYTE)
    ask(name, *arguments, out)
    return out


def listed(name, room, *arguments):
    """The list that a call writes into a buffer of so many entries, as long as it says."""
    out = np.zeros(room, NUMBER)
    return out[:ask(name, *arguments, out).count]


def fault(name, *arguments):
    """What a call says of an object: None where it is sound."""
    said = ask(name, *arguments)
    if said.fault == lib.VEJGODAT_OK:
        return None
    room = ffi.new("char[]", lib.vejgodat_write_fault(said, ffi.NULL, 0) + 1)
    lib.vejgodat_write_fault(said, room, len(room))
    text = words(room)
    if said.kind == lib.VEJGODAT_FAULT_HEADER:
        text += ": " + wrong_field(name.replace("_fault", "_header"), *arguments).text
    face = said.face if lib.vejgodat_fault_has_face(said.kind) else None
    return Fault(said.fault, said.kind, said.at, face, text)


def wrong_field(name, *arguments):
    """What a call says of a header: None where it is right."""
    said = ask(name, *arguments)
    if said.field == lib.VEJGODAT_HEADER_NONE:
        return None
    return WrongField(said.field, said.due, said.found, words(lib.vejgodat_header_text(said.field)))


def place(number, arguments):
    """Where the table, mesh or part fails that a refused call was given, and which number of a message isn't the area's."""
    tables = [a for a in arguments if isinstance(a, np.ndarray) and a.dtype == ENTRY]
    objects = [a for a in arguments if isinstance(a, np.ndarray) and a.dtype == BYTE]
    ranks = [a for a in arguments if not isinstance(a, np.ndarray)]
    if number == lib.VEJGODAT_TABLE:
        for which, table in zip(("",) if len(tables) == 1 else ("old table, ", "new table, "), tables):
            found = fault("table_fault", table)
            if found:
                return which + found.text
    elif number == lib.VEJGODAT_MESH:
        found = fault("mesh_fault", objects[0])
        return found.text if found else "its K isn't the table's"
    elif number == lib.VEJGODAT_PART:
        return fault("part_fault", objects[0], tables[0], ranks[0]).text
    elif number == lib.VEJGODAT_RUN:
        return words(lib.vejgodat_run_text(lib.vejgodat_run_field(*(ffi.from_buffer("uint8_t[]", o) for o in objects))))
    return None
