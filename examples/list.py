#!/usr/bin/env python3
"""list.py b|d FILE: document 01's listing of the header at the front of FILE, from Python, through the shared object and ctypes.

The shared object is the one beside this folder, in lib, as a release's bundle has it, or the one that GAMULISYAN names. Python must be
for the same processor: x86-64. Status: 0 accepted, 1 refused, 2 wrong use."""
import ctypes
import glob
import os
import sys

EDITIONS = {"b": 1, "d": 2}
ACCEPTED, ROWS_SHORT = 0, 14
ROW_NUMBERS, WORDS, USUAL_ROWS = 5, 16, 64


class Answer(ctypes.Structure):
    """struct gamulisyan_answer of the C header"""
    _fields_ = [("answer", ctypes.c_uint32), ("place", ctypes.c_size_t), ("rows", ctypes.c_size_t)]


def load():
    """The shared object, with the one entry declared that is called here."""
    beside = os.path.join(os.path.dirname(os.path.abspath(__file__)), "..", "lib", "libgamulisyan.so.*")
    library = ctypes.CDLL(os.environ.get("GAMULISYAN") or sorted(glob.glob(beside))[0])
    numbers, size = ctypes.POINTER(ctypes.c_uint32), ctypes.c_size_t
    library.gamulisyan_read.argtypes = [ctypes.c_uint32, ctypes.c_char_p, size, numbers, size, numbers, size]
    library.gamulisyan_read.restype = Answer
    return library


def read(library, edition, data, room=USUAL_ROWS):
    """The answer, and the rows if it is accepted. After 14 the rows that are needed are lent."""
    rows = (ctypes.c_uint32 * (room * ROW_NUMBERS))()
    words = (ctypes.c_uint32 * WORDS)()
    answer = library.gamulisyan_read(edition, data, len(data), rows, len(rows), words, len(words))
    if answer.answer == ROWS_SHORT:
        return read(library, edition, data, answer.rows)
    count = answer.rows * ROW_NUMBERS
    return answer, [rows[place:place + ROW_NUMBERS] for place in range(0, count, ROW_NUMBERS)]


def listing(data, answer, rows):
    """A line for the whole header, then one for each row."""
    yield [answer.answer, answer.place, answer.rows]
    for kind, level, start, length, skip in rows:
        yield [kind, level, start, length, skip, data[start:start + length].hex() or "-"]


def main(arguments):
    if len(arguments) != 2 or arguments[0] not in EDITIONS:
        print("usage: list.py b|d FILE", file=sys.stderr)
        return 2
    try:
        with open(arguments[1], "rb") as file:
            data = file.read()
    except OSError as fault:
        print(f"list.py: {fault}", file=sys.stderr)
        return 2
    answer, rows = read(load(), EDITIONS[arguments[0]], data)
    for fields in listing(data, answer, rows):
        print(*fields, sep="\t")
    return 0 if answer.answer == ACCEPTED else 1


if __name__ == "__main__":
    sys.exit(main(sys.argv[1:]))
