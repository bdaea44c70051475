#!/usr/bin/env python3
"""figures.py b|d FILE.. [b|d FILE..]..: document 02's report of the messages in these files, each under the edition whose letter is before
it, from Python, through the shared object and ctypes.

The shared object is the one beside this folder, in lib, as a release's bundle has it, or the one that GAMULISYAN names. Python must be
for the same processor: x86-64. Status: 0 done, 1 more than 1,000,000 messages, 2 wrong use."""
import ctypes
import glob
import os
import sys

EDITIONS = {"b": 1, "d": 2}
ACCEPTED, OUTPUT_SHORT = 0, 16


class Coded(ctypes.Structure):
    """struct gamulisyan_coded of the C header"""
    _fields_ = [("answer", ctypes.c_uint32), ("place", ctypes.c_size_t)]


class Figures:
    """The figures of at most 1,000,000 messages. Numbers that were kept (`list(figures.numbers)`) are figures again by Figures(numbers)."""
    COUNT = 31

    def __init__(self, numbers=(0,) * COUNT):
        self.numbers = (ctypes.c_uint64 * self.COUNT)(*numbers)

    def add(self, library, edition, message):
        """Adds a message; edition 1 is B, 2 is D, any other is unknown."""
        settle(library.gamulisyan_figures_add(edition, message, len(message), self.numbers, self.COUNT))

    def join(self, library, others):
        """Adds the figures of other messages."""
        settle(library.gamulisyan_figures_join(others.numbers, self.COUNT, self.numbers, self.COUNT))

    def report(self, library):
        """Document 02's report. The first call says how many bytes it needs."""
        needed = library.gamulisyan_figures_report(self.numbers, self.COUNT, None, 0)
        if needed.answer != OUTPUT_SHORT:
            settle(needed)
        text = ctypes.create_string_buffer(needed.place)
        settle(library.gamulisyan_figures_report(self.numbers, self.COUNT, text, needed.place))
        return text.raw.decode("ascii")


def settle(coded):
    """A refusal as an exception: 19 where there are too many messages, or the numbers are no figures."""
    if coded.answer != ACCEPTED:
        raise OverflowError(f"refused with {coded.answer} at {coded.place}")


def load():
    """The shared object, with the entries declared that are called here."""
    beside = os.path.join(os.path.dirname(os.path.abspath(__file__)), "..", "lib", "libgamulisyan.so.*")
    library = ctypes.CDLL(os.environ.get("GAMULISYAN") or sorted(glob.glob(beside))[0])
    numbers, size = ctypes.POINTER(ctypes.c_uint64), ctypes.c_size_t
    library.gamulisyan_figures_add.argtypes = [ctypes.c_uint32, ctypes.c_char_p, size, numbers, size]
    library.gamulisyan_figures_join.argtypes = [numbers, size, numbers, size]
    library.gamulisyan_figures_report.argtypes = [numbers, size, ctypes.c_char_p, size]
    for entry in (library.gamulisyan_figures_add, library.gamulisyan_figures_join, library.gamulisyan_figures_report):
        entry.restype = Coded
    return library


def main(arguments):
    if not arguments or arguments[0] not in EDITIONS:
        print("usage: figures.py b|d FILE.. [b|d FILE..]..", file=sys.stderr)
        return 2
    library, figures, edition = load(), Figures(), 0
    try:
        for argument in arguments:
            if argument in EDITIONS:
                edition = EDITIONS[argument]
            else:
                with open(argument, "rb") as file:
                    figures.add(library, edition, file.read())
    except (OSError, OverflowError) as fault:
        print(f"figures.py: {fault}", file=sys.stderr)
        return 1 if isinstance(fault, OverflowError) else 2
    print(figures.report(library), end="")
    return 0


if __name__ == "__main__":
    sys.exit(main(sys.argv[1:]))
