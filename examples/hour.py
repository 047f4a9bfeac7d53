#!/usr/bin/env python3
"""The answer to each hour's table, by ctypes over the shared library: its file and how many lines of result it has, or why there is none.

    python3 examples/hour.py PREFIX/lib/libkeravnoth.so.1 hours/worked.tsv hours/planner.tsv

Status: 0 all answered, 1 one at least is refused. A symbol bears the interface's major number: a library of another one has no such symbol.
"""
import ctypes
import sys

ANSWER_MOST = 22790
REFUSAL_TEXT_MOST = 215


class Written(ctypes.Structure):
    _fields_ = [
        ("number", ctypes.c_uint32),
        ("place", ctypes.c_size_t),
        ("byte", ctypes.c_size_t),
        ("bytes", ctypes.c_size_t),
    ]


class Answered(ctypes.Structure):
    _fields_ = Written._fields_ + [
        ("told_number", ctypes.c_uint32),
        ("told_place", ctypes.c_size_t),
        ("told_byte", ctypes.c_size_t),
    ]


def load(name):
    library = ctypes.CDLL(name)
    library.keravnoth_version.restype = ctypes.c_uint32
    library.keravnoth_1_answer.restype = Answered
    library.keravnoth_1_answer.argtypes = [ctypes.c_char_p, ctypes.c_size_t, ctypes.c_char_p, ctypes.c_size_t]
    library.keravnoth_1_refusal_text.restype = Written
    library.keravnoth_1_refusal_text.argtypes = [ctypes.c_uint64, ctypes.c_char_p, ctypes.c_size_t]
    return library


def answer(library, table):
    """The result's bytes, or why there is none."""
    out = ctypes.create_string_buffer(ANSWER_MOST)
    said = library.keravnoth_1_answer(table, len(table), out, len(out))
    if said.number != 0:
        raise RuntimeError("the buffer is too short, which its length rules out")
    if said.told_number == 0:
        return out.raw[: said.bytes], None
    words = ctypes.create_string_buffer(REFUSAL_TEXT_MOST)
    means = library.keravnoth_1_refusal_text(said.told_number, words, len(words))
    return None, words.raw[: means.bytes].decode("ascii").replace("#", str(said.told_place))


def main():
    library = load(sys.argv[1])
    print("version", library.keravnoth_version())
    status = 0
    for name in sys.argv[2:]:
        with open(name, "rb") as file:
            result, why = answer(library, file.read())
        if why is None:
            print(name, result.count(b"\n"), "lines", sep="\t")
        else:
            print(name, "refused: " + why, sep="\t")
            status = 1
    return status


if __name__ == "__main__":
    sys.exit(main())
