"""The reader that is fed pieces: on random texts, cut at random places, its answer and the fields that
it reads are those of `deb_fields` on the whole text."""

import ctypes
import random
import sys

from debctl._library import Answer, lib

LIBRARY = ctypes.CDLL(lib._name)  # the same library, without the declarations of the package
TEXTS = 3000
FRAGMENTS = [
    b"A: b\n", b"Package: aa\n", b"Version: 1\n", b"\n", b"\n", b" \n", b"\t \n", b" x\n", b"\n\n",
    b"B:", b"x", b" ", b"\n", b"Package: bb\nVersion: 2\n\n",
]


class Field(ctypes.Structure):
    """A row of the table of fields."""

    _fields_ = [
        (name, ctypes.c_uint32)
        for name in ("paragraph", "line", "name", "name_length", "value", "value_length")
    ]


def fields_of(call, *words):
    """The answer of a call that writes the three tables, and the fields in them."""
    call.restype = Answer
    counts = [ctypes.c_size_t() for _ in range(3)]
    rooms = [0, 0, 0]
    while True:
        outs = [(kind * max(room, 1))() for kind, room in zip((Field, ctypes.c_char, ctypes.c_char), rooms)]
        tables = []
        for out, room, count in zip(outs, rooms, counts):
            tables += [out, ctypes.c_size_t(room), ctypes.byref(count)]
        answer = call(*words, *tables)
        if answer.status != 4:
            break
        rooms = [count.value for count in counts]
    fields, names, values = outs[0][: counts[0].value], outs[1].raw, outs[2].raw
    return answer, [
        (
            it.paragraph, it.line, names[it.name : it.name + it.name_length],
            values[it.value : it.value + it.value_length],
        )
        for it in fields
    ]


def parts(answer):
    """The parts of an answer."""
    return answer.status, answer.code, answer.line, answer.count


def read_whole(kind, text):
    """What `deb_fields` answers."""
    answer, fields = fields_of(
        LIBRARY.deb_fields, ctypes.c_uint8(kind), text, ctypes.c_size_t(len(text))
    )
    return parts(answer), fields


def read_pieces(kind, text, most):
    """What a reader answers that is fed pieces of at most so many bytes, and whether it repeats that."""
    LIBRARY.deb_reader_size.restype = ctypes.c_size_t
    room = (ctypes.c_uint64 * (LIBRARY.deb_reader_size() // 8 + 1))()
    reader, answer = ctypes.c_void_p(ctypes.addressof(room)), Answer()

    def feed(piece, is_last):
        size, last = ctypes.c_size_t(len(piece)), ctypes.c_uint8(is_last)
        LIBRARY.deb_reader_feed(reader, piece, size, last, ctypes.byref(answer))
        return fields_of(LIBRARY.deb_reader_fields, reader)[1]

    LIBRARY.deb_reader_start(reader, ctypes.c_uint8(kind), ctypes.byref(answer))
    fields, at, is_last = [], 0, False
    while not is_last and answer.status == 0:
        piece = text[at : at + random.randint(0, most)]
        at += len(piece)
        is_last = at == len(text) and random.random() < 0.8
        fields += feed(piece, is_last)
    answered = parts(answer)
    repeats = feed(b"x", True) == [] and parts(answer) == answered
    LIBRARY.deb_reader_free(reader)
    return answered, fields, repeats


def main():
    """Tries all texts."""
    random.seed(1)
    failed = 0
    for _ in range(TEXTS):
        some = [random.choice(FRAGMENTS) for _ in range(random.randint(0, 25))]
        if random.random() < 0.1:
            some.insert(random.randint(0, len(some)), b"#\n")
        kind, text, most = random.choice([0, 1, 2, 3, 4, 4, 4]), b"".join(some), random.choice([1, 2, 5, 30])
        wanted, seen = (*read_whole(kind, text), True), read_pieces(kind, text, most)
        if seen != wanted:
            failed += 1
            print(f"kind {kind}, {text!r}\n  wanted: {wanted}\n  seen: {seen}")
    print(f"pieces: {TEXTS - failed} passed, {failed} failed")
    return failed > 0


if __name__ == "__main__":
    sys.exit(main())
