"""The functions of the library libdebctl, as `debctl.h` declares them."""

import ctypes
import mmap
import os
from pathlib import Path
from typing import (
    Any, Callable, ClassVar, Iterable, List, Literal, Optional, Sequence, Set, Tuple,
    TypeVar, Union,
)

from ._refusals import Refused

Text = Union[str, bytes, bytearray, memoryview]
Kind = Literal["packages", "binary", "sources", "source", "status", "any"]

YES, NO, REFUSED, SECOND_REFUSED, NO_ROOM, NO_MEMORY, NO_KIND, NO_INDEX = range(8)
UNFILLED = 255  # the status of an answer that no call has written
_LONG = 1 << 18  # the length from which a buffer's pages are taken as they are written
_KINDS = {"binary": 0, "packages": 1, "source": 2, "sources": 3, "any": 4, "status": 5}
_TEXT: List[Any] = [ctypes.c_char_p, ctypes.c_size_t]
_LENGTH = ctypes.POINTER(ctypes.c_size_t)
_BUFFER: List[Any] = [ctypes.c_char_p, ctypes.c_size_t, _LENGTH]
_TABLE: List[Any] = [ctypes.c_void_p, ctypes.c_size_t, _LENGTH]


class TextAt(ctypes.Structure):
    """A text among several."""

    _fields_ = [("bytes", ctypes.c_char_p), ("length", ctypes.c_size_t)]


class Answer(ctypes.Structure):
    """The answer of a call."""

    status: int
    code: int
    line: int
    count: int
    _fields_ = [
        ("status", ctypes.c_uint8), ("code", ctypes.c_uint8),
        ("line", ctypes.c_uint64), ("count", ctypes.c_uint64),
    ]


class Comparison(ctypes.Structure):
    """The answer of a comparison of two versions."""

    status: int
    code: int
    order: int
    _fields_ = [("status", ctypes.c_uint8), ("code", ctypes.c_uint8), ("order", ctypes.c_int8)]


class VersionParts(ctypes.Structure):
    """The parts of a version: offsets and lengths in its text."""

    status: int
    code: int
    has_epoch: int
    has_revision: int
    epoch_length: int
    upstream: int
    upstream_length: int
    revision: int
    revision_length: int
    _fields_ = [
        *((name, ctypes.c_uint8) for name in ("status", "code", "has_epoch", "has_revision")),
        *((name, ctypes.c_size_t) for name in (
            "epoch_length", "upstream", "upstream_length", "revision", "revision_length",
        )),
    ]


AnyAnswer = TypeVar("AnyAnswer", Answer, Comparison)
Asked = TypeVar("Asked")


_KIND: List[Any] = [ctypes.c_uint8]
_TEXTS: List[Any] = [ctypes.POINTER(TextAt), ctypes.c_size_t]
_MEMORY: List[Any] = [ctypes.c_void_p]
_TO_ANSWER: List[Any] = [ctypes.POINTER(Answer)]
_NUMBER: List[Any] = [ctypes.c_uint64]
_BUDGET: List[Any] = [ctypes.c_uint32]
_QUERY: List[Any] = _TEXT + _TEXTS + _TEXT
_ASKED: List[Any] = 2 * _TEXT + 2 * _TEXTS + _TEXT
_SEARCH: List[Any] = 3 * _KIND + _BUDGET + _TEXT
_FUNCTIONS: List[Tuple[str, Any, List[Any]]] = [
    ("deb_version_compare", Comparison, _TEXT + _TEXT),
    ("deb_version_canonical", Answer, _TEXT + _BUFFER),
    ("deb_version_key", Answer, _TEXT + _BUFFER),
    ("deb_relation_canonical", Answer, _TEXT + _BUFFER),
    ("deb_check", Answer, _KIND + _TEXT),
    ("deb_normalise", Answer, _KIND + _TEXT + _BUFFER),
    ("deb_explain", Answer, _KIND + _TEXT + _BUFFER),
    ("deb_explain_all", Answer, _KIND + _TEXT + _BUFFER),
    ("deb_same", Answer, _KIND + _TEXT + _TEXT),
    ("deb_diff", Answer, _KIND + _KIND + _TEXT + _TEXT + _BUFFER),
    ("deb_query", Answer, _QUERY + _TEXT + _BUFFER),
    ("deb_query_why", Answer, _QUERY + _TEXT + _BUFFER),
    ("deb_unmet", Answer, _KIND + _KIND + _QUERY + _TEXT + _BUFFER),
    ("deb_healthy", Answer, _KIND + _KIND + _TEXT + _TEXT + _BUFFER),
    ("deb_installable", Answer, _KIND + _SEARCH + _TEXTS + _TEXT + _BUFFER),
    ("deb_witness", Answer, _KIND + _SEARCH + _TEXT + _TEXTS + _TEXT + _BUFFER),
    ("deb_buildable", Answer, _SEARCH + 2 * _TEXTS + 2 * _TEXT + _BUFFER),
    ("deb_index_size", ctypes.c_size_t, []),
    ("deb_index_read", None, _MEMORY + _TEXT + _TO_ANSWER),
    ("deb_index_read_more", None, _MEMORY + _TEXT + _TO_ANSWER),
    ("deb_index_without", None, _MEMORY + _TEXTS + _TO_ANSWER),
    ("deb_index_free", None, _MEMORY),
    ("deb_index_query", Answer, _MEMORY + _QUERY + _BUFFER),
    ("deb_index_query_why", Answer, _MEMORY + _QUERY + _BUFFER),
    ("deb_index_unmet", Answer, _MEMORY + _KIND + _KIND + _QUERY + _BUFFER),
    ("deb_index_unmet_with", Answer, 2 * _MEMORY + 2 * _KIND + _ASKED + _BUFFER),
    ("deb_index_packages", Answer, _MEMORY + _TEXT + _TABLE),
    ("deb_index_providers", Answer, _MEMORY + _TEXT + _TABLE),
    ("deb_index_package", Answer, _MEMORY + _NUMBER + _BUFFER),
    ("deb_index_details", Answer, _MEMORY + _NUMBER + _BUFFER),
    ("deb_index_file", Answer, _MEMORY + _NUMBER + [_LENGTH]),
    ("deb_latest", Answer, 2 * _KIND + _TEXT + _TEXTS + _BUFFER),
    ("deb_select", Answer, 3 * _KIND + 2 * _TEXTS + _TEXT + _BUFFER),
    ("deb_explain_condition", Answer, _KIND + _TEXT + _BUFFER),
    ("deb_version_parts", VersionParts, _TEXT),
    ("deb_relation_parts", Answer, _TEXT + _TABLE),
    ("deb_explain_relation", Answer, _TEXT + _BUFFER),
    ("deb_explain_version", Answer, _TEXT + _BUFFER),
    ("deb_rows", Answer, _KIND + _TEXT + _TABLE),
    ("deb_library_version", ctypes.c_uint32, []),
    ("deb_reader_size", ctypes.c_size_t, []),
    ("deb_reader_start", None, _MEMORY + _KIND + _TO_ANSWER),
    ("deb_reader_feed", None, _MEMORY + _TEXT + _KIND + _TO_ANSWER),
    ("deb_reader_fields", Answer, _MEMORY + _TABLE + _TABLE + _TABLE),
    ("deb_reader_free", None, _MEMORY),
]


def _library() -> ctypes.CDLL:
    beside = Path(__file__).with_name("libdebctl.so")
    path = os.environ.get("DEBCTL_LIBRARY") or (beside if beside.exists() else "libdebctl.so.0")
    library = ctypes.CDLL(str(path))
    for name, result, arguments in _FUNCTIONS:
        function = getattr(library, name)
        function.restype, function.argtypes = result, arguments
    return library


lib = _library()


def bytes_of(text: Text) -> bytes:
    """Returns the bytes of a text: of a `str` its UTF-8."""
    if isinstance(text, str):
        return str.encode(text)
    if type(text) is bytes:
        return text
    try:
        return bytes(memoryview(text))
    except TypeError:
        name = type(text).__name__
        raise TypeError(f"a text is a str or a bytes-like object, not {name}") from None


def text_of(text: Text) -> Tuple[bytes, int]:
    """Returns a text as the library takes it: its bytes and their number."""
    data = bytes_of(text)
    return data, len(data)


def texts_of(texts: Iterable[Text], what: str = "profiles") -> "ctypes.Array[TextAt]":
    """Returns texts as the library takes them; `what` is what they are."""
    if isinstance(texts, (str, bytes, bytearray, memoryview)):
        raise TypeError(f"{what} are an iterable of texts, not one {type(texts).__name__}")
    items = [TextAt(*text_of(text)) for text in texts]
    return (TextAt * len(items))(*items)


def kind_of(kind: str) -> int:
    """Returns the number of a kind of document."""
    if not isinstance(kind, str):
        raise TypeError(f"a kind is a str, not {type(kind).__name__}")
    if kind not in _KINDS:
        raise ValueError(f"unknown kind: {kind!r}")
    return _KINDS[kind]


def refusal_of(answer: Union[Answer, Comparison], field: Optional[str] = None) -> Optional[Refused]:
    """Returns the refusal of an answer, or None."""
    if answer.status == NO_MEMORY:
        raise MemoryError
    if answer.status in (REFUSED, SECOND_REFUSED):
        second = answer.status == SECOND_REFUSED
        return Refused(answer.code, getattr(answer, "line", 0), second, field)
    return None


def answered(answer: AnyAnswer) -> AnyAnswer:
    """Returns an answer, or raises its exception."""
    refusal = refusal_of(answer)
    if refusal is not None:
        raise refusal
    return answer


def _room(size: int) -> Tuple[Any, Any]:
    """Returns room for what a call writes, and the pointer to it. Long room takes memory only as
    far as it is written."""
    try:
        room: Union[bytearray, mmap.mmap] = bytearray(size) if size < _LONG else mmap.mmap(-1, size)
    except OSError:
        raise MemoryError from None
    return room, ctypes.byref(ctypes.c_char.from_buffer(room))


def canonical_room(length: int) -> int:
    """Returns room for the canonical text of a file or of a relation with so many bytes: spaces at
    most double it."""
    return 2 * length + 64


def lines_room(length: int) -> int:
    """Returns room for lines of that length. What has many more lines than usual is written twice.
    """
    return min(length, 1 << 28) + 4096


def written(room: int, call: Callable[..., Answer]) -> Tuple[Answer, bytes]:
    """Returns the answer of a call that writes to a buffer, and what it wrote. If there isn't
    enough room, it is called again with as much as it needs."""
    length = ctypes.c_size_t()
    while True:
        out, pointer = _room(room)
        answer = call(pointer, room, ctypes.byref(length))
        if answer.status != NO_ROOM:
            return answer, bytes(memoryview(out)[: length.value])
        room = length.value


def given(room: int, call: Callable[..., Answer]) -> Tuple[Answer, bytes]:
    """Does the same, or raises the exception of the answer."""
    answer, text = written(room, call)
    return answered(answer), text


def tables(
    sizes: Sequence[int], rooms: List[int], call: Callable[..., Answer]
) -> Tuple[Answer, List[bytes]]:
    """Returns the answer of a call that writes tables, and what it wrote: `sizes` are those of an
    item of each, and `rooms` how many each has room for. If there isn't enough room, it is called
    again with as much as it needs."""
    counts = [ctypes.c_size_t() for _ in rooms]
    while True:
        outs, words = [], []
        for size, room, count in zip(sizes, rooms, counts):
            out, pointer = _room(max(size * room, 1))
            outs.append(out)
            words += [pointer, room, ctypes.byref(count)]
        answer = call(*words)
        lengths = [count.value for count in counts]
        if answer.status != NO_ROOM:
            return answer, [
                bytes(memoryview(out)[: size * length])
                for size, out, length in zip(sizes, outs, lengths)
            ]
        rooms = [max(room, length) for room, length in zip(rooms, lengths)]


class Memory:
    """Memory in which a structure of the library lies, from the call that fills it to the one that
    frees it.

    It is freed once, when nothing refers to this object. The collector of garbage may end it
    before the last question: one of `__del__` in the same cycle, or of a thread that this starts.
    A question after that raises ValueError, and as long as one is being answered, nothing is
    freed. A question during a change raises ValueError, and so does a change during a question or
    another change. No lock is taken, since a signal handler may ask too: each step below is a single one of
    the interpreter's. A handler may also raise at any step: the answer, which the call writes, says
    whether the memory is filled.
    """

    size: ClassVar[int]
    free: ClassVar[Any]
    _ended = False
    _filled: List[int] = []  # nothing is freed before this is set

    def __init__(self, fill: Callable[[int, Any], object]) -> None:
        self._asking: Set[object] = set()  # an item for each question that is being answered
        self._changing: Set[object] = set()  # and for each change
        self._memory = (ctypes.c_uint64 * -(-self.size // 8))()
        self.answer = Answer(UNFILLED)
        address = ctypes.addressof(self._memory)
        self._filled = [address]  # the address, until it is freed
        fill(address, ctypes.byref(self.answer))

    def ask(self, call: Callable[[int], Asked]) -> Asked:
        """Returns what a call returns that takes the address."""
        question = object()
        try:
            self._asking.add(question)
            if self._ended:
                raise ValueError("the memory is closed")
            if self._changing:
                raise ValueError("the memory is being changed")
            found = call(self._filled[0])
        finally:
            self._asking.discard(question)
            if self._ended:
                self._free()
        return found

    def change(self, call: Callable[[int], object]) -> None:
        """Calls what takes the address and changes what lies there."""
        change = object()
        try:
            self._changing.add(change)
            if self._ended:
                raise ValueError("the memory is closed")
            if self._asking or len(self._changing) > 1:
                raise ValueError("the memory is in use")
            call(self._filled[0])
        finally:
            self._changing.discard(change)
            if self._ended:
                self._free()

    def _free(self) -> None:
        if self._filled and not self._asking and not self._changing:
            try:
                address = self._filled.pop()
            except IndexError:
                return
            if self.answer.status != UNFILLED:
                self.free(address)

    def __del__(self) -> None:
        self._ended = True
        self._free()


class IndexMemory(Memory):
    """Memory of a loaded index."""

    size, free = lib.deb_index_size(), lib.deb_index_free


class ReaderMemory(Memory):
    """Memory of a reader that is fed a file in pieces."""

    size, free = lib.deb_reader_size(), lib.deb_reader_free
