"""Finds the compiled library, opens it, and calls its C names by the names of their arguments."""
from __future__ import annotations

import ctypes
import functools
import mmap
import os
from typing import Any, Callable, Dict, List, Optional, Tuple

from . import names

FILE = "libreachvolem.so"
VARIABLE = "REACHVOLEM_LIB"
ROOT = os.path.dirname(os.path.dirname(os.path.dirname(os.path.abspath(__file__))))

# The letters of the buffer protocol for each of the library's words, the one of `array` first. Each has the word's size on 64 bits.
LETTERS = {"f64": ("d",), "u64": ("Q", "L"), "u32": ("I",), "u8": ("B",), "i64": ("q", "l")}


class NoLibrary(Exception):
    """The compiled library is not there; the one line says what to run."""


def candidates() -> List[str]:
    """Where the library is looked for, in turn."""
    named = os.environ.get(VARIABLE)
    if named:
        return [os.path.join(named, FILE) if os.path.isdir(named) else named]
    return [os.path.join(ROOT, *folder, FILE) for folder in (("target", "native"), ("dist", "lib"), ("dist",))]


@functools.lru_cache(maxsize=None)
def functions() -> Dict[str, Any]:
    """The C names, bound. Raises NoLibrary where there is none to open."""
    places = candidates()
    found = next((place for place in places if os.path.isfile(place)), None)
    if found is None:
        what = f"correct {VARIABLE}" if os.environ.get(VARIABLE) else f"run tools/shared-lib, or name its folder by {VARIABLE}"
        raise NoLibrary(f"the compiled library is not at {' or '.join(places)}: {what}")
    try:
        return names.bind(ctypes.CDLL(found))
    except (OSError, AttributeError) as why:
        raise NoLibrary(f"{found} cannot be used ({why}): run tools/shared-lib") from None


def plain(name: str, **given: Any) -> Callable[[Any], Any]:
    """A C name that refuses nothing, all of whose arguments but the last one are given by name; none of them is a slice."""
    return functools.partial(functions()[name], *(given[argument] for argument, _ in names.NAMES[name][1][:-1]))


class Call:
    """A C name with some of its arguments fixed. It is called with the others by name, and answers the number and what it carries.

    A slice is given as a ctypes array, which has its length. What is carried is filled in here: what stands under the last name, if it is
    one that is written, such as `carried`, or for a step of the cursor `slot` or `next`. Where there is none, 0 is carried.
    """

    def __init__(self, name: str, **fixed: Any) -> None:
        self._function: Callable[..., int] = functions()[name]
        self._arguments: List[Any] = []
        self._holes: Dict[str, Tuple[int, bool]] = {}
        _, declared = names.NAMES[name]
        last, kind = declared[-1]
        self._carried = last if kind.startswith("&mut ") else None
        for argument, kind in declared:
            is_slice = names.is_slice(kind)
            self._holes[argument] = len(self._arguments), is_slice
            self._arguments += [None, None] if is_slice else [None]
        self._fill(self._arguments, fixed)

    def _fill(self, arguments: List[Any], given: Dict[str, Any]) -> None:
        for argument, value in given.items():
            at, is_slice = self._holes[argument]
            arguments[at] = value
            if is_slice:
                arguments[at + 1] = len(value)

    def __call__(self, **given: Any) -> Tuple[int, int]:
        arguments = self._arguments.copy()
        carried = ctypes.c_size_t(0)
        if self._carried is not None:
            given[self._carried] = carried
        self._fill(arguments, given)
        return self._function(*arguments), carried.value


@functools.lru_cache(maxsize=64)
def _array(word: str, length: int) -> Any:
    return names.WORDS[word] * length


def room(word: str, length: int) -> Any:
    """A ctypes array to write at least so many entries into. Lengths are powers of two, so that few types are made."""
    return _array(word, 1 << max(6, (length - 1).bit_length()))()


class Lent:
    """A column that the library may write into: pages that are taken from the system only once something is written there."""

    def __init__(self, word: str, length: int) -> None:
        size = ctypes.sizeof(names.WORDS[word]) * length
        flags = mmap.MAP_PRIVATE | mmap.MAP_ANONYMOUS | getattr(mmap, "MAP_NORESERVE", 0)
        pages = mmap.mmap(-1, max(1, size), flags=flags)
        self.array = (names.WORDS[word] * length).from_buffer(pages)
        self.view = memoryview(pages)[:size].cast(LETTERS[word][0]).toreadonly()


def _as_it_is(word: str, given: Any) -> Optional[Any]:
    """A ctypes array over the numbers of `given` where they stand, or None where they have to be copied."""
    try:
        view = memoryview(given)
    except TypeError:
        return None
    fits = view.ndim == 1 and view.c_contiguous and view.format.lstrip("<=@") in LETTERS[word]
    if not fits or view.itemsize != ctypes.sizeof(names.WORDS[word]) or view.readonly or not len(view):
        return None
    return (names.WORDS[word] * len(view)).from_buffer(view)


def column(word: str, given: Any, what: str) -> Any:
    """A ctypes array of what a caller gives: an `array`, a numpy array or another buffer of just these numbers is taken as it stands,
    without a copy; a list, other numbers, and what may not be written to are copied."""
    taken = _as_it_is(word, given)
    if taken is not None:
        return taken
    numbers = list(given)
    try:
        if word != "f64" and any(number != int(number) or number < 0 for number in numbers):
            raise ValueError
        return (names.WORDS[word] * len(numbers))(*(float(n) if word == "f64" else _within(word, int(n)) for n in numbers))
    except (TypeError, ValueError, OverflowError):
        raise ValueError(f"{what} must be {'numbers' if word == 'f64' else 'whole numbers from 0 to 2^64 - 1'}") from None


def _within(word: str, number: int) -> int:
    """The number, if it fits its word: ctypes would cut it off without saying so."""
    if not 0 <= number < 1 << 8 * ctypes.sizeof(names.WORDS[word]):
        raise OverflowError
    return number


def whole(word: str, number: int, what: str) -> int:
    """A number that is asked with, if it fits its word."""
    try:
        return _within(word, int(number))
    except OverflowError:
        most = (1 << 8 * ctypes.sizeof(names.WORDS[word])) - 1
        raise ValueError(f"{what} is {number}: it must be from 0 to {most:,}") from None


def exact(word: str, number: Any, what: str) -> int:
    """A number by which something is written, if it is whole and fits its word: `whole` would take 12.5 as 12."""
    try:
        if number != int(number):
            raise ValueError
    except (TypeError, ValueError, OverflowError):
        raise ValueError(f"{what} is {number!r}: it must be a whole number") from None
    return whole(word, number, what)
