"""The C names of the proved library: what each takes and answers, and how they are bound to the loaded library.

Written by tools/bindings from crates/exports/src/lib.rt; change that, not this.
"""
import ctypes
import re

# The ctypes of the library's own words.
WORDS = {
    "bool": ctypes.c_bool,
    "u8": ctypes.c_uint8,
    "u32": ctypes.c_uint32,
    "u64": ctypes.c_uint64,
    "i64": ctypes.c_int64,
    "usize": ctypes.c_size_t,
    "f64": ctypes.c_double,
}

# By name: what it answers, and its arguments, each with its kind. A kind is a word ("f64"); a slice that is read ("&[f64]") or written
# ("&mut [f64]"), passed as a pointer and a length in entries; one word that is written ("&mut usize"); or an array ("&[u32; 32]",
# "&mut [u32; 32]"). The last two are passed as a pointer.
NAMES = {
    # NAMES: here
}


def is_slice(kind):
    """Whether a length goes with the pointer."""
    return kind.startswith("&") and kind.endswith("]") and ";" not in kind


def word(kind):
    """The word of a kind: "f64" of "&mut [f64]"."""
    return re.search(r"\w+(?=[;\]]|$)", kind)[0]


def passed(kind):
    """The ctypes in which an argument of this kind is passed: one, or of a slice two."""
    if not kind.startswith("&"):
        return [WORDS[kind]]
    pointer = ctypes.POINTER(WORDS[word(kind)])
    return [pointer, ctypes.c_size_t] if is_slice(kind) else [pointer]


def bind(library):
    """Says to a loaded ctypes.CDLL what each name takes and answers. The functions by name."""
    functions = {}
    for name, (answer, arguments) in NAMES.items():
        function = getattr(library, name)
        function.restype = WORDS[answer]
        function.argtypes = [one for _, kind in arguments for one in passed(kind)]
        functions[name] = function
    return functions
