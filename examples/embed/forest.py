"""The minimum spanning forest of a small network in memory, printed as `boruvka` prints it.

usage: python3 forest.py [LIBRARY]

Without an argument it uses the installed shared library, which the system's loader finds after `ldconfig`. To use the library of a PREFIX of your own:

    python3 forest.py PREFIX/lib/libboruvka.so.1
"""
import ctypes
import re
import sys
from array import array


class Link(ctypes.Structure):
    """`struct boruvka_link`, as numpy's dtype [("weight", "i8"), ("low", "u4"), ("high", "u4")] lays one out."""

    _fields_ = [("weight", ctypes.c_int64), ("low", ctypes.c_uint32), ("high", ctypes.c_uint32)]


def loaded(path):
    library = ctypes.CDLL(path)
    library.boruvka_forest.argtypes = [ctypes.c_uint32, ctypes.c_void_p, ctypes.c_size_t]
    library.boruvka_forest.restype = ctypes.c_int64
    library.boruvka_fault_text.argtypes = [ctypes.c_int64, ctypes.c_char_p, ctypes.c_size_t]
    library.boruvka_fault_text.restype = ctypes.c_size_t
    return library


def forest(library, n, links):
    """Returns the forest of links in a writable buffer, such as an array or one of numpy. It overwrites the first links."""
    size, view = ctypes.sizeof(Link), memoryview(links)
    # ctypes would truncate n to 32 bits, and read floats as whole numbers (in a format, a name is between colons)
    if not 0 <= n < 2**32:
        raise ValueError(f"{n} vertices")
    if re.sub("[<=]|:[^:]*:", "", view.format) not in ("q", "l", "T{qII}", "T{lII}") or view.nbytes % size:
        raise ValueError(f"links of the layout {view.format}, of {view.nbytes} bytes")
    held = (Link * (view.nbytes // size)).from_buffer(links)
    count = library.boruvka_forest(n, ctypes.addressof(held), len(held))
    if count < 0:
        text = ctypes.create_string_buffer(64)
        library.boruvka_fault_text(count, text, len(text))
        raise ValueError(text.value.decode())
    return held[:count]


def main(arguments):
    network = [(17, 1, 2), (10, 1, 3), (2, 2, 4), (0, 3, 5), (0, 4, 3), (3, 4, 6), (0, 5, 2), (20, 5, 6)]
    # a link is two numbers of 64 bits: its weight, and its endpoints
    links = array("q", [word for weight, low, high in network for word in (weight, low | high << 32)])
    found = forest(loaded(arguments[0] if arguments else "libboruvka.so.1"), 6, links)
    print(f"p sp 6 {len(found)}")
    for link in found:
        print(f"a {link.low} {link.high} {link.weight}")


if __name__ == "__main__":
    main(sys.argv[1:])
