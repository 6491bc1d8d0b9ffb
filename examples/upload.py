"""Says what is missing of a pack that is still being uploaded, and unpacks one that is complete: upload.py S FILE for a matrix pack, upload.py M FILE for an array pack.
The library is the file that GALIMPUKAS_LIBRARY names, else the one that tools/library wrote, else the system's. The deviations of Mode 1 are taken as IEEE."""
import ctypes
import os
import sys

WRITTEN = os.path.join(os.path.dirname(os.path.abspath(__file__)), "..", "target", "galimpukas", "libgalimpukas.so")
LIBRARY = ctypes.CDLL(os.environ.get("GALIMPUKAS_LIBRARY") or (WRITTEN if os.path.exists(WRITTEN) else "libgalimpukas.so.1"))
COMPLETE, UNFINISHED, IEEE = 0, 1, 0


def call(name, *given):
    """A call of the header: what is no number goes as a pointer and a count. Which answer it is, and its value."""
    values = []
    for value in given:
        values += [ctypes.c_size_t(value)] if isinstance(value, int) else [value, ctypes.c_size_t(len(value))]
    function = LIBRARY[name]
    function.restype = ctypes.c_uint64
    return divmod(function(*values), 2**32)


def say_matrix(pack):
    fields = (ctypes.c_size_t * 7)()
    call("matrix_fields", pack, IEEE, fields)
    n, _, mapped, length, _, _, mode = fields
    m = n * (n - 1) // 2
    lists = {"deviations": (ctypes.c_uint64 * n)(), "coefficients": (ctypes.c_uint64 * m)(), "marks": (ctypes.c_uint8 * m)()}
    call("matrix_unpack", pack, IEEE, *lists.values())
    print("variables", n, "in Mode", mode)
    for name, values in lists.items():
        print(name, *values)
    scaled = (ctypes.c_int64 * m)()
    if mapped and call("matrix_scale", lists["coefficients"], length, scaled)[0] == COMPLETE:
        print("scaled", *scaled, "of", 2 ** (8 * length - 2))


def say_array(pack):
    fields = (ctypes.c_size_t * 11)()
    call("array_fields", pack, fields)
    print("sizes", *fields[1 : 1 + fields[0]], "of elements of", fields[9], "bytes, from byte", fields[10])


def main(kind, name):
    with open(name, "rb") as file:
        pack = file.read()
    answer, value = call("array_verdict", pack) if kind == "M" else call("matrix_verdict", pack, IEEE)
    if answer == COMPLETE:
        print(f"complete: a pack of {value} bytes, {len(pack) - value} more behind it")
        say_array(pack) if kind == "M" else say_matrix(pack)
    elif answer == UNFINISHED:
        print(f"unfinished: {len(pack)} bytes are there, at least {value} are missing")
    else:
        print(f"refused: reason {value >> 16} at byte {value & 0xFFFF}; no more bytes will mend it")
    return 0 if answer == COMPLETE else 1


if len(sys.argv) != 3:
    print("upload.py S|M FILE", file=sys.stderr)
    sys.exit(2)
sys.exit(main(*sys.argv[1:]))
