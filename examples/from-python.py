"""The report of cancelled-swap.harbour, and of cancelled-swap-mended.harbour, checked from Python: the columns at each configuration, or the refusal.
After `tools/build gelvomas`, in the repository's root:

cc -shared -Wl,--whole-archive target/staticlib/libgelvomas.a -Wl,--no-whole-archive -o target/libgelvomas.so
python3 examples/from-python.py
"""

from ctypes import CDLL, POINTER, c_bool, c_size_t, c_uint16, c_uint64

check = CDLL("target/libgelvomas.so").gelvomas_check
check.argtypes = 3 * [c_uint64] + 6 * [POINTER(c_uint16), c_size_t] + [c_bool, POINTER(c_uint64), c_size_t, POINTER(c_uint64)]
check.restype = c_uint64
rows, refusal = (1024 * c_uint64)(), (4 * c_uint64)()
for ramp in 1, 2:  # the report asks for ramp where swaps is on; mended, where ramps is on
    tables = (1, 0, 0, 2, 0, 0, 2, 1, 0), (0, 0, 1, 0, 2, 2, 0, 0, 2, ramp), (0, 3), (), (1, 0, 0, 0, 3, 2, 0, 0), (2, 2, 2)
    words = [part for table in tables for part in ((len(table) * c_uint16)(*table), len(table))]
    if check(2, 3, 0, *words, False, rows, len(rows), refusal) == 0:  # False for the strict reading
        print("accepted", [[a for a in range(3) if rows[16 * a] >> c & 1] for c in range(4)])
    else:
        print("refused", *refusal)
