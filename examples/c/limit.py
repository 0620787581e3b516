"""Do what limit.c does, in Python with ctypes and without a compiler. Arrays go in and out without
text.

    python3 limit.py libdmf.so.0
"""

from ctypes import CDLL, byref, c_size_t, c_uint32, c_uint64, c_void_p
from sys import argv

library = CDLL(argv[1] if len(argv) > 1 else "libdmf.so.0")
library.dmf_session_value.restype = c_uint64
five = c_size_t(5)
tails = (c_uint32 * 5)(1, 1, 2, 2, 3)
heads = (c_uint32 * 5)(2, 3, 3, 4, 4)
capacities = (c_uint64 * 5)(3, 2, 5, 2, 3)
flows = (c_uint64 * 5)()
session, bad_arc = c_void_p(), c_size_t()
ends = (tails, five, heads, five, capacities, five)
status = library.dmf_session_new(
    c_uint32(4), c_uint32(1), c_uint32(4), *ends, c_uint32(100), byref(session), byref(bad_arc)
)
if (
    status == 0
    and library.dmf_session_solve(session) == 0
    and library.dmf_session_flows(session, flows, five) == 0
):
    print(library.dmf_session_value(session), list(flows))
    library.dmf_session_free(session)
