#!/usr/bin/env python3
"""load.py LIBRARY.so: the monitor in Python, from a shared object. `make example` builds that and runs this."""
import ctypes
import sys

WORDS, ACCESS, ADD_RIGHT, FILESYSTEM, READ = 6144, 1, 20, 0, 0  # as in monitor.h


class Answer(ctypes.Structure):
    _fields_ = [("number", ctypes.c_uint32), ("place", ctypes.c_uint32)]


monitor = ctypes.CDLL(sys.argv[1])
monitor.rc_fresh.restype = monitor.rc_call.restype = Answer
monitor.rc_well_formed.restype = ctypes.c_bool
tables = (ctypes.c_uint32 * WORDS)()
lent = (tables, ctypes.c_size_t(WORDS))


def ask(what, kind, a, b, c, d=0):
    print(f"{what}: number {monitor.rc_call(*lent, kind, 0, a, b, c, d).number}")


print(f"fresh tables: number {monitor.rc_fresh(*lent).number}")
ask("process 0 reads the root", ACCESS, FILESYSTEM, 0, READ)
ask("role 0 gets READ to type 0", ADD_RIGHT, FILESYSTEM, 0, 0, READ)
ask("process 0 reads the root", ACCESS, FILESYSTEM, 0, READ)
print(f"well formed: {monitor.rc_well_formed(*lent)}")
