#!/usr/bin/env python3
"""Prints the cheapest plan of a query file, by the installed shared object: python3 plan.py QUERY-FILE"""
import ctypes
import sys

LONGEST_PLAN, NO_ROUTE, REFUSED = 273, 0, 1024  # as include/fanchuki.h has them
KIND = {1: "load", 2: "send", 3: "join"}

if len(sys.argv) != 2:
    sys.exit(__doc__)
with open(sys.argv[1], "rb") as file:
    query = file.read()
fanchuki_plan = ctypes.CDLL("libfanchuki.so.2").fanchuki_plan
fanchuki_plan.restype = ctypes.c_uint64
fanchuki_plan.argtypes = [ctypes.c_char_p, ctypes.c_size_t, ctypes.c_char_p, ctypes.c_size_t]
plan = ctypes.create_string_buffer(LONGEST_PLAN)
answer = fanchuki_plan(query, len(query), plan, len(plan))
if answer >= REFUSED:
    print("refused", answer - REFUSED)
elif answer == NO_ROUTE:
    print("no route")
else:
    for kind, argument in zip(plan.raw[1:answer:2], plan.raw[2:answer:2]):
        print(KIND[kind], argument)
sys.exit(answer >= REFUSED or answer == NO_ROUTE)
