#!/usr/bin/env python3
"""Reads damaged stored surveys on its own, and prints what crates/damaged must print.

    python3 tools/damaged_surveys.py > crates/damaged/stdout

Each row of `byte P` tells, for the values 0 to 255 of that byte, whether the survey then opens (`ok`) or the refusal's
number and, where it has one, its place. Each row of `length N` tells the same of the first N bytes.
"""
import struct

SURVEY = (
    struct.pack("<HH", 3, 4)
    + struct.pack("<HHH", 2, 1, 0)
    + b"".join(struct.pack("<HHI", *rec) for rec in [(3, 4, 7), (2, 3, 1), (3, 0, 1048576), (1, 0, 300)])
)


def verdict(data):
    if len(data) < 4:
        return "13"
    n, r = struct.unpack_from("<HH", data)
    if not 0 < n < 257 or r > 1024 or len(data) - 4 != 2 * n + 8 * r:
        return "13"
    heads = [h for (h,) in struct.iter_unpack("<H", data[4 : 4 + 2 * n])]
    recs = dict(enumerate(struct.iter_unpack("<HHI", data[4 + 2 * n :]), 1))
    owner = {}
    for bridge, index in enumerate(heads, 1):
        length = 0
        while index:
            length += 1
            if index not in recs or index in owner or length == 256:
                return f"14.{index}"
            owner[index] = bridge
            index = recs[index][1]
    loose = recs.keys() - owner.keys()
    if loose:
        return f"14.{min(loose)}"
    wrong = [i for i, rec in recs.items() if rec[2] not in range(1, 1048577)]
    return f"15.{min(wrong)}" if wrong else "ok"


def long_chain(r):
    """One bridge, whose chain goes from record r down to record 1."""
    return struct.pack("<HHH", 1, r, r) + b"".join(struct.pack("<HHI", 1, i, 5) for i in range(r))


for place in range(len(SURVEY)):
    row = [verdict(SURVEY[:place] + bytes([value]) + SURVEY[place + 1 :]) for value in range(256)]
    print(f"byte {place}:", *row)
for length in range(len(SURVEY) + 1):
    print(f"length {length}:", verdict(SURVEY[:length]))
for r in (0, 1, 255, 256, 257):
    print(f"chain of {r}:", verdict(long_chain(r)))
