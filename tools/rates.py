#!/usr/bin/env python3
"""rates.py: prints what crates/rate_check must print, from the machine's own IEEE 754 arithmetic: one division, one square root and one addition of doubles, each rounded once.
Compare: python3 tools/rates.py | diff - crates/rate_check/stdout"""
import math
import struct

EXAMPLES = [(4, 0), (9, 3), (0, 0), (255, 254), (255, 255), (255, 0), (256, 0), (3, 4), (0, 1), (2**64 - 1, 2**64 - 1)]


def rated(most, least):
    """The number and the rate of a pair of counts."""
    if most > 255 or least > most:
        return 19, 0.0
    return 0, math.sqrt(float(most) / float(least + 1)) + float(least)


def bits(rate):
    return struct.unpack(">Q", struct.pack(">d", rate))[0]


def line(most, least):
    number, rate = rated(most, least)
    print("%d\t%d\t%d\t%016x" % (most, least, number, bits(rate)))


for most, least in EXAMPLES:
    line(most, least)
for most in range(0, 256, 17):
    for least in (0, most // 3, most // 2, most):
        line(most, least)
pairs, total = 0, 0
for most in range(256):
    for least in range(most + 1):
        pairs += 1
        total = (total * 33 + bits(rated(most, least)[1])) % 2**64
print("%d\t%016x" % (pairs, total))
