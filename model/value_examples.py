#!/usr/bin/env python3
"""What the program value_examples prints, by fractions, for document 01's plain decimals and floats and the float differences of
document 02, (b).

usage: value_examples.py < crates/value_examples/stdin > crates/value_examples/stdout
"""
import re
import struct
import sys
from fractions import Fraction

DECIMAL = re.compile(rb"(?:0|[1-9][0-9]*)(?:\.([0-9]+))?")
C99 = re.compile(rb"[+-]?(?:[0-9]+\.?[0-9]*|\.[0-9]+)(?:[eE][+-]?[0-9]{1,3})?")


def decimal(text, places, least, most):
    m = DECIMAL.fullmatch(text)
    if not m or len(m.group(1) or b"") > places:
        return None
    x = Fraction(text.decode())
    return x if least <= x <= most else None


def float_difference(text):
    if not C99.fullmatch(text):
        return None
    x = Fraction(text.decode())
    fits = x == 0 or not text.startswith(b"-")
    return x if fits and x <= 2097152 and (x * 10**6).denominator == 1 else None


def exact(x, least_digits):
    """The finite decimal of x with no more digits behind the point than it needs, but at least so many."""
    sign, x, digits = "-" if x < 0 else "", abs(x), ""
    rest = x - int(x)
    while rest or len(digits) < least_digits:
        rest *= 10
        digits += str(int(rest))
        rest -= int(rest)
    return sign + str(int(x)) + ("." + digits if digits else "")


def shown(x, least_digits, refused):
    return str(refused) if x is None else exact(x, least_digits)


def double(text):
    x = struct.unpack(">d", bytes.fromhex(text.decode()))[0]
    if x != x or x in (float("inf"), float("-inf")):
        return None
    x = Fraction(x)
    return x if (x * 1024).denominator == 1 and abs(x) <= 1048576 else None


def main():
    for line in sys.stdin.buffer.read().split(b"\n")[:-1]:
        ms = Fraction(1, 1000)
        words = [
            shown(decimal(line, 0, 0, 4294967295), 0, 19),
            shown(float_difference(line), 1, 19),
            shown(decimal(line, 3, ms, 86400), 3, 19),
            shown(decimal(line, 3, 0, 86400), 3, 19),
        ]
        if re.fullmatch(rb"[0-9a-f]{16}", line):
            words.append(shown(double(line), 1, 10))
        print(" ".join(words))


main()
