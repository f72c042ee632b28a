#!/usr/bin/env python3
"""Numerals and what each comes to, worked out with exact fractions: an implementation of its own of document 01's section.

    tools/numerals.py words       a list of numerals, one to a line (crates/numerals/stdin)
    tools/numerals.py answers     the answers to standard input's words (crates/numerals/stdout)

An answer is 14 for a malformed numeral, 15 for one out of range, or 0 and the bits of the nearest double in hex."""
import functools
import random
import re
import struct
import sys
from fractions import Fraction

SHAPE = re.compile(rb"([+-]?)([0-9]*)(?:\.([0-9]*))?(?:[eE]([+-]?)([0-9]{1,3}))?\Z")


def nearest(number):
    """The bits of the double nearest to a fraction that is not negative, ties to even."""
    if number == 0:
        return 0
    exponent = -1074
    while number >= Fraction(2) ** (exponent + 53):
        exponent += 1
    units = number / Fraction(2) ** exponent
    whole = units.numerator // units.denominator
    rest = units - whole
    if rest > Fraction(1, 2) or rest == Fraction(1, 2) and whole % 2 == 1:
        whole += 1
    if whole == 2**53:
        whole, exponent = 2**52, exponent + 1
    if whole < 2**52:
        return whole
    return (exponent + 1075) << 52 | (whole - 2**52)


@functools.lru_cache(maxsize=None)
def answer(word):
    shape = SHAPE.match(word)
    if shape is None:
        return "14"
    sign, whole, fraction, down, digits = (group or b"" for group in shape.groups())
    if whole + fraction == b"":
        return "14"
    coefficient = int(whole + fraction)
    power = int(digits or b"0") * (-1 if down == b"-" else 1) - len(fraction)
    if coefficient >= 10**15 or coefficient != 0 and not -22 <= power <= 22:
        return "15"
    bits = 0 if coefficient == 0 else nearest(coefficient * Fraction(10) ** power)
    return "0 %016x" % (bits | (1 << 63 if sign == b"-" else 0))


def value(bits):
    """The double of a pattern, as Python has it."""
    return struct.unpack(">d", bits.to_bytes(8, "big"))[0]


def halves():
    """Numerals that lie halfway between two doubles: c * 5 ^ k has 54 binary digits, the last of them 1."""
    made = []
    for k in range(2, 23):
        low, high = -(-(2**53) // 5**k), min(2**54 // 5**k, 10**15 - 1)
        odd = [c | 1 for c in (low, (low + high) // 2, high - 2) if low <= c | 1 <= high]
        made += ["%de%d" % (c, k) for c in sorted(set(odd + [c + 2 for c in odd if c + 2 <= high]))]
    return made


def words():
    random.seed(20261115)
    fixed = """.5 -0e999 1e23 1e22 . 999999999999999 1000000000000000
        0 -0 +0 00 0. .0 -.0 +.0 0e0 0e999 -0e-999 0.000e22 000000000000000000000000000000000000000000000000000000000000000
        1 -1 +1 1. 1.0 01 1e0 1E0 1e+0 1e-0 1e1 1e01 1e001 1e0001 1e22 1e+22 1e-22 1e-23 1e23 1e24 1e999 1e-999 1e022 1e023
        10e22 10e21 .1e23 .1e24 .01e24 .01e25 1.5e22 1.5e23 15e22 15e21 0.1 0.2 0.3 .7 1.52 .8402528435 .0072522239
        3.14159265358979 2.71828182845904 123456789012345 123456789012345e7 123456789012345e-22 999999999999999e22
        999999999999999e-22 999999999999999e23 999999999999999e-23 9999999999999999 99999999999999.9 .999999999999999
        1000000000000000e-5 100000000000000.0 0000000000000000000000000000000000000000000000000999999999999999
        0000000000000000000000000000000000000000000000001000000000000000 .0000000000000000000001 .00000000000000000000001
        1.0000000000000 1.00000000000000 1.000000000000000 18446744073709551616 18446744073709551617 4294967296 9007199254740993
        900719925474099 900719925474099.3 1e e e5 E . - + -. +. -e +e5 .e5 1.e 1.e5 1.e-5 1e+ 1e- 1e+- 1e5.0 1e.5 1.2.3 1..2 ..1 1-2
        1+2 --1 ++1 +-1 -+1 1e1e1 1ee1 1E1E1 0x10 1f 1_000 1,5 inf nan Infinity NaN -inf 1e1000 1e0000 1e-1000 abc a1 1a e1 -e1 .1. 5-
        \"1\" 'a' # ! * 1e22e 1e22. 1.5E-3 1.5E+3 -1.5E-3 +1.5E-3 -123.456e-7 +123.456e+7""".split()
    made = list(fixed)
    for _ in range(260):
        digits = "".join(random.choice("0123456789") for _ in range(random.randint(1, 17)))
        if random.random() < 0.6:
            at = random.randint(0, len(digits))
            digits = digits[:at] + "." + digits[at:]
        sign = random.choice(["", "", "-", "+"])
        power = ""
        if random.random() < 0.6:
            power = random.choice("eE") + random.choice(["", "-", "+"]) + str(random.randint(0, 30)).zfill(random.randint(1, 3))
        made.append(sign + digits + power)
    for _ in range(60):
        word = list(random.choice(made))
        word.insert(random.randint(0, len(word)), random.choice("0123456789.eE+-x"))
        made.append("".join(word))
    made += halves()
    made += ["%d%s" % (c, p) for c in (1, 7, 9, 99999999999999, 999999999999999) for p in ("e22", "e-22", "e23", "e-23")]
    return made


if __name__ == "__main__":
    if sys.argv[1:] == ["words"]:
        print("\n".join(words()))
    elif sys.argv[1:] == ["answers"]:
        for line in sys.stdin.buffer.read().split():
            print(answer(line))
    else:
        sys.exit(__doc__)
