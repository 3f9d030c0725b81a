#!/usr/bin/env python3
"""Counts how often the reference answers the odd neighbour of a power that lies half way.

    half_way.py ORACLE

Takes x = m^q 2^(qj) and y = p/q with odd m, q = 1, 2, 4, 8 or 16 and p up to 150, where x^y = m^p 2^(pj)
lies exactly half way between two f32, and compares the reference's answer with the even neighbour,
worked out in whole numbers. ORACLE is as for make_answers.py.
"""
import struct
import subprocess
import sys
from fractions import Fraction


def place(v):
    """The exponent of v's last place in f32, and of its leading bit."""
    lead = v.numerator.bit_length() - v.denominator.bit_length()
    if Fraction(2) ** lead > v:
        lead -= 1
    return max(lead - 23, -149), lead


def pattern(v):
    """The bit pattern of a positive v, if it is an f32."""
    last, lead = place(v)
    digits = v / Fraction(2) ** last
    if digits.denominator != 1 or lead > 127:
        return None
    if lead < -126:
        return digits.numerator
    return (lead + 127 << 23) + digits.numerator - (1 << 23)


def even_neighbour(v):
    """The pattern of the even neighbour of a v half way between two f32, else None."""
    last, _ = place(v)
    digits = v / Fraction(2) ** last
    if digits.denominator != 2:
        return None
    low = digits.numerator // 2
    rounded = (low + low % 2) * Fraction(2) ** last
    if rounded == 0:
        return 0
    return 0x7F800000 if rounded >= Fraction(2) ** 128 else pattern(rounded)


def pairs():
    found = {}
    for q in (1, 2, 4, 8, 16):
        for p in range(1, 151):
            if p == q or q > 1 and p % 2 == 0:
                continue
            for m in range(1, 1 << 13, 2):
                if m ** q >= 1 << 24 or (m ** p).bit_length() > 25:
                    break
                for j in range(-150, 128):
                    if (m ** p).bit_length() != 25 and p * j != -150:
                        continue
                    x = m ** q * Fraction(2) ** (q * j)
                    r = m ** p * Fraction(2) ** (p * j)
                    if not Fraction(1, 1 << 149) <= x < 1 << 128 or not Fraction(1, 1 << 150) <= r < 1 << 128:
                        continue
                    bits, even = pattern(x), even_neighbour(r)
                    if bits is not None and even is not None:
                        found[bits, struct.unpack('>I', struct.pack('>f', p / q))[0]] = even, q
    return found


def main():
    found = pairs()
    text = ''.join('%08x %08x\n' % k for k in found)
    out = subprocess.run([sys.argv[1]], input=text, capture_output=True, text=True, check=True).stdout.split()
    wrong = [q for (even, q), r in zip(found.values(), out) if int(r, 16) != even]
    whole = sum(q == 1 for _, q in found.values())
    print('whole exponents: %d of %d are odd' % (wrong.count(1), whole))
    print('fractional exponents: %d of %d are odd' % (len(wrong) - wrong.count(1), len(found) - whole))


main()
