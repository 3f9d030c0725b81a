#!/usr/bin/env python3
"""Makes a list of the reference's answers: lines `x y answer`, each a bit pattern of an f32.

    make_answers.py ORACLE [OTHER] > crates/NAME/stdin

ORACLE is a program that reads lines of two bit patterns and writes, for each, the bit pattern of
the reference's power, every NaN as 7fc00000. docs/TESTS.md says how it is built. With OTHER, the
reference in another build, the half-way powers at which the two differ are added, up to 200.

Where x is negative and y is odd the reference's power of -x is taken, with its sign turned: the
reference gives the sign to one part only of its fallback (docs/DIFFERENCES.md).
"""
import math
import random
import struct
import subprocess
import sys

SIGN = 0x80000000


def value(bits):
    return struct.unpack('>f', struct.pack('>I', bits))[0]


def pattern(v):
    try:
        return struct.unpack('>I', struct.pack('>f', v))[0]
    except OverflowError:
        return 0x7F800000 | (SIGN if v < 0 else 0)


def near(bits, n):
    """The pattern and its n neighbours on either side, of the same sign."""
    low = bits & ~SIGN & 0xFFFFFFFF
    return [(bits & SIGN) | (low + d) for d in range(-n, n + 1) if 0 <= low + d <= 0x7F800000]


def special_pairs():
    sizes = [
        0x00000000, 0x00000001, 0x00000002, 0x00400000, 0x007FFFFF, 0x00800000, 0x00800001,
        0x3F000000, 0x3F7FFFFF, 0x3F800000, 0x3F800001, 0x40000000, 0x40400000, 0x7F7FFFFF,
        0x7F800000, 0x7FC00000,
    ]
    exponents = sizes + [
        0x3E800000, 0x3EFFFFFF, 0x3F000001, 0x3FFFFFFF, 0x40000001, 0x40200000, 0x403FFFFF,
        0x40400001, 0x40A00000, 0x41B80000, 0x41BFFFFF, 0x41C00000, 0x41C00001, 0x41C80000,
        0x4B7FFFFF, 0x4B800000, 0x4B800001, 0x4EFFFFFF, 0x4F000000, 0x4F16FFFF, 0x4F170000,
        0x4F170001, 0x4F7FFFFF, 0x4F800000, 0x7F000000,
    ]
    for x in sizes:
        for y in exponents:
            for s in (0, SIGN):
                for t in (0, SIGN):
                    yield x | s, y | t


def odd_with_bits(s, rng):
    return 1 if s == 1 else (1 << (s - 1)) | (rng.getrandbits(s - 1) | 1)


def loop_borders(rng):
    for y in range(3, 26):
        most = 25 // y + 2
        for s in {1, 2, most - 1, most, most + 1, min(24, most + 6)}:
            if s < 1 or s > 24:
                continue
            for scale in (-149, -130, -40, -3, 0, 5, 90):
                m = odd_with_bits(s, rng)
                v = m * 2.0 ** scale
                if v < 2.0 ** 128:
                    b = pattern(v)
                    yield b | (SIGN if rng.random() < 0.4 else 0), pattern(float(y))


def halfway():
    """x = m^q 2^(q j) and y = p / q, so that x^y = m^p 2^(p j) lies halfway between two f32."""
    found = []
    for q in (1, 2, 4, 8, 16):
        for p in range(1, 60):
            if q > 1 and p % 2 == 0 or p == q:
                continue
            for m in range(1, 4096, 2):
                if m ** q >= 1 << 24 or m ** p >= 1 << 40:
                    break
                bits = (m ** p).bit_length()
                tops = []
                if bits == 25:
                    tops += [j for j in range(-60, 60)]
                if bits <= 25 and 150 % p == 0:
                    tops.append(-150 // p)
                for j in tops:
                    x = m ** q * 2.0 ** (q * j)
                    r = m ** p * 2.0 ** (p * j)
                    if 2.0 ** -149 <= x < 2.0 ** 128 and 2.0 ** -151 <= r < 2.0 ** 128 and value(pattern(x)) == x:
                        found.append((pattern(x), pattern(p / q)))
    return sorted(set(found))


def halfway_sample(rng):
    found = halfway()
    rng.shuffle(found)
    for x, y in found[:700]:
        yield x, y
        if value(y).is_integer():
            yield x | SIGN, y


def builds_differ(oracle, other):
    found = halfway()
    differing = [p for p, a, b in zip(found, ask(oracle, found), ask(other, found)) if a != b]
    return differing[:200]


def sign_of_the_fallback():
    """Negative bases and odd exponents at which the reference's fallback and its power of -x differ."""
    yield 0xBF45E3BF, 0x43390000
    yield 0xBFC5E3BF, 0x43390000


def range_borders(rng):
    for _ in range(90):
        x = pattern(math.exp(rng.uniform(-80, 80)))
        lg = math.log2(value(x))
        if abs(lg) < 1e-6:
            continue
        for end in (128.0, -126.0, -149.0, -150.0):
            y = end / lg
            if 2.0 ** -120 < abs(y) < 2.0 ** 120:
                for b in near(pattern(y), 1):
                    yield x, b


def negative_bases(rng):
    for _ in range(250):
        x = pattern(-math.exp(rng.uniform(-20, 20)))
        yield x, pattern(float(rng.randint(-30, 30)))
        yield x, pattern(rng.randint(-60, 60) / 2)


def general(rng):
    for _ in range(400):
        yield pattern(rng.uniform(0, 4)), pattern(rng.uniform(-8, 8))
    for _ in range(300):
        yield pattern(rng.uniform(0, 1.2)), pattern(rng.choice([2.2, 0.45, 1 / 2.4, 2.6, 2.4, 1 / 2.2]))
    for _ in range(300):
        yield rng.getrandbits(32), rng.getrandbits(32)


def quieted(bits):
    return 0x7FC00000 if bits & ~SIGN & 0xFFFFFFFF > 0x7F800000 else bits


def odd(y):
    v = value(y)
    return math.isfinite(v) and v.is_integer() and abs(v) < 2 ** 24 and int(v) % 2 == 1


def ask(oracle, pairs):
    text = ''.join('%08x %08x\n' % p for p in pairs)
    out = subprocess.run([oracle], input=text, capture_output=True, text=True, check=True).stdout
    return [int(line, 16) for line in out.split()]


def main():
    oracle = sys.argv[1]
    rng = random.Random(20261117)
    differing = builds_differ(oracle, sys.argv[2]) if len(sys.argv) > 2 else []
    pairs = []
    seen = set()
    for maker in (special_pairs(), loop_borders(rng), halfway_sample(rng), differing, sign_of_the_fallback(), range_borders(rng), negative_bases(rng), general(rng)):
        for x, y in maker:
            p = (quieted(x), quieted(y))
            if p not in seen:
                seen.add(p)
                pairs.append(p)
    turned = [(x & ~SIGN & 0xFFFFFFFF, y) if SIGN < x < 0xFF800000 and odd(y) else (x, y) for x, y in pairs]
    answers = ask(oracle, turned)
    plain = ask(oracle, pairs)
    signs = 0
    for (x, y), (u, _), r, s in zip(pairs, turned, answers, plain):
        if u != x:
            r = quieted(r ^ SIGN) if quieted(r) != 0x7FC00000 else r
        if r != s:
            signs += 1
        print('%08x %08x %08x' % (x, y, r))
    print('%d answers, %d where the sign of the fallback matters' % (len(pairs), signs), file=sys.stderr)


main()
