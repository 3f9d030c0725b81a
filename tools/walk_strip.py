#!/usr/bin/env python3
"""Walks a strip at random, and compares what `striplines` writes with the rules of docs/STRIP.md.

    walk_strip.py STRIPLINES ORACLE [WALKS]

STRIPLINES is the program. ORACLE is the reference's portable build, as docs/TESTS.md has it. Each walk
is an input of up to 65,536 bytes: calls of all kinds, most of them accepted, on lists of the right
length and of others, among lines that are no call. The rules are written down here once more, on
lists of cells, apart from the definitions of the proofs; powers come from the reference alone.
Prints how many lines were compared and how many differed; the first differences are shown.
"""
import random
import subprocess
import sys

SIGN = 0x80000000
NAN = 0x7FC00000
MOST = 65536
READINGS = [0, SIGN, 0x3F800000, 0x40400000, 0xC0400000, 0x3F000000, 0x3EE147AE, 0x7F800000, 0xFF800000,
            0x7FC00000, 0xFFC00001, 1, 0x80000001, 0x41700000, 0x3F804000]
EXPONENTS = [0x40400000, 0x40000000, 0x3F000000, 0x400CCCCD, 0x3EE66666, 0, SIGN, 0x3F800000, 0xC0400000,
             0x40200000, 0x7F800000, 0xFF800000, 0x7FC00000, 0xFFFFFFFF, 0x41300000, 0xBFC00000]


def is_nan(bits):
    return bits & 0x7FFFFFFF > 0x7F800000


def one_nan(bits):
    return NAN if is_nan(bits) else bits


def odd(y):
    """Whether y is a whole and odd number."""
    size = y & ~SIGN
    exponent = (size >> 23) - 127
    if size >= 0x7F800000 or exponent < 0 or exponent > 23:
        return False
    significand = (size & 0x7FFFFF) | 0x800000
    return significand & ((1 << (23 - exponent)) - 1) == 0 and (significand >> (23 - exponent)) & 1 == 1


class Strip:
    """A strip and its cells. A cell is None, or [reading, curve, shown]; shown is a pair of reading and exponent."""

    def __init__(self):
        self.open = True
        self.cells = []
        self.curves = [None] * 16

    def shown(self, reading, curve):
        return ('power', reading, self.curves[curve])

    def call(self, words):
        """The answer's parts: strings, floats as ints, and powers to be looked up."""
        name, rest = words[0], words[1:]
        if not (name != 'reopen' if self.open else name in ('read-patch', 'reopen')):
            return ['not allowed']
        if name in ('finish', 'reopen'):
            self.open = name == 'reopen'
            return ['done']
        if name == 'spread':
            n = rest[0]
            if n == 0 or n > 4096:
                return ['refused 1']
            self.cells = [None] * n
            return [str(n)]
        if 'with' in rest:
            if rest[-1] != len(self.cells):
                return ['refused 2']
            rest = rest[:-2]
        return getattr(self, name.replace('-', '_'))(*rest)

    def patch(self, i):
        return ['refused 3'] if i >= len(self.cells) else None

    def curve(self, k, must_be_set=True):
        if k > 15:
            return ['refused 4']
        return ['refused 6'] if must_be_set and self.curves[k] is None else None

    def filled(self, i):
        return ['refused 8'] if self.cells[i] is None else None

    def set_curve(self, k, y):
        if refused := self.curve(k, False):
            return refused
        if is_nan(y):
            return ['refused 5']
        self.curves[k] = y
        under = [c for c in self.cells if c is not None and c[1] == k]
        for c in under:
            c[2] = self.shown(c[0], k)
        return [str(len(under))]

    def drop_curve(self, k):
        if refused := self.curve(k):
            return refused
        if any(c is not None and c[1] == k for c in self.cells):
            return ['refused 9']
        y, self.curves[k] = self.curves[k], None
        return [y]

    def lay_patch(self, i, x, k):
        if refused := self.patch(i) or self.curve(k):
            return refused
        if self.cells[i] is not None:
            return ['refused 7']
        self.cells[i] = [x, k, self.shown(x, k)]
        return [self.cells[i][2]]

    def change_reading(self, i, x):
        if refused := self.patch(i) or self.filled(i):
            return refused
        c = self.cells[i]
        c[0], c[2] = x, self.shown(x, c[1])
        return [c[2]]

    def move_patch(self, i, k):
        if refused := self.patch(i) or self.curve(k) or self.filled(i):
            return refused
        c = self.cells[i]
        c[1], c[2] = k, self.shown(c[0], k)
        return [c[2]]

    def lift_patch(self, i):
        if refused := self.patch(i) or self.filled(i):
            return refused
        x, self.cells[i] = self.cells[i][0], None
        return [x]

    def read_patch(self, i):
        if refused := self.patch(i) or self.filled(i):
            return refused
        x, k, shown = self.cells[i]
        return [x, str(k), shown]


def a_call(rng, strip):
    """Words of a call: strings, numbers, and floats as ('float', bits)."""
    n = len(strip.cells)
    reading = lambda: ('float', rng.choice(READINGS) if rng.random() < 0.5 else rng.getrandbits(32))
    exponent = lambda: ('float', rng.choice(EXPONENTS) if rng.random() < 0.8 else rng.getrandbits(32))
    patch = lambda: rng.randrange(n + 1) if rng.random() < 0.95 else rng.randrange(10**9)
    curve = lambda: rng.randrange(5) if rng.random() < 0.9 else rng.choice([5, 15, 16, 255, 999999999])
    kind = rng.random()
    if kind < 0.03 or (n == 0 and kind < 0.5):
        return ['spread', rng.choice([0, 1, 3, 4, 17, 64, 4096, 4097, 5000]) if rng.random() < 0.5 else rng.randrange(1, 33)]
    if kind < 0.05:
        return [rng.choice(['finish', 'reopen'])]
    if not strip.open and kind < 0.6:
        return ['reopen']
    words = rng.choice([
        lambda: ['set-curve', curve(), exponent()],
        lambda: ['set-curve', curve(), exponent()],
        lambda: ['drop-curve', curve()],
        lambda: ['lay-patch', patch(), reading(), curve()],
        lambda: ['lay-patch', patch(), reading(), curve()],
        lambda: ['change-reading', patch(), reading()],
        lambda: ['move-patch', patch(), curve()],
        lambda: ['lift-patch', patch()],
        lambda: ['read-patch', patch()],
        lambda: ['read-patch', patch()],
    ])()
    if rng.random() < 0.1:
        words += ['with', rng.choice([n, n + 1, 0, 4097, 9999])]
    return words


def written(word):
    return '%08x' % word[1] if isinstance(word, tuple) else str(word)


def a_bad_line(rng):
    return rng.choice(['', 'spread', 'spread x', 'lay-patch 1 2 3', 'read-patch 1  with 2', 'SPREAD 4', 'read-patch -1',
                       'set-curve 0 4040000', 'set-curve 0 40400000 0', 'finish now', 'read-patch 1 with', 'spread 4\r',
                       'spread 1000000000', 'set-curve 0 4040000G', 'read-patch', '\x00', 'reopen reopen', ' finish'])


def walk(rng):
    """The lines of an input, and the parts of each expected answer."""
    strip, lines, expected, size = Strip(), [], [], 0
    while True:
        if rng.random() < 0.02:
            line, parts = a_bad_line(rng), ['bad %d' % (len(lines) + 1)]
        else:
            words = a_call(rng, strip)
            line = ' '.join(written(w) for w in words)
            parts = strip.call([one_nan(w[1]) if isinstance(w, tuple) else w for w in words])
        size += len(line) + 1
        if size > MOST:
            return lines, expected
        lines.append(line)
        expected.append(parts)


def powers(oracle, pairs):
    """The reference's power of each pair; of a negative base by an odd exponent, that of the opposite base, turned."""
    asked = [(x & ~SIGN if x & SIGN and x != SIGN and odd(y) else x, y) for x, y in pairs]
    text = ''.join('%08x %08x\n' % p for p in asked)
    got = subprocess.run([oracle], input=text, capture_output=True, text=True, check=True).stdout.split()
    answers = {}
    for pair, ask, answer in zip(pairs, asked, got):
        bits = int(answer, 16)
        answers[pair] = bits if is_nan(bits) or ask == pair else bits ^ SIGN
    return answers


def main():
    program, oracle = sys.argv[1:3]
    walks = int(sys.argv[3]) if len(sys.argv) > 3 else 20
    compared = differing = 0
    for seed in range(walks):
        lines, expected = walk(random.Random(seed))
        pairs = sorted({p[1:] for parts in expected for p in parts if isinstance(p, tuple)})
        answers = powers(oracle, pairs)
        text = lambda p: p if isinstance(p, str) else '%08x' % one_nan(answers[p[1:]] if isinstance(p, tuple) else p)
        want = [' '.join(text(p) for p in parts) for parts in expected]
        run = subprocess.run([program], input='\n'.join(lines).encode('latin-1'), capture_output=True, check=True)
        got = run.stdout.decode('latin-1').split('\n')[:-1]
        compared += len(want)
        if len(got) != len(want):
            differing += 1
            print('walk %d: %d lines for %d' % (seed, len(got), len(want)))
        for number, (line, w, g) in enumerate(zip(lines, want, got), 1):
            if w != g:
                differing += 1
                if differing <= 10:
                    print('walk %d, line %d: %s: %s, expected %s' % (seed, number, line, g, w))
    print('%d lines compared, %d differences' % (compared, differing))
    return differing != 0


if __name__ == '__main__':
    sys.exit(main())
