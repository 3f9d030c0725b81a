#!/usr/bin/env python3
"""Brings the names of this repository's definitions to the spelling of the language's library.

    python3 tools/respell.py        at the top, once, after the toolchain's own port.py

Definitions are in snake case: `exactMult` becomes `exact_mult`, `curve-in` becomes `curve_in`, and
so do the fields and constructors of the records and data of specs/. A dash stays in the name of a
lemma, where it joins two names. The tables' lists take the ending `_list`, since their accessors
would fall together with them. Functions of src/, strings, inputs and outputs keep their names.
"""
import glob
import re

# Definitions, fields and constructors of specs/ that have a dash, or whose new name is another one.
DASHED = """
log-range-reduction=log_range_reduction_list log2-r=log2_r_list log2-r-td=log2_r_td_list
powf-r2=powf_r2_list log2-r2-dd=log2_r2_dd_list exp2-mid1=exp2_mid1_list
fromBits=from_bit_pair minusOne=negative_one
of-result is-count on-own cell-of sets-curve-of curve-in patch-in entry-under users-in objection-in
with-curve with-patch re-curved is-spread allowed-open allowed-finished all-reworked curve-number
not-allowed model-after shown-under own-cells is-own answer-of in-state strip-after cells-after
patch-number curve-unset patch-filled patch-empty curve-in-use with-count with-curves curve-of
strip-made patch-laid cells-made cells-handed number-first float-first set-curve drop-curve lay-patch change-reading move-patch
lift-patch read-patch
h-is h-short l-is l-short both-or-neither err-least err-most even-keeps fma-exact infinite-at-one
infinity-down infinity-up minus-infinity-above minus-infinity-below minus-infinity-down
minus-infinity-odd-down minus-infinity-odd-up minus-infinity-up nan-base nan-exponent odd-integerf
odd-told odd-turns plus-infinity-above plus-infinity-below power-of-two product-least product-most
quick-mult quick-mult-f64 round-away size-least size-most times-add unit-base whole-told zero-down
zero-left-f64 zero-right-f64 zero-up is-filled
""".split()

NAMES = {}
for entry in DASHED:
    old, _, new = entry.partition("=")
    NAMES[old] = new or old.replace("-", "_")

# A name in lower camel case, by its parts: exactMultFma, log2RTd, onF64.
CAMEL = re.compile(r"^[a-z][a-z0-9]*(?:[A-Z][A-Za-z0-9]*)+$")
TOKEN = re.compile(r"\"[^\"]*\"|[^\s(){}\[\],;.|\"]+")


def snake(part):
    if not CAMEL.match(part):
        return part
    return re.sub(r"(?<=[a-z0-9])(?=[A-Z])|(?<=[A-Z])(?=[A-Z][a-z])", "_", part).lower()


def respelled(text):
    def one(match):
        token = match.group(0)
        if token.startswith('"'):
            return token
        if token in NAMES:
            return NAMES[token]
        return "-".join(snake(part) for part in token.split("-"))

    return TOKEN.sub(one, text)


def antt(text):
    lines = []
    for line in text.split("\n"):
        code, dashes, comment = line.partition("-- ") if line.lstrip().startswith("--") else (line, "", "")
        lines.append(respelled(code) + dashes + comment)
    return "\n".join(lines)


# In a source, the lines of imports, clauses and ghost members alone.
GHOST = re.compile(r"^\s*(?:pub )?(?:ghost\b|requires\b|ensures\b|old: .*(?:requires|ensures)|new: .*(?:requires|ensures))")


def source(text):
    lines = []
    depth = 0
    for line in text.split("\n"):
        if depth > 0 or GHOST.match(line):
            depth += line.count("{") - line.count("}")
            line = respelled(line)
        lines.append(line)
    return "\n".join(lines)


for path in sorted(glob.glob("crates/**/*", recursive=True)):
    if "/out/" in path:
        continue
    turn = antt if path.endswith(".antt") else source if path.endswith((".rt", ".edit")) else None
    if turn is None:
        continue
    with open(path, encoding="utf-8") as file:
        before = file.read()
    after = turn(before)
    if after != before:
        with open(path, "w", encoding="utf-8") as file:
            file.write(after)
