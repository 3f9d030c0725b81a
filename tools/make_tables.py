#!/usr/bin/env python3
"""Writes the tables of the published crate, as code and as a specification.

    make_tables.py SRC

SRC is the folder `src` of pxfm 0.1.30. Writes crates/power/src/tables.rt and
crates/power/specs/Tables.antt; run `rt fmt` in crates/power after it. The functions of src/lookup.rt are proved to
answer the specification's entries, so the two files cannot drift apart.
"""
import os
import re
import sys

TABLES = [
    ('LOG_RANGE_REDUCTION', 'logs/log2.rs', 'log_range_reduction_list',
     'r, at most eight significant bits, for a significand whose top seven fraction bits are the index.'),
    ('LOG2_R', 'logs/log2f.rs', 'log2_r_list', '-log2 r.'),
    ('LOG2_R_TD', 'powf_tables.rs', 'log2_r_td_list',
     '-log2 r as three parts, the lowest first; the last has few bits.'),
    ('POWF_R2', 'powf_tables.rs', 'powf_r2_list',
     'The second reduction: 1/(1 + (index - 64)/2^14), nearly.'),
    ('LOG2_R2_DD', 'powf_tables.rs', 'log2_r2_dd_list',
     '-log2 of the second reduction, a pair, the low part first.'),
    ('EXP2_MID1', 'pow_tables.rs', 'exp2_mid1_list', '2^(index/64) as a pair, the low part first.'),
]


def entries(path, name):
    text = open(path).read()
    body = re.search(r'static ' + name + r': \[[^=]*= \[(.*?)\n\];', text, re.S).group(1)
    body = re.sub(r'//[^\n]*', '', body).replace('_', '')
    if '(' not in body:
        return [(int(x, 16),) for x in re.findall(r'0x([0-9a-fA-F]+)', body)]
    groups = re.findall(r'\(([^)]*)\)', body)
    return [tuple(int(x, 16) for x in re.findall(r'0x([0-9a-fA-F]+)', g)) for g in groups]


def pattern(x):
    return '0x%04x_%04x_%04x_%04x' % (x >> 48, x >> 32 & 0xFFFF, x >> 16 & 0xFFFF, x & 0xFFFF)


def item(e):
    return pattern(e[0]) if len(e) == 1 else '(' + ', '.join(pattern(x) for x in e) + ')'


def code(tables):
    out = [
        '// The tables, as bit patterns of f64, from the published crate. Those that one index reads stay apart as',
        '// they do there, so that each can be set beside its source.',
    ]
    for name, _, _, about in TABLES:
        rows = tables[name]
        width = len(rows[0])
        kind = 'u64' if width == 1 else '(' + ', '.join(['u64'] * width) + ')'
        out += ['', '// ' + about, 'pub(crate) static %s: [%s; %d] = [' % (name, kind, len(rows))]
        out += ['    %s,' % item(e) for e in rows] + ['];']
    return '\n'.join(out) + '\n'


def specification(tables):
    out = [
        "-- The tables, as bit patterns of f64. The code's tables are tied to these by the functions that read them.",
        'use Rattle.std.specs.Prelude.{ℕ, List, [], ◌∷◌}',
    ]
    for name, _, short, about in TABLES:
        rows = tables[name]
        width = len(rows[0])
        kind = 'ℕ' if width == 1 else '(' + ' × '.join(['ℕ'] * width) + ')'
        a_line = {1: 4, 2: 2, 3: 1}[width]
        out += ['', '-- ' + about[0].lower() + about[1:].rstrip('.'), 'abbrev pub %s : List %s' % (short, kind), short + ' =']
        for i in range(0, len(rows), a_line):
            out.append('    ' + ' '.join(item(e) + ' ∷' for e in rows[i:i + a_line]))
        out.append('    []')
    return '\n'.join(out) + '\n'


def main():
    src = sys.argv[1]
    tables = {name: entries(os.path.join(src, path), name) for name, path, _, _ in TABLES}
    open('crates/power/src/tables.rt', 'w').write(code(tables))
    open('crates/power/specs/Tables.antt', 'w').write(specification(tables))


main()
