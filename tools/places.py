#!/usr/bin/env python3
"""Lists the places in crates/*/src that docs/DESIGN-PASS.md counts, at a commit.

    tools/places.py COMMIT            the number of lines, or of groups, that each search finds
    tools/places.py COMMIT NAME       the lines of one search

A search finds candidates; the page says which of them are places.
"""
import collections
import re
import subprocess
import sys

LINES = {
    "own-enums": r"^\s*(pub(\(crate\))? )?enum ",
    "flags": r"^\s+(pub )?[a-z_]+: bool,",
    "numbers-for-kinds": r"^\s+[0-9]+ =>|=> [0-9]+,|^    0$",
    "option-arms": r"^\s*(Some|Ok|Err)\(.*\) =>|^\s*None =>",
    "none-by-hand": r"return None;|^\s+None$|else \{ None \}",
    "err-by-hand": r"^\s+Err\(|return Err\(",
    "loops": r"^\s*(for|while|loop)\b.*\{$",
    "counters": r"\+= 1;|saturating_add\(1\)",
    "nan-by-hand": r"\b([a-z_.]+) != \1\b",
    "printing": r"(println|format)!",
    "requires": r"^\s+requires ",
    "fixed-buffers": r"static |\[[A-Za-z<>]+; [0-9]+\]|Vec<Vec",
    "lengths": r"\bcount: (usize|u64),|\.len\(\)",
    "matches": r"\bmatch ",
}


def git(*words):
    return subprocess.run(["git", *words], check=True, capture_output=True, text=True).stdout


def sources(commit):
    names = [n for n in git("ls-tree", "-r", "--name-only", commit, "crates").splitlines() if "/src/" in n and n.endswith(".rt")]
    return {name: git("show", f"{commit}:{name}").splitlines() for name in names}


def code(line):
    return not line.strip().startswith("//")


def by_line(files, pattern):
    wanted = re.compile(pattern)
    return [f"{name}:{i + 1}: {line.strip()}" for name, lines in files.items() for i, line in enumerate(lines) if code(line) and wanted.search(line)]


def functions(files):
    """Each function: where it stands, its name, its lines up to the brace that closes it."""
    for name, lines in files.items():
        i = 0
        while i < len(lines):
            head = re.match(r"^(\s*)(pub(\(crate\))? )?fn (\w+)", lines[i])
            if not head or lines[i].rstrip().endswith(";"):
                i += 1
                continue
            end = i
            while end + 1 < len(lines) and lines[end].rstrip() != head.group(1) + "}":
                end += 1
            yield f"{name}:{i + 1}: {head.group(4)}", head.group(4), lines[i : end + 1]
            i = end + 1


def body(lines):
    """What stands between the braces, without comments and clauses, on one line."""
    kept = [l for l in lines[1:] if code(l) and not re.match(r"\s+(requires|ensures|ghost)\b", l)]
    return re.sub(r"\s+", "", "".join(kept))


def shape(text):
    """The text with every name and number blotted out but the language's own words."""
    words = {"if", "else", "for", "in", "match", "return", "let", "mut", "while", "self", "Some", "None", "Ok", "Err"}
    text = re.sub(r"\b0x[0-9a-f_]+\b|\b[0-9][0-9_.]*\b", "N", text)
    return re.sub(r"\b[A-Za-z_]\w*\b", lambda m: m.group() if m.group() in words else "I", text)


def twins(files):
    """Functions of one shape, of at least 40 characters: candidates for one generic function."""
    groups = collections.defaultdict(list)
    for place, _, lines in functions(files):
        text = body(lines)
        if len(text) >= 40:
            groups[shape(text)].append(place)
    return [" | ".join(group) for group in groups.values() if len(group) > 1]


def repeated_facts(files):
    """Clauses that stand in three or more functions, up to the names of their values, but for those
    that say which definition the result is."""
    groups = collections.defaultdict(list)
    for place, _, lines in functions(files):
        for line in lines:
            clause = re.match(r"\s+(requires|ensures)\s*\w*\s*\{ (.*) \}$", line)
            if clause and not clause.group(2).startswith("result ≡"):
                groups[re.sub(r"\b[a-z_.]+\b", "v", clause.group(2))].append(place)
    return [f"{fact}: " + " | ".join(group) for fact, group in groups.items() if len(group) > 2]


def main():
    files = sources(sys.argv[1])
    found = {name: by_line(files, pattern) for name, pattern in LINES.items()}
    found["twins"] = twins(files)
    found["repeated-facts"] = repeated_facts(files)
    if len(sys.argv) > 2:
        print("\n".join(found[sys.argv[2]]))
    else:
        for name, places in found.items():
            print(f"{name} {len(places)}")


main()
