#!/usr/bin/env python3
"""Lists, point by point, the lines of crates/*/src that may be written in an older form than the language has.

    python3 tools/forms.py [POINT]        the lines, and at the end how many there are in each crate
    python3 tools/forms.py --shapes       functions whose text differs only in names, numbers and a few words

It finds candidates by their text. Which of them are places is judged by hand, in docs/DESIGN-PASS.md.
"""
import collections
import difflib
import glob
import itertools
import re
import sys

POINTS = {
    1: [r"^\s*pub const [A-Z_]+: u(8|16|32|64) =",            # numbers for kinds
        r"-> Option<(u8|Refusal)>",                            # an Option that says what went wrong
        r"fn (kind|number|layer|place|made|checked)\b.*-> u\d",  # a number for a kind
        r"^\s*\d+( \| \d+)* => ", r"=> \d+,$",                 # numbers matched, numbers answered
        r"\blet done\b|\bif done\b",                           # a flag beside a value
        r"-> bool$", r"\(&self.*-> bool|\(self.*-> bool|: &\[u8\].*-> bool",
        r"if let Some\(\w+\) = .*\{$", r"None => Ok\(", r"Err\((\w+)\) => Err\(",  # taken apart and made again
        r"is_err\(\)"],
    2: [r"fn \w*(16|32|64|0|1)_at\b|fn put\w*|fn s(um|igma)[01]|fn (inner|outer)_hash|fn (parsed|read)\w*|fn with_keys?\b",
        r"let mut end = \[0u8", r"return Err\(Refusal::WrongLength", r"Act::(Taking|Returning) => \{"],
    3: [r"\bfor \w+ in [^{]*\.\.", r"\bwhile\b", r"\b\w+ \+= \d+;",
        r"\[(0|at)\], ?\w+\[(at \+ )?1\]", r"\w+\[0\]\),?$", r"put\(&mut out, 0, ", r"pair_at\(record, 12\),", r"let s1 = "],
    4: [r"fn (from|to|as)_\w+", r"fn \w+_of\(", r"fn same\w*", r"fn (named|number|command|amount\w*|first_number|bytes_of)\(",
        r"question \{number\}", r"\bimpl .*Display for"],
    5: [r"requires .*≤ length \w+\.(now|old)", r"length «record».(now|old) ≡ 48", r"length block.now ≡ 64",
        r"size: u8, owner: u8", r"^\s*owner: (u8|u32),$", r"ensures (size|owner|made|last) \{ result",
        r"record: &(mut )?\[u8\], tag: &", r"client: u16, command: &", r"bytes: &\[u8\], at: usize"],
    6: [r"at: usize", r"i: usize", r"from: usize", r"tail: \[u8; 64\]", r"pairs: \[Pair; 4\]", r"holders: u64", r"\bK\[i"],
    7: [r"enum Run", r"Run::\w+ =>", r"fn holds\(self", r"\bdyn\b|: fn\("],
}


def sources():
    for path in sorted(glob.glob("crates/*/src/*.rt")):
        yield path, open(path, encoding="utf-8").read().split("\n")


def functions():
    for path, lines in sources():
        at = 0
        while at < len(lines):
            match = re.match(r"(\s*)(pub(\(crate\))? )?(extern \"C\" )?fn (\w+)", lines[at])
            if not match:
                at += 1
                continue
            end = at
            while end + 1 < len(lines) and lines[end] != match.group(1) + "}" and not lines[end].endswith(";"):
                end += 1
            yield path, match.group(5), lines[at:end + 1]
            at = end + 1


def shape(lines):
    text = " ".join(lines[0:])
    text = re.sub(r"fn \w+", "fn F", text)
    text = re.sub(r"\b(0x)?\d\w*\b", "0", text)
    return re.findall(r"\w+|[^\w\s]", text)


def shapes():
    known = [(path, name, shape(body)) for path, name, body in functions() if len(body) > 3]
    for (p, f, a), (q, g, b) in itertools.combinations(known, 2):
        if len(a) < 25 or abs(len(a) - len(b)) > 0.25 * len(a):
            continue
        ratio = difflib.SequenceMatcher(None, a, b, autojunk=False).ratio()
        if ratio >= 0.8:
            print(f"{ratio:.2f}  {p} {f}  ~  {q} {g}")


def listed(point):
    counts = collections.Counter()
    for path, lines in sources():
        for number, line in enumerate(lines, 1):
            if line.lstrip().startswith("//"):
                continue
            if any(re.search(pattern, line) for pattern in POINTS[point]):
                print(f"{path}:{number}: {line.strip()}")
                counts[path.split("/")[1]] += 1
    said = ", ".join(f"{crate} {count}" for crate, count in sorted(counts.items()))
    print(f"point {point}: {sum(counts.values())} lines ({said})")


if sys.argv[1:] == ["--shapes"]:
    shapes()
else:
    for point in [int(word) for word in sys.argv[1:]] or sorted(POINTS):
        listed(point)
