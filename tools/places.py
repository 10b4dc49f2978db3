#!/usr/bin/env python3
"""Lists the places in crates/*/src that the points of docs/DESIGN-PASS.md speak of.

  python3 tools/places.py [FOLDER]     counts for each point
  python3 tools/places.py -l [FOLDER]  the places too

A line that it prints is a place to look at: docs/DESIGN-PASS.md says which of them are of the point's kind.
"""
import glob
import os
import re
import sys
from collections import defaultdict

LIST = "-l" in sys.argv
ROOT = [a for a in sys.argv[1:] if a != "-l"] or ["."]
FILES = sorted(glob.glob(os.path.join(ROOT[0], "crates/*/src/*.rt")))
TEXT = {os.path.relpath(f, ROOT[0]): open(f, encoding="utf-8").read() for f in FILES}


def lines(*patterns):
    """Lines of code, not of comments, that match one of the patterns."""
    found = []
    for name, text in TEXT.items():
        for number, line in enumerate(text.split("\n"), 1):
            code = line.split("//")[0]
            if any(re.search(p, code) for p in patterns):
                found.append((name, number, line.strip()))
    return found


def functions():
    """(file, line, owner, signature and body) of each function."""
    for name, text in TEXT.items():
        rows = text.split("\n")
        owner = ""
        for i, row in enumerate(rows):
            if re.match(r"(impl|pub trait|trait)\b", row):
                owner = row.rstrip(" {")
            if re.match(r"\S", row) and not re.match(r"(impl|pub trait|trait|\})", row):
                owner = ""
            m = re.match(r"( *)(pub(\(crate\))? |extern \"C\" )*fn (\w+)", row)
            if not m:
                continue
            end = i
            while end < len(rows) and not rows[end].startswith(m[1] + "}") and not (end > i and rows[end].endswith(";") and len(rows[end]) - len(rows[end].lstrip()) > len(m[1]) and rows[end].strip().startswith("ensures")):
                end += 1
            yield name, i + 1, owner, m[4], "\n".join(rows[i:end + 1])


def shape(code):
    """Code with its literals and names masked, so that twins are equal."""
    code = re.sub(r"//.*", "", code)
    code = re.sub(r'b?"[^"]*"', "S", code)
    code = re.sub(r"\b\d\w*\b", "N", code)
    code = re.sub(r"\b[A-Z]\w*\b", "T", code)
    code = re.sub(r"\b[ui](8|16|32|64)\b", "T", code)
    code = re.sub(r"\b[a-z_]\w*?\b", "x", code)
    code = re.sub(r"(\bT::x\(x, N\),? ?)+", "calls ", code)
    return re.sub(r"\s+", " ", code)


def twins():
    """Functions, and impl blocks, of one shape."""
    groups = defaultdict(list)
    for name, line, owner, fn, code in functions():
        if "/tests.rt" in name or "_tests.rt" in name:
            if "#[test]" in TEXT[name].split("\n")[line - 2]:
                continue
        if code.count("\n") < 4:
            continue
        groups[shape(code)].append((name, line, (owner + " :: " if owner else "") + fn))
    return [p for g in groups.values() if len(g) > 1 for p in g]


def together():
    """Groups of two or more parameters that three or more functions take side by side."""
    seen = defaultdict(list)
    for name, line, owner, fn, code in functions():
        head = code.split("{")[0]
        args = re.findall(r"(\w+): ([^,()]+|\([^)]*\))", head.split("->")[0])
        args = [(a, t.strip()) for a, t in args if a not in ("f", "rt", "heap")]
        for i in range(len(args) - 1):
            seen[(args[i], args[i + 1])].append((name, line, fn))
    return [(n, l, "%s, %s in %s" % (pair[0][0], pair[1][0], f))
            for pair, fs in seen.items() if len(fs) > 2 for n, l, f in fs]


def facts():
    """Facts of requires clauses that three or more functions have, or that functions ensure for others."""
    seen = defaultdict(list)
    for name, line, owner, fn, code in functions():
        for clause in re.findall(r"(?:requires|ensures)(?: \w+)? \{(.*)\}", code):
            for part in re.split(r" × ", clause):
                part = re.sub(r"\b(OnOk|IfOk) result|λ \w\. ", "", part)
                part = part.strip().strip("()").strip()
                if re.search(r"≤|<", part) and "result ≡" not in part:
                    seen[re.sub(r"\.(now|old|new)", "", part)].append((name, line, fn))
    return [(n, l, "%s in %s" % (fact, f)) for fact, fs in seen.items() if len(fs) > 2 for n, l, f in fs]


POINTS = [
    ("1a own enums", lambda: lines(r"^\s*(pub )?enum ")),
    ("1b answers by a flag, or a result in a result", lambda: lines(r"-> (io::Result<)?bool\b", r"Result<Result<")),
    ("1c numbers in place of names", lambda: lines(r"=> -?\d+,", r"match self\.number", r"-> \(u8, u8", r'_ => "",', r"=> \(0, 0")),
    ("1d Ok, Err, Some and None passed on by hand", lambda: lines(r"^\s*(Ok|Err|Some|None)(\(.*\))? => (return )?(Ok|Err|Some|None)\b")),
    ("2 functions of one shape", twins),
    ("3 loops", lambda: lines(r"^\s*(for|while|loop)\b")),
    ("4a conversions by hand", lambda: lines(r"from_be_bytes\(\w+_at", r"as u8$", r"fn \w+_named", r"fn number\(", r"=> -?\d+,")),
    ("4b printing by hand", lambda: lines(r"impl .*Display for", r"let [abcd] = letter")),
    ("5a parameters that travel together", together),
    ("5b facts in three contracts", facts),
    ("6 positions and lengths beside a buffer, parallel arrays", lambda: lines(r"list: &mut \[\w+\], at", r"buf: &(mut )?\[u8\], at", r"^const \w+: \[", r"\bat: &mut usize")),
    ("7 switches and tables of functions", lambda: lines(r"=> \w+::<\w+>\(", r"\bfn\(", r"\bdyn\b", r"Verb::\w+ (if .*)?=>", r"Question::\w+\) =>")),
]

for title, find in POINTS:
    places = find()
    print("%-58s %d" % (title, len(places)))
    if LIST:
        for name, number, what in places:
            print("    %s:%d  %s" % (name, number, what))

proofs = glob.glob(os.path.join(ROOT[0], "crates/*/proofs/**/*.antt"), recursive=True)
answers = [p for p in proofs if os.path.basename(p) == "Answers.antt"]
count = sum(len(re.findall(r"(?m)^pub ", open(p, encoding="utf-8").read())) for p in answers)
print("%-58s %d in %d files" % ("8 answers", count, len(answers)))
