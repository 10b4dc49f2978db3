#!/usr/bin/env python3
"""Respells this repository's own definitions and lemmas, once, after the kit's port.py.

usage: python3 tools/respell.py [--dry]     at the top of the repository

Words are in snake case. A dash stays only in a lemma that joins two names, as `word-be` (reading what was encoded).
Functions of src/, exported names, strings, inputs and outputs keep their names. The crate `bytes` becomes `buffers`,
since the kit has a library named bytes. Names that would fall together stop the script with nothing written, unless --force is given
(the port did not need it).
"""
import os
import re
import subprocess
import sys

dry = "--dry" in sys.argv
NAME = r"[^\s(){}\[\]:;=.,λ→]+"
HEAD = re.compile(rf"^(\s*)((?:(?:abbrev|unfoldable|pub|record|data|ruleset)\s+)*)({NAME})((?:\s+[({{][^=]*?[)}}])*)\s+:(?:\s|$)(.*)$")
# lemmas that join two names: the outer call first
JOINED = {"be-four", "be-length", "be-word", "drop-be", "four-be", "four-lt", "pack-length", "paste-front", "paste-shifted", "paste-zeroed", "section-append", "unpack-slots", "word-be", "word-drop"}


def files(*ends):
    for top, dirs, names in os.walk("crates"):
        dirs[:] = sorted(d for d in dirs if d != "out")
        for n in sorted(names):
            if n.endswith(ends):
                yield os.path.join(top, n)


def read(path):
    with open(path, encoding="utf-8") as f:
        return f.read()


def snake(name):
    name = name.replace("-", "_")
    return re.sub(r"(?<=[a-z0-9_])([A-Z])", lambda m: ("" if name[m.start() - 1] == "_" else "_") + m.group(1).lower(), name)


defined = set()
for path in files(".antt"):
    for line in read(path).split("\n"):
        if line.lstrip().startswith("--") or re.match(r"\s*(use|mod|pub mod|module|let|unfolding|infix)", line):
            continue
        m = HEAD.match(line)
        if not m or m.group(5).startswith("goal.") or "." in m.group(3):
            continue
        name = m.group(3)
        if not re.match(r"[A-Za-z]", name):
            continue
        defined.add(name)

own = {n for n in defined if not n[0].isupper()}


def new_name(name):
    return name if name in JOINED else snake(name)


renames = {n: new_name(n) for n in own if new_name(n) != n}

# names that fall together: with another renamed name, or with a name that stands already
taken = {}
for n, t in renames.items():
    taken.setdefault(t, []).append(n)
clashes = [f"{t}: {', '.join(ns)}" for t, ns in taken.items() if len(ns) > 1]
clashes += [f"{t}: {n}, and a definition of that name" for n, t in renames.items() if t in defined]
# a name of src/ that a clause could take for the definition: a parameter, a field, a constant or a variable
src = "\n".join(re.sub(r"//.*", "", read(p)) for p in files(".rt"))
for n, t in sorted(renames.items()):
    if re.search(rf"(?<![\w.]){re.escape(t)}\s*:(?!:)|\bconst {re.escape(t)}\b", src):
        clashes.append(f"{t}: {n}, and a parameter or field of src/")
local = "\n".join(re.sub(r"--.*", "", read(p)) for p in files(".antt"))
for n, t in sorted(renames.items()):
    if re.search(rf"(?<![\w'.-]){re.escape(t)}(?![\w'-])", local):
        clashes.append(f"{t}: {n}, and a word that the definitions or proofs have already")
if clashes:
    print("respell: names that fall together:\n  " + "\n  ".join(clashes))
    if "--force" not in sys.argv:
        raise SystemExit(1)

TOKEN = re.compile(r"(?<![\w'-])(" + "|".join(sorted(map(re.escape, renames), key=len, reverse=True)) + r")(?![\w'-])") if renames else None
STRING = re.compile(r'"(?:[^"\\]|\\.)*"')


def respell(text):
    if not TOKEN:
        return text
    out, at = [], 0
    for m in STRING.finditer(text):
        out += [TOKEN.sub(lambda k: renames[k.group(1)], text[at:m.start()]), m.group(0)]
        at = m.end()
    return "".join(out) + TOKEN.sub(lambda k: renames[k.group(1)], text[at:])


def crate(text):
    text = text.replace("Rattle.bytes.", "Rattle.buffers.")
    return re.sub(r"(?<![\w:.])bytes::", "buffers::", text)


changed = 0
for path in list(files(".antt", ".rt", ".edit")):
    old = read(path)
    # in code, line by line: a quote in a comment opens no string
    new = "\n".join(respell(l) if "'\"'" not in l else l for l in crate(old).split("\n"))
    if new != old:
        changed += 1
        if not dry:
            with open(path, "w", encoding="utf-8") as f:
                f.write(new)
if not dry:
    if os.path.isdir("crates/bytes"):
        os.rename("crates/bytes", "crates/buffers")
    old = read("crates.txt")
    with open("crates.txt", "w") as f:
        f.write(re.sub(r"\bbytes\b", "buffers", old))
for n in sorted(renames):
    print(f"{n} -> {renames[n]}")
print(f"respell: {len(renames)} names, {changed} files; kept: {', '.join(sorted(n for n in own if '-' in n and n not in renames))}")
