#!/usr/bin/env python3
"""Brings the names that tools/respell.py passed over to today's spelling: those declared in a `module` or `where` block, those that an import gives, and `getD` within a name.

Usage: tools/respell_rest.py          at the top, once, after tools/respell.py: rewrites the .rt, .antt and .edit files of crates/ and prints OLD NEW lines
Dashes stay as they are. It stops, and writes nothing, where a new name stands already.
"""
import re
import sys
from pathlib import Path

top = Path(__file__).resolve().parent.parent
DECLARED = re.compile(r"^ *(?:(?:abbrev|unfoldable|pub|mutual|data|record) )*([^\s:{(=,;\[\]]+)(?: \{[^}]*\}| \([^)]*\))* ?:(?!:)")
GIVEN = re.compile(r" as ([^\s,{}]+)")
TOKEN = re.compile(r"""[^\s(){}\[\],;.:"`|/@#!?<>&*+=⌜⌝⟨⟩]+""")
# Lemmas of the logic's libraries keep their names.
LIBRARY = re.compile(r"^use (?:Prim|mathlib|native|lib|borrow|denote|mir|seplogic)\b.*\{(.*)\}", re.M)


def today(name):
    name = re.sub(r"(?<=[a-z0-9'])([A-Z]+)", lambda m: "_" + m.group(1).lower(), name) if name[0].islower() else name
    return re.sub(r"(?<![a-z])get_d(?![a-z])", "get_or", name)


files = sorted(p for p in top.glob("crates/**/*") if p.suffix in (".rt", ".antt", ".edit") and "out" not in p.parts)
texts = {p: p.read_text(encoding="utf-8") for p in files}
declared = set()
for p, text in texts.items():
    if p.suffix == ".antt" and p.name not in ("Proof.antt", "Answers.antt", "Invariants.antt"):
        for line in text.splitlines():
            if line.startswith("use "):
                declared.update(GIVEN.findall(line))
            elif not line.lstrip().startswith("--"):
                m = DECLARED.match(line)
                if m:
                    declared.add(m.group(1))
foreign = {n.split(" as ")[0] for text in texts.values() for it in LIBRARY.findall(text) for n in it.split(", ")}
new = {n: today(n) for n in declared - foreign if today(n) != n}
spoken = {w for text in texts.values() for w in TOKEN.findall(text)}
clash = [(n, it) for n, it in new.items() if it in spoken]
if clash and "--anyway" not in sys.argv:
    sys.exit(f"respell_rest: these stand already, and nothing was written: {clash}")
for p, text in texts.items():
    pieces = re.split(r'("(?:[^"\\\n]|\\.)*")', text) if p.suffix == ".rt" else [text]
    turned = "".join(s if i % 2 else TOKEN.sub(lambda m: new.get(m.group(), m.group()), s) for i, s in enumerate(pieces))
    if turned != text and "--dry" not in sys.argv:
        p.write_text(turned, encoding="utf-8")
for n in sorted(new):
    print(n, new[n])
