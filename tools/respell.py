#!/usr/bin/env python3
"""Brings the names that this repository's specs/ and proofs/ declare to today's spelling: words in snake case, a dash only between two names.

Usage: tools/respell.py          at the top, once, after the kit's port.py: rewrites the .rt, .antt and .edit files of crates/ and prints OLD NEW lines
The crate `hex`, whose name is a library's of the kit now, becomes `hex_line`.
Names of types and modules, of functions of src/, exported C names and strings stay. It stops, and writes nothing, where two names would fall together.
"""
import collections
import re
import sys
from pathlib import Path

top = Path(__file__).resolve().parent.parent
DECLARED = re.compile(r"^(?:(?:abbrev|unfoldable|pub|mutual|data|record) )*([^\s:{(=,;\[\]]+)(?: \{[^}]*\}| \([^)]*\))* ?:(?!:)")
MEMBER = re.compile(r"^  (?:pub )?([^\s:{(=,;\[\]]+) :(?!:)")
TOKEN = re.compile(r"""[^\s(){}\[\],;.:"`|/@#!?<>&*+=⌜⌝⟨⟩]+""")
# Words that are names in the library, or of a kind of fact; a dash beside one joins two names.
KNOWN = set("""length take drop append map set replicate get_or nil cons leb ltb eqb not bool all and or T add mul sub mod div pow suc zero
le lt eq max min some none refl ap front keep every pick over same put decimal ascii digit once legal free count""".split())


def declared(path, members=True):
    names, inside = [], False
    for line in path.read_text(encoding="utf-8").splitlines():
        if line.startswith(("use ", "--", "mod ", "pub mod ", "unfolding")):
            continue
        if re.match(r"^(?:pub )?(?:data|record) ", line):
            inside = True
        elif line and not line.startswith(" "):
            inside = False
        m = DECLARED.match(line) or (MEMBER.match(line) if inside and members else None)
        if m:
            names.append(m.group(1))
    return names


def snake(word):
    """camelCase as words: a capital or a run of them begins a word."""
    if not word or word[0].isupper():
        return word
    return re.sub(r"(?<=[a-z0-9'])([A-Z]+)", lambda m: "_" + m.group(1).lower(), word)


def hex_line():
    (top / "crates/hex").rename(top / "crates/hex_line")
    for p in sorted(top.glob("crates/**/*")):
        if p.suffix in (".rt", ".antt", ".edit"):
            text = p.read_text(encoding="utf-8")
            turned = re.sub(r"\bhex::(?=\w)", "hex_line::", text.replace("Rattle.hex.", "Rattle.hex_line.")) if p.suffix != ".antt" else text.replace("Rattle.hex.", "Rattle.hex_line.")
            if turned != text:
                p.write_text(turned, encoding="utf-8")
    listed = top / "crates.txt"
    listed.write_text(re.sub(r"\bhex\b", "hex_line", listed.read_text()))


def main():
    texts = sorted(p for p in top.glob("crates/**/*.antt") if "out" not in p.parts)
    spoken = collections.Counter()
    specs, laws = set(), set()
    for p in texts:
        if p.name in ("Proof.antt", "Answers.antt", "Invariants.antt"):
            continue
        for n in declared(p):
            (specs if "specs" in p.parts else laws).add(n)
    functions = set()
    for p in sorted(top.glob("crates/*/src/**/*.rt")):
        functions |= set(re.findall(r"\bfn (\w+)", p.read_text(encoding="utf-8")))
    dashed = {f.replace("_", "-"): f for f in functions if "_" in f}
    new = {}

    def units(name):
        """The parts of a dashed name: (text, whether it is a name by itself)."""
        words = name.split("-")
        out, i = [], 0
        while i < len(words):
            for j in range(len(words), i, -1):
                part = "-".join(words[i:j])
                if j - i == len(words):
                    continue
                bare = part.rstrip("≡'₁₂")
                if part in specs or bare in specs or part in dashed:
                    text = dashed.get(part) or snake(part).replace("-", "_")
                    out.append((text, True))
                    i = j
                    break
                if j == i + 1:
                    out.append((snake(part), part in KNOWN or part[:1].isupper() or part != snake(part)))
                    i = j
                    break
        return out

    for name in sorted(specs | laws):
        text = name.replace("′", "'")
        if "-" not in text:
            fresh = snake(text)
        elif text.endswith("≡") or (text.endswith("-once") and text[:-5] + "≡" in specs):
            stem = text[:-1] if text.endswith("≡") else text[:-5]
            fresh = dashed.get(stem, snake(stem).replace("-", "_")) + text[len(stem):]
        elif name in specs and not any(p.match(text) for p in (re.compile(r"^.*-once$"),)) and text[0].islower() and "≡" not in text:
            fresh = "_".join(snake(w) for w in text.split("-"))
        else:
            parts = units(text)
            fresh = parts[0][0]
            for (a, left), (b, right) in zip(parts, parts[1:]):
                fresh += ("-" if left or right else "_") + b
        if "-" in text and "".join(w.capitalize() for w in text.split("-")) in specs:
            fresh = text.replace("-", "_")  # the proof of a claim goes by the claim's words
        if fresh != name:
            new[name] = fresh
    # A lemma that would have a definition's name gets `_lem`.
    back = collections.defaultdict(set)
    for n in specs | laws:
        back[new.get(n, n)].add(n)
    for fresh, olds in back.items():
        camel = [n for n in olds if "-" not in n and "_" not in n]
        if len(olds) == 2 and len(camel) == 1 and camel[0][0].islower():
            other = next(n for n in olds if n != camel[0])
            new[other] = fresh + "_lem"
    # No two names fall together, in a file that has both.
    bad = 0
    whole = specs | laws
    back = collections.defaultdict(set)
    for n in whole:
        back[new.get(n, n)].add(n)
    for fresh, olds in sorted(back.items()):
        if len(olds) > 1:
            print("together:", fresh, sorted(olds))
            bad += 1
    files = texts + sorted(top.glob("crates/*/src/**/*.rt")) + sorted(top.glob("crates/*/must-fail/*.edit"))
    turned = {}
    for p in files:
        text = p.read_text(encoding="utf-8")
        words = set(TOKEN.findall(text))
        mine = {n for n in words if n in new}
        for n in mine:
            if new[n] in whole and new[n] not in new and new[n] in words and p.suffix == ".antt":
                print("clash:", p.relative_to(top), n, new[n])
                bad += 1
        strings = re.compile(r'("(?:[^"\\\n]|\\.)*")')
        pieces = strings.split(text) if p.suffix == ".rt" else [text]
        lines = p.suffix == ".rt"  # in code a name with `_lem` behind it is a function's: only a clause could name the lemma, and none does
        turned[p] = "".join(s if i % 2 else TOKEN.sub(lambda m: m.group() if lines and m.group() in functions else new.get(m.group(), m.group()), s) for i, s in enumerate(pieces))
        if p.suffix == ".rt":
            for n in mine:
                if new[n] in functions and re.search(r"\bfn " + re.escape(new[n]) + r"\b", text):
                    print("look: a function's name too:", p.relative_to(top), n, new[n])
    if bad and "--anyway" not in sys.argv:
        sys.exit(f"respell: {bad} places; nothing was written")
    if "--dry" not in sys.argv:
        for p, text in turned.items():
            if text != p.read_text(encoding="utf-8"):
                p.write_text(text, encoding="utf-8")
        hex_line()
    for n in sorted(new):
        print(n, new[n])


main()
