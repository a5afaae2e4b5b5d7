#!/usr/bin/env python3
"""Respells the repository's own definitions and lemmas: words in snake case, types and facts in upper camel case.

usage: python3 tools/respell.py [--check]      at the top of the repository, once, after port.py

It turns the names that port.py left with a dash. A name counts as the repository's own if a file of specs/ or proofs/ uses
it and no library's import in that file brings it in.
Functions of src/, strings, and the names of goals and steps that Rattle makes stay. In comments and pages a name is
turned where it stands in backticks, or in the index at the head of a file.
"""
import glob
import os
import re
import sys

TOKEN = re.compile(r"[^\s(){}\[\].;,\"`]+")
NAME = re.compile(r"^[A-Za-zℕ][^\s]*-[^\s]*$")
USE = re.compile(r"^\s*(?:pub\s+)?(?:ghost\s+)?use\s+([^{;]+?)(?:\.\{(.*)\})?;?\s*$")


def crates():
    return sorted(c for c in os.listdir("crates") if os.path.isdir(f"crates/{c}/src"))


def antt():
    return sorted(p for c in crates() for k in ("specs", "proofs") for p in glob.glob(f"crates/{c}/{k}/**/*.antt", recursive=True))


def by_hand(path):
    """A lemma file or a definition, and no file of answers that Rattle reads by names of its own."""
    return os.path.basename(path) not in ("Answers.antt", "Invariants.antt", "Choices.antt", "Proof.antt", "Given.antt")


def library(text):
    """The names that a file takes from libraries."""
    found = set()
    for line in text.split("\n"):
        m = USE.match(line)
        if m and m.group(2) and not re.match(r"Rattle\.(%s)\." % "|".join(crates()), m.group(1)):
            for it in m.group(2).split(","):
                found.add(it.split(" as ")[-1].strip())
    return found


def used(text):
    out = []
    for line in text.split("\n"):
        if line.lstrip().startswith("--"):
            continue
        out += TOKEN.findall(line.split(" -- ")[0])
    return out


def declared_here(text):
    """Names bound in a file of answers: by let, by a lambda or by a declaration with no goal."""
    out = set(re.findall(r"\blet ([A-Za-z][\w'≢≤-]*) ", text))
    for m in re.finditer(r"λ ([^.]*)\.", text):
        out |= set(TOKEN.findall(m.group(1)))
    for m in re.finditer(r"(?m)^\s*(?:pub )?([A-Za-z][\w'≢≤-]*) : (?!goal\.)", text):
        out.add(m.group(1))
    return out


def turned(name):
    if name[0].isupper():
        parts = name.split("-")
        return parts[0] + "".join(p[:1].upper() + p[1:] for p in parts[1:])
    return name.replace("-", "_")


def main():
    own = set()
    texts = {p: open(p, encoding="utf-8").read() for p in antt()}
    libs = {p: library(t) for p, t in texts.items()}
    for p, t in texts.items():
        names = set(used(t)) if by_hand(p) else declared_here(t)
        own |= {n for n in names if NAME.match(n) and n not in libs[p]}
    everywhere = set().union(*libs.values())
    new = {n: turned(n) for n in own}
    taken = {}
    for n, m in new.items():
        taken.setdefault(m, set()).add(n)
    present = set(x for t in texts.values() for x in used(t))
    for m, ns in sorted(taken.items()):
        if len(ns) > 1:
            print("falls together:", m, sorted(ns))
        if m in present:
            print("stands already:", m, sorted(ns))
    for n in sorted(own & everywhere):
        print("a library's name elsewhere:", n)
    if "--check" in sys.argv:
        print(len(own), "names")
        return
    rts = sorted(p for c in crates() for p in glob.glob(f"crates/{c}/src/**/*.rt", recursive=True))
    edits = sorted(p for c in crates() for p in glob.glob(f"crates/{c}/must-fail/*.edit"))
    pages = sorted(glob.glob("*.md") + glob.glob("docs/*.md"))
    for p in list(texts) + rts:
        text = texts.get(p) or open(p, encoding="utf-8").read()
        lib = libs.get(p) or library(text)
        mark = "--" if p.endswith(".antt") else "//"
        lines = []
        for line in text.split("\n"):
            if line.lstrip().startswith(mark):
                line = re.sub(r"`([^`]+)`", lambda m: "`" + TOKEN.sub(lambda t: new.get(t.group(0), t.group(0)), m.group(1)) + "`", line)
                m = re.match(r"^(\s*--     )([^ ].*?)(  +.*)?$", line)
                if m:
                    line = m.group(1) + TOKEN.sub(lambda t: new.get(t.group(0), t.group(0)), m.group(2)) + (m.group(3) or "")
            elif p.endswith(".rt") and not re.search(r"\b(ghost|requires|ensures|law|view|invariant)\b", line) and "◌" not in line and not re.search(r"λ|≡|→", line):
                pass
            else:
                line = TOKEN.sub(lambda t: t.group(0) if t.group(0) in lib else new.get(t.group(0), t.group(0)), line)
            lines.append(line)
        out = "\n".join(lines)
        if out != text:
            open(p, "w", encoding="utf-8").write(out)
    for p in pages:
        text = open(p, encoding="utf-8").read()
        out = re.sub(r"`([^`\n]+)`", lambda m: "`" + TOKEN.sub(lambda t: new.get(t.group(0), t.group(0)), m.group(1)) + "`", text)
        if out != text:
            open(p, "w", encoding="utf-8").write(out)
    print(len(own), "names in", len(texts) + len(rts), "files")


main()
