#!/usr/bin/env python3
"""Brings this repository's own names in specs/ and proofs/ to one spelling: definitions, fields, constructors and lemmas
in snake case, types and facts in upper camel case.

usage: python3 tools/respell.py           at the top of the repository, once, after the kit's own script
       python3 tools/respell.py --list    prints the names that it would change, and those that fall together

A name is changed only where it is declared in specs/ or proofs/ of this repository, and then everywhere. Names of the
kit, names that the checker makes and names of src/ stay.
"""
import os
import re
import sys

# What a name is made of; a dot, a bracket or a quote ends it.
TOKEN = re.compile(r"[^\s(){}\[\].,;:\"«»|⌜⌝]+")
DECLARED = re.compile(r"^\s*(?:(?:abbrev|unfoldable|opaque)\s+)?(?:pub\s+)?(?:(?:data|record)\s+)?([^\s(){}\[\].,;:\"«»|]+)\s*(?:[({].*)?(?::|$|=)")
CASE = re.compile(r"^\s*(?:pub\s+)?\|?\s*([^\s(){}\[\].,;:\"«»|]+)\s*:")
MADE = re.compile(r"\b(?:goal|given)\.")


def files(top):
    for folder, dirs, names in os.walk(os.path.join(top, "crates")):
        dirs[:] = sorted(d for d in dirs if d not in ("out", ".git"))
        for n in sorted(names):
            if n.endswith((".antt", ".rt")):
                yield os.path.join(folder, n)


def declared(path, text):
    """The names with a dash that this file declares."""
    found = set()
    if not path.endswith(".antt"):
        return found
    for line in text.split("\n"):
        bare = line.strip()
        if bare.startswith(("--", "use ", "let ", "|", "module", "mod ", "pub mod", "in ", "elim")) or MADE.search(line):
            continue
        for form in (DECLARED, CASE):
            m = form.match(line)
            if m and "-" in m.group(1) and re.match(r"^[A-Za-zℕ⊎']", m.group(1)) and re.search(r"\s:(\s|$)|^\s*(?:pub\s+)?(?:record|data)\b", line):
                found.add(m.group(1))
    return found


def respelled(name):
    parts = name.split("-")
    if name[0].isupper():
        return "".join(p[:1].upper() + p[1:] for p in parts)
    return "_".join(parts)


def imported(text):
    """The names that come from the kit."""
    found = set()
    for m in re.finditer(r"^\s*(?:ghost )?use ([^\s{]+)\.\{([^}]*)\}", text, re.M):
        if not OWN.match(m.group(1)):
            found.update(n.strip().split(" as ")[0] for n in m.group(2).split(","))
    return found


def main():
    top = "."
    texts = {p: open(p, encoding="utf-8").read() for p in files(top)}
    crates = sorted(os.listdir(os.path.join(top, "crates")))
    global OWN
    OWN = re.compile(r"Rattle\.(?:%s)\." % "|".join(crates))
    own, kit, words, code = {}, set(), set(), set()
    for p, t in texts.items():
        for n in declared(p, t):
            own.setdefault(n, []).append(p)
        kit |= imported(t)
        words |= {w for w in TOKEN.findall(t)}
        if p.endswith(".rt"):
            bare = re.sub(r"^\s*//.*$", "", re.sub(r"^ghost use .*$", "", t, flags=re.M), flags=re.M)
            code |= set(re.findall(r"[A-Za-z_][A-Za-z0-9_]*", bare))
    names = {n: respelled(n) for n in own if n not in kit}
    if "--list" in sys.argv:
        for n in sorted(names):
            note = []
            if names[n] in words:
                note.append("stands already")
            if names[n] in code:
                note.append("in src/")
            print(n, "->", names[n], " ".join(note))
        print("of the kit:", sorted(n for n in own if n in kit))
        seen = {}
        for n, m in names.items():
            seen.setdefault(m, []).append(n)
        print("together:", [v for v in seen.values() if len(v) > 1])
        return
    changed = 0
    pages = [os.path.join("docs", n) for n in sorted(os.listdir("docs")) if n.endswith(".md") and not n.startswith("PORT")]

    def told(m):
        name = m.group(0)
        return names.get(name, respelled(name) if "-" in name and respelled(name) in words else name)

    for p in ["README.md"] + pages:
        old = open(p, encoding="utf-8").read()
        new = re.sub(r"`([^`\n]+)`", lambda s: "`" + TOKEN.sub(told, s.group(1)) + "`", old)
        if new != old:
            changed += 1
            with open(p, "w", encoding="utf-8") as f:
                f.write(new)
    for p, t in texts.items():
        new = TOKEN.sub(lambda m: names.get(m.group(0), m.group(0)), t)
        if new != t:
            changed += 1
            with open(p, "w", encoding="utf-8") as f:
                f.write(new)
    print(f"{len(names)} names, {changed} files")


if __name__ == "__main__":
    main()
