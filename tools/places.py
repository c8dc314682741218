#!/usr/bin/env python3
"""Lists the places in src/ where an older form may stand, by the eight points of docs/DESIGN-PASS.md.

    python3 tools/places.py          how many there are, by point and kind
    python3 tools/places.py 3        each place of point 3, as FILE:LINE: TEXT

Tests (what stands below `#[cfg(test)]`, and the crates that hold nothing but tests) are left out.
"""
import collections
import pathlib
import re
import sys

TOP = pathlib.Path(__file__).resolve().parent.parent
TESTS = {"cases", "text_cases", "sheet_cases"}


def sources():
    for path in sorted(TOP.glob("crates/*/src/**/*.rt")):
        if path.relative_to(TOP).parts[1] in TESTS or path.name == "examples.rt" and "#[test]" in path.read_text():
            continue
        lines = []
        for number, line in enumerate(path.read_text().splitlines(), 1):
            if line.startswith("#[cfg(test)]") and lines and path.name != "lib.rt":
                break
            lines.append((number, line))
        yield path.relative_to(TOP), lines


# point, kind, pattern of a line
LINES = [
    (1, "a bool that says whether a write was done", r"fn .*&mut .*-> bool"),
    (1, "a refusal that is asked for before what may be refused is made", r"-> Option<(Refusal|TextFault)>"),
    (1, "a number in place of a refusal", r"fn (number|cause)\(.*-> u8"),
    (1, "an error passed on, or turned into nothing, by hand", r"(Err\((\w+)\) => (return )?(Err|None|Ok)\b|Err\(_\) => None|Some\(\w+\) => (return )?Err\(|Err\(\w+\) => Reply::)"),
    (1, "a flag or an Option beside a value in a struct", r"^    (pub(\(crate\))? )?\w+: (bool|Option<\w+>),"),
    (3, "while", r"^\s*while "),
    (3, "for over numbers", r"^\s*for \w+ in .*\.\."),
    (3, "for over items that stops at one, counts or sums", r"^\s*for (\(|[a-z]\w* in (?!.*\.\.))"),
    (4, "equality by hand", r"fn same\("),
    (4, "an impl of From, Display, PartialEq or Default", r"^impl.* (From<.*>|fmt::Display|PartialEq|Default) for"),
    (4, "a cast", r" as (u8|u16|u32|u64|usize)\b"),
    (6, "an array of fixed length in a struct or a signature", r"(: |-> (Result<)?)\[\w+; \w+\]"),
    (6, "a count beside what it counts", r"^    (pub(\(crate\))? )?(count|used|size|ended|place|at): (usize|u16|u32|bool),"),
    (7, "a match that picks what to do", r"^\s*match "),
]


def names():
    """Point 2: names of types, functions and constants that more than one crate declares."""
    found = collections.defaultdict(list)
    for path, lines in sources():
        for number, line in lines:
            said = re.match(r"\s*(?:pub(?:\(crate\))? )?(struct|enum|fn|const) (\w+)", line)
            if said and not line.startswith(" "):
                found[said.groups()].append((path, number, line))
    for (kind, name), where in sorted(found.items()):
        if len({path.parts[1] for path, _, _ in where}) > 1:
            for path, number, line in where:
                yield f"{kind} {name} in more than one crate", path, number, line


def clauses():
    """Point 5: facts that stand in the clauses of three functions or more of one crate."""
    found = collections.defaultdict(list)
    for path, lines in sources():
        owner = None
        for number, line in lines:
            said = re.match(r"\s*(?:pub(?:\(crate\))? )?fn (\w+)", line)
            if said:
                owner = said.group(1)
            clause = re.match(r"\s+(?:requires|ensures) \w* ?\{ (.*) \}$", line)
            if clause:
                fact = re.sub(r"\.(old|new|now|entry)\b", "", clause.group(1)).strip()
                found[path.parts[1], fact].append((path, number, line, owner))
    for (crate, fact), where in sorted(found.items()):
        if len({(path, owner) for path, _, _, owner in where}) >= 3:
            for path, number, line, _ in where:
                yield f"a fact of three functions: {fact[:70]}", path, number, line


def parameters():
    """Point 5: pairs of parameters that three functions or more of one crate take together."""
    found = collections.defaultdict(list)
    for path, lines in sources():
        text = "\n".join(line for _, line in lines)
        for said in re.finditer(r"\bfn (\w+)[^(]*\(([^)]*)\)", text):
            number = text.count("\n", 0, said.start()) + 1
            taken = re.findall(r"(\w+): (?:&'?\w* ?(?:mut )?)?[\w\[\]<>:'_]+", said.group(2))
            for i, a in enumerate(taken):
                for b in taken[i + 1:]:
                    found[path.parts[1], a, b].append((path, number, said.group(1)))
    for (crate, a, b), where in sorted(found.items()):
        if len(where) >= 3:
            for path, number, name in where:
                yield f"parameters of three functions: {a}, {b}", path, number, f"fn {name}"


def all_places():
    for path, lines in sources():
        for number, line in lines:
            for point, kind, pattern in LINES:
                if re.search(pattern, line) and not line.strip().startswith("//"):
                    yield point, kind, path, number, line
    for place in names():
        yield (2, *place)
    for place in clauses():
        yield (5, *place)
    for place in parameters():
        yield (5, *place)
    for path in sorted(TOP.glob("crates/*/proofs/**/Answers.antt")):
        body = path.read_text()
        for said in re.finditer(r"^(\S+)(?: [^:=\n]*)? =", body, re.M):
            yield 8, "an answer", path.relative_to(TOP), body.count("\n", 0, said.start()) + 1, said.group(0)


def main():
    if len(sys.argv) > 1:
        for point, kind, path, number, line in all_places():
            if point == int(sys.argv[1]):
                print(f"{path}:{number}: {line.strip()}    [{kind}]")
        return
    counts = collections.Counter()
    seen = set()
    for point, kind, path, _, _ in all_places():
        if point in (2, 5):
            # a name, a fact or a pair of parameters counts once in each crate, and a name once in all
            key = kind if point == 2 else (path.parts[1], kind)
            if key in seen:
                continue
            seen.add(key)
        kind = "a name that more than one crate declares" if point == 2 else kind.split(":")[0]
        counts[point, kind] += 1
    for (point, kind), n in sorted(counts.items()):
        print(f"{point}  {n:4}  {kind}")


main()
