#!/usr/bin/env python3
"""Lists the places of each point of the design pass in crates/*/src, by their shape in the text.

    python3 tools/places.py            counts, a line for each kind of place
    python3 tools/places.py 3          the places of point 3, with file and line
    python3 tools/places.py 3 DIR      the same in another checkout

A place that is listed is not yet a finding: docs/DESIGN-PASS.md says of each kind what was read in it.
"""
import collections
import glob
import os
import re
import sys


def sources(top):
    for path in sorted(glob.glob(os.path.join(top, "crates/*/src/**/*.rt"), recursive=True)):
        with open(path, encoding="utf-8") as file:
            yield os.path.relpath(path, os.path.join(top, "crates")), file.read().split("\n")


def code(line):
    return re.sub(r"//.*", "", line)


def by_pattern(top, pattern):
    found = []
    for path, lines in sources(top):
        for number, line in enumerate(lines, 1):
            if not line.lstrip().startswith("ghost use") and re.search(pattern, code(line)):
                found.append((path, number, line.strip()))
    return found


def functions(top):
    """Each function: path, line, name, parameters, clauses, body."""
    for path, lines in sources(top):
        for start, line in enumerate(lines):
            head = re.match(r"(\s*)(pub(\(\w+\))? )?fn (\w+)", line)
            if not head:
                continue
            indent = head.group(1)
            end = start
            while end < len(lines) - 1 and lines[end] != indent + "}" and not re.match(indent + r"\S.*[;}]$", lines[end]) \
                    and not re.match(indent + r"    (requires|ensures).*;$", lines[end]):
                end += 1
            text = lines[start:end + 1]
            clauses = [re.sub(r"^(requires|ensures)( \w+)? ", r"\1 ", row.strip()) for row in text
                       if re.match(r"\s*(requires|ensures)\b", row)]
            body = []
            for at, row in enumerate(text):
                if row == indent + "{" or (at == 0 and row.rstrip().endswith("{")):
                    body = text[at + 1:-1]
                    break
            signature = " ".join(row.strip() for row in text[:len(text) - len(body)] if "ensures" not in row and "requires" not in row)
            inside = re.search(r"\((.*?)\)( ->|\s*\{|$)", signature)
            params = re.findall(r"(\w+): ([^,()]+(?:\([^()]*\))?[^,()]*)", inside.group(1) if inside else "")
            yield path, start + 1, head.group(4), [(n, re.sub(r"'\w+ ", "", t).strip()) for n, t in params], clauses, body


def twins(top):
    """Functions whose bodies are alike up to names and numbers."""
    groups = collections.defaultdict(list)
    for path, line, name, _, _, body in functions(top):
        flat = re.sub(r"\s+", " ", " ".join(code(row) for row in body)).strip()
        if len(flat) < 20:
            continue
        shape = re.sub(r"\b(0x)?[0-9][0-9a-f_]*\b", "0", re.sub(r"\b(?!match|if|else|let|for|in|while|return|Some|None|Ok|Err|true|false)[A-Za-z_]\w*\b", "x", flat))
        groups[shape].append((path, line, name))
    return [(path, line, f"{name} (group of {len(group)})") for group in groups.values() if len(group) > 1 for path, line, name in group]


def clauses(top):
    """Clauses that stand in three functions or more of a crate."""
    seen = collections.defaultdict(list)
    for path, line, name, _, rows, _ in functions(top):
        facts = set()
        for row in rows:
            for fact in re.sub(r"^(requires|ensures) \{ (.*) \};?$", r"\2", row).split(") × ("):
                facts.add(row.split(" ")[0] + " " + (fact.strip("()") if ") × (" in row else fact))
        for fact in facts:
            seen[(path.split("/")[0], fact)].append((path, line, name))
    return [(where[0][0], where[0][1], f"{len(where)} x {row}") for (_, row), where in sorted(seen.items()) if len(where) > 2]


def companions(top):
    """Pairs of parameters, by name and type, that stand in three functions or more of a crate."""
    seen = collections.defaultdict(list)
    for path, line, name, params, _, _ in functions(top):
        names = sorted(set((n, t) for n, t in params if n not in ("rt", "self")))
        for i, a in enumerate(names):
            for b in names[i + 1:]:
                seen[(path.split("/")[0], a, b)].append((path, line, name))
    return [(where[0][0], where[0][1], f"{len(where)} x {a[0]}: {a[1]}, {b[0]}: {b[1]}")
            for (_, a, b), where in sorted(seen.items()) if len(where) > 2]


def answers(top):
    found = []
    for path in sorted(glob.glob(os.path.join(top, "crates/*/proofs/**/Answers.antt"), recursive=True)):
        with open(path, encoding="utf-8") as file:
            rows = file.read().split("\n")
        found += [(os.path.relpath(path, os.path.join(top, "crates")), at, row) for at, row in enumerate(rows, 1)
                  if re.match(r"(abbrev )?pub \S+ :", row)]
    return found


KINDS = [
    (1, "enums", lambda top: by_pattern(top, r"^\s*(pub(\(\w+\))? )?enum ")),
    (1, "flags: fields, variants and parameters of type bool", lambda top: by_pattern(top, r"\b\w+: bool\b")),
    (1, "an Option that is turned into a refusal", lambda top: by_pattern(top, r"if let Some\((fault|refusal|e)\)|Some\(\w+\) => Err")),
    (1, "a number that stands for none", lambda top: by_pattern(top, r"unwrap_or\(0\)|map_or\(0|None => 0|Err\(_\) => 0|== 0 \{")),
    (1, "functions that give a case its number", lambda top: by_pattern(top, r"fn (number|code)\(")),
    (2, "functions with bodies alike up to names and numbers", twins),
    (3, "for over a range of numbers", lambda top: by_pattern(top, r"\bfor .* in [^{]*\.\.")),
    (3, "while and loop", lambda top: by_pattern(top, r"\bwhile\b|\bloop \{")),
    (3, "a count kept by hand", lambda top: by_pattern(top, r"\+= ")),
    (3, "for with enumerate", lambda top: by_pattern(top, r"\bfor .*enumerate\(\)")),
    (4, "conversions and comparisons written as functions", lambda top: by_pattern(top, r"fn (from_\w+|to_\w+|is_\w+|eq|cmp|at_most|same\w*)\b")),
    (4, "impl of From, TryFrom, Display or a comparison", lambda top: by_pattern(top, r"impl.*[ :](From|TryFrom|Display|PartialEq|Eq|PartialOrd|Ord|Clone|Default)\b.* for ")),
    (4, "text put together by hand", lambda top: by_pattern(top, r"push_str|\.push\(char|format!|String::from_str")),
    (4, "an Option or Result taken apart to be put together again", lambda top: by_pattern(top, r"None => (None|false)|Err\(_\) => |Err\(\w+\) => Err|Ok\(\w+\) => Ok|=> (true|false),")),
    (5, "clauses that stand in three functions or more", clauses),
    (5, "pairs of parameters that stand in three functions or more", companions),
    (6, "arrays in fields and variables", lambda top: by_pattern(top, r": \[[A-Za-z0-9_]+; |= \[[^\];]+; ?[A-Z0-9_]+\]")),
    (6, "a length or count beside a buffer", lambda top: by_pattern(top, r"\b(len|count|used|end): (usize|u8)\b|\[0?\.\.(len|count|n|end|self\.(len|count).*)\]")),
    (7, "a match whose arms call functions", lambda top: by_pattern(top, r"match (access|command|call\.ask|self\.access)\b")),
    (7, "function pointers and dyn", lambda top: by_pattern(top, r"\bdyn\b|: fn\(|\[fn")),
    (8, "answers", answers),
]


def main():
    point = int(sys.argv[1]) if len(sys.argv) > 1 and sys.argv[1].isdigit() else None
    top = sys.argv[2] if len(sys.argv) > 2 else "."
    for number, kind, find in KINDS:
        if point not in (None, number):
            continue
        found = find(top)
        print(f"{number}  {len(found):4}  {kind}")
        if point is not None and number != 8:
            for path, line, text in found:
                print(f"         {path}:{line}: {text[:150]}")


main()
