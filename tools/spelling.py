#!/usr/bin/env python3
"""Brings the names of definitions and lemmas to today's spelling, once, after the kit's port.py (docs/PORT.md).

usage: tools/spelling.py        at the top of the repository; rewrites specs/, proofs/, clauses, must-fail edits and pages in place

A function, a lemma, a field or a constructor is in snake case; a fact (what gives a type) in upper camel case. A dash stays where it joins the
names of two definitions, and is an underscore where a plain word is added. Names of the Rust in src/ stay.
"""
import glob
import re
import sys

NAME = r"[A-Za-z_][\w'\-₀-₉·]*"
DEF = re.compile(r"^(\s*)(?:(?:abbrev|unfoldable|pub)\s+)*(" + NAME + r")\s+:\s(.*)$")
TYPE = re.compile(r"^\s*(?:(?:abbrev|unfoldable|pub)\s+)*(record|data)\s+(?:pub\s+)?(" + NAME + r")")
# words of the kit's library that lemmas' names join
KIT = set(
    "length take drop set get_or append suc zero one add mul sub div mod pow max min sum map cond le lt nat_le nat_lt nat_eq"
    " bit_and bit_or bit_xor ones reverse ltb leb eqb".split()
)


def files(*patterns):
    for p in patterns:
        yield from sorted(glob.glob(p, recursive=True))


def snake(name):
    return re.sub(r"([a-z0-9])([A-Z])", r"\1_\2", name).lower()


def gather():
    """The names that are defined, those of them that give a type, and the fields of records."""
    defined, facts, fields = set(), set(), set()
    for path in files("crates/*/specs/*.antt", "crates/*/proofs/**/*.antt"):
        if path.endswith("/Proof.antt"):
            continue  # a function's proof: its names are the check's
        inside = False
        for line in open(path, encoding="utf-8"):
            t = TYPE.match(line)
            if t:
                defined.add(t.group(2))
                facts.add(t.group(2))
                inside = True
                continue
            m = DEF.match(line)
            if m:
                indent, name, of = m.groups()
                defined.add(name)
                if inside and indent:
                    fields.add(name)
                if re.search(r"→ Type 0\s*$", of) and not indent:
                    facts.add(name)
            elif inside and re.match(r"^\s+(?:pub )?" + NAME + r"(?: " + NAME + r")* : ", line):
                for name in line.split(" : ")[0].replace("pub ", "").split():
                    defined.add(name)
                    fields.add(name)
            if line.strip() and not line[0].isspace():
                inside = False
    return defined, facts, fields


def joined(parts, known):
    """The parts with a dash between the names of two definitions, else with underscores."""
    segments, i = [], 0
    while i < len(parts):
        j = len(parts)
        while j > i + 1 and "_".join(parts[i:j]) not in known:
            j -= 1
        segments.append("_".join(parts[i:j]))
        i = j
    out = segments[0]
    for left, right in zip(segments, segments[1:]):
        out += ("-" if left in known and right in known else "_") + right
    return out


def renames(defined, facts):
    known = KIT | {snake(n) for n in defined if "-" not in n and len(n) > 1}
    new = {}
    for name in sorted(defined):
        if name in facts and name[0].islower():
            out = name[0].upper() + name[1:]
        elif re.fullmatch(r"[A-Z0-9]+(-[A-Z0-9]+)+", name):
            out = name.replace("-", "_")
        elif name[0].isupper():
            out = name
        else:
            out = joined(snake(name).split("-"), known)
        if out != name:
            new[name] = out
    # a lemma that would have its definition's name
    taken = {n for n in defined if n not in new} | {b for a, b in new.items() if "-" not in a}
    for a, b in new.items():
        if "-" in a and b in taken:
            new[a] = b + "_lem"
    for a in defined:
        if a not in new and a in {b for c, b in new.items() if "-" not in c}:
            new[a] = a + "_lem"
    return new


def main():
    defined, facts, fields = gather()
    new = renames(defined, facts)
    back = {}
    for a in defined:
        back.setdefault(new.get(a, a), []).append(a)
    for b, names in sorted(back.items()):
        if len(names) > 1:
            print("falls together: %s <- %s" % (b, ", ".join(names)))
    if "--names" in sys.argv:
        for a, b in sorted(new.items()):
            print(a, b)
        return
    token = re.compile(r"(?<![\w'\-·])(\.?)(" + NAME + r")")

    def turn(text, generated):
        def one(m):
            dot, name = m.groups()
            if name not in new or (dot and generated and name not in fields):
                return m.group(0)
            return dot + new[name]

        return token.sub(one, text)

    def put(path, f):
        old = open(path, encoding="utf-8").read()
        out = f(old)
        if out != old:
            open(path, "w", encoding="utf-8").write(out)

    for path in files("crates/*/specs/*.antt", "crates/*/proofs/**/*.antt"):
        put(path, lambda t: turn(t, path.endswith("/Proof.antt")))
    camel = {a: b for a, b in new.items() if re.search("[a-z0-9][A-Z]", a) or a.isupper()}
    bare = re.compile(r"(?<![\w'\-·.\"])(" + NAME + r")")
    # sources and edits: no name of Rust's is in lower camel case or has a dash
    for path in files("crates/*/src/*.rt", "crates/*/must-fail/*.edit"):
        put(path, lambda t: bare.sub(lambda m: camel.get(m.group(1), m.group(1)), t))
    # pages: names in back quotes
    for path in files("README.md", "docs/**/*.md", "oracle/README.md"):
        put(path, lambda t: re.sub(r"`[^`\n]+`", lambda q: bare.sub(lambda m: new.get(m.group(1), m.group(1)), q.group(0)), t))


main()
