#!/usr/bin/env python3
"""Lists the places that docs/DESIGN-PASS.md counts: python3 tools/places.py [POINT] [--list] [ROOT].

With no POINT all eight; with --list each place. ROOT is another checkout's top. It reads text: a row is a place to look at.
A function's head is what stands between `fn` and its body's brace; a clause's facts are what `×` joins at its top.
"""
import collections
import os
import re
import sys

ROOT = "."
HEAD = re.compile(r"^(?:pub )?(?:extern \"C\" )?fn (\w+)", re.M)


def sources(root):
    for c in sorted(os.listdir(os.path.join(root, "crates"))):
        src = os.path.join(root, "crates", c, "src")
        for d, _, fs in os.walk(src):
            for f in sorted(fs):
                if f.endswith(".rt"):
                    path = os.path.join(d, f)
                    yield c, path, open(path).read()


def bare(text):
    """The text with comments and strings blanked, line for line."""
    text = re.sub(r"//[^\n]*", lambda m: " " * len(m.group()), text)
    return re.sub(r'b?"[^"\n]*"', lambda m: '"' + " " * (len(m.group()) - 2) + '"', text)


def at(text, k):
    return text.count("\n", 0, k) + 1


def lines(pattern, keep=lambda m: True):
    def find(root):
        for c, path, text in sources(root):
            t = bare(text)
            for m in re.finditer(pattern, t, re.M):
                if keep(m):
                    yield c, path, at(t, m.start()), " ".join(m.group().split())
    return find


def structs(text):
    for m in re.finditer(r"^(?:pub )?struct (\w+)[^{;]*\{(.*?)^\}", text, re.M | re.S):
        fields = re.findall(r"^\s+(?:pub )?(\w+): ([^,\n]+),", m.group(2), re.M)
        yield m.group(1), fields, at(text, m.start())


def functions(text):
    """Name, parameters, requires and line of each function."""
    t = bare(text)
    for m in re.finditer(r"^[ ]*(?:pub )?(?:extern \"[^\"]*\" )?fn (\w+)(?:<[^(]*>)?\(", t, re.M):
        k, deep = m.end(), 1
        while deep:
            deep += {"(": 1, ")": -1}.get(t[k], 0)
            k += 1
        params = [" ".join(p.split()) for p in t[m.end():k - 1].split(",") if ":" in p]
        facts, j = [], k
        while True:
            r = re.compile(r"\s*(?:->[^{\n]*(?:\n|$))?\s*(requires|ensures)(?: \w+)? \{").match(t, j)
            if not r:
                break
            e, deep = r.end(), 1
            while deep:
                deep += {"{": 1, "}": -1}.get(t[e], 0)
                e += 1
            if r.group(1) == "requires":
                facts += atoms(t[r.end():e - 1])
            j = e
        yield m.group(1), params, facts, at(t, m.start())


def atoms(clause):
    clause = " ".join(clause.split())
    out, deep, last = [], 0, 0
    for k, ch in enumerate(clause):
        deep += {"(": 1, ")": -1}.get(ch, 0)
        if ch == "×" and deep == 0:
            out.append(clause[last:k])
            last = k + 1
    out.append(clause[last:])
    res = []
    for a in out:
        a = a.strip()
        while a.startswith("(") and closes(a):
            inner = a[1:-1].strip()
            if "×" in inner:
                res += atoms(inner)
                a = ""
                break
            a = inner
        if a:
            res.append(a)
    return res


def closes(a):
    deep = 0
    for k, ch in enumerate(a):
        deep += {"(": 1, ")": -1}.get(ch, 0)
        if deep == 0:
            return k == len(a) - 1
    return False


def facts_of_three(root):
    by = collections.defaultdict(list)
    for c, path, text in sources(root):
        for f, _, facts, line in functions(text):
            for a in set(facts):
                a = re.sub(r"\.(now|old)\b", "", a)
                by[c, a].append((path, line, f))
    for (c, a), uses in sorted(by.items()):
        if len(uses) >= 3:
            yield c, uses[0][0], uses[0][1], f"{a}  [{len(uses)} functions]"


def parameters_of_three(root):
    """Sets of three or more parameters that three or more functions of a crate have, none a part of a larger set."""
    for c in sorted({c for c, _, _ in sources(root)}):
        uses = collections.defaultdict(set)
        heads = [(path, f, frozenset(p.replace("&mut ", "&") for p in params)) for cc, path, text in sources(root) if cc == c
                 for f, params, _, _ in functions(text)]
        for i, (_, f, p) in enumerate(heads):
            for _, g, q in heads[i + 1:]:
                both = p & q
                if len(both) >= 3:
                    uses[both] |= {f, g}
        sets = [(s, fs) for s, fs in uses.items() if len({f for _, f, p in heads if s <= p}) >= 3]
        for s, _ in sets:
            if not any(s < o for o, _ in sets):
                fs = sorted({f for _, f, p in heads if s <= p})
                yield c, f"crates/{c}/src", 0, f"{', '.join(sorted(s))}  [{len(fs)}: {', '.join(fs)}]"


def flags(root):
    for c, path, text in sources(root):
        for name, fields, line in structs(bare(text)):
            for f, t in fields:
                if t == "bool" and len(fields) > 1:
                    yield c, path, line, f"struct {name}: {f}: bool beside {len(fields) - 1} more"
                if f in ("refusal", "number", "last") and t in ("u32", "isize") and len(fields) > 1:
                    yield c, path, line, f"struct {name}: {f}: {t}"


def counted(root):
    for c, path, text in sources(root):
        for name, fields, line in structs(bare(text)):
            arrays = [t for _, t in fields if t.startswith("[")]
            sizes = collections.Counter(re.sub(r".*; ", "", t) for t in arrays)
            n = [f for f, _ in fields if f in ("count", "len", "length", "size", "total", "rows", "next")]
            if arrays and n:
                yield c, path, line, f"struct {name}: array and {', '.join(n)}"
            if any(k > 1 for k in sizes.values()):
                yield c, path, line, f"struct {name}: {max(sizes.values())} arrays of one length"


def same_name(m):
    return m.group(1) == m.group(2)


def answers(root):
    for c in sorted(os.listdir(os.path.join(root, "crates"))):
        d = os.path.join(root, "crates", c, "proofs")
        for b, _, fs in os.walk(d):
            if "Answers.antt" in fs:
                path = os.path.join(b, "Answers.antt")
                for k, line in enumerate(open(path), 1):
                    m = re.match(r"(?:abbrev )?pub (\S+) : goal\.", line)
                    if m:
                        yield c, path, k, m.group(1)


def old_imports(root):
    for c in sorted(os.listdir(os.path.join(root, "crates"))):
        for part in ("specs", "proofs"):
            for b, _, fs in os.walk(os.path.join(root, "crates", c, part)):
                for f in fs:
                    path = os.path.join(b, f)
                    for k, line in enumerate(open(path), 1):
                        if re.match(r"use (Prim\.Native|lib\.|mathlib\.)", line):
                            yield c, path, k, line.strip()[:100]


POINTS = {
    "1 variants that hold a refusal's number": lines(r"^\s+Refused\(u32\)"),
    "1 flags and numbers of refusals beside values": flags,
    "1 refusals as numbers": lines(r"\breturn (?:1[0-4]|[2-9]);|\bRefused\(1?\d\)|!= 0 \{\n\s+return (?:r|code|number|refused)"),
    "1 kinds as numbers": lines(r"\bstate [!=<>]=? \d|\b(?:kind|state|bch): u(?:32|64)|== (?:outcome::)?LOST|== 4294967295|held\[\w+\] [!=]= 0"),
    "2 own conversions, picks, minima": lines(r"^(?:pub )?fn (?:wide|pick\w*|min\w*|max\w*|least|larger|smallest|one|two|four|eight|byte)\("),
    "3 while and loop": lines(r"\b(?:while|loop)\b(?= |\{)"),
    "4 a field copied under its own name": lines(r"let (?:mut )?(\w+) = [\w.]+\.(\w+);", same_name),
    "4 a field named for its value": lines(r"\b(\w+): (\w+),$", same_name),
    "4 fields copied one by one": lines(r"^\s+(\w+): \w+(?:\.\w+)*\.(\w+),$", same_name),
    "5 facts of three or more functions": facts_of_three,
    "5 parameters that travel together": parameters_of_three,
    "6 arrays with a length beside, parallel arrays": counted,
    "7 switches": lines(r"\b(?:layered|asked|stopped|whole): bool|is_layered\(|step_of\("),
    "8 answers": answers,
    "8 imports of the older library": old_imports,
}


def main():
    args = [a for a in sys.argv[1:] if a != "--list"]
    point = args.pop(0) if args and args[0].isdigit() else None
    root = args.pop(0) if args else ROOT
    for name, find in POINTS.items():
        if point and not name.startswith(point):
            continue
        rows = list(find(root))
        by = collections.Counter(r[0] for r in rows)
        print(f"{name}: {len(rows)}" + ("" if not rows else "  (" + ", ".join(f"{c} {k}" for c, k in by.items()) + ")"))
        if "--list" in sys.argv:
            for c, path, line, text in rows:
                print(f"    {os.path.relpath(path, root)}:{line}: {text}")


main()
