#!/usr/bin/env python3
"""Lays what changed beside what stood in an older checkout, as the last part of docs/DESIGN-PASS.md has it:
python3 tools/changes.py OLD [NEW]. Public functions and types of src/ (what stands before a function's body, its clauses too), then the
definitions and statements of specs/ and of the lemma files of proofs/ (of a lemma its type, of all else its whole text), each with its old
text under `-` and its new one under `+`. Comments and layout don't count."""
import collections
import difflib
import os
import re
import sys


def read(path):
    with open(path, encoding="utf-8") as it:
        return it.read()


def bare(text, mark):
    return re.sub(mark + r"[^\n]*", "", text)


def folded(text):
    return re.sub(r"\s+", " ", text).strip().replace("( ", "(").replace(" )", ")").replace(",)", ")")


def crates(root):
    return sorted(c for c in os.listdir(os.path.join(root, "crates")) if os.path.isdir(os.path.join(root, "crates", c, "src")))


def files(root, crate, part):
    for d, _, fs in sorted(os.walk(os.path.join(root, "crates", crate, part))):
        for f in sorted(fs):
            yield os.path.join(d, f)


def closing(t, k):
    """Behind the parenthesis that closes the one at k."""
    deep = 0
    for j in range(k, len(t)):
        deep += {"(": 1, ")": -1}.get(t[j], 0)
        if deep == 0:
            return j + 1
    return len(t)


def items(root):
    """Public functions and types, by crate and name, and what an impl of a trait promises."""
    found = {}
    for c in crates(root):
        for path in files(root, c, "src"):
            t = bare(read(path), "//")
            owner = [(m.start(), m.group(1)) for m in re.finditer(r"^impl(?:<[^>]*>)? (?:[\w<>:]+ for )?(\w+)[^\n]*\{", t, re.M)]
            for m in re.finditer(r"^( *)pub (?:extern \"C\" )?fn (\w+)", t, re.M):
                k = closing(t, t.index("(", m.end()))
                plain = re.match(r"\s*(?:->[^{\n]*)?\{", t[k:])
                stop = re.compile(r"^" + m.group(1) + r"\{", re.M).search(t, k)
                head = t[m.start():k + plain.end()] if plain else t[m.start():stop.start()]
                own = [n for s, n in owner if s < m.start()] if m.group(1) else []
                found[c, (own[-1] + "::" if own else "") + m.group(2)] = folded(head.rstrip(" {"))
            for m in re.finditer(r"((?:^#\[derive[^\n]*\n)?)^pub (struct|enum|trait) (\w+)[^{;\n]*(\{.*?^\}|;)", t, re.M | re.S):
                found[c, m.group(2) + " " + m.group(3)] = folded(m.group(0))
            for m in re.finditer(r"^( *)pub (?:const|static) (\w+): .*?;$", t, re.M | re.S):
                own = [n for s, n in owner if s < m.start()] if m.group(1) else []
                found[c, "const " + (own[-1] + "::" if own else "") + m.group(2)] = folded(m.group(0))[:400]
            for m in re.finditer(r"^pub type (\w+) = .*?;$", t, re.M | re.S):
                found[c, "type " + m.group(1)] = folded(m.group(0))
            for m in re.finditer(r"^impl(?:<[^>\n]*>)? ([^{\n]* for [^{\n]*) \{(.*?)^\}", t, re.M | re.S):
                for g in re.finditer(r"^    ghost (\w+) = .*?;$", m.group(2), re.M | re.S):
                    found[c, f"{m.group(1)}: {g.group(1)}"] = folded(g.group(0))
    return found


def blocks(t, over=""):
    """The top-level blocks of a text, and those of its modules, which go by the modules' parameters."""
    for block in re.split(r"\n(?=[^\s)}\]|])", t):
        if re.match(r"module\b", block):
            head, _, body = block.partition(" where")
            first = re.search(r"\n( +)\S", body)
            if first:
                inner = re.sub(r"^" + first.group(1), "", body.lstrip("\n"), flags=re.M)
                yield from blocks(inner, folded(over + " " + head.replace("module _", "").replace("module", "")))
        else:
            yield over, block


def declarations(root):
    """Definitions and statements, by crate and name; names that stand twice in a crate are numbered."""
    found, seen = {}, collections.Counter()
    for c in crates(root):
        paths = list(files(root, c, "specs")) + [p for p in files(root, c, "proofs") if os.path.basename(p) not in ("Answers.antt", "Invariants.antt", "Lib.antt", "Proof.antt")]
        for path in paths:
            if not path.endswith(".antt") or path.endswith("/Lib.antt"):
                continue
            t = bare(read(path), "--")
            for over, block in blocks(t):
                m = re.match(r"((?:abbrev |unfoldable |pub |record |data )*)(\S+)", block)
                if not m or block.startswith(("use ", "pub use", "unfolding", "mutual", "ruleset")):
                    continue
                whole = re.search(r"abbrev|unfoldable|record|data", m.group(1))
                name = m.group(2)
                if not re.match(re.escape(m.group(0)) + r"[^=]*?:(?!=)", block) and not whole:
                    if (c, name) in found and found[c, name][0]:
                        found[c, name] = (True, found[c, name][1] + " ; " + folded(block))
                    continue
                if "pub" not in m.group(1) and not whole:
                    continue
                found[c, name] = (bool(whole), folded(block) + (" , over " + over if over else ""))
    return found


def show(title, old, new, say):
    keys = sorted(set(old) | set(new))
    for c in sorted({k[0] for k in keys}):
        rows = [k for k in keys if k[0] == c and old.get(k) != new.get(k)]
        if rows:
            print(f"\n{title} `{c}`\n")
            for k in rows:
                print(f"- {k[1]}\n  - `{say(old[k])}`" if k in old else f"- {k[1]}", end="")
                print(f"\n  + `{say(new[k])}`" if k in new else "\n  + gone")


def main():
    old, new = sys.argv[1], sys.argv[2] if len(sys.argv) > 2 else "."
    show("#### Public functions and types of", items(old), items(new), lambda s: s.replace("`", "'"))
    show("#### Definitions and statements of", declarations(old), declarations(new), lambda s: s[1].replace("`", "'"))


main()
