#!/usr/bin/env python3
"""Lays the contracts, definitions and statements of this repository beside those of an older checkout, spelling aside.

usage: python3 tools/beside.py OLD [NEW]      two checkouts; NEW is the current folder if not given

Contracts: the clauses of each function of src/, in their order, without their names; ⌜ ⌝, `now`, `entry` and `exit` are read as today's `.now`, `.old`
and `.new`. Declarations of specs/ and of the lemma files in proofs/: of an abbrev, an unfoldable, a record or a data the whole text, of a lemma its
statement, wherever in its crate it stands. A name is read in snake case. What is left over is printed: words that stand for another, and texts of other
length. It compares text: whether a word that stands for another means the same is for the reader.
"""
import collections
import difflib
import glob
import re
import sys

TOKEN = re.compile(r'"[^"]*"|[^\s(){}.,;\[\]"]+|[(){}.,;\[\]]')


def read(path):
    with open(path, encoding="utf-8") as it:
        return it.read()


def functions(root):
    found = {}
    for path in sorted(glob.glob(root + "/crates/*/src/*.rt")):
        crate = path.split("/crates/")[1].split("/")[0]
        text = re.sub(r"(?m)^\s*//.*$", "", read(path))
        for m in re.finditer(r'(?m)^\s*(?:#\[[^\]]*\]\s*)?(pub )?(?:extern "C" )?fn (\w+)', text):
            rest = text[m.end():]
            body = re.search(r"(?m)^(\s*)\{\s*$", rest)
            head = rest[: body.start()] if body else rest[:400]
            first = re.search(r"\b(requires|ensures)\b", head)
            clauses = re.finditer(r"(requires|ensures)(?: \w+)? \{(.*?)\}\s*(?=requires|ensures|$)", head + "\n", re.S)
            found[(crate, m.group(2))] = (head[: first.start()] if first else head, [(c.group(1), clause(c.group(2))) for c in clauses])
    return found


def snake(word):
    word = word.replace("′", "'").replace("″", "''").replace("‴", "'''")
    if word[:1].isupper():
        word = "".join(p[:1].upper() + p[1:] for p in re.split(r"-(?=[a-z])", word))
    else:
        word = re.sub(r"(?<=[a-z0-9'])([A-Z])", lambda m: "_" + m.group(1).lower(), word)
    return re.sub(r"(?<=\w)-(?=\w)", "_", word)


def clause(s):
    s = re.sub(r"\s+", " ", s).replace("⌜", " ").replace("⌝", " ").replace("«", "").replace("»", "")
    m = re.match(r"^ *λ (\w+)\. *", s)
    if m:
        s = s[m.end():]
        if m.group(1) != "_":
            s = re.sub(rf"(?<![\w'.]){m.group(1)}(?![\w'])", "result", s)
    s = re.sub(r"now \((\w+) \.entry\)", r"\1.E", s)
    s = re.sub(r"now \((\w+) \.exit\)", r"\1.X", s)
    s = re.sub(r"\((\w+) \.entry\) \.now|(\w+) \.entry \.now", lambda m: (m.group(1) or m.group(2)) + ".E", s)
    s = re.sub(r"(\w+) \.exit \.now", r"\1.X", s)
    s = re.sub(r"(?<![\w'.])now (\w+)", r"\1.E", s)
    s = re.sub(r"(\w+) ?\.(now|old)\b", r"\1.E", s)
    s = re.sub(r"(\w+)\.new\b", r"\1.X", s).replace(" .", ".").replace("◌", "_").replace("getD", "get_or")
    return re.sub(r"[() ]", "", re.sub(r"[^\W\d][\w'\-]*", lambda m: snake(m.group(0)), s.replace("′", "'")))


def words(lines):
    out = []
    for line in lines:
        for t in TOKEN.findall(line):
            if t in "(){}[],;.":
                continue
            t = t.strip("«»")
            out.append(t.replace("_", "◌") if re.fullmatch(r"_[^\w\s]+_", t) else snake(t))
    return out


def declarations(root):
    """{(crate, name): [(words of the text or of the statement, file)]}"""
    found = collections.defaultdict(list)
    for path in sorted(glob.glob(root + "/crates/*/specs/**/*.antt", recursive=True) + glob.glob(root + "/crates/*/proofs/*.antt")):
        crate = path.split("/crates/")[1].split("/")[0]
        current = None
        for line in re.sub(r"--[^\n]*", "", read(path)).split("\n"):
            if not line.strip():
                continue
            if not line.startswith((" ", ")", "}", "]")):
                if re.match(r"(pub )?(use|mod) ", line) or line.startswith("unfolding"):
                    current = None
                    continue
                m = re.match(r"((?:(?:abbrev|pub|unfoldable|data|record) )*)([^\s]+)((?: [({].*)?) :(\s|$)|((?:(?:abbrev|pub|unfoldable) )*(?:data|record)) (?:pub )?(\S+)", line)
                if line.startswith("module"):
                    current = ["module", [line], True]
                    found[(crate, "module")].append([current, path])
                elif m:
                    whole = bool(m.group(5)) or bool(re.search("abbrev|unfoldable", m.group(1) or ""))
                    current = [snake(m.group(2) or m.group(6)), [line], whole]
                    found[(crate, current[0])].append([current, path])
                elif current and not current[2]:
                    current = None
                elif current:
                    current[1].append(line)
                continue
            if current:
                current[1].append(line)
    return {k: [(words(d[1]), p) for d, p in v] for k, v in found.items()}


def main():
    old, new = sys.argv[1], (sys.argv[2] if len(sys.argv) > 2 else ".")
    a, b = functions(old), functions(new)
    print(f"functions {len(a)} and {len(b)}; only old: {sorted(set(a) - set(b))}; only new: {sorted(set(b) - set(a))}")
    other = 0
    for k in sorted(set(a) & set(b)):
        if re.sub(r"\s", "", a[k][0]) != re.sub(r"\s", "", b[k][0]):
            print("signature", "::".join(k), "\n  -", " ".join(a[k][0].split()), "\n  +", " ".join(b[k][0].split()))
        if a[k][1] != b[k][1]:
            other += 1
            for x, y in zip(a[k][1] + [None] * 9, b[k][1] + [None] * 9):
                if x != y:
                    print("clause", "::".join(k), "\n  -", x, "\n  +", y)
    print(f"{other} functions whose clauses differ by more than spelling")
    a, b = declarations(old), declarations(new)
    pairs, odd = collections.Counter(), []
    for k in sorted(a):
        olds, news = [w for w, _ in a[k]], [w for w, _ in b.get(k, [])]
        for w in list(olds):
            if w in news:
                olds.remove(w)
                news.remove(w)
        for w in olds:
            close = max(news, key=lambda v: difflib.SequenceMatcher(None, w, v, autojunk=False).ratio(), default=None)
            if close is None:
                odd.append((k, "gone or under another name", " ".join(w)[:120]))
                continue
            news.remove(close)
            if len(w) == len(close):
                pairs.update((x, y) for x, y in zip(w, close) if x != y)
            else:
                ops = difflib.SequenceMatcher(None, w, close, autojunk=False).get_opcodes()
                odd.append((k, "differs", "; ".join(f"- {' '.join(w[i:j])[:90]} + {' '.join(close[p:q])[:90]}" for tag, i, j, p, q in ops if tag != "equal")[:400]))
    print(f"declarations {sum(map(len, a.values()))} and {sum(map(len, b.values()))}")
    print("words that stand for another:", ", ".join(f"{x} → {y} ({n})" for (x, y), n in pairs.most_common()))
    for k, why, text in odd:
        print("::".join(k), why + ":", text)


main()
