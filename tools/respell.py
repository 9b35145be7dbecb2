#!/usr/bin/env python3
"""Brings the repository's own definitions and lemmas to today's spelling: words in snake case, types and modules in camel case.

usage: python3 tools/respell.py      once, at the top, right after port.py; files are rewritten in place

port.py respelled only those names that a library had too. This turns the others: each name that a file of specs/ or a file of lemmas (proofs/*.antt)
declares, wherever it is cited: in specs/, proofs/, contracts, must-fail edits and, between backticks, in the documents. Names of functions stay.
"""
import collections
import glob
import re
import subprocess

LANDED = "ac536d98fcee7e8a5ebaef26f69016e1ebdb925f"
WORD = r"[^\W\d][\w'\-]*"
TOKEN = re.compile(WORD)
# what would fall together with another name, and names that begin with a capital
SPECIAL = {
    "wordFields": "word_fields_stand", "code-in": "code_in_is",
    "Places-of": "PlacesOf", "Register-of": "RegisterOf", "Same-settings": "SameSettings", "Accepted-run": "AcceptedRun", "Holds-alone": "HoldsAlone",
    "Alike-runs": "AlikeRuns", "Has-outcome": "HasOutcome", "Counts-of": "CountsOf", "Alike-metered": "AlikeMetered", "Recorded-run": "RecordedRun",
    "Finished-word": "FinishedWord", "First-met-or-limit": "FirstMetOrLimit", "Held-from-to": "HeldFromTo", "Result-stands": "ResultStands",
    "By-status": "ByStatus", "Same-run": "SameRun", "As-alone": "AsAlone", "Whole-run": "WholeRun", "L-is": "l_is", "Digits-append": "Digits-append",
}


def declared(text, kinds):
    for line in re.sub(r"--[^\n]*", "", text).split("\n"):
        if re.match(r"\s*(use|unfolding|mod|pub mod|pub use)\b", line):
            continue
        m = re.match(rf"(\s*)(?:(?:abbrev|unfoldable|pub|opaque) )*(?:data|record) (?:pub )?({WORD})", line)
        if m:
            kinds[m.group(2)].add("type")
            continue
        m = re.match(rf"(\s*)(?:(?:abbrev|unfoldable|pub|opaque) )*((?:{WORD} )*{WORD})(?: +[({{][^:]*:[^)}}]*[)}}])* +:(?= |$)", line)
        if m and not re.match(r"(abbrev|unfoldable|pub|opaque|data|record|module|let|in)\b", m.group(2)):
            for name in m.group(2).split():
                kinds[name].add("field" if m.group(1) else "top")


def lower(name):
    if name in SPECIAL:
        return SPECIAL[name]
    if name[:1].isupper():
        return name
    return re.sub(r"(?<=[a-z0-9'])([A-Z])", lambda m: "_" + m.group(1).lower(), name).replace("-", "_")


def main():
    lemmas = sorted(glob.glob("crates/*/specs/**/*.antt", recursive=True) + glob.glob("crates/*/proofs/*.antt"))
    kinds = collections.defaultdict(set)
    for f in lemmas:
        declared(open(f, encoding="utf-8").read(), kinds)
    turned = {n: lower(n) for n in kinds if lower(n) != n}
    by_new = collections.defaultdict(list)
    for old, new in turned.items():
        by_new[new].append(old)
    for new, olds in by_new.items():
        # a lemma that would have its function's name
        if len(olds) > 1 or (new in kinds and "-" in olds[0]):
            for old in olds:
                if "-" in old and old not in SPECIAL:
                    turned[old] = new + "_lem"
    if len(set(turned.values())) < len(turned):
        seen = collections.Counter(turned.values())
        raise SystemExit("fall together: " + ", ".join(o for o, n in turned.items() if seen[n] > 1))
    proofs = sorted(glob.glob("crates/*/proofs/**/*.antt", recursive=True))

    crates = {line.split(":")[0] for line in open("crates.txt", encoding="utf-8") if re.match(r"\w+:", line)}

    def respell(text):
        # what a file brings in from a library keeps its name
        theirs, modules = set(), set()
        for m in re.finditer(r"(?m)^(?:ghost )?(?:pub )?use ([^\s{;]+?)(?:\.\{([^}]*)\}|( as \S+))?;?\s*$", text):
            path = m.group(1).split(".")
            if path[0] == "Rattle" and path[1] in crates:
                continue
            if m.group(2) is not None:
                theirs.update(re.split(r"[\s,]+| as ", m.group(2)))
            elif m.group(3):
                modules.add(m.group(3)[4:].rstrip(";"))
            else:
                modules.add(path[-1])

        def one(m):
            word, before = m.group(0), text[max(0, m.start() - 40):m.start()]
            if word not in turned or before[-1:] in ("·", "◌") or word in theirs:
                return word
            if before[-1:] == "." and re.search(rf"({WORD})\.$", before) and re.search(rf"({WORD})\.$", before).group(1) in modules:
                return word
            return turned[word]
        return TOKEN.sub(one, text)

    for f in sorted(set(lemmas + proofs + glob.glob("crates/*/src/**/*.rt", recursive=True))):
        text = open(f, encoding="utf-8").read()
        new = respell(text)
        if new != text:
            open(f, "w", encoding="utf-8").write(new)

    # what port.py respelled, for the edits and the documents, which it leaves
    old = collections.defaultdict(set)
    for f in subprocess.run(["git", "ls-tree", "-r", "--name-only", LANDED, "crates"], capture_output=True, text=True).stdout.split():
        if re.match(r"crates/\w+/(specs/.*|proofs/[^/]*)\.antt$", f):
            declared(subprocess.run(["git", "show", f"{LANDED}:{f}"], capture_output=True, text=True).stdout, old)
    now = set(kinds)
    told = {n: lower(n) for n in old if n not in now and lower(n) in now}
    told.update(turned)

    def told_in(text):
        return TOKEN.sub(lambda m: told.get(m.group(0), m.group(0)), text)

    for f in sorted(glob.glob("crates/*/must-fail/*.edit")):
        text = open(f, encoding="utf-8").read()
        new = "\n".join(l if l.startswith("file:") else told_in(l) for l in text.split("\n"))
        if new != text:
            open(f, "w", encoding="utf-8").write(new)
    for f in sorted(glob.glob("*.md") + glob.glob("docs/**/*.md", recursive=True)):
        text = open(f, encoding="utf-8").read()
        new = re.sub(r"`[^`\n]*`", lambda m: told_in(m.group(0)), text)
        if new != text:
            open(f, "w", encoding="utf-8").write(new)
    print(f"{len(turned)} names of {len(kinds)} turned")


main()
