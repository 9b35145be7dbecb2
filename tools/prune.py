#!/usr/bin/env python3
"""Takes away the answers that the check finds alone: python3 ../../tools/prune.py [F..], in a crate's folder that proves (of proofs/F alone, where
functions are named). It checks with --allow-holes and no answers, puts back those whose goals stay open and what they cite, and checks with and
without --margin; where that fails it puts everything back. Private lemmas that nothing cites any more go with them."""
import os
import re
import subprocess
import sys

def blocks(text):
    """Splits a file into top-level blocks: (kind, name, text). A signature and the equations under it are one block; comments right above it go with it."""
    lines = text.split("\n")
    out, cur, name, kind = [], [], None, "head"
    pend = []
    def flush():
        nonlocal cur
        if cur:
            out.append([kind, name, "\n".join(cur)])
        cur = []
    for l in lines:
        if l.startswith("--") or not l.strip():
            pend.append(l); continue
        if l[0] in " )]}|" or l.startswith("unfolding "):
            cur += pend; pend = []; cur.append(l); continue
        m = re.match(r"(?:abbrev |unfoldable )?(?:pub )?(?:abbrev |unfoldable )?([^\s:({]+)\s*(?:\{[^}]*\}\s*)?:\s", l)
        if l.startswith("use ") or l.startswith("pub use "):
            k, n = "use", None
        elif m and not re.match(r"(\S+) .*=", l.split(":")[0]):
            k, n = ("answer" if re.search(r":\s*goal\.", l) and "invariant" not in l.split(":")[0] else "own"), m.group(1)
        else:
            first = l.split()[0]
            if name is not None and first == name:
                cur += pend; pend = []; cur.append(l); continue
            k, n = "own", first
        flush(); kind, name = k, n
        cur = pend + [l]; pend = []
    cur += pend
    flush()
    return out

def check(*flags):
    p = subprocess.run(["rt", "check", *flags], capture_output=True, text=True)
    return p.returncode, p.stdout + p.stderr

def words(t):
    return set(re.findall(r"[^\s(){}\[\],;.]+", t))

def drop_unused(bs):
    while True:
        used = set()
        for k, n, t in bs:
            if k == "use": continue
            body = t
            w = words(body)
            if k == "own":
                w = w - {n}
            used |= w
        nb = [b for b in bs if not (b[0] == "own" and b[1] not in used and not re.search(r"^\s*pub ", b[2], re.M))]
        if len(nb) == len(bs): return bs
        bs = nb

def main():
    only = sys.argv[1:]
    files = []
    for d, _, fs in os.walk("proofs"):
        if "Answers.antt" in fs:
            f = os.path.relpath(d, "proofs")
            if not only or f in only or os.path.basename(f) in only:
                files.append(os.path.join(d, "Answers.antt"))
    if not files: print("no answers"); return 0
    old = {f: open(f).read() for f in files}
    before = sum(len([1 for b in blocks(t) if b[0] == "answer"]) for t in old.values())
    lines_before = sum(t.count("\n") for t in old.values())
    def restore():
        for f, t in old.items(): open(f, "w").write(t)
    def write(f, keep):
        bs = blocks(old[f])
        bs = [b for b in bs if b[0] != "answer" or b[1] in keep]
        if not any(b[0] == "answer" for b in bs):
            if os.path.exists(f): os.remove(f)
            return
        bs = drop_unused(bs)
        open(f, "w").write("\n".join(b[2] for b in bs).rstrip("\n") + "\n")
    try:
        kept = {f: set() for f in files}
        for f in files: write(f, set())
        for turn in range(6):
            code, said = check("--allow-holes")
            new = False
            # open goals by function
            for m in re.finditer(r"^fn (\S+): (?:no proof|not proved)[^\n]*", said, re.M):
                fn = m.group(1)
                parts = fn.split("::")[1:]
                cand = [f for f in files if os.path.relpath(os.path.dirname(f), "proofs").replace("+", "") in ("/".join(parts), parts[-1])]
                goals = set(re.findall(r"`([^`]+)`", m.group(0).split("did not prove", 1)[-1])) if "did not prove" in m.group(0) else set()
                for f in cand:
                    have = [b[1] for b in blocks(old[f]) if b[0] == "answer"]
                    hit = {a for a in have for g in goals if g == a or g.startswith(a + "-clause") or g.startswith(a + "-")}
                    if not goals or not hit: hit = set(have)
                    if hit - kept[f]: kept[f] |= hit; new = True
            # answers cited by kept answers
            for f in files:
                write(f, kept[f])
            if not new: break
        code, said = check()
        if code == 0:
            code, said2 = check("--margin")
            if code != 0:
                for m in re.finditer(r"^fn (\S+): (?:no proof|not proved)[^\n]*", said2, re.M):
                    parts = m.group(1).split("::")[1:]
                    for f in files:
                        if os.path.relpath(os.path.dirname(f), "proofs").replace("+", "") in ("/".join(parts), parts[-1]):
                            goals = set(re.findall(r"`([^`]+)`", m.group(0).split("did not prove", 1)[-1]))
                            have = [b[1] for b in blocks(old[f]) if b[0] == "answer"]
                            hit = {a for a in have for g in goals if g == a or g.startswith(a + "-")}
                            kept[f] |= hit or set(have)
                            write(f, kept[f])
                code, said = check()
        if code != 0:
            print("did not close; everything is put back. Last lines:")
            print("\n".join(l for l in said.split("\n") if l.startswith(("fn ", "note: src", "error", "proofs/", "./")) and ": proved" not in l)[:3000])
            restore(); return 1
        after = sum(len(k) for k in kept.values())
        lines_after = sum(open(f).read().count("\n") for f in files if os.path.exists(f))
        print(f"answers {before} -> {after}, lines {lines_before} -> {lines_after}; margin exit {code}")
        return 0
    except BaseException:
        restore(); raise

sys.exit(main())
