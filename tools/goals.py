#!/usr/bin/env python3
"""Writes docs/goals.txt: for each function its goals as the check names them, `crate::function goal goal ..`. What the compiler makes of derives
and closures is left out.

usage: python3 tools/goals.py [FOLDER..]      at the top; it asks `rt check --generated` of each crate, which is long where nothing is kept.
A FOLDER has CRATE-names/names.json of earlier such runs, and is read in place of a run.
"""
import glob
import json
import os
import re
import subprocess
import sys
import tempfile


def main():
    crates = re.findall(r"(?m)^([a-z_0-9]+)(?: staticlib)?:", open("crates.txt", encoding="utf-8").read())
    goals = {}
    for crate in crates:
        kept = sorted((p for d in sys.argv[1:] for p in glob.glob(f"{d}/{crate}-names/names.json")), key=os.path.getmtime)
        with tempfile.TemporaryDirectory() as room:
            if not kept:
                subprocess.run(["rt", "check", "--generated", room + "/out", "--old-names"], cwd=f"crates/{crate}", capture_output=True)
                kept = [p for p in [room + "/out/names.json"] if os.path.exists(p)]
            if kept:
                with open(kept[-1], encoding="utf-8") as it:
                    written = re.findall(r"\bfn (\w+)", "".join(open(f, encoding="utf-8").read() for f in glob.glob(f"crates/{crate}/src/*.rt")))
                    for function, list_ in json.load(it).get("off:" + crate, {}).items():
                        if function.split("::")[-1] in written and "::fn::" not in function:
                            goals[function] = [goal for goal, _ in list_]
    with open("docs/goals.txt", "w", encoding="utf-8") as it:
        it.write("".join(" ".join([f, *goals[f]]) + "\n" for f in sorted(goals)))
    print(f"{len(goals)} functions, {sum(map(len, goals.values()))} goals")


main()
