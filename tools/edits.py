#!/usr/bin/env python3
"""Says of each must-fail edit whether it can be applied: each `old:` text stands once in its file, and `new:` differs from it.

usage: python3 tools/edits.py [CRATE..]        at the top; of all crates, where none is named

It reads an edit as `rt must-fail` does, and proves nothing.
"""

import glob
import os
import sys


def applied(edit, folder):
    """Returns why the edit cannot be applied, or nothing."""
    path, old, texts = "", None, {}
    with open(edit, encoding="utf-8") as f:
        lines = f.read().split("\n")
    if not any(line.startswith("new:") for line in lines):
        return "no 'new:' line"
    for line in lines:
        if line.startswith("file: "):
            path = line[len("file: "):].strip()
        elif line.startswith("old: "):
            old = line[len("old: "):]
        elif line.startswith("new:"):
            new = line[len("new:"):].removeprefix(" ")
            if not path or not old:
                return "a 'new:' line stands before any 'file:' or 'old:' line"
            if path not in texts:
                if not os.path.isfile(os.path.join(folder, path)):
                    return f"no file {path}"
                with open(os.path.join(folder, path), encoding="utf-8") as f:
                    texts[path] = f.read()
            found = texts[path].count(old)
            if found != 1:
                return f"{found} times in {path}: {old.strip()}"
            if new == old:
                return f"changes nothing: {old.strip()}"
            texts[path] = texts[path].replace(old, new)
            old = None
    return None


def main(crates):
    count = bad = 0
    for edit in sorted(glob.glob("crates/*/must-fail/*.edit")):
        folder = os.path.dirname(os.path.dirname(edit))
        if crates and os.path.basename(folder) not in crates:
            continue
        why = applied(edit, folder)
        count += 1
        if why:
            bad += 1
            print(f"{edit}: {why}")
    print(f"{count - bad} of {count} edits can be applied")
    return 1 if bad else 0


sys.exit(main(sys.argv[1:]))
