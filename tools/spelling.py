#!/usr/bin/env python3
"""Brings the names of this repository's definitions and lemmas to the spelling of the installed kit: words in snake case.

usage: python3 tools/spelling.py --turn        once, at the top, in the tree that port.py made; it rewrites files

A name is turned where an .antt file of specs/ or proofs/ declares it and it has a dash or a capital inside; types and modules, which begin with a
capital, and the names that the library or the check makes stay. Where two names would fall together, the definition or the theorem has the plain
name and the lemma on it ends in `_law`, or the name is in APART. Turned are the .antt files, the .rt files, the must-fail edits, and the names in
backticks in the documents. It prints how many names and places were turned.
"""

import glob
import os
import re
import sys

if sys.argv[1:] != ["--turn"]:
    sys.exit(__doc__)

# names that would fall together with one that is in snake case already
APART = {
    "actionScoped": "scoped_action",
    "atFirst": "at_start",
    "stepRefused": "refused_step",
    "clearedBy": "is_cleared_by",
    "countAt": "count_outcome",
    "goesOn": "going_on",
    "inList": "count_in_list",
    "noneFound": "none_is_found",
    "restBoth": "rest_of_both",
    "tooLong": "over_length",
    "slice-val": "slice_value",
}
# names of two that never stand in one file
TOGETHER = ["blocked_pair", "in_first", "is_process", "reads_back"]
# names of the library that one of ours shares
LIBRARY = ["eq-eqb", "append-nil"]
# names that stand only behind `as`
ALIASES = ["loadWritten", "partnersOfAction", "weightOf", "acceptedAs", "actionScoped", "channelOf", "noName", "plainAccepted", "plainNoCall", "plainRefused", "refusedBy", "setDownAmbient", "singleAction", "stepRefused"]
# lemmas that have the name of a definition or a theorem, but for the spelling
LAWS = """action-body ambient-at ambient-bytes ambient-element ambient-tag blocked-at blocked-irreducible can-act counted-tags digits-by element-at
element-of ended-number enter-pair filled-numbers first-of form-is is-ambient job-field job-whole kind-number leave-pair lowest-found meeting-reduces
moves-lowest nothing-told number-found numbers-differ only-used-restricted open-element open-field other-found others-stay outer-list parent-pair
partner-number partner-of partnered-numbers place-offset plain-turn process-tag ran-numbers read-within redex-congruence removed-once
rename-composition rename-identity replied-numbers root-list root-of set-down shape-tag sibling-pair start-at state-front state-whole step-at
sweep-again sweep-any-order sweep-continues sweep-finished sweep-reached sweep-refused tag-kind tally-numbers text-of unused-name unused-names
partners-at unused-restriction weighed-numbers""".split()
PART = r"[\w'◌][\w'◌-]*"
DECLARES = re.compile(r"^ *((?:abbrev |unfoldable |data |record |ruleset |pub )*)([^\s(){}\[\];,.:λ]+(?: [^\s(){}\[\];,.:λ]+)*?) (?:[({].*?)?:(?: |$)")


def files(ending):
    for folder, dirs, names in os.walk("crates"):
        dirs[:] = sorted(d for d in dirs if d != "out")
        for name in sorted(names):
            if name.endswith(ending):
                yield os.path.join(folder, name)


def read(path):
    with open(path, encoding="utf-8") as f:
        return f.read()


def snake(name):
    name = name.replace("getD", "get_or")
    return re.sub(r"(?<=[a-z0-9])([A-Z])", lambda m: "_" + m.group(1).lower(), name).replace("-", "_")


def turned():
    names = set(ALIASES)
    for path in files(".antt"):
        for line in read(path).split("\n"):
            m = None if line.lstrip().startswith("--") else DECLARES.match(line)
            if m:
                names.update(m.group(2).split())
    to = {}
    for name in sorted(names):
        if name not in LIBRARY and re.match(r"[a-z]", name) and ("-" in name or re.search(r"[a-z0-9][A-Z]", name)):
            to[name] = APART.get(name) or snake(name) + ("_law" if name in LAWS else "")
    return to


def main():
    to = turned()
    back = {}
    for old, new in to.items():
        back.setdefault(new, []).append(old)
    for new, olds in sorted(back.items()):
        if len(olds) > 1 and new not in TOGETHER:
            raise SystemExit(f"fall together: {olds}")
    places = 0
    # names that port.py turned already stand in the edits and in the documents as they were
    there = set()
    for path in files(".antt"):
        there.update(re.findall(PART, read(path)))

    def early(text):
        return re.sub(r"(?<![\w-])[a-z]\w*[a-z0-9][A-Z]\w*", lambda m: snake(m.group(0)) if m.group(0) not in to and snake(m.group(0)) in there else m.group(0), text)

    def word(m):
        nonlocal places
        new = to.get(m.group(0))
        places += new is not None
        return new or m.group(0)

    def code(text):
        return re.sub(PART, word, text)

    def quoted(text):
        return re.sub(r"`[^`\n]*`", lambda m: code(early(m.group(0))), text)

    def line(text, mark):
        at = text.find(mark)
        return code(text) if at < 0 else code(text[:at]) + quoted(text[at:])

    for path in list(files(".antt")) + list(files(".rt")) + list(files(".edit")) + sorted(glob.glob("docs/*.md") + ["README.md"]):
        old = read(path)
        if path.endswith(".md"):
            new = quoted(old)
        elif path.endswith(".edit"):
            new = "\n".join(code(early(t)) if t.startswith(("old:", "new:")) else t for t in old.split("\n"))
        else:
            new = "\n".join(line(t, "//" if path.endswith(".rt") else "--") for t in old.split("\n"))
        if new != old:
            with open(path, "w", encoding="utf-8") as f:
                f.write(new)
    print(f"{len(to)} names, {places} places")


main()
