#!/usr/bin/env python3
"""Writes, in the proofs of functions, the names that the installed kit makes for goals, places, steps and loops.

usage: python3 tools/goals.py CRATE..        at the top, once for a crate, after the crates below it are proved

It asks `rt check --generated DIR --old-names` for the old and the new names of a crate, and turns them in the proofs of its functions. A chain of
`.before` is followed through the old places, and what stands behind it is named from where it is known: `c.before.before.if1.false` becomes
`c.if-a-b.false`, `c.before.k.given.1` becomes `c.in-Refused.is`. It prints what it could not follow.
"""

import glob
import json
import os
import re
import subprocess
import sys
import tempfile

PIECE = r"[^\s(){}.;,@\"«»\[\]]+"
SHARED = {"args", "requires", "ranges", "lifetimes", "well_formed", "utf8", "type_inv"}


def plain(name):
    return name.replace("_", "-")


def names_of(crate):
    with tempfile.TemporaryDirectory() as folder:
        said = subprocess.run(["rt", "check", "--generated", folder, "--old-names"], cwd=os.path.join("crates", crate), capture_output=True, text=True).stdout
        path = os.path.join(folder, "names.json")
        if not os.path.exists(path):
            raise SystemExit(f"{crate}: {said[-600:]}")
        with open(path, encoding="utf-8") as f:
            return json.load(f)


class Table:
    """The places, goals and loops of one function."""

    def __init__(self, found):
        self.old = [plain(it[0]) for it in found["places"]]
        self.new = found["places_by_name"]
        index = {}
        for i, it in enumerate(self.old):
            index.setdefault(it, i)
        self.index = index
        self.parent = [index.get(plain(it[1])) if it[1] else None for it in found["places"]]
        self.field = [(plain(it[2][0]), it[2][1]) for it in found["places"]]
        self.callee = [it[3] for it in found["places"]]
        self.params = found["params"]
        self.arm = found["arms"]
        self.needs = [(plain(a), b) for a, b in found["needs"]]
        self.at = [plain(a) for a, b in found["asked_at"]]
        self.loops = {plain(a): b for (a, b), _ in found["loops"]}
        self.group = list(range(len(self.old)))
        self.final = list(range(len(self.old)))
        for i, arm in enumerate(self.arm):
            if arm:
                first = i
                for _ in range(arm[1] - 1):
                    first = self.parent[first]
                self.group[i] = first
        for i in range(len(self.old)):
            for j in range(i, len(self.old)):
                if self.group[j] == self.group[i] and self.arm[i]:
                    self.final[i] = j

    def place(self, word):
        w = plain(word)
        if w in self.index:
            return self.index[w]
        for i, it in enumerate(self.new):
            if plain(it) == w:
                return i
        return None

    def need(self, word):
        w = plain(word)
        for key in (w, re.sub("^overflow-", "", w), re.sub("^nonzero-", "", w)):
            for i, (old, _) in enumerate(self.needs):
                if old == key:
                    return i
        for i, (_, new) in enumerate(self.needs):
            if plain(new) == w:
                return i
        return None

    def up(self, i):
        """The place before, as the installed kit has it."""
        return self.parent[self.group[i]]

    def loop_word(self, w):
        for stem in ("invariant-", "decreases-"):
            if w.startswith(stem) and w[len(stem):] in self.loops:
                return stem + self.loops[w[len(stem):]]
        return None


class File:
    def __init__(self, path, tables):
        self.path = path
        with open(path, encoding="utf-8") as f:
            self.text = f.read()
        self.tables = {}
        for m in re.finditer(r"(?m)^use \S+\.(Tie|Lts\S*)(?: as (\S+))?$", self.text):
            word = "Lts" if m.group(1) == "Tie" else m.group(1)
            if word in tables:
                self.tables[m.group(2) or m.group(1)] = tables[word]
        self.left = []
        # a type of the file's own that is a place
        self.named = {}
        for m in re.finditer(rf"(?m)^ *(\w+)(?: [\w ]+)? = ({PIECE})\.({PIECE})", self.text):
            table = self.tables.get(m.group(2))
            if table and not m.group(3).startswith("Need-") and table.place(m.group(3)) is not None:
                self.named[m.group(1)] = (table, table.place(m.group(3)))

    def back(self, table, start, n):
        at = start
        for _ in range(n):
            # the installed kit can have fewer places on the way
            at = at if table.parent[at] is None else table.parent[at]
        return at

    def chain(self, known, var, rest, wanted=None):
        """A chain of fields behind a variable that stands at an old place, in the new names. `wanted` is the place that a lemma takes."""
        table, start, base, n = known
        pieces = rest[1:].split(".") if rest else []
        extra = 0
        while extra < len(pieces) and pieces[extra] == "before":
            extra += 1
        tail = pieces[extra:]
        n += extra
        at = self.back(table, start, n)
        if not tail:
            if wanted is not None:
                at = wanted
            steps, cur = 0, start
            while table.group[cur] != table.group[at]:
                cur = table.up(cur)
                steps += 1
                if cur is None:
                    self.left.append(f"{var}{rest}: no way back")
                    return var + rest
            return base + ".before" * steps
        f = plain(tail[0])
        if f in {plain(it) for it in SHARED}:
            return ".".join([base] + tail)
        # the step stands at this place, or, where the installed kit has other places on the way, at the nearest one
        way, cur = [], start
        while cur is not None:
            way.append(cur)
            cur = table.parent[cur]
        for word in (f, re.sub(r"\d+$", "", f)):
            for near in sorted(way, key=lambda it: (it != at, abs(way.index(it) - n))):
                found = self.step(table, near, base, word, tail)
                if found:
                    return found
        self.left.append(f"{var}{rest}: no step {tail[0]} at {table.old[at]}")
        return var + rest

    def step(self, table, at, var, f, tail):
        """What a step at a place tells, in the new names."""
        arm = table.arm[table.final[at]]
        if arm:
            best = None
            for new, step, path in arm[2]:
                if plain(step) == f and tail[1:1 + len(path)] == path and path and (best is None or len(path) > len(best[1])):
                    best = (new, path)
            if best:
                return ".".join([var, arm[0], best[0]] + tail[1 + len(best[1]):])
        if table.field[at][0] in (f, f[0].lower() + f[1:], re.sub("-law$", "", f)):
            kept = re.match(r"(auto|new)((?:\.1)*)\.0(?=\.|$)(.*)", ".".join(tail[1:]))
            params = table.params.get(table.callee[at] or "", [])
            if kept and len(kept.group(2)) // 2 < len(params):
                return ".".join([var, table.field[at][1], kept.group(1), params[len(kept.group(2)) // 2]]) + kept.group(3)
            return ".".join([var, table.field[at][1]] + tail[1:])
        return None

    def chains(self, text, vars):
        """The chains of the variables in a text; a `let` of a chain alone binds a place too."""
        if not vars:
            return text
        vars = {v: (k if len(k) == 4 else (*k, v, 0)) for v, k in vars.items()}
        out, i, steps = [], 0, {}
        token = re.compile(rf"(?<![\w.'′-])([A-Za-zα-ω₀-₉][\w'′₀-₉]*)((?:\.{PIECE})+)?")
        while True:
            m = token.search(text, i)
            if not m:
                out.append(text[i:])
                return "".join(out)
            out.append(text[i:m.start()])
            var, rest = m.group(1), m.group(2) or ""
            kept = re.match(r"\.(auto|new)((?:\.1)*)\.0(?=\.|$)(.*)", rest)
            if var in steps and kept and len(kept.group(2)) // 2 < len(steps[var]):
                out.append(f"{var}.{kept.group(1)}.{steps[var][len(kept.group(2)) // 2]}{kept.group(3)}")
                i = m.end()
                continue
            if var in vars and (rest or vars[var][2] != var):
                pieces = rest[1:].split(".") if rest else []
                before = text[:m.start()]
                bound = re.search(r"let ([A-Za-zα-ω][\w'′₀-₉]*) = $", before)
                if bound:
                    vars.pop(bound.group(1), None)
                    steps.pop(bound.group(1), None)
                    if rest and pieces[-1] != "before" and (len(pieces) == 1 or pieces[-2] == "before") and re.match(r"\s+in\b", text[m.end():]):
                        table = vars[var][0]
                        for k, (field, _) in enumerate(table.field):
                            if field == plain(pieces[-1]) and table.callee[k]:
                                steps[bound.group(1)] = table.params.get(table.callee[k], [])
                    if rest and all(p == "before" for p in pieces) and re.match(r"\s+in\b", text[m.end():]):
                        table, start, base, n = vars[var]
                        vars[bound.group(1)] = (table, start, base, n + len(pieces))
                wanted = None
                called = re.split(r"[(,;\[]|\s(?:=|in|let|≡|∙|×|\+|≤|<|↦|→)\s|λ[^.]*\. ", before)[-1].split()
                if len(called) > 0 and not bound and called[0] in self.placed and self.placed[called[0]][0] is vars[var][0]:
                    wanted = self.placed[called[0]][1]
                if not rest and wanted is None:
                    out.append(var)
                else:
                    out.append(self.chain(vars[var], var, rest, wanted))
            else:
                out.append(m.group(0))
            i = m.end()

    def members(self, text):
        """The names behind the aliases of made modules."""

        def one(m):
            alias, word = m.group(1), m.group(2)
            table = self.tables.get(alias)
            if table is None:
                return m.group(0)
            if word.startswith("Need-"):
                i = table.need(word[5:])
                if i is None:
                    self.left.append(f"no goal {m.group(0)}")
                    return m.group(0)
                return f"{alias}.Need-{table.needs[i][1]}"
            loop = table.loop_word(plain(word))
            if loop:
                return f"{alias}.{loop}"
            i = table.place(word)
            return m.group(0) if i is None else f"{alias}.{table.new[table.final[i]]}"

        return re.sub(rf"(?<![\w.'-])({PIECE})\.({PIECE})", one, text)

    def root(self, signature):
        """Which argument of a declaration stands at a place, and where."""
        depth, args, last = 0, [], 0
        for m in re.finditer(r"[(){}]|→", signature):
            if m.group(0) in "({":
                depth += 1
            elif m.group(0) in ")}":
                depth -= 1
            elif depth == 0:
                args.append(signature[last:m.start()])
                last = m.end()
        args.append(signature[last:])
        explicit = 0
        for a in args:
            for names, group in self.groups(a.strip()):
                m = re.match(rf"({PIECE})(?:\.({PIECE}))?", group)
                if m and not m.group(2) and m.group(1) in self.named:
                    return (explicit, names[0] if names else "", *self.named[m.group(1)])
                if m and m.group(2) and m.group(1) in self.tables:
                    table, word = self.tables[m.group(1)], m.group(2)
                    if word.startswith("Need-"):
                        i = table.need(word[5:])
                        at = None if i is None else table.place(table.at[i])
                    else:
                        at = table.place(word) if word.startswith(("After", "In", "At", "Then", "Else", "Start")) else None
                    if at is not None:
                        return explicit, names[0] if names else "", table, at
                explicit += max(1, len(names)) if not group.startswith("{") else 0
        return None

    def groups(self, text):
        """The binders of a part of a signature: names and type; with no names, the part itself."""
        if not text.startswith(("(", "{")) or " : " not in text:
            yield [], text
            return
        i = 0
        while i < len(text):
            if text[i].isspace():
                i += 1
                continue
            depth, begin = 0, i
            while i < len(text):
                depth += text[i] in "({"
                depth -= text[i] in ")}"
                i += 1
                if depth == 0:
                    break
            m = re.match(r"(?s)\(([^:()]+) : (.*)\)$", text[begin:i])
            if m:
                yield m.group(1).split(), m.group(2)
            elif not text[begin:i].startswith("{"):
                yield [], text[begin:]
                return

    def arguments(self, text, at):
        """The spans of the arguments that follow a head."""
        out, i, n = [], at, len(text)
        while True:
            while i < n and text[i].isspace():
                i += 1
            if i >= n or text[i] in ")],;":
                return out
            begin = i
            if text[i] in "([{":
                depth = 0
                while i < n:
                    depth += text[i] in "([{"
                    depth -= text[i] in ")]}"
                    i += 1
                    if depth == 0:
                        break
                while i < n and not text[i].isspace() and text[i] not in ")],;":
                    i += 1
            else:
                while i < n and not text[i].isspace() and text[i] not in "()[],;":
                    i += 1
            out.append((begin, i))

    def spec(self, body):
        """The answers of a `spec`, each at the place of its goal."""
        for alias, table in self.tables.items():
            for m in reversed(list(re.finditer(rf"(?<![\w.]){re.escape(alias)}\.spec(?=\s)", body))):
                spans = self.arguments(body, m.end())
                skip = len(spans) - len(table.needs)
                if skip < 0 or skip != 2 * len(table.loops) + (0 if alias == "tie" else 3 if alias.endswith("lts") or alias.startswith("Lts") else skip):
                    self.left.append(f"{alias}.spec has {len(spans)} arguments for {len(table.needs)} goals and {len(table.loops)} loops")
                    if skip < 0:
                        continue
                for k in range(len(spans) - 1, -1, -1):
                    begin, end = spans[k]
                    if k >= skip:
                        piece = body[begin:end]
                        v = re.match(r"\(\s*λ (\S+?)[ .]", piece)
                        place = table.place(table.at[k - skip])
                        if v and v.group(1) != "_" and place is not None:
                            piece = self.chains(piece, {v.group(1): (table, place)})
                        body = body[:begin] + piece + body[end:]
        return body

    def run(self):
        lines = self.text.split("\n")
        head = re.compile(r"^( *)(?:(?:pub|abbrev|unfoldable) )*([^\s(){}\[\];,.:λ]+)(?: \{[^}]*\})? :(?: |$)")
        # the lemmas of this file that take a place
        self.placed = {}
        for i, l in enumerate(lines):
            m = head.match(l)
            if m:
                root = self.root("\n".join(lines[i:i + 6])[m.end():].split("\n" + m.group(1) + m.group(2))[0])
                if root:
                    self.placed[m.group(2)] = (root[2], root[3])
        marks = [i for i, l in enumerate(lines) if head.match(l) or re.match(r" *module _ ", l)] + [len(lines)]
        out, scopes = lines[:marks[0]], []
        for i, end in zip(marks, marks[1:]):
            indent = len(lines[i]) - len(lines[i].lstrip())
            scopes = [s for s in scopes if s[0] < indent]
            vars = {}
            for _, of in scopes:
                vars.update(of)
            text = "\n".join(lines[i:end])
            if lines[i].lstrip().startswith("module _ "):
                of = {}
                for m in re.finditer(rf"\((\w+) : ({PIECE})\.({PIECE})", text):
                    table = self.tables.get(m.group(2))
                    if table and table.place(m.group(3)) is not None:
                        of[m.group(1)] = (table, table.place(m.group(3)))
                for m in re.finditer(rf"\((\w+) : ({PIECE})(?=[ )])", text):
                    if m.group(2) in self.named:
                        of[m.group(1)] = self.named[m.group(2)]
                scopes.append((indent, of))
                out.append(self.members(self.chains(text, {**vars, **of})))
            else:
                out.append(self.declaration(text, head.match(lines[i]).group(2), vars))
        return "\n".join(out)

    def declaration(self, text, name, outer):
        m = re.match(r"(?s)(.*? :)(.*)", text)
        first, rest = m.group(1), m.group(2)
        clause = re.search(rf"(?m)^ *{re.escape(name)}(?= |$)", rest)
        cut = clause.start() if clause else len(rest)
        signature, body = self.chains(rest[:cut], outer), self.chains(rest[cut:], outer)
        root = self.root(signature)
        if root:
            place, var, table, at = root
            if var:
                signature = self.chains(signature, {var: (table, at)})
            pieces = re.split(rf"(?m)^(?= *{re.escape(name)}(?: |$))", body)
            for j, piece in enumerate(pieces):
                c = re.match(rf" *{re.escape(name)}((?: (?:\{{[^{{}}]*\}}|\([^()]*\)|[^\s=]+))*) =", piece)
                if not c:
                    continue
                vars = [v for v in re.findall(r"\{[^{}]*\}|\([^()]*\)|\S+", c.group(1)) if not v.startswith("{")]
                if place < len(vars):
                    pieces[j] = self.chains(piece, {vars[place]: (table, at)})
                else:
                    v = re.match(rf" *{re.escape(name)} =\s*λ (\S+?)[ .]", piece)
                    if v and place == 0:
                        pieces[j] = self.chains(piece, {v.group(1): (table, at)})
            body = "".join(pieces)
        body = self.spec(body)
        return first + self.members(signature) + self.members(body)


def main(crates):
    for crate in crates:
        found = names_of(crate)
        head = f"Rattle-{crate}-proofs."
        folders = {}
        for key, value in found.items():
            if key.startswith(head):
                function, lts = key[len(head):].rsplit(".", 1)
                folders.setdefault(function, {})[lts] = Table(value)
        for function, tables in folders.items():
            folder = os.path.join("crates", crate, "proofs", *function.split("."))
            for path in sorted(glob.glob(os.path.join(folder, "*.antt"))):
                it = File(path, tables)
                # a test `!x` tells of x itself
                text = re.sub(r"not-(?:true|false) _ (?=[^\s()]*\.if-not-)", "", it.run())
                last = function.split(".")[-1]
                if last.startswith("+"):
                    text = re.sub(r"(?m)^(pub )?\+[\w+-]+[-_]spec(?= )", lambda m: (m.group(1) or "") + last + "_spec", text)
                if text != it.text:
                    with open(path, "w", encoding="utf-8") as f:
                        f.write(text)
                for left in it.left:
                    print(f"{path}: {left}")


main(sys.argv[1:])
