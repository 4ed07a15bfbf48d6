#!/usr/bin/env python3
"""Spells this repository's own names as today's Rattle does: words in snake case, types in camel case.

usage: python3 tools/respell.py [--check]      at the top of the repository

It was run once, on the tree that the kit's port.py had left, and is kept to show how the names came about: on a tree with
the new names it may take a name that Rattle makes for one of ours.

Turns definitions, lemmas, fields and variables of specs/ and proofs/, and where clauses, must-fail edits and code spans of
the documents name them. In answers, a name that Rattle makes keeps its dashes, and the parts of it that are names of src/
get their underscores back. Names that a file imports from a library stay. --check writes nothing. Two names of one file
that would fall together are shown on a line 'meet:'.
"""

import glob
import os
import re
import sys

TOKEN = re.compile(r"""[^\s(){}.;,@"«»\[\]|`]+""")
QUOTED = re.compile(r'"(?:[^"\\\n]|\\.)*"')
USE = re.compile(r"\buse\s+([^\s{;]+?)\.?\{([^}]*)\}")
DECLARED = re.compile(r"(?m)^\s*(?:(?:abbrev|unfoldable|pub|record|data|ruleset)\s+)*([^\s(){}:;,=]+)(?:\s*[({][^\n]*?[)}])*\s+:\s+(\S+)")
BOUND = re.compile(r"(?:\blet\s+|\bin\s+let\s+|[({]|λ )((?:[^\s(){}:;,=.]+\s+)+):\s")
RUST_NAME = re.compile(r"\b[A-Za-z][A-Za-z0-9]*(?:_[A-Za-z0-9]+)+\b")
ANSWERS = ("Answers.antt", "Invariants.antt", "Proof.antt")
# names that Rattle makes of a type parameter and its associated type
MADE = {"T-Price"}
# what Rattle calls kinds of goals now
PLACES = {f"overflow-{w}": f"overflow_{w}" for w in ("add", "sub", "mul", "cast", "neg", "shl")}
PLACES |= {"invariant-of": "invariant_of", "offset-bounds": "offset_bounds", "slice-bounds": "slice_bounds"}
# a definition that would have the name of the function whose result it tells
CHOSEN = {"side-from": "side_from_lem"}


def read(path):
    with open(path, encoding="utf-8") as f:
        return f.read()


def code_of(text, mark):
    """The text with comments and quoted text blanked, character by character."""
    text = QUOTED.sub(lambda m: " " * len(m[0]), text)
    return re.sub(rf"(?m)(?:^|(?<=[\s(){{}}.;,])){mark}[^\n]*", lambda m: " " * len(m[0]), text)


def crates():
    out = {}
    for line in read("crates.txt").splitlines():
        name, colon, deps = line.partition(":")
        if colon and not line.startswith("#"):
            out[name.strip()] = deps.split()
    return out


def snake(name):
    if name in CHOSEN:
        return CHOSEN[name]
    if name[:1].isupper():
        return "".join(p[:1].upper() + p[1:] for p in name.split("-"))
    return name.replace("-", "_")


def is_answers(path):
    return "/proofs/" in path and os.path.basename(path) in ANSWERS


class Repository:
    def __init__(self):
        self.crates = crates()
        self.antt = sorted(p for f in ("specs", "proofs") for p in glob.glob(f"crates/*/{f}/**/*.antt", recursive=True))
        self.rt = sorted(glob.glob("crates/*/src/**/*.rt", recursive=True))
        self.own, self.library, self.rust = set(), {}, {}
        for p in self.antt:
            self.read_names(p, code_of(read(p), "--"))
        for p in self.rt:
            code = code_of(read(p), "//")
            self.imports(p, code)
            self.rust.setdefault(p.split("/")[1], set()).update(n for n in RUST_NAME.findall(code))

    def imports(self, path, code):
        held = self.library.setdefault(path, set())
        for m in USE.finditer(code):
            steps = m[1].split(".")
            mine = steps[0] == "Rattle" and steps[1] in self.crates
            if mine and steps[-1] in ("Goals", "Given"):
                continue
            for item in m[2].split(","):
                name, _, other = (s.strip() for s in item.strip().partition(" as "))
                if mine:
                    self.own.update(n for n in (name, other) if n)
                else:
                    held.add(name)
                    self.own.update([other] if other else [])

    def read_names(self, path, code):
        self.imports(path, code)
        for m in DECLARED.finditer(code):
            if not (is_answers(path) and m[2] == "goal." + m[1]):
                self.own.add(m[1])
        for m in BOUND.finditer(code):
            self.own.update(m[1].split())

    def names_of_rust(self, crate):
        """The names of src/ with an underscore that a crate's answers may speak of, by their spelling with dashes."""
        seen, todo = set(), [crate]
        while todo:
            c = todo.pop()
            if c not in seen:
                seen.add(c)
                todo += self.crates.get(c, [])
        names = set().union(*(self.rust.get(c, set()) for c in seen))
        return {n.replace("_", "-"): n for n in names}

    def turn_made(self, token, rust):
        """A name that Rattle makes: its parts that are names of src/ get underscores."""
        for old, new in PLACES.items():
            if token.startswith(old + "-"):
                return new + "-" + self.turn_made(token[len(old) + 1 :], rust)
        if "+" in token:
            return "+".join(self.turn_made(t, rust) for t in token.split("+"))
        parts, out, i = token.split("-"), [], 0
        while i < len(parts):
            for j in range(len(parts), i + 1, -1):
                if "-".join(parts[i:j]) in rust:
                    out.append(rust["-".join(parts[i:j])])
                    i = j
                    break
            else:
                out.append(parts[i])
                i += 1
        return "-".join(out)

    def turn(self, path, text):
        mark = "--" if path.endswith(".antt") else "//"
        code = code_of(text, mark)
        held = self.library.get(path, set()) | MADE
        rust = self.names_of_rust(path.split("/")[1])
        met, out, at = {}, [], 0
        for m in TOKEN.finditer(code):
            old = m[0]
            new = old
            if "-" in old and re.search(r"\w-+\w", old) and old not in held and not re.search(r"[◌*/%^]", old):
                if is_answers(path):
                    new = snake(old) if old in self.own else self.turn_made(old, rust)
                elif path.endswith(".antt") or old in self.own:
                    new = snake(old)
            met.setdefault(new, set()).add(old)
            out.append(text[at : m.start()] + new)
            at = m.end()
        for new, olds in met.items():
            if len(olds) > 1:
                print(f"meet: {path}: {' and '.join(sorted(olds))} are {new}")
        return "".join(out) + text[at:]

    def turn_edit(self, text):
        return "\n".join(TOKEN.sub(lambda m: snake(m[0]) if m[0] in self.own and "-" in m[0] else m[0], l) if l.startswith(("old:", "new:")) else l for l in text.split("\n"))

    def turn_page(self, text):
        def span(m):
            return TOKEN.sub(lambda t: snake(t[0]) if t[0] in self.own and "-" in t[0] else t[0], m[0])

        return re.sub(r"`[^`\n]+`", span, text)


def main(argv):
    r = Repository()
    changes = 0
    edits = sorted(glob.glob("crates/*/must-fail/*.edit"))
    pages = ["README.md", *sorted(glob.glob("docs/*.md"))]
    for p in [*r.antt, *r.rt, *edits, *pages]:
        text = read(p)
        new = r.turn_edit(text) if p in edits else r.turn_page(text) if p in pages else r.turn(p, text)
        if new != text:
            changes += 1
            if "--check" not in argv:
                with open(p, "w", encoding="utf-8") as f:
                    f.write(new)
    print(f"{changes} files changed")


if __name__ == "__main__":
    main(sys.argv[1:])
