#!/usr/bin/env python3
"""Respells the repository's own definitions and lemmas in snake case.

usage: python3 tools/respell.py     at the top of the repository, once, after the kit's port.py

A name of a definition, a lemma, a field or a constructor that a file of specs/ or proofs/ declares in camel case or with dashes becomes snake case, wherever
it stands: in specs/, proofs/, the clauses and imports of src/, the must-fail edits, and between backticks in comments and pages. Types, modules, names that
Rattle source declares (fields, functions, constants) and the names of a proof's goals keep theirs. Where two names of one file would become one, the one
with a dash gets `_lem`, or `_of` if specs/ declares it. Strings, inputs and outputs are not touched.
"""

import glob
import re
import sys
from collections import defaultdict

WORD = re.compile(r"(?<![\w'\u00b7\u2080-\u2089-])[A-Za-z][\w'\u2080-\u2089]*(?:-[\w'\u2080-\u2089]+)*(?![\w'\u00b7\u2080-\u2089-])")
SIGNATURE = re.compile(r"^(\s*(?:\| )?)(?:(?:abbrev|unfoldable|pub) )*([^\s(){};:,]+(?: [^\s(){};:,]+)*) :(?: |$)")
# Words of antt, and of the tactics, that no name may become.
KEYWORDS = {"as", "in", "data", "record", "open", "use", "mod", "pub", "let", "elim", "rules", "ground", "assumption", "search", "grind", "simp", "omega", "rw", "cc"}


def read(path, errors="strict"):
    with open(path, encoding="utf-8", errors=errors) as f:
        return f.read()


def snake(name):
    s = re.sub(r"(?<=[a-z0-9'])([A-Z])", r"_\1", name)
    return s.replace("-", "_").lower()


def renamable(name):
    return bool(re.match(r"^[a-z]", name)) and bool(re.search(r"[A-Z-]", name))


def antt_files():
    return sorted(glob.glob("crates/*/specs/**/*.antt", recursive=True) + glob.glob("crates/*/proofs/**/*.antt", recursive=True))


def rt_files():
    return sorted(glob.glob("crates/*/src/**/*.rt", recursive=True))


def declared():
    """The names that the files of specs/ and proofs/ declare, those of a proof's goals, and those of the first that specs/ has."""
    names, goals, in_specs = set(), set(), set()
    for path in antt_files():
        for line in read(path).splitlines():
            if line.lstrip().startswith("use "):
                aliases = {n for n in re.findall(r" as ([\w'-]+)", line) if renamable(n)}
                names |= aliases
                in_specs |= aliases
                continue
            m = SIGNATURE.match(line)
            if not m or line.lstrip().startswith("--"):
                continue
            rest = line[m.end():]
            for n in m.group(2).split():
                if not renamable(n) or not WORD.fullmatch(n):
                    continue
                if rest.startswith(("tie.", "goal.")) and path.endswith(("Proof.antt", "Answers.antt", "Invariants.antt")):
                    goals.add(n)
                else:
                    names.add(n)
                    if "/specs/" in path:
                        in_specs.add(n)
    return names, goals, in_specs


def source_names():
    """The names that Rattle source declares, outside clauses, comments and strings."""
    found = set()
    for path in rt_files():
        for line in read(path).splitlines():
            m = re.match(r"^\s*(?:pub )?(?:const |fn |struct |enum |let (?:mut )?)?([A-Za-z]\w*)\s*[:({=<;]", line)
            if m and not line.lstrip().startswith(("ghost", "requires", "ensures", "//")):
                found.add(m.group(1))
    return found


def pieces(text, comment):
    """The text cut into (is it code, piece): comments are no code but between backticks, strings never."""
    out = []
    for line in text.split("\n"):
        m = re.match(r"""^((?:[^"]|"(?:[^"\\]|\\.)*")*?)(""" + re.escape(comment) + r".*)?$", line)
        code, tail = (m.group(1), m.group(2) or "") if m else (line, "")
        for i, part in enumerate(re.split(r'("(?:[^"\\]|\\.)*")', code)):
            out.append((i % 2 == 0, part))
        for i, part in enumerate(re.split(r"(`[^`]*`)", tail)):
            out.append((i % 2 == 1, part))
        out.append((False, "\n"))
    out.pop()
    return out


def page(text):
    """The text of a page, cut likewise: code stands between backticks, or in a fenced block that is no program's input."""
    out, fenced = [], False
    for line in text.splitlines(keepends=True):
        if line.lstrip().startswith("```"):
            fenced = not fenced
            out.append((False, line))
        elif fenced:
            out.append((":" in line and "\u2192" in line, line))
        else:
            out += [(i % 2 == 1, part) for i, part in enumerate(re.split(r"(`[^`\n]*`)", line))]
    return out


def program_words():
    """The words of the programs' inputs and outputs, and of the strings of src/: a page keeps them."""
    text = "".join(read(p, "replace") for p in sorted(glob.glob("crates/*/std*")) + sorted(glob.glob("crates/*/args")))
    for p in rt_files():
        text += " ".join(re.findall(r'"(?:[^"\\\n]|\\.)*"', read(p)))
    return set(WORD.findall(text))


def any_word(text):
    """The names of a signature, whatever they are made of."""
    for line in text.splitlines():
        m = SIGNATURE.match(line)
        if m and not line.lstrip().startswith(("--", "use ")):
            yield from m.group(2).split()


def words(path, cut, mapping):
    """The words of a file that stand for themselves: no word of a path or a projection but the repository's own."""
    found = set()
    for code, part in cut(read(path)):
        if code:
            for m in WORD.finditer(part):
                before = part[: m.start()]
                if m.group() in mapping or not before.endswith("."):
                    found.add(m.group())
    return found


def main():
    names, goals, in_specs = declared()
    keep = source_names() | goals
    mapping = {n: snake(n) for n in sorted(names - keep)}
    antt = lambda t: pieces(t, "--")
    rust = lambda t: pieces(t, "//")
    edit = lambda t: [(True, t)]
    cuts = [(p, antt) for p in antt_files()] + [(p, rust) for p in rt_files()]
    used = {p: words(p, lambda t: [(c, x) for c, x in antt(t) if not x.startswith("`")], mapping) for p in antt_files()}
    clash = True
    while clash:
        clash = False
        for p, ws in used.items():
            into = defaultdict(set)
            for w in ws:
                into[mapping.get(w, w)].add(w)
            for new, olds in sorted(into.items()):
                if len(olds) > 1 or new in KEYWORDS:
                    movable = sorted((w for w in olds if w in mapping), key=lambda w: ("-" not in w, w))
                    if movable:
                        w = movable[0]
                        mapping[w] = mapping[w] + ("_of" if w in in_specs else "_lem")
                        print(f"{p}: {sorted(olds)} would be one: {w} is {mapping[w]}")
                        clash = True
    every = {n for p in antt_files() for n in any_word(read(p))}
    after = {mapping.get(n, n) for n in every}
    fixed = program_words()

    # The kit's port.py respelled some names in crates/ alone: an edit or a page has them as they were.
    def anywhere(word):
        if word in mapping:
            return mapping[word]
        return snake(word) if renamable(word) and word not in every and snake(word) in after else word

    def on_page(word):
        return word if word in fixed else anywhere(word)

    cuts = [(p, cut, lambda w: mapping.get(w, w)) for p, cut in cuts]
    cuts += [(p, edit, anywhere) for p in sorted(glob.glob("crates/*/must-fail/*.edit"))]
    cuts += [(p, page, on_page) for p in ["README.md"] + sorted(glob.glob("docs/*.md"))]
    changed = 0
    for p, cut, spelled in cuts:
        old = read(p)
        new = "".join(WORD.sub(lambda m: spelled(m.group()), part) if code else part for code, part in cut(old))
        if new != old:
            with open(p, "w", encoding="utf-8") as f:
                f.write(new)
            changed += 1
    print(f"{len(mapping)} names, {changed} files")
    if "--names" in sys.argv:
        for old, new in sorted(mapping.items()):
            print(old, new)


main()
