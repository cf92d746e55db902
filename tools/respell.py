#!/usr/bin/env python3
"""Spells the repository's own definitions, lemmas, fields and constructors in snake case.

usage: tools/respell.py [--check] [ROOT]

A name with a dash, or in camel case with a small first letter, gets underscores: climb-own is climb_own, nodeExit is node_exit. Types and modules
keep their spelling. A lemma that would then have the name of a definition ends in _lem; the names of ASIDE get another word. What a file imports
from the kit stays, and so do the names that the kit makes in the proof of a function. Comments and quoted text stay, but for code between
backticks.

It prints each new spelling, and stops before it writes anything where two names of a file would fall together.
"""

import os
import re
import sys

WORD = re.compile(r"[^\s(){}.;,@\"«»\[\]`:λ]+")
QUIET = re.compile(r'"(?:[^"\\\n]|\\.)*"|(?<![^\s(){}.;,@"«»])--[^\n]*|//[^\n]*')
SPAN = re.compile(r"`[^`\n]*`")
DECLARED = re.compile(r"(?m)^ *(?:(?:pub|abbrev|unfoldable|pattern|data|record|module) )*([^\s(){}.;,@\"«»:][^\n:]*?) :(?= |$)")
BINDER = re.compile(r"[({]([^\s(){}:][^(){}:]*?) : ")
# a field beside a definition of its name, and two types
ASIDE = {"node_exit": "node_exit_cost", "Entered-on": "EnteredOn", "Lands-on": "LandsOn"}
HEAD = re.compile(r"(?m)^(?:ghost )?(?:pub )?use [^\s{;]+")
USE = re.compile(r"(?m)^(?:ghost )?(?:pub )?use ([^\s;{]+?)\.?(?:\{([^}]*)\})?(?: as (\S+?))?;?$")


def crates_of(root):
    with open(os.path.join(root, "crates.txt"), encoding="utf-8") as f:
        return [line.split(":")[0].split()[0] for line in f if line.strip() and not line.startswith("#")]


def files_of(root):
    for folder, dirs, names in os.walk(os.path.join(root, "crates")):
        dirs[:] = sorted(d for d in dirs if d not in ("out", "must-fail", "data"))
        for n in sorted(names):
            if n.endswith((".antt", ".rt")):
                yield os.path.join(folder, n)


def of_function(path):
    """Whether a file answers the goals of one function: its own names are the kit's."""
    parts = path.split(os.sep)
    return "proofs" in parts and parts[-2] != "proofs" and path.endswith(".antt")


def is_old(word):
    if not re.search(r"[A-Za-z]", word) or word.startswith(("-", "+", "#")) or word.endswith("-"):
        return False
    dashed = re.search(r"(?<=[^\W_])['₀-₉]*-(?=[^\W_]|[≤≡])", word) is not None
    camel = re.match(r"[a-z]", word) is not None and re.search(r"(?<=[a-z0-9])[A-Z]", word) is not None
    return dashed or camel


def turned(word):
    if re.match(r"[a-z]", word):
        word = re.sub(r"(?<=[a-z0-9])[A-Z](?![A-Z])", lambda m: "_" + m[0].lower(), word)
    return word.replace("-", "_")


def imported(text, own):
    """The names that a file imports from the kit."""
    names = set()
    for path, items, short in USE.findall(text):
        head = path.split(".")
        if head[0] == "Rattle" and len(head) > 1 and head[1] in own:
            continue
        for item in items.split(","):
            for word in item.split(" as "):
                names.add(word.strip())
    return names


def pieces(text, rt):
    """The text in runs: (code?, run)."""
    at = 0
    for m in QUIET.finditer(text):
        yield True, text[at : m.start()]
        yield False, m[0]
        at = m.end()
    yield True, text[at:]


def rewritten(text, rows, kit, local, rt):
    def words(code):
        out, at = [], 0
        heads = [m.span() for m in HEAD.finditer(code)]
        for m in WORD.finditer(code):
            w = m[0]
            if any(a <= m.start() < b for a, b in heads):
                continue
            behind = m.start() > 0 and code[m.start() - 1] == "."
            out.append(code[at : m.start()])
            if w in rows and (behind or w not in kit) and (not behind or w in local or w in rows):
                before = re.search(r"([^\s(){};,]*)$", code[: m.start()])[1]
                made = behind and re.match(r"(?:tie|goal)\.$|.*-(?:lts|reads|kinds)\.$", before)
                out.append(w if made else rows[w])
            else:
                out.append(w)
            at = m.end()
        out.append(code[at:])
        return "".join(out)

    result = []
    for code, run in pieces(text, rt):
        if code:
            result.append(words(run))
        else:
            result.append(SPAN.sub(lambda m: "`" + words(m[0][1:-1]) + "`", run) if not run.startswith('"') else run)
    return "".join(result)


def main(argv):
    check = "--check" in argv
    root = ([a for a in argv if not a.startswith("--")] or ["."])[0]
    own = set(crates_of(root))
    texts = {p: open(p, encoding="utf-8").read() for p in files_of(root)}
    rows, plain, camel = {}, set(), {}
    for p, text in texts.items():
        if not p.endswith(".antt"):
            continue
        kit = imported(text, own)
        code = "".join(run if c else " " * len(run) for c, run in pieces(text, False))
        names = set()
        for line in DECLARED.findall(code):
            names |= set(re.split(r"[\s(){}]+", line))
        for line in BINDER.findall(code):
            names |= set(line.split())
        if of_function(p):
            continue
        # names that clauses bind are of their file alone, and turn with the others
        code = HEAD.sub("", code)
        names |= {m[0] for m in WORD.finditer(code) if not (m.start() and code[m.start() - 1] == ".")}
        for w in names:
            if w in ASIDE:
                rows[w] = ASIDE[w]
            elif is_old(w) and w not in kit:
                rows[w] = turned(w)
                if "-" not in w:
                    camel[rows[w]] = w
            elif w not in kit:
                plain.add(w)
    # of names that would fall together the one in camel case, a definition, keeps its words
    for w in sorted(rows):
        if "-" in w and (rows[w] in plain or rows.get(camel.get(rows[w])) == rows[w]):
            rows[w] += "_lem"
    for n in sorted(plain & set(camel)):
        rows[n] = n + "_lem"
    bad, new = [], {}
    for p, text in texts.items():
        kit = imported(text, own)
        t = rewritten(text, rows, kit, rows, p.endswith(".rt"))
        new[p] = t
        if p.endswith(".rt"):
            continue
        code = HEAD.sub("", "".join(run for c, run in pieces(text, False) if c))
        seen = {}
        for m in WORD.finditer(code):
            w = m[0]
            seen.setdefault(rows.get(w, w) if w not in kit else w, set()).add(w)
        for n, ws in seen.items():
            if len(ws) > 1:
                bad.append((p, n, sorted(ws)))
    for a, b in sorted(rows.items()):
        print(f"{a}\t{b}")
    for p, n, ws in bad:
        print(f"together: {os.path.relpath(p, root)}: {' and '.join(ws)} would both be {n}", file=sys.stderr)
    if bad:
        return 1
    if not check:
        for p, t in new.items():
            if t != texts[p]:
                with open(p, "w", encoding="utf-8") as f:
                    f.write(t)
    return 0


if __name__ == "__main__":
    raise SystemExit(main(sys.argv[1:]))
