#!/usr/bin/env python3
"""Respells this repository's own antt names: words in snake case, facts in upper camel case.

usage: respell.py [--dry] at the top of the repository, once, after the toolchain's own scripts.

An own name is one that a file of specs/ or proofs/ defines (a definition, a lemma, a field or a constructor), or that an import gives with `as`. Names that the check makes
(goals, steps, answers) and names of libraries stay. Comments and strings stay. Functions, fields and types of src/ keep their names.
"""

import os
import re
import sys

ROOT = "crates"
WORD = re.compile(r"[^\s(){}\[\],.;\"⟦⟧⌜⌝◌`]+")
SIGNATURE = re.compile(r" *(?:(?:abbrev|unfoldable|pub|opaque)\s+)*(?:(record|data)\s+)?((?:[^\s:(){},.=|;\"λ→]+\s+)+)(?:[({].*)?:(?:\s|$)")

# names whose plain respelling would not read well, would fall together with another, or would be hidden where it is cited
CHOSEN = {
    "Points-1-2": "Points1To2",
    "Points-3-4": "Points3To4",
    "Points-1-4": "Points1To4",
    "Point-5": "Point5",
    "outcome-refines": "OutcomeRefines",
    # what the toolchain's scripts turned halfway
    "Goes_on": "GoesOn",
    "in_Body": "in_body",
} | {f"getD{mark}{word}": f"get_or_{word}" for mark in "-_" for word in ("apart", "in", "listed")}

# `result` is what a clause calls the value that is returned
CHOSEN_IN = {crate: {"result": "result_of"} for crate in ("domain", "words")}


def files():
    for crate in sorted(os.listdir(ROOT)):
        for part in ("src", "specs", "proofs"):
            for folder, dirs, names in os.walk(os.path.join(ROOT, crate, part)):
                dirs.sort()
                for name in sorted(names):
                    if name.endswith((".rt", ".antt")):
                        yield os.path.join(folder, name)


def is_made(path):
    """Whether a file answers goals, which are named by the check."""
    return os.path.basename(path) in ("Answers.antt", "Invariants.antt", "Proof.antt") and "/proofs/" in path


def masked(text, comment):
    """The text with comments and strings blanked."""
    def blank(m):
        return re.sub(r"[^\n]", " ", m[0])
    return re.sub(comment + r"|\"(?:[^\"\\\n]|\\.)*\"", blank, text, flags=re.M)


def own_names():
    names, goals = set(), set()
    for path in files():
        with open(path, encoding="utf-8") as f:
            raw = f.read()
        for imported in re.findall(r"\buse [\w.]+\.\{([^}]*)\}", raw):
            names |= set(re.findall(r"\bas ([\w'-]+)", imported))
        if not path.endswith(".antt"):
            continue
        text = masked(raw, r"--[^\n]*")
        for line in text.split("\n"):
            m = SIGNATURE.match(line)
            if not m or line.lstrip().startswith(("use ", "pub use", "infix", "let ", "in ", "unfolding")):
                continue
            found = set(m[2].split())
            if is_made(path) and re.search(r":\s*goal\.", line):
                goals |= found
            else:
                names |= found
        for extra in re.findall(r"goal\.([^\s(){}]+)", text):
            goals.add(extra)
    return names, goals


def library_names():
    found = set()
    for path in files():
        text = open(path, encoding="utf-8").read()
        for m in re.finditer(r"\buse ([\w.]+)\.\{([^}]*)\}", text):
            own = re.match(r"Rattle\.(\w+)\.", m[1])
            if own and os.path.isdir(os.path.join(ROOT, own[1])) and ".declared" not in m[1]:
                continue
            found |= {x.strip() for x in m[2].split(",")}
    return found


def respelled(name):
    if name in CHOSEN:
        return CHOSEN[name]
    name = name.replace("′", "'")
    if "-" not in name or not re.fullmatch(r"[A-Za-z][\w'?-]*", name):
        return name
    if name[0].isupper():
        return "".join(p[:1].upper() + p[1:] for p in name.split("-"))
    return name.replace("-", "_")


def turned(text, new, clauses):
    """The text with each own name respelled; of a source, in clauses and ghost lines alone."""
    mask = masked(text, r"//[^\n]*" if clauses else r"--[^\n]*")
    spans = [(0, len(text))]
    if clauses:
        spans = []
        for m in re.finditer(r"\bghost use [^;]*;|\b(?:requires|ensures)\b[^{;]*\{|\bghost\s+\w+\s*[:=]\s*\{|#!?\[tactic[^\n]*", mask):
            end = m.end()
            if m[0].endswith("{"):
                depth = 1
                while depth:
                    depth += {"{": 1, "}": -1}.get(mask[end], 0)
                    end += 1
            spans.append((m.start(), end))
    out, at = [], 0
    for a, b in spans:
        if a < at:
            continue
        out.append(text[at:a])
        last = a
        for m in WORD.finditer(mask, a, b):
            to = new.get(m[0])
            if to:
                out += [text[last : m.start()], to]
                last = m.end()
        out.append(text[last:b])
        at = b
    out.append(text[at:])
    return "".join(out)


def plain(text):
    """Clauses that still name their result by a λ, as plain facts about `result`."""
    def fact(m):
        body = m[3] if m[2] == "_" else re.sub(rf"(?<![\w'.-]){m[2]}(?![\w'-])", "result", m[3])
        return f"ensures{m[1]}{{ {body} }}"
    return re.sub(r"ensures\*((?: \w+)? )\{ λ (\w+)\. ⌜ (.*) ⌝ \}$", fact, text, flags=re.M)


def main():
    names, goals = own_names()
    library = library_names()
    new = {n: respelled(n) for n in names if respelled(n) != n}
    kept = sorted(n for n in new if n in library or n in goals)
    for n in kept:
        print("kept, since the check or a library names it too:", n)
        del new[n]
    taken = {}
    for n in sorted(names):
        taken.setdefault(new.get(n, n), []).append(n)
    for to, of in taken.items():
        if len(of) > 1:
            print("fall together:", to, of)
    print(len(new), "names")
    if "--dry" in sys.argv:
        return
    for path in files():
        text = open(path, encoding="utf-8").read()
        chosen = CHOSEN_IN.get(path.split(os.sep)[1], {})
        here = {n: to for n, to in chosen.items() if re.search(rf"\.\{{[^}}]*\b{n}\b[^}}]*\}}|^abbrev pub {n} :", text, flags=re.M)}
        got = turned(text, new | here, path.endswith(".rt"))
        if path.endswith(".rt"):
            got = plain(got)
        if got != text:
            with open(path, "w", encoding="utf-8") as f:
                f.write(got)


main()
