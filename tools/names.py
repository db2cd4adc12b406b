#!/usr/bin/env python3
"""Spells this repository's own definitions and lemmas as today's Rattle does: words in snake case, types in upper camel case.

Run once, at the top, after the toolchain's own port.py. It turns the names that files of specs/ and proofs/ declare, wherever clauses, specs,
proofs and must-fail edits say them. A dash stays where it joins the names of two functions, as in `length-append`; a name that Rattle makes,
a name of a library and all of Rust's names stay. It says each name that would fall together with another, and then writes nothing.
With --list it writes nothing and prints the table.
"""
import collections
import glob
import os
import re
import sys

WORD = re.compile(r"[^\s(){}.;,@\"«»`|\[\]]+")
SIGNATURE = re.compile(r"^ *(?:(?:pub|abbrev|unfoldable|data|record) +)*([^\s(){}.;,@\"]+(?: +[^\s(){}.;,@\"]+)*?)(?: +[({][^{}()\n]*(?:\([^()\n]*\)[^{}()\n]*)*[)}])* :(?= |$)")
BOUND = [re.compile(r"λ ([^.=]*?)\."), re.compile(r"[({]([^(){}:\n]*?) : "), re.compile(r"\blet ([^\s:=]+) (?::|=)")]
MADE = re.compile(r"^(?:(?:pub|abbrev) +)*(\S+) : (?:\{[^}]*\} → )?(?:tie|goal|statement)\b")
LIBRARY = re.compile(r"^(?:ghost )?use (?!Rattle\.(?:%s)\.)([^\s{;]+?)\.?(?:\{([^}]*)\})?;?$")
# Rattle makes these of a loop without a label.
LOOPS = {"invariant-loop", "decreases-loop", "loop-test"}
PARTS = {"getD": "get_or", "getElem": "get_elem"}
# Functions of the library that lemmas here are named by.
KNOWN = set("length get_or get_elem set sets take drop append map replicate reverse all not sub add mul".split())


def files(top):
    for p in sorted(glob.glob(top + "/crates/*/specs/**/*.antt", recursive=True) + glob.glob(top + "/crates/*/proofs/**/*.antt", recursive=True)):
        yield p


def in_function(path):
    return os.path.basename(path) in ("Proof.antt", "Answers.antt", "Invariants.antt")


def declared(text, path):
    """The names that a file declares or binds, and of these those that answer what Rattle makes."""
    names, made = set(), set()
    for line in text.split("\n"):
        if line.lstrip().startswith("--"):
            continue
        m = MADE.match(line)
        if m and in_function(path):
            made.add(m[1])
            continue
        m = SIGNATURE.match(line)
        if m and not (" " in m[1] and in_function(path)):
            names.update(m[1].split())
        for how in BOUND:
            for words in how.findall(line):
                names.update(WORD.findall(words))
    return names, made


def imported(text, own):
    """The names that a file takes from a library."""
    found = set()
    for m in re.finditer(r"(?m)^(?:ghost )?use ([^\s{;]+?)\.?(?:\{([^}]*)\})?;?$", text):
        if m[1].split(".")[:1] == ["Rattle"] and m[1].split(".")[1] in own:
            continue
        found.update(WORD.findall(m[2] or ""))
    return found


def respelled(name, functions, is_lemma):
    parts = [PARTS.get(p, p) for p in name.split("-")]
    if name[0].isupper() and parts[0].isalpha():
        return "".join([parts[0]] + [p[:1].upper() + p[1:] for p in parts[1:]])
    for k in range(1, len(parts)):
        a, b = "_".join(parts[:k]), "_".join(parts[k:])
        if is_lemma and a in functions and b in functions:
            return a + "-" + b
    return "_".join(parts)


def table(top):
    own = {os.path.basename(c) for c in glob.glob(top + "/crates/*")}
    names, functions, made_somewhere = collections.defaultdict(set), set(KNOWN), collections.defaultdict(set)
    for p in files(top):
        with open(p, encoding="utf-8") as f:
            text = f.read()
        found, made = declared(text, p)
        for n in made:
            made_somewhere[n].add(p)
        if "/specs/" in p:
            for line in text.split("\n"):
                m = SIGNATURE.match(line)
                if m and line.startswith(("abbrev", "unfoldable", "pub")) and m[1][0].islower():
                    functions.update("_".join(PARTS.get(q, q) for q in n.split("-")) for n in m[1].split())
        for n in found:
            names[n].add(p)
    rows = {}
    for n in names:
        if n not in LOOPS and re.search(r"\w-\w", n):
            new = respelled(n, functions, not any("/specs/" in p for p in names[n]))
            if new != n:
                rows[n] = new
    return own, rows, names, made_somewhere


def path_only(code, word):
    """Whether a word stands behind a dot alone."""
    return not re.search(r"(?<![^\s(){}@,;])" + re.escape(word) + r"(?![\w-])", code)


QUOTED = re.compile(r'"(?:[^"\\\n]|\\.)*"?')


def turned(text, rows, keep):
    """The text with its names turned, but for what stands in quotes."""

    def bare(part):
        return WORD.sub(lambda m: rows.get(m[0], m[0]) if m[0] not in keep else m[0], part)

    out, at = [], 0
    for m in QUOTED.finditer(text):
        out += [bare(text[at : m.start()]), m[0]]
        at = m.end()
    return "".join(out) + bare(text[at:])


def main():
    top = "."
    own, rows, names, made = table(top)
    if "--list" in sys.argv:
        for n in sorted(rows):
            print(n, rows[n])
        return 0
    # A crate, a function and a step of a proof may be spelled like a word: they stand in paths alone.
    paths = own | {os.path.basename(os.path.dirname(p)) for p in files(top)}
    clash = 0
    new = {}
    for p in files(top):
        with open(p, encoding="utf-8") as f:
            text = f.read()
        keep = imported(text, own) | {n for n in made if p in made[n]}
        code = re.sub(r"(?m)^ *--.*$", "", text)
        seen = collections.defaultdict(set)
        for w in WORD.findall(code):
            seen[rows.get(w, w) if w not in keep else w].add(w)
        for to, olds in seen.items():
            if len(olds) > 1 and to not in paths and not path_only(code, to):
                clash += 1
                print("clash:", p, to, sorted(olds))
        new[p] = turned(text, rows, keep)
    for p in sorted(glob.glob(top + "/crates/*/src/**/*.rt", recursive=True) + glob.glob(top + "/crates/*/must-fail/*.edit")):
        with open(p, encoding="utf-8") as f:
            text = f.read()
        new[p] = turned(text, rows, imported(text, own))
    byname = collections.defaultdict(set)
    for n in names:
        byname[rows.get(n, n)].add(n)
    for to, olds in sorted(byname.items()):
        if len(olds) > 1:
            print("meets:", to, sorted(olds), [sorted(os.path.relpath(q, "crates") for q in names[o])[:3] for o in sorted(olds)])
    if clash:
        return 1
    if "--dry" in sys.argv:
        return 0
    for p, text in new.items():
        with open(p, "w", encoding="utf-8") as f:
            f.write(text)
    print(len(rows), "names")
    return 0


if __name__ == "__main__":
    sys.exit(main())
