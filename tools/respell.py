#!/usr/bin/env python3
"""Turns this repository's own definitions, lemmas, fields and constructors to today's spelling, as port.py leaves them.

usage: respell.py [--check]      at the top of the repository, once, right after port.py

A word is in snake case: `firstLeast` becomes `first_least`. A dash stays where it joins two names of definitions, as in `length-drop`;
a plain word is joined by `_`, as in `any_yes`. What Rattle makes of the code (goals, steps, modules) and what the library names is not
declared in this repository, and stays; so do strings, and names of src/. The names are taken from specs/ and proofs/, and turned there, in
the clauses of src/, in the must-fail edits, and between backticks in the documents. --check prints the table and what would fall together.
"""
import collections
import glob
import re
import sys

WORD = r"[^\s(){}\[\].;,@\"«»\\:`|]+"
MARKS = r"(?:(?:unfoldable|abbrev|opaque|pub)[ \t]+)*"
DECLARED = re.compile(r"(?m)^[ \t]*" + MARKS + r"((?:" + WORD + r"[ \t]+)*" + WORD + r")[ \t]*(?:[({][^\n]*[)}][ \t]*)*:(?=\s)")
KINDS = re.compile(r"(?m)^[ \t]*" + MARKS + r"(?:record|data|ruleset)[ \t]+(?:pub[ \t]+)?(" + WORD + r")")
DEFINED = re.compile(r"(?m)^[ \t]*(?:pub[ \t]+)?(?:unfoldable|abbrev)[ \t]+(?:pub[ \t]+)?(" + WORD + r")")
# Words of the library that a dash joins.
LIBRARY = set("length take drop set append get_or sum fold cond min max and or not natural".split()) - {"and", "or", "not", "natural"}
KEYWORDS = set("use pub let in where module elim data record abbrev unfoldable ruleset mod infixl infixr infix".split())


def text(path):
    with open(path, encoding="utf-8") as it:
        return it.read()


def uncommented(s):
    return re.sub(r"(?m)(?:^|(?<=\s))--(?:[ \t].*)?$", "", s)


def snake(word):
    word = re.sub(r"(?<=[a-z0-9])(?=[A-Z])", "_", word)
    return re.sub(r"_([A-Z])(?![A-Z])", lambda m: "_" + m.group(1).lower(), word)


def declared(s):
    out = set()
    for m in DECLARED.finditer(s):
        out |= {w for w in m.group(1).split() if w not in KEYWORDS}
    return out | set(KINDS.findall(s))


def turned(word, definitions):
    head = re.match(r"[A-Z]\w*", word)
    if head and head.group(0) == word:
        return word
    parts = [p if re.match(r"[A-Z]", p) else snake(p) for p in word.split("-")]
    out = parts[0]
    names = definitions | LIBRARY
    for i, part in enumerate(parts[1:], 1):
        both = parts[i - 1] in names and part in names
        out += ("-" if both or not re.match(r"\w", part) or not re.search(r"\w$", parts[i - 1]) else "_") + part
    return out


def is_own(word):
    return "◌" not in word and ("-" in word or re.match(r"[a-z]\w*[A-Z]", word))


def main():
    specs = glob.glob("crates/*/specs/**/*.antt", recursive=True)
    proofs = glob.glob("crates/*/proofs/**/*.antt", recursive=True)
    by_hand = [f for f in proofs if f.endswith("/Proof.antt")]
    theory = [f for f in proofs if f not in by_hand]
    definitions, names = set(), set()
    for f in specs + theory:
        s = uncommented(text(f))
        names |= declared(s)
        definitions |= {snake(w) for w in DEFINED.findall(s)}
    table = {w: turned(w, definitions) for w in names if is_own(w)}
    table = {w: n for w, n in table.items() if w != n}
    # A lemma that would have the name of a definition, or of anything else in use, gets `_lem`.
    used = set()
    for f in specs + proofs:
        used |= set(re.findall(WORD, uncommented(text(f))))
    taken = {n for w, n in table.items() if "-" not in w} | (used - set(table))
    table = {w: n + "_lem" if "-" in w and n in taken else n for w, n in table.items()}
    table.update({n: n + "_lem" for n in {n for w, n in table.items() if "-" not in w} & names})
    # In a proof by hand, what is no goal and no proof of a function is a lemma of that file.
    local = {}
    for f in by_hand:
        s = uncommented(text(f))
        goals = set(re.findall(r"(?m)^(?:pub )?(" + WORD + r") : (?:tie|needs|goal|statement)\b(?!\.(?:Start|After|Then|Else|In|Arm|Case)[\w-]*[^\n]*→)", s))
        own = {w for w in declared(s) if is_own(w) and w not in goals and not w.endswith("-spec") and not w.startswith(("invariant-", "decreases-"))}
        local[f] = {w: turned(w, definitions) for w in own if turned(w, definitions) != w and w not in table}
    if "--check" in sys.argv:
        words = collections.Counter()
        for f in specs + proofs:
            words.update(re.findall(WORD, uncommented(text(f))))
        back = collections.defaultdict(set)
        for w, n in table.items():
            back[n].add(w)
        for n, ws in sorted(back.items()):
            if len(ws) > 1:
                print("together:", n, sorted(ws))
            elif words[n]:
                print("taken:", n, sorted(ws), words[n])
        for w, n in sorted(table.items()):
            print(w, n)
        return
    find = re.compile("(?<![^\\s(){}\\[\\].;,@\"«»\\\\:`|])" + WORD)

    def turn(s, table):
        # After a dot stands a field or a step of the code, and no lemma of another file.
        is_step = lambda m: m.start() and s[m.start() - 1] == "." and table.get(m.group(0)) == m.group(0) + "_lem"
        return find.sub(lambda m: m.group(0) if is_step(m) else table.get(m.group(0), m.group(0)), s)

    rt = re.compile(r'"(?:[^"\\]|\\.)*"|' + "(?<![^\\s(){}\\[\\].;,@«»\\\\:`|])" + WORD)
    for f in specs + proofs:
        own = {**table, **local.get(f, {})}
        s = text(f)
        n = turn(s, own)
        if n != s:
            open(f, "w", encoding="utf-8").write(n)
    for f in glob.glob("crates/*/src/**/*.rt", recursive=True) + glob.glob("crates/*/must-fail/*.edit"):
        s = text(f)
        n = rt.sub(lambda m: table.get(m.group(0), m.group(0)), s)
        if n != s:
            open(f, "w", encoding="utf-8").write(n)
    for f in glob.glob("**/*.md", recursive=True):
        s = text(f)
        n = re.sub(r"`[^`\n]+`", lambda m: turn(m.group(0), table), s)
        if n != s:
            open(f, "w", encoding="utf-8").write(n)


main()
