#!/usr/bin/env python3
"""Looks whether the documents, the edits that must fail and the names of definitions fit the tree: check_documents.py

- docs/PROMISES.md: in each row every file, every edit that must fail, and every name, in the file that is said to hold it.
- crates/*/must-fail: each edit names a file of its crate, its old text stands there once, and the new one is another.
- README.md: the table of crates has each crate of crates.txt, below those that it stands on, and no other.
- every link from one document to a file.
- crates/*/specs: no name is defined in two crates, fields and constructors aside, so that one name is one thing.
- README.md: what the files of its law import stands in files of the law, and the files outside it are counted right.

Prints what is wrong, and how many of each there are.
"""

import fnmatch
import glob
import os
import re
import sys

ROOT = os.path.join(os.path.dirname(os.path.abspath(__file__)), "..")
CRATES = os.path.join(ROOT, "crates")


def text(path):
    with open(path, encoding="utf-8") as file:
        return file.read()


def words(source):
    return re.findall(r"[^\s(){}.;,@\"«»⌜⌝&<>:]+", source)


# all words of the crates' sources, definitions and proofs
WORDS = set()
for kind in ("rt", "antt"):
    for place in glob.glob(os.path.join(CRATES, "**", "*." + kind), recursive=True):
        WORDS.update(words(text(place)))
WORDS.update(os.listdir(CRATES))


def files(word, before=None):
    """The files or folders that a path may mean: without a folder of its own it is in crates/rules, or beside the one before it in a list."""
    for each in [word] + ([os.path.join(os.path.dirname(before), word)] if before else []):
        for base in (CRATES, os.path.join(CRATES, "rules"), ROOT):
            for end in ("", ".antt", ".rt"):
                found = glob.glob(os.path.join(base, each + end))
                if found:
                    return found
    return []


def holds(path, name):
    """Whether a file, or one of a folder, has a name."""
    inside = [path] if os.path.isfile(path) else glob.glob(os.path.join(path, "**", "*.*"), recursive=True)
    return any(set(name.split()) <= set(words(text(each))) for each in inside if os.path.isfile(each))


def held(cell):
    """Names, each with the files that it is said to stand in: names and then files in brackets, or a file and then names."""
    for names, where in re.findall(r"((?:`[^`]+`(?:, | and )?)+) \(([^)]*)\)", cell):
        before, found = None, []
        for word in re.findall(r"[A-Za-z_/.]+", where):
            found += files(word, before)
            before = word if "/" in word else before
        if found:
            yield from ((name, found) for name in re.findall(r"`([^`]+)`", names))
    for where, names in re.findall(r"((?:[a-z_]+/)+[A-Za-z_.]+) ((?:`[^`]+`(?:, | and )?)+)", cell):
        yield from ((name, files(where)) for name in re.findall(r"`([^`]+)`", names))


def edits(cell):
    """The edits that a cell names, each with its crate: `m-f` and a list, more lists after semicolons."""
    if "m-f " not in cell or "m-f edits" in cell:
        return
    named = re.sub(r" *\([^)]*\)", "", cell[cell.index("m-f ") + 4:])
    for number, part in enumerate(named.split(";")):
        crate = "rules" if number == 0 else None
        for word in part.split(","):
            found = re.fullmatch(r"(?:([a-z0-9_]+)/)?([a-z0-9_*]+)", word.strip())
            if found and found[1] == "crates":
                break
            if found and (found[1] or crate):
                crate = found[1] or crate
                yield crate, found[2]


def missing(row):
    for crate, edit in edits(row[-1]):
        if not glob.glob(os.path.join(CRATES, crate, "must-fail", edit + ".edit")):
            yield f"edit {crate}/{edit}"
    for cell in row:
        for name in re.findall(r"`([^`]+)`", cell):
            if not name.startswith(("make ", "..")) and name.split()[0] not in WORDS:
                yield f"name {name}"
        for name, where in held(cell):
            if not name.startswith("..") and not any(holds(path, name) for path in where):
                yield f"name {name}, not in {', '.join(os.path.relpath(path, ROOT) for path in where)}"
        before = None
        for word in re.findall(r"(?<![\w/.`-])((?:[a-z_]+/)+[A-Za-z_*.]+)", re.sub(r"m-f .*|\[[^]]*\]\([^)]*\)", "", cell)):
            if not files(word.rstrip("."), before):
                yield f"file {word}"
            before = word


def promises():
    rows = [line.strip().strip("|").split(" | ") for line in text(os.path.join(ROOT, "docs/PROMISES.md")).split("\n") if line.startswith("| ")]
    rows = [row for row in rows if row[0].strip() != "promise"]
    return len(rows), [f"{row[0].strip()[:60]}: {fault}" for row in rows for fault in missing(row)]


def wrong(path):
    """What is wrong with an edit, read as `rt must-fail` does: a file, then pairs of an old and a new text, each on what the one before left."""
    home = os.path.dirname(os.path.dirname(path))
    place, old, pairs, now = None, None, 0, {}
    for line in text(path).split("\n"):
        if line.startswith("file: "):
            place = line[6:]
            if not re.match("(src|specs)/", place) or not os.path.isfile(os.path.join(home, place)):
                yield f"no file of src/ or specs/: {place}"
                return
            now.setdefault(place, text(os.path.join(home, place)))
        elif line.startswith("old: ") and place and old is None:
            old = line[5:]
        elif line.startswith("new:") and old is not None:
            new = line[4:].removeprefix(" ")
            if now[place].count(old) != 1:
                yield f"{now[place].count(old)} times in {place}, not once: {old}"
            if new == old:
                yield f"new is old: {old}"
            now[place] = now[place].replace(old, new, 1)
            old, pairs = None, pairs + 1
        elif line and not line.startswith("#"):
            yield f"a line out of place, or of no meaning: {line}"
    if old is not None or pairs == 0:
        yield "no pair of an old and a new text"


def must_fail():
    paths = sorted(glob.glob(os.path.join(CRATES, "*", "must-fail", "*.edit")))
    return len(paths), [f"{os.path.relpath(path, ROOT)}: {fault}" for path in paths for fault in wrong(path)]


def crates():
    listed = {crate: below.split() for crate, below in re.findall(r"^(\w+)(?: staticlib)?:([^#\n]*)", text(os.path.join(ROOT, "crates.txt")), re.M)}
    table = re.search(r"\| crate \| holds \|\n\|[-|]*\n((?:\|.*\n)*)", text(os.path.join(ROOT, "README.md")))[1]
    rows = [re.findall("`([^`]+)`", line.split("|")[1]) for line in table.split("\n")[:-1]]
    row = {crate: number for number, names in enumerate(rows) for name in names for crate in fnmatch.filter(listed, name)}
    faults = [f"README.md has no row for the crate {crate}" for crate in listed if crate not in row]
    faults += [f"README.md has a row for {name}, which is no crate" for names in rows for name in names if not fnmatch.filter(listed, name)]
    faults += [f"README.md has {crate} above {each}, on which it stands" for crate in row for each in listed[crate] if row.get(each, 0) > row[crate]]
    return len(listed), faults


def links():
    places = ("*.md", "docs/**/*.md", "compare/*.md", "vectors/*.md")
    pages = [page for place in places for page in glob.glob(os.path.join(ROOT, place), recursive=True)]
    named = [(page, link) for page in pages for link in re.findall(r"\]\(([^)#:]+)\)", text(page))]
    return len(named), [
        f"{os.path.relpath(page, ROOT)}: no file {link}" for page, link in named if not os.path.exists(os.path.join(os.path.dirname(page), link))]


def definitions():
    homes = {}
    for path in sorted(glob.glob(os.path.join(CRATES, "*", "specs", "**", "*.antt"), recursive=True)):
        for name in re.findall(r"^ *(?:pub )?(?:unfoldable|abbrev|record|data) (?:pub )?([^\s:({]+)", text(path), re.M):
            homes.setdefault(name, []).append(os.path.relpath(path, CRATES))
    crates_of = {name: {path.split(os.sep)[0] for path in paths} for name, paths in homes.items()}
    return len(homes), [f"{name} is defined in {' and '.join(homes[name])}" for name in homes if len(crates_of[name]) > 1]


def law():
    readme = text(os.path.join(ROOT, "README.md"))
    table = re.search(r"\| what \| where \|\n\|[-|]*\n((?:\|.*\n)*)", readme)[1]
    listed = {
        os.path.join(crate, "specs", name + ".antt")
        for crate, names in re.findall(r"([a-z_]+): ([^;|]*)", "".join(line.split("|")[2] + ";" for line in table.split("\n")[:-1]))
        for name in re.findall(r"\b[A-Z]\w*", names)
    }
    every = {os.path.relpath(path, CRATES) for path in glob.glob(os.path.join(CRATES, "*", "specs", "*.antt")) if not path.endswith("Lib.antt")}
    faults = [f"README.md has {path} in its law, and there is no such file" for path in sorted(listed - every)]
    for path in sorted(listed & every):
        for crate, folder, name in re.findall(r"^use Rattle\.(\w+)\.(specs|proofs)\.(\w+)", text(os.path.join(CRATES, path)), re.M):
            if crate != "std" and name != "declared" and os.path.join(crate, folder, name + ".antt") not in listed:
                faults.append(f"{path} imports {crate}/{folder}/{name}.antt, which the law of README.md has not")
    if f" {len(every - listed)} of {len(every)} " not in readme:
        faults.append(f"README.md does not say that {len(every - listed)} of {len(every)} files under specs/ are outside its law")
    return len(listed), faults


def main():
    failed = False
    looks = {
        "rows of docs/PROMISES.md": promises,
        "edits that must fail": must_fail,
        "crates in README.md": crates,
        "links": links,
        "names of definitions": definitions,
        "files of README.md's law": law,
    }
    for what, look in looks.items():
        number, faults = look()
        for fault in faults:
            print(fault)
        print(f"{number} {what}, {len(faults)} wrong")
        failed = failed or bool(faults)
    return 1 if failed else 0


if __name__ == "__main__":
    sys.exit(main())
