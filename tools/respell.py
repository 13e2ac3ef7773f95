#!/usr/bin/env python3
"""Brings the names of definitions, lemmas, fields and constructors to one spelling: words in snake case, types and modules in camel case.

    python3 tools/respell.py        at the top of the repository, once, after the kit's port.py

`number-room` and `readNumber` become `number_room` and `read_number`. Where a function and a lemma would have one name, the lemma gets `_lem`.
Functions of src/, strings, and what the kit itself names keep their spelling. Documents follow in what they have in backquotes.
"""
import collections
import glob
import re
import subprocess
import sys
import tempfile

WORD = r"([^\s(){}\[\];,.:=|@_][^\s(){}\[\];,.:=|@]*)"
HEAD = re.compile(r"^\s*(?:(?:pub|abbrev|unfoldable)\s+)*(?:(?:data|record|module)\s+" + WORD + r"\s|(?:ruleset\s+)?" + WORD + r"\s+[:=])")
TOKEN = re.compile(r"[^\s(){}\[\];,.@|=]+")
# Lemmas that port.py gave the name that a function is to have now; `held_in`, which was short for some tables, likewise.
LEMMAS = ["word_fits", "goes_on", "at_turn", "fed_by", "entered_by", "was_read", "stands_at", "held_fits", "turn_in", "above_in", "turn_at"]
# A lemma here and in the kit, of the same words.
SHARED = ["length-map"]
MODULES = {"Rattle.demands.specs.Contracts": "Rattle.demands.specs.Calls"}


def snake(name):
    if name == "--":
        return name
    name = name.replace("→", "-to-")
    if not name[0].isupper():
        name = re.sub(r"(?<=[a-z0-9])([A-Z])(?=[a-z]|$)", lambda m: "_" + m.group(1).lower(), name)
    return name.replace("-", "_")


def code(line, mark):
    """The line's code and its comment."""
    at = line.find(mark)
    while at > 0 and mark == "--" and not line[at - 1].isspace():
        at = line.find(mark, at + 1)
    return (line, "") if at < 0 else (line[:at], line[at:])


def defined(files):
    names = set()
    for path in files:
        for line in open(path, encoding="utf-8"):
            m = HEAD.match(code(line, "--")[0])
            name = m and (m.group(1) or m.group(2))
            if name and re.search(r"[A-Za-z]", name):
                names.add(name)
    return names


def renames(names):
    out = {}
    ends = collections.defaultdict(list)
    for name in sorted(names):
        if snake(name) != name and name not in SHARED:
            ends[snake(name)].append(name)
    for end, froms in ends.items():
        for name in froms:
            lemma = "-" in name and (end in names or any("-" not in other for other in froms))
            out[name] = end + "_lem" if lemma else end
    for name in LEMMAS:
        out[name] = name + "_lem"
    out["held_in"] = "tables_found"
    return out


def since_landed(names, table):
    """What the names of the last commit, which the documents and the wrong versions still have, are called now."""
    with tempfile.TemporaryDirectory() as folder:
        archive = subprocess.run(["git", "archive", "HEAD", "crates"], check=True, capture_output=True).stdout
        subprocess.run(["tar", "x", "-C", folder], input=archive, check=True)
        before = defined(glob.glob(folder + "/crates/*/specs/**/*.antt", recursive=True))
    out = dict(table)
    for name in before:
        if name not in table and snake(name) != name and snake(name) in names:
            out[name] = table.get(snake(name), snake(name))
    return out


def turned(text, table, pattern=TOKEN):
    return pattern.sub(lambda m: table.get(m.group(0), m.group(0)), text)


def quoted(text, table):
    """Names in backquotes: alone, or the last part of a path."""
    def one(m):
        return "`" + turned(m.group(1), table, re.compile(r"[^\s(){}\[\];,.@|=`/]+")) + "`"
    return re.sub(r"`([^`]*)`", one, text)


def antt(path, table):
    out = []
    for line in open(path, encoding="utf-8"):
        head, note = code(line, "--")
        if "/proofs/" in path:
            plain = {a: b for a, b in table.items() if a not in LEMMAS}
            head = re.sub(r"(?<![.\w])[^\s(){}\[\];,.@|=]+", lambda m: table.get(m.group(0), m.group(0)), head)
            head = turned(head, plain)
        else:
            head = turned(head, table)
        out.append(head + quoted(note, table))
    return "".join(out)


def rt(path, table):
    out = []
    for line in open(path, encoding="utf-8"):
        head, note = code(line, "//")
        parts = re.split(r'("(?:[^"\\]|\\.)*")', head)
        parts[::2] = [turned(p, table) for p in parts[::2]]
        out.append("".join(parts) + quoted(note, table))
    return "".join(out)


def edit(path, table):
    out = []
    for line in open(path, encoding="utf-8"):
        if line.startswith(("old:", "new:")):
            line = line[:4] + turned(line[4:], {a: b for a, b in table.items() if specs or "-" not in a})
        elif line.startswith("file:"):
            specs = "specs/" in line
        out.append(line)
    return "".join(out)


def main():
    sources = sorted(glob.glob("crates/*/specs/**/*.antt", recursive=True))
    names = defined(sources)
    table = renames(names)
    clashes = [b for b, n in collections.Counter(table.values()).items() if n > 1]
    clashes += [b for b in table.values() if b in names and b not in LEMMAS + ["held_in"]]
    if clashes:
        sys.exit("names fall together: " + " ".join(sorted(set(clashes))))
    code_table = {a: b for a, b in table.items() if a not in LEMMAS and "-" not in a}
    for path in sources + sorted(glob.glob("crates/*/proofs/**/*.antt", recursive=True)):
        write(path, antt(path, table))
    for path in sorted(glob.glob("crates/*/src/*.rt")):
        write(path, rt(path, code_table))
    documents = {a: b for a, b in since_landed(names, table).items() if a not in LEMMAS}
    for path in sorted(glob.glob("crates/*/must-fail/*.edit")):
        write(path, edit(path, documents))
    for path in glob.glob("*.md") + glob.glob("docs/**/*.md", recursive=True):
        if path != "docs/PORT.md":
            write(path, quoted(open(path, encoding="utf-8").read(), documents))
    subprocess.run(["git", "mv", "crates/demands/specs/Contracts.antt", "crates/demands/specs/Calls.antt"], check=True)
    lib = "crates/demands/specs/Lib.antt"
    write(lib, re.sub(r"\bContracts\b", "Calls", open(lib, encoding="utf-8").read()))
    print(len(table), "names")


def write(path, text):
    for old, new in MODULES.items():
        text = re.sub(re.escape(old) + r"(?![\w.]*contracts)\b", new, text)
    if text != open(path, encoding="utf-8").read():
        open(path, "w", encoding="utf-8").write(text)


if __name__ == "__main__":
    main()
