#!/usr/bin/env python3
"""Brings this repository's own definitions and lemmas to today's spelling: words in snake case, facts (results in `Type`) in camel case.

usage: python3 tools/respell.py [--list]      at the top, once, after /opt/rattle/port/port.py; --list only prints 'old new'

What turns: names declared in crates/*/specs/ and in the lemma files crates/*/proofs/*.antt, with their fields, constructors and parts.
  heldBy -> held_by      withinCeilings : .. -> Type 0 -> WithinCeilings      parse-image -> parse_image
A lemma whose plain name would be another's gets _lem behind it. A name that a file imports from a library stays in that file.
Names of functions, parameters, exported C names, strings, inputs and outputs stay. Files: *.antt, *.rt (camel case: the clauses and the
comments; dashes: code spans of comments), must-fail/*.edit, and the code spans of README.md and docs/.
"""

import glob
import os
import re
import sys

HEAD = re.compile(r"^((?:(?:unfoldable|abbrev|pub)\s+)*)(?:(record|data)\s+)?([^\s(){}:;,.=]+)(?:\s+([({].*?))?\s*:\s*(.*)$")
FIELD = re.compile(r"^\s+(?:(?:abbrev|unfoldable|pub)\s+)*([^\s(){}:;,.=|]+)\s*:\s")
TOKEN = re.compile(r'[^\s(){}.;,@"«»`]+')
# A word of the documents that is a field's name too: the field gets a name of its own, and comments keep the word.
CHOSEN = {"well-formed": "is_well_formed"}
NO_NAMES = ("infix", "infixl", "infixr", "use", "mod", "unfolding", "where", "let", "--")
# Local names in camel case: of a `where`, a `let`, an import's `as`.
LOCAL = "lookedThrough ofFirst ofOthers arrayTy wholeRecord sortedNumbers insertedNumber removeAll memoryAfterAll replyType".split()


def declared(path):
    """The names that a file of specs/ or proofs/ declares: (name, its type, is it a fact's?), and those of fields and constructors."""
    lines = open(path, encoding="utf-8").read().split("\n")
    inside = False
    for at, line in enumerate(lines):
        if line and line[0] not in " -":
            m = HEAD.match(line)
            inside = bool(m and m.group(2))
            if m and m.group(3) not in NO_NAMES:
                typed = m.group(5)
                for more in lines[at + 1 :]:
                    if not more.startswith(" "):
                        break
                    typed += " " + more.strip()
                yield m.group(3), typed.strip(), False
        else:
            m = FIELD.match(line)
            if m and m.group(1) not in NO_NAMES:
                yield m.group(1), "", inside


def is_camel(name):
    return bool(re.match(r"^[a-z][A-Za-z0-9]*[a-z0-9][A-Z][A-Za-z0-9']*$", name))


def is_dashed(name):
    return bool(re.search(r"[A-Za-z0-9_'μ]-[A-Za-z0-9_'μ]", name)) and not name.startswith("+")


def snake(name):
    name = re.sub(r"([a-z0-9])([A-Z])", lambda m: m.group(1) + "_" + m.group(2).lower(), name)
    return name.replace("-", "_")


def table():
    """old -> new, for every name that turns; and the fields among them."""
    homes, facts, fields = {}, set(), set()
    for path in sorted(glob.glob("crates/*/specs/**/*.antt", recursive=True)) + sorted(glob.glob("crates/*/proofs/*.antt")):
        for name, typed, field in declared(path):
            homes.setdefault(name, []).append(path)
            if field:
                fields.add(name)
            if re.search(r"Type\s*\d?$", typed) and name[0].islower():
                facts.add(name)
    turned, taken = {n: snake(n) for n in LOCAL}, set(n for n in homes if not (is_camel(n) or is_dashed(n)))
    # definitions first, so that a lemma gives way
    for name in sorted(homes, key=lambda n: (is_dashed(n), n)):
        if not (is_camel(name) or is_dashed(name)):
            continue
        new = CHOSEN.get(name, snake(name))
        if name in facts:
            new = name[0].upper() + name[1:]
        if new in taken and not is_dashed(name):
            if any("/specs/" in home for home in homes[new]):
                sys.exit(f"respell: {name} and another would both be {new}: {homes[name]} {homes[new]}")
            turned[new] = new + "_lem"  # a lemma that port.py gave the name
        elif new in taken:
            new += "_lem"
            if new in taken:
                sys.exit(f"respell: no name for {name}")
        taken.add(new)
        turned[name] = new
    return turned, fields & set(turned)


def foreign(text):
    """The names that a file's text imports from a library: not from a crate of this repository."""
    own = set(os.listdir("crates"))
    found = set()
    for m in re.finditer(r"^\s*(?:pub )?(?:ghost )?use ([\w.◌·'-]+)\.\{([^}]*)\}", text, re.M):
        parts = m.group(1).split(".")
        if parts[0] == "Rattle" and len(parts) > 1 and parts[1] in own:
            continue
        found |= {w.strip().split(" as ")[0] for w in m.group(2).split(",")}
    return found


def turn_tokens(text, turned, fields, stays, dotted):
    def one(m):
        word = m.group(0)
        if word not in turned or word in stays:
            return word
        behind = m.start() > 0 and text[m.start() - 1] == "."
        if behind and not dotted and word not in fields and not is_camel(word):
            return word
        return turned[word]

    return TOKEN.sub(one, text)


def turn_spans(text, turned, fields):
    """Only what stands between backticks."""
    return re.sub(r"`[^`\n]+`", lambda m: turn_tokens(m.group(0), turned, fields, (), True), text)


def main(argv):
    turned, fields = table()
    if "--list" in argv:
        for old, new in sorted(turned.items()):
            print(old, new)
        return
    camels = {o: n for o, n in turned.items() if is_camel(o)}
    count = 0
    paths = glob.glob("crates/*/specs/**/*.antt", recursive=True) + glob.glob("crates/*/proofs/**/*.antt", recursive=True)
    paths += glob.glob("crates/*/src/*.rt") + glob.glob("crates/*/must-fail/*.edit") + glob.glob("docs/*.md") + ["README.md"]
    for path in sorted(paths):
        text = open(path, encoding="utf-8").read()
        if path.endswith(".antt"):
            of_function = len(os.path.relpath(path).split(os.sep)) > 4 and "/proofs/" in path
            stays = foreign(text)
            lines = [turn_tokens(l, turned, fields, stays | set(CHOSEN) if l.lstrip().startswith("--") else stays, not of_function) for l in text.split("\n")]
            new = "\n".join(lines)
        elif path.endswith(".edit") and re.search(r"^file: .*\.antt", text, re.M):
            new = turn_tokens(text, turned, fields, (), True)
        elif path.endswith(".md"):
            new = turn_spans(text, turned, fields)
        else:
            new = turn_spans(turn_tokens(text, camels, fields, foreign(text), True), turned, fields)
        if new != text:
            count += 1
            open(path, "w", encoding="utf-8").write(new)
    print(f"respell: {len(turned)} names, {count} files")


if __name__ == "__main__":
    main(sys.argv[1:])
