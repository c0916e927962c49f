#!/usr/bin/env python3
"""Turns proofs of the older form, proofs/F/Proof.antt over `Tie`, into Invariants.antt and Answers.antt.

usage: rt names /tmp/names; python3 tools/answers.py /tmp/names CRATE..      at the top; it ran once, in the port (docs/PORT.md)

/tmp/names/crates/CRATE/names.json says what each goal and each step was called and is called. An answer that only says `search rules` goes:
the check tries that and more by itself. What the script cannot place is printed ('look:') and kept as it was.
"""

import glob
import json
import os
import re
import sys

KNOWN = ("args", "well_formed", "ranges", "requires", "auto")
NAME = r"[A-Za-z_μ][\w'′₀₁₂₃-]*"
PATH = re.compile(rf"(?<![\w'.◌-])({NAME})((?:\.[\w'-]+)*)")


def norm(name):
    return re.sub(r"-(\d+)$", r"\1", re.sub(r"_lem$", "", name).replace("_", "-").lower())


class Function:
    """What names.json says of one function."""

    def __init__(self, d):
        self.places = [p[0] for p in d["places"]]
        self.parent = {p[0]: p[1] for p in d["places"]}
        self.step = {p[0]: p[2] for p in d["places"]}
        self.fresh = dict(zip(self.places, d["places_by_name"]))
        self.callee = {p[0]: p[3] for p in d["places"]}
        self.fields = {p[0]: dict(p[4]) for p in d["places"]}
        self.params = d["params"]
        self.arms = dict(zip(self.places, d["arms"]))
        self.clauses = dict(zip(self.places, d["clauses"]))
        self.typed = dict(zip(self.places, d["typed"]))
        self.needs, self.at = {}, {}
        for (old, new), (oldplace, _) in zip(d["needs"], d["asked_at"]):
            self.needs[norm(old)] = new
            self.at[new] = oldplace
        self.loops, self.changed = d["loops"], d["changed"]
        self.identifiers = set()
        self.by_norm = {norm(p): p for p in self.places}

    def need(self, name):
        for word in (name, re.sub(r"^(overflow|nonzero)-", "", name)):
            if norm(word) in self.needs:
                return self.needs[norm(word)]
        return None

    def find(self, place, field):
        """Where the old step `field` stands, at the place or above it: the place and the step's new name; None for a name of an arm's own."""
        top = place
        for fresh in (False, True):
            place = top
            while place is not None:
                old, new = self.step[place]
                if norm(new if fresh else old) == norm(field):
                    return place, new
                arm = self.arms[place]
                if arm:
                    for _, step, _ in arm[2]:
                        if norm(step) == norm(field):
                            return place, None
                place = self.parent[place]
        return None, None

    def resolve(self, top, place, words):
        """('place', P) or ('path', [words]) or None. Steps have names of their own, so how many `before` stand there says nothing more."""
        words = [w.replace("-", "_") if i and w.replace("-", "_") in self.identifiers else w for i, w in enumerate(words)]
        while words and words[0] == "before":
            place = self.parent[place] if place else None
            words.pop(0)
        if not words:
            return ("place", place)
        if words[0] in KNOWN:
            return ("path", words)
        at, new = self.find(top, words[0])
        if at is None:
            return None
        arm = self.arms[at]
        if arm:
            for field, step, path in arm[2]:
                if norm(step) == norm(words[0]) and words[1 : 1 + len(path)] == path:
                    return ("path", [arm[0], field] + words[1 + len(path) :])
            if any(norm(step) == norm(words[0]) for _, step, _ in arm[2]):
                return None
        if new is None:
            return None
        rest = words[1:]
        if rest and rest[0] in self.fields[at]:
            rest = [self.fields[at][rest[0]]] + rest[1:]
        if len(rest) > 1 and rest[0] == "ensures" and rest[1].isdigit() and self.clauses.get(at):
            labels = self.clauses[at]
            try:
                label = labels[int(rest[1])]
                if isinstance(label, str) and label:
                    rest = [rest[0], label] + rest[2:]
            except (IndexError, TypeError, KeyError):
                pass
        if len(rest) > 1 and rest[0] in ("new", "auto") and self.callee[at] in self.params:
            k, i = 0, 1
            while i < len(rest) and rest[i] == "1":
                k, i = k + 1, i + 1
            if i < len(rest) and rest[i] == "0":
                i += 1
            names = self.params[self.callee[at]]
            if rest[0] == "new" and k < len(names):
                rest = ["new", names[k]] + rest[i:]
        return ("path", [new] + rest)

    def up(self, place, above):
        n = 0
        while place is not None and place != above:
            place = self.parent[place]
            n += 1
        return n


def items(text):
    """Top-level items of a proof file: (comment lines, unfolding lines, lines)."""
    out, comment, current = [], [], None
    for line in text.split("\n"):
        if line.startswith("--"):
            if current:
                out.append(current)
                current = None
            comment.append(line)
        elif not line.strip():
            if current:
                out.append(current)
                current = None
        elif current and line[0] in ")]}":
            current[1].append(line)
        elif line[0] not in " \t":
            if current and continues(current[1][0], line):
                current[1].append(line)
            else:
                if current:
                    out.append(current)
                current = (comment, [line])
                comment = []
        elif current:
            current[1].append(line)
    if current:
        out.append(current)
    if comment:
        out.append((comment, []))
    return out


def continues(head, line):
    """Is `line` an equation or an `unfolding` line of the item that `head` begins?"""
    if head.startswith("use "):
        return False
    if line.startswith("unfolding"):
        return True
    m = re.match(r"^(?:abbrev |unfoldable |pub )*(\S+)", head)
    first = line.split()[0] if line.split() else ""
    return bool(m) and first == m.group(1) and not re.match(r"^\S+\s+:", line)


class Turned:
    def __init__(self, f, name):
        self.f, self.name, self.used, self.looks = f, name, set(), []

    def body(self, text, var, place, goal, helpers):
        """Rewrites the paths from `var`, which stands at `place`; `goal` is the goal's new name, or None in a helper."""
        f, env = self.f, {var: (place, [])}
        kept = set()

        def words_of(m):
            at, words = env[m.group(1)]
            return at, words + [w for w in m.group(2).split(".") if w]

        def rewrite(chunk):
            def one(m):
                name = m.group(1)
                if name not in env:
                    return m.group(0)
                at, words = words_of(m)
                got = f.resolve(place, at, words)
                if name in kept:
                    mine = f.resolve(place, *env[name])
                    if got and got[1] != mine[1] + [w for w in m.group(2).split(".") if w]:
                        return var + "." + ".".join(got[1])
                    return m.group(0)
                if got is None:
                    self.looks.append(m.group(0) + " = " + ".".join(w for w in words if w != "before"))
                    return m.group(0)
                if got[0] == "path":
                    return var + "." + ".".join(got[1])
                before = re.search(rf"({NAME})\s+$", chunk[: m.start()])
                at = got[1]
                if before and before.group(1) in helpers:
                    at = helpers[before.group(1)]
                if at is None:
                    self.looks.append("a place: " + m.group(0))
                    return m.group(0)
                if goal:
                    return f"(goal.at.{goal} {var}).{f.fresh[at]}"
                return var + ".before" * f.up(place, at)

            return PATH.sub(one, chunk)

        lets = re.compile(rf"let ({NAME}) = ({NAME})((?:\.[\w'-]+)*) in(?![\w'-])(\s*)")
        out, pos = [], 0
        while True:
            m = lets.search(text, pos)
            if not m:
                out.append(rewrite(text[pos:]))
                break
            name = m.group(1)
            if m.group(2) in env:
                at, words = env[m.group(2)]
                words = words + [w for w in m.group(3).split(".") if w]
                got = f.resolve(place, at, words)
                if got is None or got[0] == "place":
                    out.append(rewrite(text[pos : m.start()]))
                    env[name] = (got[1], []) if got else (at, words)
                    kept.discard(name)
                    pos = m.end()
                    continue
                out.append(rewrite(text[pos : m.end()]))
                env[name] = (at, words)
                kept.add(name)
                pos = m.end()
                continue
            out.append(rewrite(text[pos : m.end()]))
            pos = m.end()
            if name in env and name != var:
                del env[name]
                kept.discard(name)
        return simpler("".join(out))


def simpler(text):
    """Tests say what they say without `not`."""
    text = re.sub(rf"\(not-true _ ({NAME}(?:\.[\w'-]+)*)\.true-raw\)|not-true _ ({NAME}(?:\.[\w'-]+)*)\.true-raw", lambda m: (m.group(1) or m.group(2)) + ".true", text)
    return re.sub(rf"\(not-false _ ({NAME}(?:\.[\w'-]+)*)\.false-raw\)|not-false _ ({NAME}(?:\.[\w'-]+)*)\.false-raw", lambda m: (m.group(1) or m.group(2)) + ".false", text)


def inline(lines, inlined):
    """Puts in the place of `name start`, of an abbreviation over the function's start, what it says."""
    text = "\n".join(lines)
    for name, (var, body) in inlined.items():
        said = lambda m: "(" + re.sub(rf"(?<![\w'.-]){re.escape(var)}(?=\.)", lambda w: m.group(1), body) + ")"
        text = re.sub(rf"\({re.escape(name)} ({NAME})\)", said, text)
        text = re.sub(rf"(?<![\w'.-]){re.escape(name)} ({NAME})(?![\w'.-])", said, text)
    return text.split("\n")


def dedash(text, names):
    return re.sub(r'[^\s(){}.;,@"«»]+', lambda m: names.get(m.group(0), m.group(0)), text)


def turn(path, f, crate):
    text = open(path, encoding="utf-8").read()
    uses, invariants, answers, looks = [], [], [], []
    helpers = {}
    all_items = items(text)
    head = []
    turned = Turned(f, path)
    local = {}
    for comment, lines in all_items:
        if lines and not lines[0].startswith("use "):
            m = re.match(r"^(?:abbrev |unfoldable |pub )*(\S+)", lines[0])
            if m and "-" in m.group(1) and not re.match(r"^(?:abbrev |pub )*\S+\s*: tie\.(Need-|invariant-|decreases-)", lines[0]):
                local[m.group(1)] = m.group(1).replace("-", "_")
    goals = set()
    first = True
    inlined = {}
    for comment, lines in all_items:
        m = lines and re.match(r"^abbrev (\S+) : tie\.Start → ", lines[0])
        e = m and re.match(rf"^{re.escape(m.group(1))} ({NAME}) =\s*(.*)$", "\n".join(lines[1:]), re.S)
        if e:
            inlined[m.group(1)] = (e.group(1), " ".join(e.group(2).split()))
    for comment, lines in all_items:
        if not lines:
            continue
        if lines[0].startswith("abbrev ") and lines[0].split()[1] in inlined:
            continue
        lines = inline(lines, inlined)
        if lines[0].startswith("use "):
            if first and comment:
                head = comment
            first = False
            u = "\n".join(lines)
            if not re.search(r"\.(Statement|Tie)\b", u):
                uses.append(u)
            continue
        if first and comment:
            head, comment = comment, []
        first = False
        if re.match(r"^(pub )?(record|data) ", lines[0]):
            answers.append(dedash("\n".join(comment + lines), local))
            continue
        m = re.match(r"^(?:abbrev |unfoldable |pub )*(\S+)\s*:\s*(.*)$", lines[0])
        if not m:
            looks.append("item " + lines[0])
            continue
        name, typed = m.group(1), m.group(2)
        k = 1
        while k < len(lines) and lines[k].startswith(" "):
            typed += "\n" + lines[k]
            k += 1
        unfolding = [l for l in lines[k:] if l.startswith("unfolding")]
        equations = [l for l in lines[k:] if not l.startswith("unfolding")]
        if name.endswith("-spec") or name.endswith("_spec"):
            continue
        im = re.match(r"^tie\.(invariant|decreases)-(\S+)$", typed.strip())
        if im:
            loop = [i for i, l in enumerate(f.loops) if l[0][0] == im.group(2)]
            if not loop:
                looks.append("no loop " + typed)
                continue
            (_, new), vs = f.loops[loop[0]]
            changed = f.changed[loop[0]]
            body = "\n".join(equations)
            bm = re.match(r"^(\S+)((?:\s+[^\s=]+)*)\s*=(\s*)(.*)$", body, re.S)
            args = bm.group(2).split()
            want = [("l.initial." if c else "l.") + v for v, c in zip(vs, changed)] + ["l." + v for v, c in zip(vs, changed) if c]
            if len(args) != len(want):
                looks.append(f"{im.group(1)}-{new}: arguments {args} against {want}")
            to = dict(zip(args, want))
            rest = PATH.sub(lambda w: (to[w.group(1)] + w.group(2)) if w.group(1) in to else w.group(0), bm.group(4))
            new_name = f"{im.group(1)}-{new}"
            block = comment + [f"abbrev pub {new_name} : goal.{new_name}"] + unfolding + [f"{new_name} l ={bm.group(3)}{rest}"]
            invariants.append("\n".join(block))
            continue
        nm = re.match(r"^tie\.Need-(\S+)", typed.strip())
        if nm:
            new = f.need(nm.group(1))
            body = "\n".join(equations)
            bm = re.match(r"^(\S+)((?:\s+[^\s=]+)*)\s*=(\s*)(.*)$", body, re.S)
            if new is None:
                if not re.fullmatch(r"\s*search rules\s*", bm.group(4)):
                    looks.append(f"no goal now for {nm.group(1)}: {bm.group(4).strip()[:200]}")
                continue
            if re.fullmatch(r"\s*search rules\s*", bm.group(4)):
                continue
            args = bm.group(2).split()
            var = args[0] if args else "c"
            t = Turned(f, path)
            rest = t.body(bm.group(4), var, f.at[new], new, helpers)
            for extra in args[1:]:
                if re.search(rf"(?<![\w'.-]){re.escape(extra)}(?![\w'-])", rest):
                    looks.append(f"{new}: argument {extra} is used")
            looks += [f"{new}: {w}" for w in t.looks]
            if new in goals:
                looks.append(f"{new}: twice")
            goals.add(new)
            rest = dedash(rest, local)
            block = comment + [f"pub {new} : goal.{new}"] + unfolding + [f"{new} {var} ={bm.group(3)}{rest}"]
            answers.append("\n".join(block))
            continue
        # a lemma of the file's own
        body = "\n".join(lines)
        ARGS = r"(?: invariant-loop\w*| decreases-loop\w*)*"
        hm = re.search(rf"\(({NAME}) : tie\.([\w-]+){ARGS}\)|: tie\.([\w-]+){ARGS} →", body)
        if hm:
            place = f.by_norm.get(norm(hm.group(2) or hm.group(3)))
            eq = re.search(rf"^{re.escape(name)} ({NAME})", body[hm.end() :], re.M)
            if not place:
                looks.append(f"helper {name}: no place {hm.group(0)}")
            elif eq:
                helpers[name] = place
                cut = hm.end() + eq.start()
                t = Turned(f, path)
                signature = body[:cut]
                if hm.group(1):
                    signature = body[: hm.end()] + t.body(body[hm.end() : cut], hm.group(1), place, None, helpers)
                body = signature + t.body(body[cut:], eq.group(1), place, None, helpers)
                looks += [f"helper {name}: {w}" for w in t.looks]

        def fresh_place(m):
            at = f.by_norm.get(norm(m.group(1)))
            if not at:
                return m.group(0)
            turned.used.add(f.fresh[at])
            return f.fresh[at]

        body = re.sub(rf"tie\.([\w-]+){ARGS}", fresh_place, body)
        if "tie." in body:
            looks.append(f"helper {name}: tie.")
        body = dedash(body, local)
        answers.append("\n".join(comment + [body]))
    folder = os.path.dirname(path)
    goalpath = "Rattle." + crate + ".proofs." + os.path.relpath(folder, f"crates/{crate}/proofs").replace("/", ".")
    if invariants:
        with open(folder + "/Invariants.antt", "w", encoding="utf-8") as o:
            o.write("\n".join(head + uses + [f"use {goalpath}.Given as goal", ""]) + "\n" + "\n\n".join(invariants) + "\n")
    if answers:
        places = [f"use {goalpath}.Goals.{{{', '.join(sorted(turned.used))}}}"] if turned.used else []
        with open(folder + "/Answers.antt", "w", encoding="utf-8") as o:
            o.write("\n".join((head if not invariants else []) + uses + [f"use {goalpath}.Goals as goal"] + places + [""]) + "\n" + "\n\n".join(answers) + "\n")
    os.remove(path)
    for l in looks:
        print(f"look: {path}: {l}")


def main(argv):
    names = argv[0]
    for crate in argv[1:]:
        d = json.load(open(f"{names}/crates/{crate}/names.json"))
        for path in sorted(glob.glob(f"crates/{crate}/proofs/**/Proof.antt", recursive=True)):
            module = os.path.relpath(os.path.dirname(path), f"crates/{crate}/proofs").replace("/", ".")
            key = f"Rattle-{crate}-proofs.{module}.Lts"
            if key not in d:
                print(f"look: {path}: no names ({key})")
                continue
            if "Tie as tie" not in open(path, encoding="utf-8").read():
                print(f"look: {path}: walks by hand")
                continue
            f = Function(d[key])
            f.identifiers = {w for p in glob.glob("crates/*/src/*.rt") for w in re.findall(r"\w+_\w+", open(p, encoding="utf-8").read())}
            turn(path, f, crate)


if __name__ == "__main__":
    main(sys.argv[1:])
