#!/usr/bin/env python3
"""Brings the definitions and lemmas of specs/ and proofs/ to the toolchain's spelling: words in snake case, types in camel case.

usage: respell.py [--check]      at the top of the repository, once, behind the toolchain's own port.py

A name counts that a file of specs/ or a lemma file of proofs/ declares (a definition, a lemma, a constructor, a field) and that begins with a
small letter: `groupCount` and `group-count` become `group_count`. Names of types keep their spelling; so do those of src/, of goals, and what
stands in quotes. Where a definition and a lemma would fall together, the lemma gets `_lem`. --check writes nothing. It prints where a new name meets
one that a file has already.
"""
import collections
import os
import re
import sys

NAME = r"[^\s(){}.;,@\"«»:]+"
TOKEN = re.compile(r"[^\s(){}.;,@\"«»]+")
DECLARED = re.compile(rf"(?m)^[ \t]*(?:pub |abbrev |unfoldable )*({NAME}(?: {NAME})*) :(?= |$)")
QUIET = re.compile(r'"(?:[^"\\\n]|\\.)*"|(?<![^\s(){}.;,@"«»])--[^\n]*')
CLAUSE = re.compile(r"\b(?:requires|ensures)\s*\*?\s*(?:\w+\s*)?\{|\bghost\s*(?:\w+\s*(?::\s*(?:(?:owns|lends)\s*)?|=\s*))?\{")
GHOST_USE = re.compile(r"ghost\s+use\b[^;]*;")
USE = re.compile(r"(?m)^[ \t]*(?:pub |ghost )*use ([^\s{};]+)\.\{([^}]*)\}")
RUST = re.compile(r"""//[^\n]*|[bc]?"(?:\\.|[^"\\])*"|b?'(?:\\.|[^'\\])'|\w+|\s+|.""", re.S)
# Chosen by hand: names that begin with a capital and hold a dash; a lemma that would have the name of a word of the library.
CHOSEN = {
    "Inv-Conservation-of-amount": "InvConservationOfAmount",
    "Inv-ExpenseGroupExists": "InvExpenseGroupExists",
    "Inv-GroupBalanceZero": "InvGroupBalanceZero",
    "bool-byte": "bool_byte_lem",
}
# Lemmas that would have the name of a definition of their crate.
CHOSEN_IN = {
    "balance": {"held_to": "held_to_lem", "valid_to": "valid_to_lem"},
    "month": {"raw_at": "raw_at_lem"},
    "rules": {"in_group": "in_group_lem"},
}


def files(kinds):
    for top, inner, names in os.walk("crates"):
        inner[:] = sorted(it for it in inner if it != "out")
        for name in sorted(names):
            if name.endswith(kinds):
                yield os.path.join(top, name)


def is_proof_of_code(path):
    """Whether a file stands in proofs/F/, where names follow the goals."""
    return re.search(r"/proofs/[^/]+/", path) is not None


def snake(name):
    return re.sub(r"(?<=[a-z0-9])([A-Z])", lambda m: "_" + m[1].lower(), name)


def turned(name):
    """The parts between dashes one by one: a fact keeps its capital, as in `true_T`."""
    return "_".join(it if it[:1].isupper() else snake(it) for it in name.split("-"))


def brought(text):
    """The names that a file takes from modules of the library: they keep their spelling there."""
    own, out = set(os.listdir("crates")), set()
    for module, names in USE.findall(text):
        parts = module.split(".")
        if not (parts[0] == "Rattle" and parts[1:2] and parts[1] in own):
            out.update(it.split()[0] for it in names.split(",") if it.strip())
    return out


def table():
    declared = set()
    for path in files(".antt"):
        if not is_proof_of_code(path):
            with open(path, encoding="utf-8") as file:
                for found in DECLARED.finditer(QUIET.sub("", file.read())):
                    declared.update(found[1].split())
    new = collections.defaultdict(set)
    for name in declared:
        if name[0].islower() and re.search(r"-|[a-z0-9][A-Z]", name):
            new[turned(name)].add(name)
    out = {}
    for to, olds in new.items():
        definitions = {it for it in olds if "-" not in it} | ({to} & declared)
        for old in olds:
            out[old] = to + "_lem" if definitions and old not in definitions else to
    return {**out, **CHOSEN}


class Turner:
    def __init__(self, rows):
        self.rows, self.said = rows, []

    def code(self, text, answers=False):
        """antt text, no comment in it."""
        def one(m):
            word, at = m[0], m.start()
            if word not in self.rows:
                return word
            if text[at - 1 : at] == ".":
                head = re.search(r"([^\s(){},;@\"«»]*)\.$", text[:at])
                head = head[1] if head else ""
                first = head.split(".")[0]
                if first in ("tie", "goal", "c", "needs") or answers and first and first[0].islower() and "-" in word:
                    return word
            if answers and re.match(r" : (?:tie|goal)\.", text[m.end():]):
                return word
            return self.rows[word]

        return TOKEN.sub(one, text)

    def comment(self, text):
        """Prose: only what cannot be a word of English, or stands behind a module's name."""
        def one(m):
            word = m[0]
            bare = word.rstrip("'`")
            if bare in self.rows and (re.search("[a-z0-9][A-Z]", bare) or text[m.start() - 1 : m.start()] in (".", "`")):
                return self.rows[bare] + word[len(bare):]
            return word

        return re.sub(r"[^\s(){}.;,@\"«»`:]+", one, text)

    def antt(self, text, answers=False):
        out, at = [], 0
        for m in QUIET.finditer(text):
            out += [self.code(text[at : m.start()], answers), m[0] if m[0][0] == '"' else self.comment(m[0])]
            at = m.end()
        return "".join(out + [self.code(text[at:], answers)])

    def rt(self, text):
        out, at = [], 0
        while at < len(text):
            m = RUST.match(text, at)
            word, end = m[0], m.end()
            clause = CLAUSE.match(text, at) if word in ("requires", "ensures", "ghost") else None
            use = GHOST_USE.match(text, at) if word == "ghost" else None
            if use:
                end = use.end()
                out.append(self.code(use[0]))
            elif clause:
                end, depth = clause.end(), 1
                while depth:
                    depth += {"{": 1, "}": -1}.get(text[end], 0)
                    end += 1
                out += [clause[0], self.code(text[clause.end() : end])]
            else:
                out.append(self.comment(word) if word[:2] == "//" else word)
            at = end
        return "".join(out)

    def edit(self, text):
        out, antt = [], False
        for line in text.split("\n"):
            key, _, rest = line.partition(": ")
            if key == "file":
                antt = rest.endswith(".antt")
                out.append(line)
            elif key in ("old", "new"):
                out.append(f"{key}: {self.antt(rest) if antt else self.rt(rest)}")
            else:
                out.append(self.comment(line))
        return "\n".join(out)

    def md(self, text):
        out, fence = [], False
        for line in text.split("\n"):
            fence ^= line.startswith("```")
            out.append(line if fence else re.sub(r"`[^`\n]+`", lambda m: "`" + self.code(m[0][1:-1]) + "`", line))
        return "\n".join(out)


def main(arguments):
    rows = table()
    if "--rows" in arguments:
        for old in sorted(rows):
            print(old, rows[old], sep="\t")
        return
    turner = Turner(rows)
    paths = [*files((".antt", ".rt", ".edit"))]
    paths += [it for it in ("README.md", *(os.path.join(top, it) for top, _, names in os.walk("docs") for it in names if it.endswith(".md"))) if it]
    for path in paths:
        turner.rows = {**rows, **CHOSEN_IN.get(path.split("/")[1] if "/" in path else "", {})}
        with open(path, encoding="utf-8") as file:
            old = file.read()
        kind = path.rsplit(".", 1)[1]
        taken = brought(old)
        turner.rows = {it: to for it, to in turner.rows.items() if it not in taken}
        if kind in ("antt", "rt"):
            there = set(TOKEN.findall(QUIET.sub("", old) if kind == "antt" else re.sub("//.*", "", old)))
            meets = collections.defaultdict(set)
            for word in there:
                meets[turner.rows.get(word, word)].add(word)
            for to, words in meets.items():
                if len(words) > 1:
                    print(f"look: {path}: {to} stands for {', '.join(sorted(words))}")
        new = turner.antt(old, is_proof_of_code(path)) if kind == "antt" else getattr(turner, kind)(old)
        if new != old and "--check" not in arguments:
            with open(path, "w", encoding="utf-8") as file:
                file.write(new)


if __name__ == "__main__":
    main(sys.argv[1:])
