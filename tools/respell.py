#!/usr/bin/env python3
"""Brings the repository's own definitions and lemmas to snake case: `emptyBank` and `slot-limit` become `empty_bank` and `slot_limit`.
usage: tools/respell.py [--check]   at the top of the repository. Run once, after the kit's port.py; --check only prints what would fall together."""
import collections
import glob
import os
import re
import sys

WORD = r'[^\s(){}.;,@"«»\[\]|]+'
KINDS = r"(?:(?:abbrev|pub|unfoldable|data|record|module) )*"
DECLARED = re.compile(r"(?m)^( *)(" + KINDS + r")(" + WORD + r")((?: \{[^{}\n]*\})*) : ")
# An import under another name, and a `let`, are names of the file's own too.
BROUGHT = re.compile(r"\bas ([^\s;{},]+)")
USE = re.compile(r"\buse ([^\s;{]+?)(?:\.\{([^}]*)\}|(?: as [^\s;]+)?(?=[;\n]))")
CLAUSE = re.compile(r"\b(?:requires|ensures|ghost)\*?(?: \w+:?)? \{|\bghost use\b")
# Names that a proof of a function gives to what Rattle asks for: they are Rattle's.
MADE = re.compile(r"(?:tie|goal)\.")

# A lemma that would have its function's name, and other names that would fall together.
FORCED = {
    "up-to": "up_to_lem",
    "all-below": "all_below_lem",
    "block-at": "block_at_lem",
    "closed-digest": "closed_digest_lem",
    "digest-of": "digest_of_lem",
    "number-of": "number_of_lem",
    "state-of": "state_of_lem",
    "hash-in-range": "hash_in_range_lem",
    "in-range": "in_range_lem",
    "leaf-run": "leaf_run_lem",
    # a module of the cases of LastNode, beside a variable `last_node`
    "lastNode": "flag",
}
# In one file alone: a lemma that an earlier respelling gave the name of what it speaks of.
IN_FILE = {"crates/bank/proofs/History.antt": {"is_open": "is_open_lem"}}


# A comment, a string, or a word.
PARTS = re.compile(r"(?m)((?<!\S)--[^\n]*)|(\"[^\"\n]*\")|" + WORD)
COMMENT = re.compile(r"(?m)//[^\n]*")


def quoted(comment, table):
    """A comment names what it puts between backticks."""
    return re.sub(r"\x60([^\x60]*)\x60", lambda q: "\x60" + re.sub(WORD, lambda m: table.get(m[0], m[0]), q[1]) + "\x60", comment)


def snake(name):
    return re.sub(r"(?<=[a-z0-9])[A-Z]", lambda m: "_" + m[0].lower(), name).replace("-", "_")


def texts():
    out = []
    for how in ("specs/**/*.antt", "proofs/**/*.antt", "src/**/*.rt", "must-fail/*.edit"):
        out += glob.glob("crates/*/" + how, recursive=True)
    return sorted(out)


def of_a_function(path):
    return os.path.basename(path) in ("Proof.antt", "Answers.antt", "Invariants.antt")


def read(path):
    with open(path, encoding="utf-8") as f:
        return f.read()


# A goal's name, which a function's proof repeats.
GOAL = re.compile(r"(?:returns(?:-\d+)?|loop\d*-.*|invariant-.*|decreases-.*|.*-requires(?:-\d+)?)$")


def own_names():
    """Old spelling to new, of what the files declare; a function's proof declares its helpers and its theorem."""
    names = {}
    for path in texts():
        if not path.endswith(".antt"):
            continue
        text = read(path)
        made = set()
        if of_a_function(path):
            made = {m[1] for m in re.finditer(r"(?m)^(?:abbrev |pub )*(" + WORD + r") : (?:tie|goal)\.", text)}
        found = {m[3] for m in DECLARED.finditer(text)} | {m[1] for m in BROUGHT.finditer(text)}
        if of_a_function(path):
            made |= {name for name in found if GOAL.match(name)}
        for name in found - made:
            if name[0].islower() or re.match(r"[A-Z]\w*-", name):
                if snake(name) != name or name in FORCED:
                    names[name] = FORCED.get(name, snake(name))
    return names


def code_of(text):
    return re.sub(r"(?m)(?<!\S)--[^\n]*", lambda m: " " * len(m[0]), text)


def clauses(text):
    """The spans of a source file that are ghost: clauses and imports."""
    spans = []
    for m in CLAUSE.finditer(text):
        if m[0].startswith("ghost use"):
            spans.append((m.start(), text.index(";", m.start()) + 1))
            continue
        deep, i = 0, m.end() - 1
        while True:
            deep += {"{": 1, "}": -1}.get(text[i], 0)
            i += 1
            if deep == 0:
                break
        spans.append((m.start(), i))
    return spans


def from_others(text):
    """What a file imports from the kit."""
    out = set()
    for m in USE.finditer(text):
        first = m[1].split(".")
        ours = first[0] == "Rattle" and first[1:2] and os.path.isdir("crates/" + first[1])
        if m[2] and not ours:
            out.update(re.findall(WORD, m[2]))
    return out


def turned(path, text, names, said):
    is_rt = path.endswith(".rt")
    table = dict(names)
    table.update(IN_FILE.get(path, {}))
    for name in from_others(text):
        table.pop(name, None)
    here = set(re.findall(WORD, code_of(text)))
    if is_rt:
        here = set()
        for a, b in clauses(text):
            here |= set(re.findall(WORD, text[a:b]))
    new_of = collections.defaultdict(set)
    for w in here:
        new_of[table.get(w, w)].add(w)
    for new, olds in sorted(new_of.items()):
        if len(olds) > 1:
            said.append(f"{path}: {' and '.join(sorted(olds))} are both {new}")

    def one(m):
        if text[: m.start()].endswith(("tie.", "goal.")):
            return m[0]
        if path in IN_FILE and m[0] in IN_FILE[path] and text[m.start() - 1] == ".":
            return m[0]
        return table.get(m[0], m[0])

    if path.endswith(".edit") and not re.search(r"(?m)^file: .*\.antt$", text):
        return text
    if not is_rt:
        return re.sub(PARTS, lambda m: quoted(m[0], table) if m[1] else m[0] if m[2] else one(m), text)
    out, at = [], 0
    for a, b in clauses(text):
        if a < at:
            continue
        out += [COMMENT.sub(lambda m: quoted(m[0], table), text[at:a]), re.sub(WORD, lambda m: table.get(m[0], m[0]), text[a:b])]
        at = b
    new = "".join(out + [COMMENT.sub(lambda m: quoted(m[0], table), text[at:])])
    for m in re.finditer(r"\bfn (\w+)\s*(?:<[^>]*>)?\(([^)]*)\)([^{]*?(?:requires|ensures).*?\n)(?=\s*\{\n|\{)", text, re.S):
        params = set(re.findall(r"(\w+)\s*:", m[2]))
        for w in set(re.findall(WORD, m[3])):
            if w in table and table[w] in params:
                said.append(f"{path}: fn {m[1]}: {w} would be its parameter {table[w]}")
    return new


def main():
    names, said, changed = own_names(), [], 0
    for path in texts():
        text = read(path)
        new = turned(path, text, names, said)
        if new != text:
            changed += 1
            if "--check" not in sys.argv:
                with open(path, "w", encoding="utf-8") as f:
                    f.write(new)
    print("\n".join(said))
    print(f"{len(names)} names, {changed} files")


main()
