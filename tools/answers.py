#!/usr/bin/env python3
"""Turns a function's Proof.antt, which lists answers to `tie.spec`, into Invariants.antt and Answers.antt.
usage: tools/answers.py CRATE..   at the top of the repository, where `rt check --generated DIR --old-names` works in each CRATE."""
import glob
import json
import os
import re
import subprocess
import sys
import tempfile

WORD = r'[^\s(){}.;,@"«»\[\]|]+'


def plain(name):
    return name.replace("-", "_")


def old_names(crate):
    with tempfile.TemporaryDirectory() as d:
        at = os.path.join(d, "names")
        said = subprocess.run(["rt", "check", "--generated", at, "--old-names"], cwd="crates/" + crate, capture_output=True, text=True)
        path = os.path.join(at, "names.json")
        if not os.path.exists(path):
            print(said.stdout[-500:], said.stderr[-500:])
            return {}
        with open(path) as f:
            return json.load(f)


def items(text):
    """The head (comments and imports) and the declarations, each with the comment above it."""
    parts = re.split(r"\n\n+", text.strip("\n"))
    return parts[0], parts[1:]


def declared(item):
    for line in item.split("\n"):
        if not line.startswith("--"):
            m = re.match(r"((?:abbrev |pub |unfoldable )*)(" + WORD + r")((?: \{[^}]*\})*) : (.*)", line)
            return m
    return None


def spec_arguments(item):
    """What `tie.spec` is given, in order."""
    at = item.find("tie.spec")
    if at < 0:
        return []
    text, i, out = item, at + len("tie.spec"), []
    while i < len(text):
        if text[i].isspace():
            i += 1
        elif text[i] == "(":
            deep, j = 0, i
            while True:
                deep += {"(": 1, ")": -1}.get(text[j], 0)
                j += 1
                if deep == 0:
                    break
            out.append(text[i:j])
            i = j
        elif text[i] == ")":
            break
        else:
            m = re.compile(r"[^\s()]+").match(text, i)
            out.append(m[0])
            i = m.end()
    return out


def source_words():
    out = set()
    for path in glob.glob("crates/*/src/*.rt"):
        with open(path) as f:
            out.update(re.findall(r"[a-z]\w*_\w*", f.read()))
    return out


def parameters(crate, at):
    """The names of a function's parameters, in order, by its name alone."""
    for folder, _, files in os.walk(f"crates/{crate}/src"):
        for f in files:
            with open(os.path.join(folder, f)) as it:
                m = re.search(r"\bfn " + re.escape(at.split(".")[-1]) + r"(?:<[^>]*>)?\(([^)]*)\)", it.read())
            if m:
                return ["self" if "self" in p.split(":")[0] else p.split(":")[0].replace("mut ", "").strip() for p in m[1].split(",") if p.strip()]
    return []


class Function:
    def __init__(self, crate, path, names):
        self.crate, self.path = crate, path
        self.folder = os.path.dirname(path)
        self.at = os.path.relpath(self.folder, f"crates/{crate}/proofs").replace(os.sep, ".")
        self.names = names
        self.goals = {plain(old): new for old, new in names["needs"]}
        self.places = dict(zip((p[0] for p in names["places"]), names["places_by_name"]))
        self.places = {plain(k): v for k, v in self.places.items()}
        self.turned_tests = {p[2][1] for p in names["places"] if p[4] and p[2][1].startswith("if-not-")}
        # the place of each goal
        self.asked = {new: a[1] for (old, new), a in zip(names["needs"], names["asked_at"])}
        self.steps = {}
        for p in names["places"]:
            old, new = p[2]
            if old and plain(old) != "":
                self.steps[plain(old)] = new
        self.loops = [(plain(a), b, vs) for (a, b), vs in names["loops"]]
        for a, b, _ in self.loops:
            self.steps.setdefault(a, b)
        self.said, self.cited = [], set()
        self.parameters = parameters(crate, self.at)
        self.source = source_words()

    def goal_of(self, old, at):
        old = plain(old)
        for it in (old, re.sub(r"^overflow_", "", old)):
            if it in self.goals:
                return self.goals[it]
        if 0 <= at < len(self.names["needs"]):
            return self.names["needs"][at][1]
        self.said.append(f"{self.path}: no goal {old}")
        return old

    def turned(self, text):
        """A body or a helper: places and steps by their new names."""

        def place(m):
            new = self.places.get(plain(m[1]))
            if new is None:
                self.said.append(f"{self.path}: no place {m[1]}")
                return m[0]
            self.cited.add(new)
            return new

        text = re.sub(r"tie\.(" + WORD + r")", place, text)

        for old, new in self.names["args"]:
            text = re.sub(re.escape(old.replace(" ", "")) + r"(?![\w'-])", lambda m: new.replace(" ", ""), text)

        # What the source names keeps its spelling, and a parameter that Rattle had no name for has its own.
        text = re.sub(r"((?:\.args|\.new|\.ranges)\.)(" + WORD + r")", lambda m: m[1] + self.parameter(plain(m[2])), text)

        text = re.sub(r"\.(t\d+)(?![\w'-])", lambda m: "." + self.parameter(m[1]), text)
        text = re.sub(r"\.(" + WORD + r")", lambda m: "." + plain(m[1]) if "-" in m[1] and plain(m[1]) in self.source else m[0], text)

        def step(m):
            old = plain(m[1])
            # The respelling gave some lemmas another name, and here it is a call's.
            if old.endswith("_lem") and old[:-4] in self.steps:
                return "." + self.steps[old[:-4]]
            # A name that Rattle made beside a variable's is not what `args.buffer` means.
            beside = re.fullmatch(re.escape(old) + r"-\d+", self.steps.get(old, "")) and "known" not in old
            if old in self.steps and self.steps[old] != m[1] and not beside:
                return "." + self.steps[old]
            return m[0]

        text = re.sub(r"(?<=[\w'\]₀₁₂])(?<!\.args)(?<!\.result)(?<!\.new)(?<!\.old)\.(" + WORD + r")", step, text)
        # The test of `if !f()` speaks of f's result itself; what wants the test turned has it by `ap not`.
        for it in sorted(self.turned_tests, key=len, reverse=True):
            at = r"(\S+\." + re.escape(it) + r"\.\1)(?![\w'-])"
            text = re.sub(r"not-(true|false) \S+ " + at, lambda q: q[2].replace(it, "\0" + it), text)
            text = re.sub(r"(?<![\w.'-])((?:[\w']+\.)+" + re.escape(it) + r"\.(?:true|false))(?![\w'-])", r"(ap not \1)", text)
        return text.replace("\0", "").replace(".well-formed", ".well_formed")

    def invariant(self, item, m):
        """`invariant-loop a b c = ..` over the loop's variables becomes a function of the record l."""
        kind, name = m[4].split()[0].split(".")[1].split("-", 1)
        for k, (old, new, variables) in enumerate(self.loops):
            if old == plain(name):
                break
        else:
            self.said.append(f"{self.path}: no loop {name}")
            return item
        changed = self.names["changed"][k]
        lines = item.split("\n")
        first = next(i for i, l in enumerate(lines) if re.match(re.escape(m[2]) + r" .*=", l) or re.match(re.escape(m[2]) + r" ", l) and " : " not in l)
        comment = [l for l in lines if l.startswith("--")]
        unfolding = [l for l in lines if l.startswith("unfolding")]
        text = "\n".join(lines[first:])
        head, body = text.split("=", 1)
        given = head.split()[1:]
        wanted = [(v, "l.initial." + v if c else "l." + v) for v, c in zip(variables, changed)] + [(v, "l." + v) for v, c in zip(variables, changed) if c]
        if len(given) != len(wanted):
            self.said.append(f"{self.path}: {m[2]} takes {given}, and the loop has {wanted}")
        table = {g: w[1] for g, w in zip(given, wanted)}
        body = re.sub(r"(?<![\w.'])(" + "|".join(re.escape(g) for g in sorted(table, key=len, reverse=True)) + r")(?![\w'₀-₉-])", lambda q: table[q[1]], body) if table else body
        made = f"{kind}-{new}"
        return "\n".join(comment + [f"abbrev pub {made} : goal.{made}"] + unfolding + [f"{made} l ={body}"])

    def parameter(self, name):
        m = re.fullmatch(r"t(\d+)", name)
        if m and name not in self.parameters and int(m[1]) <= len(self.parameters):
            return self.parameters[int(m[1]) - 1]
        return name

    def local(self, text, table):
        """What the file itself declared, where it cites it."""
        return re.sub(r"(?<![\w.'-])" + WORD, lambda m: table.get(m[0], m[0]), text) if table else text

    def flat(self, item, name):
        """Every fact is named from where one stands: no `.before`, and no names for the places on the way."""
        bound = re.search(r"(?m)^" + re.escape(name) + r" (\w+)", item)
        if not bound:
            return item
        c = bound[1]
        while m := re.search(r"let ([\w']+) = " + c + r"(?:\.before)+ in\s*", item):
            item = item[: m.start()] + re.sub(r"(?<![\w.'-])" + m[1] + r"(?![\w'-])", c, item[m.end() :])
        return re.sub(r"(?<![\w.'-])(\w+)(?:\.before)+(?![\w'-])", r"\1", item)

    def helped(self, item, goal, m, helpers):
        """A helper takes a place: `goal.at.GOAL c` has those that a goal is past."""
        at = goal or helpers.get(m[2] if m else None)
        if not at:
            return item
        here = self.asked.get(goal, at)
        name = goal or m[2]
        bound = re.search(r"(?m)^" + re.escape(name) + r" (\w+)", item)
        if not bound:
            return item
        c = bound[1]
        for helper, place in helpers.items():
            if helper == name:
                continue
            given = c if place == here else f"(goal.at.{at} {c}).{place}"
            item = re.sub(r"(?<![\w.'-])" + re.escape(helper) + r" [\w']+(?:\.before)*(?![\w.'-])", lambda q: f"{helper} {given}", item)
        return item

    def turn(self):
        with open(self.path) as f:
            text = f.read()
        head, parts = items(text)
        uses = [l for l in head.split("\n") if not re.search(r"\.(Statement\.\{statement\}|Tie as tie)$", l)]
        comments = [l for l in uses if l.startswith("--")]
        uses = [l for l in uses if not l.startswith("--")]
        answers, invariants, renamed = [], [], {}
        given = next((spec_arguments(it) for it in parts if "tie.spec" in it), [])
        for item in parts:
            m = declared(item)
            if m and re.match(r"tie\.(invariant|decreases)-", m[4]):
                invariants.append(self.invariant(item, m))
                renamed[m[2]] = None
            elif m and re.match(r"tie\.Need-", m[4]):
                new = self.goal_of(re.match(r"tie\.Need-(\S+)", m[4])[1], given.index(m[2]) - 2 * len(self.loops) if m[2] in given else -1)
                renamed[m[2]] = new
                answers.append((item, m, new))
            elif "tie.spec" in item or "tie.close" in item:
                pass
            else:
                answers.append((item, m, None))
        # From a place to one above it: fields are named from where one stands, so it goes.
        ups = [m[2] for item, m, new in answers if m and not new and re.fullmatch(r"tie\.\S+(?: \S+-loop\w*)* → tie\.\S+(?: \S+-loop\w*)*", m[4])]
        answers = [(item, m, new) for item, m, new in answers if not (m and m[2] in ups)]
        for up in ups:
            answers = [(re.sub(r"\(" + re.escape(up) + r" ([\w'.]+)\)|(?<![\w.'-])" + re.escape(up) + r" ([\w'.]+)", lambda q: q[1] or q[2], item), m, new) for item, m, new in answers]
        out = []
        local = {k: v for k, v in renamed.items() if v and v != k}
        helpers = {}
        for item, m, new in answers:
            it = m and not new and re.search(r"\(\w+ : tie\.(" + WORD + r")|^(?:abbrev )?\S+ : tie\.(" + WORD + r") →", item)
            if it and plain(it[1] or it[2]) in self.places:
                helpers[m[2]] = self.places[plain(it[1] or it[2])]
        for item, m, new in answers:
            if new:
                lines = item.split("\n")
                for i, line in enumerate(lines):
                    if line.startswith(m[2] + " :"):
                        lines[i] = f"pub {new} : goal.{new}"
                    elif line.startswith(m[2] + " "):
                        lines[i] = re.sub(r"^ c κs\b", " c", line[len(m[2]) :])
                        lines[i] = new + lines[i]
                item = "\n".join(lines)
            item = re.sub(r"(tie\." + WORD + r")((?: (?:invariant|decreases)-loop\w*)+)", r"\1", item)
            if new:
                lines = item.split("\n")
                said = [i for i, l in enumerate(lines) if l.startswith((f"pub {new} :", new + " "))]
                item = "\n".join(l if i in said[:1] else new + self.local(l[len(new) :], local) if i in said else self.local(l, local) for i, l in enumerate(lines))
            else:
                item = self.local(item, local)
            item = self.turned(item)
            item = self.helped(self.flat(item, new or (m[2] if m else "")), new, m, helpers)
            out.append(item)
        # what was written in place
        at = 2 * len(self.loops)
        for i, it in enumerate(given[at:]):
            if it in ("(search rules)", "(λ c. search rules)", "(λ c κs. search rules)") or it in renamed:
                if it in renamed and i < len(self.names["needs"]) and self.names["needs"][i][1] != renamed[it]:
                    self.said.append(f"{self.path}: {it} also answers {self.names['needs'][i][1]}?")
                continue
            new = self.names["needs"][i][1] if i < len(self.names["needs"]) else "?"
            said = self.turned(it).replace("(λ c κs.", "(λ c.")
            mm = re.match(r"\(λ (\S+?)\. (.*)\)$", said, re.S)
            out.append(f"pub {new} : goal.{new}\n{new} " + (f"{mm[1]} = {mm[2]}" if mm else f"= {said}"))
        root = f"Rattle.{self.crate}.proofs.{self.at}"
        made = []
        if invariants:
            made.append(("Invariants.antt", comments, uses, f"use {root}.Given as goal", invariants))
        if out:
            places = f"\nuse {root}.Goals.{{{', '.join(sorted(self.cited))}}}" if self.cited else ""
            made.append(("Answers.antt", comments, uses, f"use {root}.Goals as goal" + places, out))
        os.remove(self.path)
        for name, comments, uses, own, body in made:
            kept = []
            whole = "\n".join(body)
            if "(ap not " in whole:
                uses = brought(uses, "mathlib.Core.Path", "ap")
                uses = brought(uses, "mathlib.Core.Bool", "not")
            for u in uses:
                mm = re.match(r"use (\S+?)\.\{(.*)\}$", u)
                if mm:
                    keep = [w for w in mm[2].split(", ") if used(w, whole)]
                    if keep:
                        kept.append(f"use {mm[1]}.{{{', '.join(keep)}}}")
                else:
                    kept.append(u)
            with open(os.path.join(self.folder, name), "w") as f:
                f.write("\n".join(comments + kept + [own]) + "\n\n" + "\n\n".join(body) + "\n")
        print("\n".join(self.said))


def brought(uses, module, word):
    """The imports with one more."""
    for i, u in enumerate(uses):
        if u.startswith(f"use {module}.{{"):
            if word not in re.split(r"[{}, ]+", u):
                uses[i] = u.replace("{", "{" + word + ", ", 1)
            return uses
    return [f"use {module}.{{{word}}}"] + uses


def used(word, text):
    word = word.split(" as ")[-1]
    if "◌" in word:
        parts = [p for p in word.split("◌") if p]
        return all(p in text for p in parts)
    return re.search(r"(?<![\w'.-])" + re.escape(word) + r"(?![\w'-])", text) is not None


def main():
    for crate in sys.argv[1:]:
        names = old_names(crate)
        for folder, _, files in os.walk(f"crates/{crate}/proofs"):
            if "Proof.antt" not in files:
                continue
            path = os.path.join(folder, "Proof.antt")
            at = os.path.relpath(folder, f"crates/{crate}/proofs").replace(os.sep, ".")
            key = f"Rattle-{crate}-proofs.{at}.Lts"
            with open(path) as f:
                if "tie.spec" not in f.read():
                    print(f"{path}: no tie.spec: by hand")
                    continue
            if key not in names:
                print(f"{path}: no names for {key}")
                continue
            Function(crate, path, names[key]).turn()


main()
