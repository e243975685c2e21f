#!/usr/bin/env python3
"""Brings the names that the pages cite to today's spelling: what stands between backticks and in blocks of code.
usage: tools/docs_names.py [--check] [BEFORE]   at the top of the repository

BEFORE is the commit whose spelling the pages have, by default the one before the port. The table of renamings is made of what BEFORE and the working
folder declare, file by file, by the rule of tools/respell.py. --check changes no page: it prints the names and files that the pages cite and that are
not there, Rust's own among them.
In docs/landings only what is written by hand is turned: behind `## Counted`, and in the tables of scripts, stands what a script printed at its commits.
"""
import collections
import glob
import os
import re
import subprocess
import sys

sys.dont_write_bytecode = True

BEFORE = "8dec4ae2b996b1ed14bd0afabf9e9beaa6642f7a"
WORD = r'[^\s(){}.;,@"«»\[\]|]+'
KINDS = r"(?:(?:abbrev|pub|unfoldable|opaque|data|record|module) )*"
DECLARED = re.compile(r"(?m)^( *)" + KINDS + r"(" + WORD + r")((?: \{[^{}\n]*\}| \([^()\n]*\))*) :(?: |$)")
# Names of the kit that port.py turned, and a name that the pages use as a word.
KIT = {"getD": "get_or"}
PLAIN = ("one-shot",)
# A code span, and a block that is set in by four blanks or fenced.
SPAN = re.compile(r"(?ms)(^```.*?^```$)|(^    [^\n]*$)|(`[^`\n]+`)")
PAGES = ("README.md", "docs/*.md", "docs/landings/*.md")
NOT_OURS = ("docs/PORT.md",)


def git(*words):
    return subprocess.run(["git", *words], stdout=subprocess.PIPE, check=True, text=True).stdout


def snake(name):
    return re.sub(r"(?<=[a-z0-9])[A-Z]", lambda m: "_" + m[0].lower(), name).replace("-", "_")


def declared(text):
    return [m[2] for m in DECLARED.finditer(re.sub(r"(?m)(?<!\S)--[^\n]*", "", text))]


def texts_before(commit):
    rows = git("ls-tree", "-r", "--name-only", commit, "--", "crates").split("\n")
    rows = [row for row in rows if re.search(r"^crates/\w+/(?:specs|proofs)/.*\.antt$", row)]
    ran = subprocess.run(["git", "cat-file", "--batch"], input="".join("%s:%s\n" % (commit, row) for row in rows).encode(), stdout=subprocess.PIPE, check=True)
    found, at, answer = {}, 0, ran.stdout
    for row in rows:
        end = answer.index(b"\n", at)
        size = int(answer[at:end].split()[2])
        found[row] = answer[end + 1 : end + 1 + size].decode()
        at = end + size + 2
    return found


def texts_now():
    found = {}
    for part in ("specs", "proofs"):
        for path in glob.glob("crates/*/%s/**/*.antt" % part, recursive=True):
            with open(path, encoding="utf-8") as file:
                found[path] = file.read()
    return found


def table_of(before, now, said):
    """Old spelling to new, of what both declare, wherever the file went."""
    everywhere = {name for text in now.values() for name in declared(text)}
    forced = dict(re.findall(r'(?m)^    "([^"]+)": "([^"]+)",$', open("tools/respell.py", encoding="utf-8").read()))
    news = collections.defaultdict(set)
    for path, text in before.items():
        here = set(declared(now.get(path, ""))) or everywhere
        for name in declared(text):
            tried = [forced[name]] if name in forced else []
            tried += [snake(name), name]
            there = [it for it in tried if it in here] or [it for it in tried if it in everywhere]
            if there:
                news[name].add(there[0])
            elif os.path.basename(path) not in ("Proof.antt",):
                said.append("%s: %s is gone" % (path, name))
    table = dict(KIT)
    for name, of in news.items():
        if len(of) > 1:
            said.append("%s is now %s" % (name, " or ".join(sorted(of))))
        elif of != {name} and name not in PLAIN:
            table[name] = of.pop()
    return table


def turned(text, table):
    def words(code):
        return re.sub(r"(?<![\w/])" + r"[A-Za-zμ][\w'₀-₉-]*", lambda m: table.get(m[0], m[0]), code)

    return SPAN.sub(lambda m: words(m[0]), text)


def by_hand(path, text):
    """What of a page is written by hand, and the rest."""
    at = text.find("\n## Counted\n") if path.startswith("docs/landings/") else -1
    return (text, "") if at < 0 else (text[:at], text[at:])


def main():
    words = [it for it in sys.argv[1:] if it != "--check"]
    said = []
    now = texts_now()
    table = table_of(texts_before(words[0] if words else BEFORE), now, said)
    known = {name for text in now.values() for name in declared(text)}
    pages = [path for pattern in PAGES for path in sorted(glob.glob(pattern)) if path not in NOT_OURS]
    if "--check" in sys.argv:
        files = git("ls-files").split("\n")
        known |= {part for it in files for part in it.split("/")[:-1]}
        for path in glob.glob("crates/*/src/**/*.rt", recursive=True):
            with open(path, encoding="utf-8") as file:
                known |= set(re.findall(r"\w+", file.read()))
    changed = 0
    for path in pages:
        with open(path, encoding="utf-8") as file:
            text = file.read()
        own, rest = by_hand(path, text)
        if "--check" in sys.argv:
            for number, line in enumerate(own.split("\n"), 1):
                for name in re.findall(r"(?<![\w.*])(?:[\w]+/)*[\w.-]+\.(?:antt|rt|py|md|rs|h|c)(?!\w)", line):
                    if not any(("/" + it).endswith("/" + name) for it in files):
                        print("%s:%d: %s" % (path, number, name))
                for span in re.findall(r"`([^`\n]+)`", line):
                    for name in re.findall(r"(?<![\w/.:-])[A-Za-zμ][\w'₀-₉-]*(?![\w/:-])", span):
                        if name in table or (re.search(r"[_-]|[a-z][A-Z]", name) and name not in known):
                            print("%s:%d: %s" % (path, number, name))
            continue
        new = turned(own, table) + rest
        if new != text:
            changed += 1
            with open(path, "w", encoding="utf-8") as file:
                file.write(new)
    if "--check" not in sys.argv:
        print("\n".join(said))
        print("%d names, %d pages" % (len(table), changed))


main()
