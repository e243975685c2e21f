"""Wrong libraries: the must-fail edits that change what replay_main links, and copies of the crates with one of them made.

What differential/wrong and replay/wrong try. An edit is a file in the form of rt's, crates/NAME/must-fail/*.edit.
"""
import glob
import os
import re
import shutil

ROOT = os.path.dirname(os.path.dirname(os.path.abspath(__file__)))
# No call shows what a closed slot's record holds; a job that keeps its input could only be refused with 6, which no run
# reaches; a list of seventeen records that was lent of sixteen is refused with 10 all the same; no call prints a refusal's text; and
# no state that a call makes is out of its ranges but the zero one, whose digest has no length.
UNSEEN = [
    "crates/refusals/must-fail/text_of_another.edit",
    "crates/refusals/must-fail/text_of_another_index.edit",
    "crates/members/must-fail/range_of_a_wrapped_total.edit",
    "crates/members/must-fail/range_of_an_overfull_buffer.edit",
    "crates/members/must-fail/range_without_the_key.edit",
    "crates/bank/must-fail/close_leaves_the_words.edit",
    "crates/many_held/must-fail/any_refusal_is_14.edit",
    "crates/bank_lent/must-fail/lends_past_the_end.edit",
]


def name_of(edit):
    return os.path.relpath(os.path.abspath(edit), ROOT)


def replacements(edit):
    old = file = None
    with open(edit) as lines:
        for line in lines.read().split("\n"):
            kind, _, text = line.partition(":")
            text = text[1:] if text.startswith(" ") else text
            if kind == "file":
                file = text
            elif kind == "old":
                old = text
            elif kind == "new":
                yield file, old, text


# The crates that the program links.
def linked():
    with open(os.path.join(ROOT, "crates.txt")) as lines:
        needs = {name: names.split() for name, _, names in (line.partition(":") for line in lines if not line.startswith("#"))}
    found, ahead = set(), ["replay_main"]
    while ahead:
        name = ahead.pop()
        if name in needs and name not in found:
            found.add(name)
            ahead += needs[name]
    return found


def without_contracts(text):
    head, found, at = re.compile(r"^ *(?:requires|ensures)[^{;\n]*\{|^ghost use [^;]*;$", re.MULTILINE), "", 0
    for start in head.finditer(text):
        if start.start() >= at:
            found, at = found + text[at:start.start()], start.end()
            deep = start[0].endswith("{")
            while deep:
                deep, at = deep + {"{": 1, "}": -1}.get(text[at], 0), at + 1
    return found + text[at:]


# An edit that changes what runs, and not a definition or a promise alone.
def changes_code(edit):
    for file, old, new in replacements(edit):
        with open(os.path.join(os.path.dirname(edit), "..", file)) as source:
            text = source.read()
        if file.startswith("src/") and without_contracts(text) != without_contracts(text.replace(old, new)):
            return True
    return False


# An edit of the program that makes the calls is no wrong library.
def can_be_seen(edit):
    crate = name_of(edit).split(os.sep)[1]
    return crate in linked() and not crate.startswith("replay") and changes_code(edit) and name_of(edit) not in UNSEEN


def wrong_libraries():
    return sorted(filter(can_be_seen, glob.glob(os.path.join(ROOT, "crates", "*", "must-fail", "*.edit"))))


# The crates with an edit made, or with none, in a new folder.
def copied(folder, edit):
    shutil.copytree(os.path.join(ROOT, "crates"), os.path.join(folder, "crates"), ignore=shutil.ignore_patterns("out"))
    shutil.copy(os.path.join(ROOT, "crates.txt"), folder)
    if edit is not None:
        crate = os.path.dirname(os.path.dirname(name_of(edit)))
        for file, old, new in replacements(edit):
            path = os.path.join(folder, crate, file)
            with open(path) as source:
                text = source.read()
            assert text.count(old) == 1, (edit, old)
            with open(path, "w") as source:
                source.write(text.replace(old, new))
