"""This repository's files as texts, at a commit or as they stand in the working folder: what landing, twins, edits and style read.

A path is one from the repository's top, so that a script answers the same from every folder.
"""
import os
import signal
import subprocess
import sys

signal.signal(signal.SIGPIPE, signal.SIG_DFL)  # a reader such as head may leave early

ROOT = os.path.dirname(os.path.dirname(os.path.abspath(__file__)))
KINDS = ("src", "specs", "proofs", "must-fail")


def die(text):
    print("%s: %s" % (os.path.basename(sys.argv[0]), text), file=sys.stderr)
    sys.exit(2)


def git(*words, given=None):
    """What git answers, as bytes; the script ends where git refuses."""
    ran = subprocess.run(["git", "-C", ROOT, *words], input=given, capture_output=True)
    if ran.returncode != 0:
        die(ran.stderr.decode(errors="replace").strip())
    return ran.stdout


def commit_of(name):
    """The short hash and the first line of a commit."""
    hash_, _, line = git("log", "-1", "--format=%h %s", name, "--").decode().strip().partition(" ")
    return hash_, line


def texts(commit=None, under=""):
    """The text of each file by its path; without a commit those of the working folder that git does not ignore."""
    if commit is None:
        names = git("ls-files", "-z", "--cached", "--others", "--exclude-standard", "--", ":/" + under).decode().split("\0")
        found = {}
        for name in sorted(set(names) - {""}):
            path = os.path.join(ROOT, name)
            if os.path.isfile(path):
                with open(path, encoding="utf-8", errors="replace") as file:
                    found[name] = file.read()
        return found
    rows = git("ls-tree", "-r", "-z", "--full-tree", commit, "--", *([under] if under else [])).decode().split("\0")
    blobs = [(row.split("\t", 1)[1], row.split()[2]) for row in rows if row and row.split()[1] == "blob"]
    answer = git("cat-file", "--batch", given="".join(blob + "\n" for _, blob in blobs).encode())
    found, at = {}, 0
    for name, _ in blobs:
        end = answer.index(b"\n", at)
        size = int(answer[at:end].split()[2])
        found[name] = answer[end + 1:end + 1 + size].decode(errors="replace")
        at = end + size + 2
    return found


def place(path):
    """The crate and the kind of a file; for one outside crates/, no crate and the folder at the top."""
    parts = path.split("/")
    if parts[0] == "crates" and len(parts) > 2:
        return parts[1], parts[2] if parts[2] in KINDS else "other"
    return None, parts[0] if len(parts) > 1 else "top"


def crates_of(files):
    return sorted({place(path)[0] for path in files} - {None})


def table(head, rows):
    """A Markdown table: the first column is text, the others are figures."""
    print("| " + " | ".join(head) + " |")
    print("|---|" + "--:|" * (len(head) - 1))
    for row in rows:
        print("| " + " | ".join(str(cell) for cell in row) + " |")
