#!/usr/bin/env python3
"""Turns the edits that must fail with the files that they change: each is laid beside its file, the scripts turn both, and what differs is the edit as it reads now.

usage, at the top of the repository in the older spelling:
    python3 tools/respell_edits.py spread      before the kit's port.py and tools/respell.py
    python3 tools/respell_edits.py collect     after them
"""

import difflib
import glob
import json
import os
import re
import sys

LIST = "edits.json"


def parts(path):
    """An edit's comment lines, and for each of its files the pairs of texts."""
    head, files, old = [], {}, None
    for line in open(path, encoding="utf-8").read().split("\n"):
        if line.startswith("file: "):
            pairs = files.setdefault(line[6:].strip(), [])
        elif line.startswith("old: "):
            old = line[5:]
        elif line.startswith("new: "):
            pairs.append((old, line[5:]))
        elif not files:
            head.append(line)
    return head, files


def spread():
    made = {}
    for edit in sorted(glob.glob("crates/*/must-fail/*.edit")):
        crate, name = edit.split("/")[1], os.path.basename(edit)[: -len(".edit")]
        for file, pairs in parts(edit)[1].items():
            path = f"crates/{crate}/{file}"
            text = open(path, encoding="utf-8").read()
            for old, new in pairs:
                if text.count(old) != 1:
                    print(f"look: {edit}: {text.count(old)} times: {old}")
                text = text.replace(old, new, 1)
            stem, ending = os.path.splitext(path)
            beside = f"{stem}__{name}{ending}"
            with open(beside, "w", encoding="utf-8") as f:
                f.write(text)
            made.setdefault(edit, []).append([path, beside])
    with open(LIST, "w", encoding="utf-8") as f:
        json.dump(made, f)


def lines_of(path):
    return [line for line in open(path, encoding="utf-8").read().split("\n") if not line.startswith("#[cycle(")]


def plain(lines):
    """The text without its layout, which may move."""
    return re.sub(r"\s+|,(?=\s*[)}])", "", "\n".join(line for line in lines if not line.startswith("#[cycle(")))


def turned(text, before, after):
    """The pairs of lines that differ, as an edit has them; None where they are no lines for lines."""
    found = []
    for tag, a, b, c, d in difflib.SequenceMatcher(None, before, after, autojunk=False).get_opcodes():
        if tag == "equal":
            continue
        if b - a != d - c:
            return None
        for old, new in zip(before[a:b], after[c:d]):
            for x, y in ((old.strip(), new.strip()), (old, new)):
                if text.count(x) == 1:
                    break
            else:
                return None
            text = text.replace(x, y, 1)
            found.append((x, y))
    return found


def collect():
    for edit, files in json.load(open(LIST, encoding="utf-8")).items():
        head, given = parts(edit)
        out = head
        for (path, beside), pairs in zip(files, given.values()):
            whole = open(path, encoding="utf-8").read()
            after = lines_of(beside)
            text, stands = whole, True
            for old, new in pairs:
                stands = stands and text.count(old) == 1
                text = text.replace(old, new, 1)
            if not (stands and plain(text.split("\n")) == plain(after)):
                found = turned(whole, lines_of(path), after)
                if found is None or len(found) != len(pairs):
                    print(f"look: {edit}")
                else:
                    pairs = found
            out = [*out, "file: " + "/".join(path.split("/")[2:])]
            for old, new in pairs:
                out += ["old: " + old, "new: " + new]
            os.remove(beside)
        with open(edit, "w", encoding="utf-8") as f:
            f.write("\n".join(out) + "\n")
    os.remove(LIST)


if __name__ == "__main__":
    {"spread": spread, "collect": collect}[sys.argv[1]]()
