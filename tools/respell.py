#!/usr/bin/env python3
"""Brings the repository's own definitions and lemmas to snake case: `varUInt` to `var_uint`, `read-cut` to `read_cut`.

usage: python3 tools/respell.py [--dry]      at the top of the repository, once, after the kit's port.py

A name is turned where this repository declares it: at its declaration, where a file imports it from one of the repository's crates, and behind a module or a
record that is named. What the kit declares, what Rattle makes (goals, steps, tests), functions of src/, exported C names and texts keep their names. In comments and
in the pages a name is turned where it stands between backticks. Where a definition and a lemma would have one name, as `sumWhere` and `sum-where`, the lemma takes
`_law` behind it.
"""

import glob
import os
import re
import sys

# An identifier of antt: what stands between spaces and brackets. A projection's point ends it.
TOKEN = re.compile(r"[A-Za-zα-ωμ_][A-Za-z0-9_'α-ωκ₀-₉⁰¹²³\-]*")
DECLARED = re.compile(r"^\s*(?:(?:abbrev|unfoldable|pub|data|record|private|ruleset)\s+)*([A-Za-z_][A-Za-z0-9_'\-]*)\s+(?::|=(?!>))")
# Several names of one type, as constructors of a data are declared.
SEVERAL = re.compile(r"^\s+((?:[A-Za-z_][A-Za-z0-9_'\-]*\s+)+):")
LET = re.compile(r"\blet ([A-Za-z_][A-Za-z0-9_'\-]*)\s")
# Words that look like names of two words and are one.
WORDS = {"UInt": "Uint", "FNaN": "Fnan"}


def crates():
    return sorted(os.path.basename(os.path.dirname(p)) for p in glob.glob("crates/*/src"))


def snake(name):
    for old, new in WORDS.items():
        name = name.replace(old, new)
    name = name.replace("-", "_")
    return re.sub(r"(?<=[a-z0-9'])([A-Z])", lambda m: "_" + m.group(1).lower(), name)


# what each name becomes: filled by main
SPELLED = {}


def spelled(name):
    return SPELLED.get(name, snake(name))


def said(name, everywhere):
    """A name as comments and pages say it: port.py may have turned it in the files already."""
    if snake(name) == name or not re.match(r"[a-z]", name):
        return name
    return spelled(name) if name in everywhere or snake(name) in everywhere else name


def wants(name):
    """Whether a name is one to turn: of two words, joined by a dash or a capital, and no type."""
    return name in SPELLED or bool(re.match(r"[a-z]", name)) and snake(name) != name


def code(line):
    """The part of a line that is no comment, and the comment."""
    m = re.search(r"(?:^|\s)--(?:\s|$)", line)
    return (line[: m.start()], line[m.start():]) if m else (line, "")


def files(ending):
    return sorted(p for p in glob.glob(f"crates/**/*{ending}", recursive=True) if "/out/" not in p)


def imports(text):
    """The names that a file imports, each with whether it comes from the repository, and the modules that it names with `as` or by their last part."""
    own, other = set(), set()
    for m in re.finditer(r"(?:^|\n)\s*(?:ghost |pub )*use ([A-Za-z0-9_.'+\-]+?)(?:\.\{([^}]*)\})?(?: as ([A-Za-z0-9_'\-]+))?;?(?=\n|$)", text):
        path, names, alias = m.groups()
        mine = path.split(".")[0] == "Rattle" and len(path.split(".")) > 1 and path.split(".")[1] in CRATES
        for n in re.split(r",\s*", names or ""):
            n = n.strip()
            if n:
                (own if mine else other).update(x.strip() for x in n.split(" as "))
    return own, other


CRATES = set(crates())


def main(dry):
    texts = {p: open(p, encoding="utf-8").read() for p in files(".antt") + files(".rt")}
    declared, fields = {}, set()
    for p, t in texts.items():
        if not p.endswith(".antt"):
            continue
        names = set()
        inside = False
        for line in t.split("\n"):
            c, _ = code(line)
            m = DECLARED.match(c)
            if m:
                names.add(m.group(1))
            names.update(LET.findall(c))
            m2 = SEVERAL.match(c)
            if m2:
                names.update(m2.group(1).split())
            # the fields of a record and the constructors of a data, a line each
            if re.match(r"(?:pub )?(?:data|record)\b", c.strip()):
                inside = True
            elif c and not c[0].isspace():
                inside = False
            if inside and (m or m2):
                fields.update(m2.group(1).split() if m2 else [m.group(1)])
            # the local functions of a `where`, the parameters of a clause and the variables of a λ
            names.update(n for b in re.findall(r"[({]([A-Za-z0-9_' \-]+) :", c) for n in b.split())
            for b in re.findall(r"λ ([^.()]*)\.", c):
                names.update(b.split())
        declared[p] = names
    everywhere = set().union(*declared.values())
    # definitions: what stands in specs/, and abbreviations
    definitions = set()
    for p, t in texts.items():
        if p.endswith(".antt"):
            for line in t.split("\n"):
                m = DECLARED.match(code(line)[0])
                if m and ("/specs/" in p or re.match(r"\s*(abbrev|unfoldable|data|record)\b", line)):
                    definitions.add(m.group(1))
    together = {}
    for n in everywhere:
        if re.match(r"[a-z]", n):
            together.setdefault(snake(n), set()).add(n)
    for s, names in sorted(together.items()):
        if len(names) > 1:
            first = [n for n in sorted(names) if n in definitions]
            if not first:
                first = sorted(names)
            if len(first) > 1:
                first = [n for n in first if re.search(r"[A-Z]", n)]
            if len(first) != 1:
                print(f"look: {', '.join(sorted(names))}")
                continue
            for n in sorted(names):
                if n != first[0]:
                    SPELLED[n] = s + "_law"
                    print(f"law: {n} is {s}_law, beside {first[0]}")
    turned, left = 0, {}
    for p, t in texts.items():
        own, other = imports(t)
        here = declared.get(p, set())
        out, pairs = [], {}

        def turn(m, text):
            name = m.group(0)
            if not wants(name):
                return name
            behind = m.start() > 0 and text[m.start() - 1] == "."
            if behind:
                fits = name in everywhere
            else:
                fits = (name in own or name in here or name in fields) and (name not in other or name in here)
            if not fits:
                left.setdefault(name, set()).add(p)
                return name
            pairs.setdefault(spelled(name), set()).add(name)
            return spelled(name)

        for line in t.split("\n"):
            if p.endswith(".rt"):
                # clauses and ghost items: Rust's own names have neither form, and a dash is a minus outside an import
                c, remark = line.split("//", 1) if "//" in line else (line, None)
                ghost = re.match(r"\s*(ghost use|requires|ensures|ghost)\b", c)
                c = TOKEN.sub(lambda m: turn(m, c) if ghost or "-" not in m.group(0) else m.group(0), c)
                out.append(c if remark is None else c + "//" + remark)
                continue
            c, remark = code(line)
            if re.match(r"\s*(pub )?use ", c):
                # a path's modules keep their names; what is imported is turned where it is the repository's
                path = re.match(r"\s*(?:pub )?use ([A-Za-z0-9_.'+\-]+?)(?=\.\{|\s|$)", c)
                cut = path.end() if path else 0
                mine = path and path.group(1).split(".")[0] == "Rattle" and path.group(1).split(".")[1] in CRATES
                if mine:
                    c = c[:cut] + TOKEN.sub(lambda m: turn(m, c[cut:]), c[cut:])
            else:
                c = TOKEN.sub(lambda m: turn(m, c), c)
            remark = re.sub(r"`[^`]*`", lambda q: TOKEN.sub(lambda m: said(m.group(0), everywhere), q.group(0)), remark)
            out.append(c + remark)
        new = "\n".join(out)
        for s, olds in pairs.items():
            plain = s not in SPELLED and re.search(r"(?<![\w'\-.])" + re.escape(s) + r"(?![\w'\-])", re.sub(r"--.*", "", t))
            if len(olds) > 1 or plain:
                print(f"fall together in {p}: {', '.join(sorted(olds))}{' and ' + s if plain else ''}")
        if new != t:
            turned += 1
            if not dry:
                with open(p, "w", encoding="utf-8") as f:
                    f.write(new)
    pages = ["README.md"] + sorted(glob.glob("docs/*.md") + glob.glob("docs/landings/*.md"))
    for p in pages:
        t = open(p, encoding="utf-8").read()
        new = re.sub(r"`[^`\n]*`", lambda q: TOKEN.sub(lambda m: said(m.group(0), everywhere), q.group(0)), t)
        if new != t:
            turned += 1
            if not dry:
                with open(p, "w", encoding="utf-8") as f:
                    f.write(new)
    print(f"turned: {turned} files")
    for n, ps in sorted(left.items(), key=lambda x: -len(x[1])):
        print(f"left: {n} in {len(ps)} files, {sorted(ps)[0]}")


if __name__ == "__main__":
    main("--dry" in sys.argv[1:])
