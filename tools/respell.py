#!/usr/bin/env python3
"""Gives the repository's own definitions and lemmas today's spelling: types in camel case, all else in snake case, and a dash
only between two names in the name of a lemma. Run once, after port.py, at the top; prints each name that it changes."""

import os
import re
import sys

NAME = r"[A-Za-zℕ0-9_'-]+"
TOKEN = re.compile(r"(?<![\w'-])(?:[A-Za-z][\w']*(?:-[\w']+)+|[A-Z][\w']*_[\w']+)(?![\w'-])")
DEFINED = re.compile(r"^(\s*)((?:pub |abbrev |unfoldable |data |record )*)(" + NAME + r") (?:\{|\(|:)")
# names of the library that a lemma's name may join
WORDS = set("length append take drop map reverse set get_or add sub mul le lt cond not and or sum eq suc zero refl head last".split())


def files(root, kinds):
    for folder, dirs, names in os.walk(os.path.join(root, "crates")):
        dirs[:] = sorted(d for d in dirs if d not in ("out", ".git"))
        for name in sorted(names):
            if name.endswith(kinds):
                yield os.path.join(folder, name)


def is_made(path):
    """Whether a file answers goals, whose names Rattle makes."""
    parts = path.split(os.sep)
    at = len(parts) - 1 - parts[::-1].index("proofs") if "proofs" in parts else None
    return at is not None and at < len(parts) - 2


def read(path):
    with open(path, encoding="utf-8") as f:
        return f.read()


def defined(root):
    """Each name defined in specs and proofs, with its kinds: type, function, field, alias, lemma."""
    kinds = {}
    for path in files(root, (".antt",)):
        if is_made(path):
            continue
        in_specs = os.sep + "specs" + os.sep in path
        in_record = False
        for line in read(path).split("\n"):
            if line.strip() and not line.startswith((" ", "\t")):
                in_record = bool(re.match(r"(?:pub |abbrev )*(?:record|data) ", line)) and line.rstrip().endswith("where")
            if line.lstrip().startswith(("--", "unfolding ")):
                continue
            if line.lstrip().startswith("use "):
                for name in re.findall(r" as (" + NAME + r")", line):
                    kinds.setdefault(name, set()).add("type" if name[0].isupper() else "alias")
                continue
            m = DEFINED.match(line)
            if not m or m.group(3) in ("where", "let", "in", "module"):
                continue
            name = m.group(3)
            if name[0].isupper():
                kind = "type"
            elif m.group(1) and in_record:
                kind = "field"
            elif "abbrev" in m.group(2) or "unfoldable" in m.group(2) or in_specs:
                kind = "function"
            else:
                kind = "lemma"
            kinds.setdefault(name, set()).add(kind)
    for path in files(root, (".rt",)):
        for line in read(path).split("\n"):
            if line.startswith("ghost use "):
                for name in re.findall(r" as (" + NAME + r")", line):
                    kinds.setdefault(name, set()).add("type" if name[0].isupper() else "alias")
    return kinds


def made(root):
    """The names that answer files define: Rattle's, not the repository's."""
    names = set()
    for path in files(root, (".antt",)):
        if is_made(path):
            for m in re.finditer(r"^(?:abbrev )?pub (?:abbrev )?(" + NAME + r") : goal\.", read(path), re.M):
                names.add(m.group(1))
    return names


def lent(root):
    """The names that files import from the library."""
    own = {d for d in os.listdir(os.path.join(root, "crates"))}
    names = set()
    for path in files(root, (".antt", ".rt")):
        for m in re.finditer(r"use ((?:Rattle\.)?(\w+)[\w.'-]*)\.\{([^}]*)\}", read(path)):
            if m.group(2) not in own:
                names |= {w.strip() for w in m.group(3).split(",")}
    return names


def camel(name):
    return "".join(p[:1].upper() + p[1:] for p in re.split("[-_]", name))


def joined(name, known):
    """A lemma's name: dashes stay where each part is a name, else all its words hang together by underscores."""
    parts = name.split("-")
    pieces, at = [], 0
    while at < len(parts):
        for end in range(len(parts), at, -1):
            word = "_".join(parts[at:end])
            if word in known:
                pieces.append(word)
                at = end
                break
        else:
            return "_".join(parts)
    return "-".join(pieces)


def renamed(root):
    kinds = defined(root)
    taken = made(root) | lent(root)
    known = set(WORDS)
    for name, of in kinds.items():
        if of & {"function"} and not name[0].isupper() and len(name) > 2:
            known.add(name.replace("-", "_"))
    table = {}
    for name, of in sorted(kinds.items()):
        if name in taken or not ("-" in name or name[0].isupper() and "_" in name):
            continue
        if "type" in of:
            table[name] = camel(name)
        elif of & {"function", "field", "alias"}:
            table[name] = name.replace("-", "_")
        else:
            table[name] = joined(name, known)
    return {a: b for a, b in table.items() if a != b}, kinds


def main():
    root = sys.argv[1] if len(sys.argv) > 1 else "."
    table, kinds = renamed(root)
    every = set()
    for path in files(root, (".antt", ".rt")):
        every |= set(re.findall(r"(?<![\w'-])[A-Za-z][\w'-]*", read(path)))
    clashes = [(a, b) for a, b in table.items() if b in every]
    for a, b in clashes:
        print("meets a name that stands:", a, b, file=sys.stderr)
    seen = {}
    for a, b in table.items():
        seen.setdefault(b, []).append(a)
    for b, names in seen.items():
        if len(names) > 1:
            print("fall together:", names, b, file=sys.stderr)
    if "--write" not in sys.argv:
        for a, b in table.items():
            print(a, b)
        return
    for path in list(files(root, (".antt", ".rt"))):
        text = read(path)
        new = TOKEN.sub(lambda m: table.get(m.group(0), m.group(0)), text)
        if new != text:
            with open(path, "w", encoding="utf-8") as f:
                f.write(new)


main()
