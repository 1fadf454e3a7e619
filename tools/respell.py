#!/usr/bin/env python3
"""Turns the repository's own definitions and lemmas to snake case, and gives crates that bear a name of the toolchain's libraries another one.

usage: tools/respell.py          at the top of the repository, once, behind the toolchain's own script
       tools/respell.py --table  prints the names that it would turn, old and new

Definitions are turned from camel case, lemmas from words joined by dashes. Where a lemma would bear a definition's name, or a library's, it gets `_lem`.
Names that the toolchain makes (behind a dot, in a proof file), functions of src/ and texts stay as they are.
"""

import collections
import os
import re
import sys

CRATES = {"json": "json_lines"}
WORD = r"[^\s(){}\[\];,.\"`]+"
TOKEN = re.compile(r"(?<![\w'-])(\.?)(" + WORD + ")")
DEFINED = re.compile(r"^\s*(?:(?:abbrev|unfoldable|pub|private)\s+)*(" + WORD + r"(?:\s+" + WORD + r")*)\s+:(?:\s|$)")
FIELDS = re.compile(r"^(\s*)(?:pub\s+)?record\b.*\bwhere\s*$")
CAMEL = re.compile(r"^[a-z][A-Za-z0-9_']*[a-z0-9][A-Z]")
DASHED = re.compile(r"^[a-z][A-Za-z0-9_']*(-[A-Za-z0-9_']+)+$")
KEPT = {"the-variants"}


def files(*ends):
    for folder, dirs, names in os.walk("crates"):
        dirs[:] = sorted(d for d in dirs if d != "out")
        for name in sorted(names):
            if name.endswith(ends):
                yield os.path.join(folder, name)


def read(path):
    with open(path, encoding="utf-8") as f:
        return f.read()


def snake(name):
    return re.sub(r"(?<=[a-z0-9])([A-Z])", lambda m: "_" + m.group(1).lower(), name).replace("-", "_")


def looked_at():
    """The names that are defined here, the fields of records among them, the names that come from libraries, and the words of the paths of modules."""
    own, fields, foreign, modules, words = set(), set(), set(), set(), collections.Counter()
    for path in files(".antt"):
        modules |= set(path.split(os.sep)[3:-1])
        inside = None
        for line in read(path).splitlines():
            if line.strip().startswith("--"):
                continue
            m = re.match(r"^(?:pub )?use (\S+?)(?:\.\{(.*)\}| as (\S+))$", line)
            if m:
                names = [n.strip().split(" as ")[-1] for n in (m.group(2) or "").split(",")]
                if not m.group(1).startswith("Rattle.") or m.group(1).startswith("Rattle.std"):
                    foreign |= set(names)
                if m.group(3):
                    own.add(m.group(3))
                for n in (m.group(2) or "").split(","):
                    if " as " in n:
                        own.add(n.split(" as ")[1].strip())
                continue
            words.update(w for _, w in TOKEN.findall(line))
            f = FIELDS.match(line)
            if f:
                inside = len(f.group(1))
            elif line.strip() and inside is not None and len(line) - len(line.lstrip()) <= inside:
                inside = None
            d = DEFINED.match(line)
            if d:
                own |= set(d.group(1).split())
                if inside is not None:
                    fields |= set(d.group(1).split())
    camel = {w for w in words if CAMEL.match(w) and w not in foreign}
    return own | camel, fields, foreign, modules


def table():
    own, fields, foreign, modules = looked_at()
    taken = {}
    turned = {}
    for name in sorted(own):
        if CAMEL.match(name) and "-" not in name:
            turned[name] = snake(name)
    definitions = set(turned.values())
    for name in sorted(own):
        if name in turned or name in foreign or name in KEPT:
            continue
        if DASHED.match(name):
            new = snake(name)
            turned[name] = new + "_lem" if new in definitions or new in own or new in foreign or new in modules else new
        elif re.match(r"^[a-z][a-z0-9_']*_[a-z0-9_']*$", name) and name in definitions and name not in fields:
            turned[name] = name + "_lem"
    for old, new in turned.items():
        taken.setdefault(new, []).append(old)
    for new, olds in taken.items():
        if len(olds) > 1 or (new in foreign):
            raise SystemExit(f"respell: {olds} fall together as {new}")
    return turned, fields


def turn(text, turned, fields, source):
    def one(m):
        dot, word = m.group(1), m.group(2)
        if word not in turned:
            return m.group(0)
        if dot and not CAMEL.match(word) and (word not in fields or "-" not in word):
            return m.group(0)
        return dot + turned[word]

    out = []
    for line in text.split("\n"):
        mark = "//" if source else "--"
        comment = re.search(r"(^|\s)" + mark + r"(\s|$)", line)
        at = comment.start() if comment else len(line)
        code, said = line[:at], line[at:]
        pieces = re.split(r'("(?:[^"\\]|\\.)*")', code)
        code = "".join(p if i % 2 else (TOKEN.sub(lambda m: one(m) if not source or CAMEL.match(m.group(2)) else m.group(0), p)) for i, p in enumerate(pieces))
        said = re.sub(r"(?<![\w'-])" + WORD, lambda m: turned[m.group(0)] if m.group(0) in turned and CAMEL.match(m.group(0)) else m.group(0), said)
        out.append(code + said)
    return "\n".join(out)


def crates():
    for old, new in CRATES.items():
        if os.path.isdir(os.path.join("crates", old)):
            os.rename(os.path.join("crates", old), os.path.join("crates", new))
        listed = read("crates.txt")
        listed = re.sub(rf"(?m)^{old}:", new + ":", listed)
        listed = re.sub(rf"(?m)^([^#\n]*:[^#\n]*)(?<![\w]){old}(?![\w])", rf"\g<1>{new}", listed)
        with open("crates.txt", "w", encoding="utf-8") as f:
            f.write(listed)
        for path in files(".rt", ".antt"):
            text = read(path)
            made = re.sub(rf"\bRattle\.{old}\.", f"Rattle.{new}.", text)
            if path.endswith(".rt"):
                made = re.sub(rf"(?<![\w:]){old}::", f"{new}::", made)
            if made != text:
                with open(path, "w", encoding="utf-8") as f:
                    f.write(made)


def main(argv):
    turned, fields = table()
    if argv == ["--table"]:
        for old in sorted(turned):
            print(old, turned[old])
        return 0
    crates()
    for path in files(".rt", ".antt"):
        text = read(path)
        made = turn(text, turned, fields, path.endswith(".rt"))
        if made != text:
            with open(path, "w", encoding="utf-8") as f:
                f.write(made)
    return 0


if __name__ == "__main__":
    raise SystemExit(main(sys.argv[1:]))
