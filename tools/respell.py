#!/usr/bin/env python3
"""Brings this repository's own definitions and lemmas to one spelling: words in snake case, types and facts in camel case.

usage: python3 tools/respell.py        at the top of the repository, once, with everything committed

It renames what specs/ and proofs/ declare with a dash in the name: `design-in` to `design_in`, `Tick-says` to `TickSays`. Goals, loops and
steps that the check names keep its dashes, and so do the library's lemmas. In sources it turns ghost uses and clauses alone, so functions,
strings and comments keep their words. It says which names fall together, and changes nothing then.
"""
import pathlib
import re
import sys

# a name of antt: what stands between white space and brackets, without the field after a dot
NAME = re.compile(r"[^\s(){}\[\],;.:@?|\"`]+")
DECLARED = re.compile(r"^(?:(?:abbrev|unfoldable|pub|record|data|ruleset|mutual)\s+)*([^\s(){}\[\],;.:]+)(?=\s*[:({=]|\s+:)")
FIELD = re.compile(r"^\s+pub\s+([^\s(){}\[\],;.:]+)\s*:")
CONSTRUCTOR = re.compile(r"^  ([^\s(){}\[\],;.:]+(?: [^\s(){}\[\],;.:]+)*)\s*:")
GOAL = re.compile(r":\s*(?:goal|need|tie)\.")
IMPORTED = re.compile(r"use\s+(\S+?)\.\{([^}]*)\}")


def files(pattern):
    return [p for p in sorted(pathlib.Path("crates").glob(pattern)) if "out" not in p.parts[2:3]]


def spelled(name):
    words = name.split("-")
    if name[0].isupper():
        return "".join(w[:1].upper() + w[1:] for w in words)
    return "_".join(words)


def declared():
    """The names with a dash that this repository declares, and all names that it declares, each with the files."""
    dashed, every, foreign = {}, {}, set()
    for p in files("*/specs/**/*.antt") + files("*/proofs/**/*.antt"):
        text = p.read_text(encoding="utf-8")
        for m in IMPORTED.finditer(text):
            names = {n.strip().split(" as ")[0] for n in m.group(2).split(",")}
            if not m.group(1).startswith("Rattle.") or m.group(1).startswith(("Rattle.std.", "Rattle.core.")):
                foreign |= names
            for n in m.group(2).split(","):
                if " as " in n:
                    every.setdefault(n.split(" as ")[1].strip(), set()).add(str(p))
        inside = False
        for line in text.split("\n"):
            m = DECLARED.match(line)
            if m and not line.startswith(("use ", "--", "unfolding ", "open ", "mod ", "pub mod ")):
                inside = bool(re.match(r"(pub )?(data|record)\b", line))
                if not GOAL.search(line):
                    every.setdefault(m.group(1), set()).add(str(p))
            f = FIELD.match(line) or (CONSTRUCTOR.match(line) if inside else None)
            if f:
                for n in f.group(1).split():
                    every.setdefault(n, set()).add(str(p))
    for n, where in every.items():
        if "-" in n.strip("-") and n not in foreign and re.match(r"[A-Za-z]", n):
            dashed[n] = where
    return dashed, every


def turned(text, names):
    return NAME.sub(lambda m: names.get(m.group(), m.group()), text)


def foreign_names():
    """What files of proofs/ and specs/ take from elsewhere, under whatever name."""
    found = set()
    for p in files("*/specs/**/*.antt") + files("*/proofs/**/*.antt"):
        for m in IMPORTED.finditer(p.read_text(encoding="utf-8")):
            if not re.match(r"Rattle\.(?!std\.|core\.)", m.group(1)):
                found |= {w for n in m.group(2).split(",") for w in n.split(" as ")}
    return {n.strip() for n in found}


def locals_turned(text, foreign, every, where):
    """The variables of a file of definitions or lemmas, in snake case too."""
    out = []
    for line in text.split("\n"):
        code, dash, comment = ("", line, "") if line.startswith("--") else line.partition("-- ")

        def one(m):
            n = m.group()
            if not re.fullmatch(r"[A-Za-z_][\w']*(-[\w']+)+", n) or n in foreign or code[m.start() - 1:m.start()] == ".":
                return n
            if spelled(n) in every:
                print(f"{where}: {n} stays, since {spelled(n)} is a definition")
                return n
            return spelled(n)

        out.append((code if code.startswith(("use ", "unfolding ")) else NAME.sub(one, code)) + dash + comment)
    return "\n".join(out)


def proof(text, names):
    out = []
    for line in text.split("\n"):
        code, dash, comment = line.partition("-- ")
        if line.startswith("--"):
            out.append(line)
            continue
        # what is declared as an answer to a goal keeps the check's name, at its clauses too
        out.append(turned(code, names) + dash + comment)
    return "\n".join(out)


def source(text, names):
    """Turns ghost uses, and the braces of clauses, of a source."""
    out, i = [], 0
    for m in re.finditer(r"(?m)^[ \t]*ghost use [^;]*;|\b(?:requires|ensures|ghost)\b[^{};\n]*\{", text):
        if m.start() < i:
            continue
        out.append(text[i:m.start()])
        end = m.end()
        if not m.group().rstrip().endswith(";"):
            depth = 1
            while depth:
                depth += {"{": 1, "}": -1}.get(text[end], 0)
                end += 1
        out.append(turned(text[m.start():end], names))
        i = end
    return "".join(out) + text[i:]


def main():
    dashed, every = declared()
    names = {n: spelled(n) for n in dashed}
    back = {}
    for n, s in names.items():
        back.setdefault(s, set()).add(n)
    together = [(s, ns | ({s} if s in every else set())) for s, ns in sorted(back.items()) if len(ns) > 1 or s in every]
    for s, ns in together:
        print(f"{s}: {sorted(ns)}: " + "; ".join(sorted(f for n in ns for f in every.get(n, ()))))
    if together and "--anyway" not in sys.argv:
        return 1
    foreign, every = foreign_names(), {**every, **{s: set() for s in names.values()}}
    changed = 0
    for p in files("*/specs/**/*.antt") + files("*/proofs/**/*.antt") + files("*/src/**/*.rt"):
        old = p.read_text(encoding="utf-8")
        new = source(old, names) if p.suffix == ".rt" else proof(old, names)
        if p.suffix == ".antt" and len(p.parts) == 4:
            new = locals_turned(new, foreign, every, p)
        if new != old:
            p.write_text(new, encoding="utf-8")
            changed += 1
    print(f"respell: {len(names)} names, {changed} files")
    return 0


sys.exit(main())
