#!/usr/bin/env python3
"""Spells the repository's own definitions, fields, constructors and lemmas as today's library does.

usage: python3 tools/spell_names.py [--dry]     at the top of the checkout

Words are in snake case, types in camel case. Names that the checker makes (goals and what they bring), functions of src/, strings,
must-fail edits and programs' files keep their text.
It is meant to be run once, after the kit's own script. With --dry it only says what it would do, and which names would fall together.
"""
import os
import re
import sys

IDENT = r"[^\s(){}\[\],;.«»=@`\"∙]+"
DECL = re.compile(r"^\s*(?:(?:abbrev|unfoldable|pub|opaque|instance)\s+)*(?:record\s+|data\s+)?(" + IDENT + r")(?:\s[^=]*)?\s:(?:\s|$)")
HEAD = re.compile(r"^\s*(?:pub\s+)?(?:record|data)\s+(" + IDENT + r")")
MADE = re.compile(r"^\s*(?:(?:abbrev|unfoldable|pub)\s+)*(" + IDENT + r")\s+:\s+(?:goal|given)\.")
TOKEN = re.compile(r"[A-Za-zα-ωΑ-Ω_][A-Za-z0-9_'′₀-₉α-ωΑ-Ω]*(?:-[A-Za-z0-9_'′₀-₉α-ωΑ-Ω]+)*")
WORDS = {"record", "where", "let", "in", "elim", "use", "mod", "pub", "abbrev", "unfoldable", "data", "rw", "at"}


# The same spelling as a lemma of the library, which other files bring in.
LIBRARY = {"add-mul", "add-zero", "mul-add", "mul-one", "mul-zero", "not-true", "one-mul", "zero-add", "zero-mul"}
# A lemma that would fall together with a definition gets a name of its own, and so do two costs beside fields of their names.
APART = {n: n.replace("-", "_") + "_is" for n in (
    "column-sum", "decimal-of", "edge-from", "entry-from", "header-from", "header-line", "record-kind", "first-word", "in-range",
    "inverse-of", "opposite-of", "joined_at", "pairs_below", "read_at", "round-on", "row-pairs", "running-of", "selective-pairs",
    "shifts-below", "some_word")}
APART |= {"fromCheck": "from_check_cost", "toCheck": "to_check_cost"}
# Modules that stand under a name in small letters.
ALIASES = {"norm", "tree"}
# A name that the checker makes elsewhere.
ONLY_IN = {"word-is": "frame"}


def files(root):
    for folder, dirs, names in os.walk(os.path.join(root, "crates")):
        dirs[:] = sorted(d for d in dirs if d not in ("out", "must-fail", "data"))
        for n in sorted(names):
            if n.endswith((".rt", ".antt")):
                yield os.path.join(folder, n)


def spelled(name):
    name = name.replace("′", "'")
    if name[0].isupper():
        parts = re.split(r"[-_]", name)
        return "".join(p[:1].upper() + p[1:] for p in parts)
    parts = re.split(r"[-_]", name)
    out = []
    for p in parts:
        if len(p) > 1 and p[0].islower():
            p = re.sub(r"(?<=[a-z0-9'])([A-Z])", lambda m: "_" + m.group(1).lower(), p)
        out.append(p)
    return "_".join(out)


def main():
    dry = "--dry" in sys.argv
    root = os.getcwd()
    texts = {p: open(p, encoding="utf-8").read() for p in files(root)}
    own = {}
    for p, t in texts.items():
        if not p.endswith(".antt"):
            continue
        for line in t.splitlines():
            if line.lstrip().startswith("--") or MADE.match(line):
                continue
            for pat in (HEAD, DECL):
                m = pat.match(line)
                if m and m.group(1) not in WORDS and TOKEN.fullmatch(m.group(1)):
                    own.setdefault(m.group(1), set()).add(p)
    turn = {n: spelled(n) for n in own if spelled(n) != n}
    for n in LIBRARY:
        turn.pop(n, None)
    turn.update(APART)
    fields = fields_of(texts)
    for p, t in sorted(texts.items()):
        here = {n: s for n, s in turn.items() if n not in ONLY_IN or os.path.join("crates", ONLY_IN[n], "") in p}
        # names under which a file brings others in
        here |= {n: spelled(n) for n in re.findall(r" as ([a-z]+[A-Z]\w*)", t)}
        new = turned(t, here, fields, p.endswith(".rt"))
        if p.endswith("crates/binary/specs/Fields.antt"):
            # one word of the library, which had two spellings
            new = new.replace("bit-xor", "bit_xor").replace("bitXor", "bit_xor")
        new = made_names(new, p, texts) if p.endswith(("Answers.antt", "Invariants.antt")) and "/proofs/" in p else new
        for m in re.finditer(r"use Rattle\.(?:std|core)\.[^;\n{]*\{([^}]*)\}", new):
            names = [w.strip().split(" as ")[-1].strip("«» ") for w in m.group(1).split(",")]
            both = set(names) & set(here.values()) & set(TOKEN.findall(new.replace(m.group(0), "")))
            own_here = both & {spelled(n) for n in TOKEN.findall(t) if n in here}
            if own_here:
                print("look:", os.path.relpath(p, root), sorted(own_here))
        if new != t and not dry:
            with open(p, "w", encoding="utf-8") as f:
                f.write(new)
    by = {}
    for n in own:
        by.setdefault(turn.get(n, n), set()).add(n)
    for s, ns in sorted(by.items()):
        if len(ns) > 1:
            print("fall together:", s, sorted(ns))
    print(len(turn), "names turned")


def fields_of(texts):
    """The names of fields and constructors, which stand after a point."""
    out = set()
    for p, t in texts.items():
        if not p.endswith(".antt"):
            continue
        inside = False
        for line in t.splitlines():
            if re.match(r"\s*(?:pub\s+)?(?:record|data)\s", line):
                inside = True
            elif line and not line[0].isspace() and not line.startswith("--"):
                inside = False
            elif inside:
                m = DECL.match(line)
                if m:
                    out.add(m.group(1))
    return out


def turned(text, turn, fields, code):
    """The text with each name in its new spelling; prose in comments and strings stay, names in backticks are turned."""
    marks = r"//[^\n]*" if code else r"--[^\n]*"
    parts = re.split("(" + marks + r"|\"(?:[^\"\\\\]|\\\\.)*\"|«[^»]*»)", text)
    out = []
    for part in parts:
        if part.startswith("«"):
            n = turn.get(part[1:-1])
            out.append(n if n else part)
        elif part.startswith(("//", "--")) and part[:2] == ("//" if code else "--"):
            out.append(re.sub(r"`([^`]*)`", lambda m: "`" + turn.get(m.group(1), m.group(1)) + "`", part))
        elif part.startswith('"'):
            out.append(part)
        else:
            out.append(names_turned(part, turn, fields))
    return "".join(out)


def names_turned(text, turn, fields):
    def one(m):
        n = m.group(0)
        if n not in turn:
            return n
        before = text[: m.start()]
        if before.endswith(".") and n not in fields:
            owner = re.search(r"([\w'-]+)\.$", before)
            if not owner or not (owner.group(1)[0].isupper() or owner.group(1) in ALIASES):
                return n
        return turn[n]

    return TOKEN.sub(one, text)


SOURCE = {}


def made_names(text, path, texts):
    """In the names that the checker makes, a name of the source keeps its underscores."""
    if not SOURCE:
        for p, t in texts.items():
            if p.endswith(".rt"):
                for line in t.splitlines():
                    line = re.sub(r"//.*", "", line)
                    if re.match(r"\s*(ghost|ensures|requires|//)", line):
                        continue
                    for w in re.findall(r"(?<![\w-])[a-z0-9]+(?:_[a-z0-9]+)+(?![\w-])", line):
                        SOURCE[w.replace("_", "-")] = w
    names = sorted(SOURCE, key=len, reverse=True)

    def one(m):
        n = m.group(0)
        if "-" not in n:
            return n
        before = text[: m.start()]
        if not re.search(r"(?:^|[\s({,|\[])(?:pub |goal\.at\.|goal\.|given\.|abbrev pub |(?:[cwldgh]|\w+)\.(?:[\w'-]+\.)*)$", before) and not in_use(before):
            if not re.match(r"\s*(?:c|l|w|g c)\s*=|\s+w\s+↦", text[m.end():m.end() + 12]):
                return n
        for k in names:
            n = re.sub(r"(?<![A-Za-z0-9_'])" + re.escape(k) + r"(?![A-Za-z0-9_'])", lambda x: SOURCE[k], n)
        return n

    return re.sub(r"[A-Za-z_][A-Za-z0-9_'₀-₉]*(?:[-+]+[A-Za-z0-9_'₀-₉]+)*", one, text)


def in_use(before):
    line = before[before.rfind("\n") + 1:]
    return line.startswith("use ") and (".Goals.{" in line or ".Given.{" in line)


if __name__ == "__main__":
    main()
