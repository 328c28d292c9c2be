#!/usr/bin/env python3
"""Lists places in src/ that could be written plainer, by eight kinds, and counts them.

    python3 tools/places.py            counts of each kind
    python3 tools/places.py 3          the places of kind 3, one a line, and their count
    python3 tools/places.py --crate frame 3

1  options and results taken apart by hand, flags beside values, numbers for refusals
2  twins: functions that are equal up to names, types and numbers
3  loops that index by a counter, while loops, counters bumped in a loop
4  comparing, converting, copying and printing field by field
5  clauses that stand in three functions of a crate or more; three parameters or more that travel through three functions
6  arrays with a length beside, halving by hand
7  switches that choose which function runs
8  proof files, and lines that three answers or more repeat

It reads text, not meaning: what it lists is to be looked at, and what it misses is not absent.
"""
import collections
import itertools
import pathlib
import re
import sys

ROOT = pathlib.Path(__file__).resolve().parent.parent / "crates"


class Function:
    def __init__(self, file, line, name, params, clauses, body, head):
        self.file, self.line, self.name = file, line, name
        self.params, self.clauses, self.body, self.head = params, clauses, body, head

    @property
    def crate(self):
        return self.file.parts[0]

    def place(self):
        return f"{self.file}:{self.line} {self.name}"


def without_comments(text):
    return re.sub(r"//[^\n]*", lambda m: " " * len(m.group()), text)


def group_end(text, i, opening="{", closing="}"):
    depth = 0
    while i < len(text):
        if text[i] == opening:
            depth += 1
        elif text[i] == closing:
            depth -= 1
            if depth == 0:
                return i + 1
        i += 1
    return len(text)


def params_of(text):
    depth, part, parts = 0, "", []
    for ch in text:
        if ch in "(<[{":
            depth += 1
        elif ch in ")>]}":
            depth -= 1
        if ch == "," and depth == 0:
            parts.append(part)
            part = ""
        else:
            part += ch
    parts.append(part)
    return [" ".join(p.split()) for p in parts if p.strip()]


def functions():
    for path in sorted(ROOT.glob("*/src/**/*.rt")):
        file = path.relative_to(ROOT)
        text = without_comments(path.read_text())
        for m in re.finditer(r"\bfn (\w+)", text):
            i = m.end()
            if text[i : i + 1] == "<":
                i = group_end(text, i, "<", ">")
            if text[i : i + 1] != "(":
                continue
            j = group_end(text, i, "(", ")")
            params = params_of(text[i + 1 : j - 1])
            clauses = []
            while True:
                k = re.compile(r"\s*(->(?:[^{;\[]|\[[^\]]*\])*?)?\s*(requires|ensures|decreases|where|\{|;)").match(text, j)
                if not k or k.group(2) == ";":
                    body = ""
                    break
                if k.group(2) == "{":
                    start = k.end() - 1
                    body = text[start : group_end(text, start)]
                    break
                start = text.index("{", k.end() - 1)
                end = group_end(text, start)
                clauses.append((k.group(2), " ".join(text[start + 1 : end - 1].split())))
                j = end
            line = text.count("\n", 0, m.start()) + 1
            yield Function(file, line, m.group(1), params, clauses, body, text[m.start() : j])


FUNCTIONS = list(functions())


def in_bodies(patterns):
    for f in FUNCTIONS:
        for what, pattern in patterns:
            for m in re.finditer(pattern, f.body):
                line = f.line + f.head.count("\n") + f.body[: m.start()].count("\n")
                yield f"{f.file}:{line} {f.name}: {what}: {' '.join(m.group().split())[:90]}"


def kind_1():
    yield from in_bodies([
        ("handed on by hand", r"if let (Some|Err)\((\w+)\) = [^{]*\{\s*return (Err|Some)\((\w|:)*\(?\2\)?\);"),
        ("handed on by hand", r"(Err|None)(\(\w+\))? => \{?\s*return (Err|None)"),
        ("mapped by hand", r"\bOk\((\w+|\(\))\) => (Ok|Some)\("),
        ("mapped by hand", r"\bErr\(\w+\) => \{?\s*(Ok|Err|None)\b"),
        ("mapped by hand", r"\bNone => (Err\(|Ok\(|None|return Err|return None)"),
        ("mapped by hand", r"\bNone => unreachable"),
        ("taken apart", r"let (Ok|Some)\([^=]*\) = [^;]*?else \{\s*return"),
        ("asked, then given up", r"if [^{]*(\.is_err|is_none)\(\) \{\s*return"),
        ("number for a refusal", r"Fail::new\(number\("),
    ])
    for path in sorted(ROOT.glob("*/src/**/*.rt")):
        file = path.relative_to(ROOT)
        text = without_comments(path.read_text())
        for m in re.finditer(r"\b(struct|enum) (\w+)[^{;]*\{", text):
            body = text[m.end() : group_end(text, m.end() - 1) - 1]
            line = text.count("\n", 0, m.start()) + 1
            if m.group(1) == "struct" and len(re.findall(r"\n\s*(pub(\(\w+\))? )?\w+:", body)) > 1:
                for flag in re.finditer(r"(\w+): bool", body):
                    yield f"{file}:{line} {m.group(2)}: flag beside values: {flag.group(1)}"
            if m.group(1) == "enum" and re.search(r"\b(Without|Nothing|Missing|No\(u8\))", body):
                yield f"{file}:{line} {m.group(2)}: own option, or a number for a refusal"
        for m in re.finditer(r"\bfn (number)\(\w+: \w+\) -> u8", text):
            yield f"{file}:{text.count(chr(10), 0, m.start()) + 1} {m.group(1)}: number for a refusal"


def shape(f):
    words, names = [], {}
    keep = {"if", "else", "match", "for", "in", "while", "let", "mut", "return", "Some", "None", "Ok", "Err", "as",
            "true", "false", "loop", "fn", "self", "len", "iter", "unreachable"}
    text = f.body if f.body else ""
    for w in re.findall(r"[A-Za-z_]\w*|\d\w*|[^\s\w]", text):
        if re.match(r"\d", w):
            words.append("0")
        elif w in keep or not re.match(r"\w", w):
            words.append(w)
        else:
            words.append(names.setdefault(w, f"n{len(names)}"))
    return tuple(words), len(f.params)


def kind_2():
    groups = collections.defaultdict(list)
    for f in FUNCTIONS:
        s = shape(f)
        if len(s[0]) >= 9:
            groups[s].append(f)
    for s, fs in groups.items():
        if len(fs) > 1:
            yield " = ".join(f.place() for f in fs)


def kind_3():
    for f in FUNCTIONS:
        at = f.line + f.head.count("\n")
        for m in re.finditer(r"\bfor (\w+) in ([^{]*?\.\.[^{]*?)\{", f.body):
            k = m.group(1)
            body = f.body[m.end() : group_end(f.body, m.end() - 1)]
            line = at + f.body[: m.start()].count("\n")
            if k != "_" and re.search(r"\[[^\]]*\b" + k + r"\b[^\]]*\]", body):
                yield f"{f.file}:{line} {f.name}: indexes by {k} in {m.group(2).strip()}"
            elif re.search(r"return (Some\(" + k + r"|true|false|" + k + r")", body):
                yield f"{f.file}:{line} {f.name}: searches {m.group(2).strip()}"
        for m in re.finditer(r"\bfor (\([^)]*\)|\w+) in ([^{]*?)\{", f.body):
            body = f.body[m.end() : group_end(f.body, m.end() - 1)]
            line = at + f.body[: m.start()].count("\n")
            if ".." not in m.group(2) and re.search(r"return (Some\(\w+\)|true|false|\w+);", body):
                yield f"{f.file}:{line} {f.name}: searches {m.group(2).strip()}"
            for c in re.finditer(r"(\w+) \+= 1;", body):
                yield f"{f.file}:{line} {f.name}: bumps {c.group(1)}"
        for m in re.finditer(r"\bwhile ([^{]*)\{", f.body):
            line = at + f.body[: m.start()].count("\n")
            yield f"{f.file}:{line} {f.name}: while {m.group(1).strip()}"


def kind_4():
    yield from in_bodies([
        ("field by field", r"\b(\w+)\.(\w+) (==|<) (\w+)\.\2\b"),
        ("text by hand", r'=> b?"[^"]*",'),
        ("text by hand", r'\bb"[^"]*" =>'),
        ("converted by hand", r"Some\((\w+)\) => Some\(\1 as \w+\)"),
    ])
    for f in FUNCTIONS:
        at = f.line + f.head.count("\n")
        copied = collections.Counter(m.group(2) for m in re.finditer(r"\b(\w+): (\w+)\.\1\b", f.body))
        for source, n in copied.items():
            if n >= 3:
                yield f"{f.file}:{at} {f.name}: copies {n} fields of {source}"
        if f.name.startswith("print_"):
            yield f"{f.file}:{at} {f.name}: prints by hand"
        if re.fullmatch(r"\{\s*match \w+ \{(\s*[\w:]+ => \d+,)+\s*\}\s*\}", f.body):
            yield f"{f.file}:{at} {f.name}: numbers by hand"


def kind_5():
    by = collections.defaultdict(lambda: collections.defaultdict(list))
    for f in FUNCTIONS:
        for kind, text in {(k, t) for k, t in f.clauses}:
            by[f.crate][text].append(f)
    for crate, clauses in by.items():
        for text, fs in clauses.items():
            if len(fs) >= 3:
                yield f"{crate}: clause in {len(fs)}: {text[:90]}: {', '.join(f.name for f in fs)}"
    for crate in sorted({f.crate for f in FUNCTIONS}):
        fs = [f for f in FUNCTIONS if f.crate == crate]
        sets = [frozenset(p for p in f.params if "self" not in p.split(":")[0]) for f in fs]
        groups = {a & b for a, b in itertools.combinations(sets, 2) if len(a & b) >= 3}
        users = {g: tuple(f.name for f, s in zip(fs, sets) if g <= s) for g in groups}
        groups = {g for g in groups if len(users[g]) >= 3}
        for g in groups:
            if not any(g < h for h in groups):
                yield f"{crate}: travel together in {len(users[g])}: {', '.join(sorted(g))}: {', '.join(users[g])}"


def kind_6():
    for f in FUNCTIONS:
        at = f.line + f.head.count("\n")
        for m in re.finditer(r"let (?:mut )?(\w+) = \[[^;\]]*; \d+\]", f.body):
            if re.search(r"\b" + m.group(1) + r"\[\d*\.\.\w", f.body):
                yield f"{f.file}:{at} {f.name}: array {m.group(1)} with a length beside"
        if re.search(r"\) / 2", f.body):
            yield f"{f.file}:{at} {f.name}: halves by hand"
    for path in sorted(ROOT.glob("*/src/**/*.rt")):
        text = without_comments(path.read_text())
        for m in re.finditer(r"\bstruct (\w+)[^{;]*\{", text):
            body = text[m.end() : group_end(text, m.end() - 1) - 1]
            if re.search(r": \[.*; \d+\]", body) and re.search(r"\b(width|len|q|r|n|filled): (usize|u8|u16)", body):
                yield f"{path.relative_to(ROOT)}:{text.count(chr(10), 0, m.start()) + 1} {m.group(1)}: arrays with a length beside"


def kind_7():
    for f in FUNCTIONS:
        at = f.line + f.head.count("\n")
        for m in re.finditer(r"\bmatch [^{]*\{", f.body):
            body = f.body[m.end() : group_end(f.body, m.end() - 1) - 1]
            calls = re.findall(r"=> (?:return )?(?:Ok\()?((?:\w+(?:::|\.))*[a-z_]\w*)\(", body)
            if len(calls) >= 2 and len(calls) >= len(re.findall(r"=>", body)) - 1:
                yield f"{f.file}:{at} {f.name}: switch on {m.group()[6:-1].strip()}: {', '.join(calls)[:80]}"
        if re.search(r"if \w+\.selective", f.body):
            yield f"{f.file}:{at} {f.name}: switch on a flag"


def kind_8():
    answers = sorted(ROOT.glob("*/proofs/**/Answers.antt"))
    lines = collections.defaultdict(set)
    for path in answers:
        for line in path.read_text().splitlines():
            m = re.match(r"[\w-]+ c = (.{30,})", line.strip())
            if m:
                lines[m.group(1)].add(path.relative_to(ROOT))
    for text, paths in sorted(lines.items()):
        if len(paths) >= 3:
            yield f"repeated in {len(paths)}: {text[:100]}"


KINDS = {"1": kind_1, "2": kind_2, "3": kind_3, "4": kind_4, "5": kind_5, "6": kind_6, "7": kind_7, "8": kind_8}


def main(arguments):
    global FUNCTIONS, ROOT
    if arguments[:1] == ["--crate"]:
        crate, arguments = arguments[1], arguments[2:]
    else:
        crate = None
    for k in arguments or KINDS:
        found = sorted(set(KINDS[k]()))
        if crate:
            found = [p for p in found if p.startswith(crate + "/") or p.startswith(crate + ":")]
        if arguments:
            print("\n".join(found))
        print(f"{k}: {len(found)}")
    if not arguments:
        files = list(ROOT.glob("*/proofs/**/*.antt"))
        print(f"proof files: {len(files)}, lines: {sum(len(p.read_text().splitlines()) for p in files)}, "
              f"answer files: {sum(p.name == 'Answers.antt' for p in files)}")
        stays = collections.Counter(
            m for p in ROOT.glob("*/src/**/*.rt") for m in re.findall(r"// Stays \((\w+)\)", p.read_text()))
        print("lines that say why a place stays:", dict(sorted(stays.items())))


main(sys.argv[1:])
