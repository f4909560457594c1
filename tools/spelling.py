#!/usr/bin/env python3
"""Brings the names of definitions, fields and lemmas to snake case, in every crate and in the pages that name them.

usage: tools/spelling.py        at the top of a repository whose crates have today's paths

Which names: those that a specs/ or proofs/ file declares and that have a dash or an inner capital. A name that
a proof of a function gives to a goal keeps its dashes, since those join the goal's parts. Functions of src/, C names,
strings, inputs and outputs are not touched. It stops, and writes nothing, where two names would fall together.
"""

import collections
import glob
import os
import re
import sys

TOKEN = re.compile(r"[^\s(){}\[\].,;:\"`|]+")
DECLARED = re.compile(r"(?P<indent>\s*)(?:(?:pub|abbrev|unfoldable|opaque|private)\s+)*(?:ruleset\s+)?(?P<name>[^\s(){}\[\].,;:=\"]+)(?:\s+\([^)]*\)|\s+\{[^}]*\})*\s*(?::\s|=)")
RECORD = re.compile(r"\s*(?:(?:pub|abbrev|unfoldable|opaque|private)\s+)*record\s")
WORDS = {"let", "in", "use", "pub", "mod", "record", "data", "module", "where", "λ"}


def snake(name):
    name = re.sub(r"(?<=[a-z0-9])([A-Z])", lambda m: "_" + m.group(1).lower(), name)
    return re.sub(r"_+", "_", name.replace("-", "_"))


def turns(name):
    """Whether a name is one to turn: a word of ASCII letters with a dash or an inner capital, that begins small."""
    return bool(re.fullmatch(r"[a-z][A-Za-z0-9_]*(?:-[A-Za-z0-9_]+)*'?", name)) and snake(name) != name


def files(*patterns):
    return sorted(f for p in patterns for f in glob.glob(p, recursive=True) if "/out/" not in f and os.path.isfile(f))


def read(path):
    with open(path, encoding="utf-8") as f:
        return f.read()


def declared(text):
    """The names that a file declares, its records' fields, and those that stand for a goal."""
    names, fields, goals = set(), set(), set()
    record = None
    for line in text.split("\n"):
        if not line.strip() or line.lstrip().startswith("--"):
            continue
        indent = len(line) - len(line.lstrip())
        if record is not None and indent <= record:
            record = None
        if RECORD.match(line):
            record = indent
            continue
        m = DECLARED.match(line)
        if not m or m.group("name") in WORDS:
            continue
        name = m.group("name")
        if record is not None:
            fields.add(name)
        elif re.search(r":\s+tie\.(?:Need-|invariant-|decreases-|Answer)", line) or name.startswith(("Inv-", "μ-", "invariant-", "decreases-")) or name.endswith(("-spec", "_spec")):
            goals.add(name)
        elif indent == 0 or re.search(r":\s", line):
            names.add(name)
    return names, fields, goals


def of_library(text, crates):
    """The names that a file imports from what is no crate of this repository."""
    out = set()
    for m in re.finditer(r"use ([\w.]+)\.\{([^}]*)\}", text):
        path = m.group(1).split(".")
        if path[0] != "Rattle" or path[1] not in crates:
            out |= {t.strip().split(" as ")[0] for t in m.group(2).split(",")}
    return out


def code_of(line, comment):
    """A line's part before a comment, and the comment."""
    quoted = False
    for i, c in enumerate(line):
        if c == '"':
            quoted = not quoted
        if not quoted and line.startswith(comment, i) and (i == 0 or line[i - 1] in " \t"):
            return line[:i], line[i:]
    return line, ""


def turned_code(text, names, fields, kept):
    out, end = [], 0
    for part in re.finditer(r'"(?:[^"\\]|\\.)*"|' + TOKEN.pattern, text):
        t = part.group()
        out.append(text[end:part.start()])
        end = part.end()
        dotted = part.start() > 0 and text[part.start() - 1] == "." and not text[: part.start() - 1].endswith((" ", "λ")) and part.start() > 1
        known = fields if dotted else names
        out.append(known[t] if t in known and t not in kept and not t.startswith('"') else t)
    return "".join(out) + text[end:]


def turned_comment(text, names):
    text = re.sub(r"`([^`]*)`", lambda m: "`" + TOKEN.sub(lambda t: names.get(t.group(), t.group()), m.group(1)) + "`", text)
    return re.sub(r"(?<![\w-])[a-z]+[a-z0-9]*[A-Z]\w*(?![\w-])", lambda m: names.get(m.group(), m.group()), text)


def turned(text, comment, names, fields, kept):
    lines = []
    for line in text.split("\n"):
        code, said = code_of(line, comment)
        lines.append(turned_code(code, names, fields, kept) + turned_comment(said, names))
    return "\n".join(lines)


def function_names():
    return {n for f in files("crates/*/src/**/*.rt") for n in re.findall(r"\bfn (\w+)", read(f))}


def stands(name, tokens, new):
    """Whether a file that has the name has its new spelling already."""
    return any(name in t and new in t for t in tokens)


def spelled(names, fields, tokens):
    """Each name's new spelling. Where the plain turn is a function's name or another's, the definition is what the function answers, `_of`, a lemma is a `_law` and a field what `_holds`."""
    functions = function_names()
    plain = {n: RENAMED.get(n, snake(n)) for n in names}
    by = collections.defaultdict(set)
    for old, new in plain.items():
        by[new].add(old)
    out = {}
    for old, new in plain.items():
        other = [o for o in by[new] if o != old]
        taken = new in functions or stands(old, tokens, new)
        if old in RENAMED:
            out[old] = new
        elif "-" in old and (other or taken):
            out[old] = new + ("_holds" if old in fields else "_law")
        elif taken:
            out[old] = new + "_of"
        else:
            out[old] = new
    return out


def falls_together(names, tokens):
    """Names whose new spelling stands already, is a function's, or is that of another."""
    functions = function_names()
    by = collections.defaultdict(set)
    for old, new in names.items():
        by[new].add(old)
    return {n: sorted(o) for n, o in by.items() if len(o) > 1 or n in functions or any(stands(old, tokens, n) for old in o)}


def main():
    antt = files("crates/*/specs/**/*.antt", "crates/*/proofs/**/*.antt")
    names, fields, goals = set(), set(), {}
    tokens = []
    for f in antt:
        text = read(f)
        n, k, g = declared(text)
        goals[f] = g
        names |= n
        fields |= k
        tokens.append(set(TOKEN.findall("\n".join(code_of(l, "--")[0] for l in text.split("\n")))))
    for f in files("crates/*/src/**/*.rt"):
        tokens.append(set(TOKEN.findall("\n".join(code_of(l, "//")[0] for l in read(f).split("\n")))))
    names = spelled({n for n in names | fields if turns(n)}, fields, tokens)
    fields = {n: names[n] for n in fields if n in names}
    clashes = falls_together(names, tokens)
    if clashes:
        for n, o in sorted(clashes.items()):
            print(f"{n}: {', '.join(o)}")
        raise SystemExit("spelling: these would fall together: give them names in RENAMED")
    if "--list" in sys.argv:
        for n in sorted(names):
            print(n, names[n], "field" if n in fields else "")
        return
    changed = 0
    crates = {os.path.basename(c) for c in glob.glob("crates/*")}
    work = [(f, "--", goals[f]) for f in antt] + [(f, "//", set()) for f in files("crates/*/src/**/*.rt")]
    for f, comment, kept in work:
        text = read(f)
        new = turned(text, comment, names, fields, kept | of_library(text, crates))
        if new != text:
            changed += 1
            with open(f, "w", encoding="utf-8") as out:
                out.write(new)
    for f in files("crates/*/must-fail/*.edit"):
        text = read(f)
        new = "\n".join(turned_code(l, names, fields, set()) if l.startswith(("old:", "new:")) else l for l in text.split("\n"))
        if new != text:
            changed += 1
            with open(f, "w", encoding="utf-8") as out:
                out.write(new)
    stand = {t for f in antt for t in TOKEN.findall(read(f))}
    for f in files("README.md", "docs/**/*.md"):
        text = read(f)
        known = {t: snake(t) for t in TOKEN.findall(text) if turns(t) and "-" in t and t not in stand and snake(t) in stand}
        new = turned_comment(text, known | names)
        if new != text:
            changed += 1
            with open(f, "w", encoding="utf-8") as out:
                out.write(new)
    print(f"spelling: {len(names)} names, {changed} files")


# Names whose plain turn is another's name already, where a plainer word than `_of` says what it is.
RENAMED = {
    "allRead": "is_all_read",
    "answerTo": "answer_for",
    "backOf": "reach_back",
    "extentOver": "is_extent_over",
    "frontOf": "front_in",
    "noDrain": "has_no_drain",
    "noNeeds": "needs_of_none",
    "noState": "state_of_none",
    "notOpen": "is_not_open",
    "notYet": "is_not_yet",
    "pastLast": "is_past_last",
    "stageFrom": "stage_out_of",
    "stepOff": "is_step_off",
    "thereTo": "is_there_to",
    "withExtents": "extended",
}

if __name__ == "__main__":
    main()
