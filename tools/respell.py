#!/usr/bin/env python3
"""Gives the project's own definitions, lemmas, fields and rulesets today's spelling: words in snake case, types in camel case.

usage: tools/respell.py          at the top of the repository, once, right after the kit's port.py

It reads every declaration of crates/*/specs and crates/*/proofs, works out its new name, and replaces it word by word in .antt files, in the clauses of
.rt files, in must-fail edits and, between backticks, in the papers. Functions of src/, exported names and strings are left alone.
It stops where two names would fall together in one module, and prints the places where a new name meets one that stood there already.
"""

import glob
import os
import re
import sys

WORD = re.compile(r"[^\s(){}\[\],;.:\"`|]+")
DECL = re.compile(r"^(?:abbrev |unfoldable |opaque |pub )*([^\s:(){}\[\]]+) +: (.*)$")
INNER = re.compile(r"^ +((?:abbrev |unfoldable |pub )*)([^\s:(){}\[\]|]+) +: (.*)$")
HEAD = re.compile(r"^(?:abbrev |unfoldable |pub )*(record|data|ruleset)\s+(?:pub )?([^\s:(){}]+)")
FIELD = re.compile(r"^  (?:pub )?([^\s:(){}\[\]|]+) : ")
CONSTRUCTOR = re.compile(r"^  ([^\s:(){}\[\]|]+) : ")
TYPE = re.compile(r"(→|^) *Type [01]$")
# A lemma that would have its function's name, and a type that would have another's.
APART = {"noFeed": "HasNoFeed", "hour-end": "hour_end_lem", "meaning-most": "meaning_most_lem", "line-most": "line_most_lem"}


def snake(name):
    """firstFrom and first-from are first_from, atℤ is at_ℤ."""
    name = name.replace("-", "_").replace("ATCs", "atcs")
    name = re.sub(r"([A-Za-z0-9'])([ℤℕ])", r"\1_\2", name)
    name = re.sub(r"([a-z0-9ℤℕ'])([A-Z])", r"\1_\2", name)
    return re.sub(r"[A-Z]", lambda m: m.group(0).lower(), re.sub(r"__+", "_", name))


def camel(name):
    name = name.replace("-", "_")
    parts = [p for p in name.split("_") if p]
    return "".join(p[0].upper() + p[1:] for p in parts)


def read(path):
    with open(path, encoding="utf-8") as f:
        return f.read()


def imported_names():
    """Every name that a file takes from a library of the kit: where one of ours is spelled alike, its word is left as it is."""
    own = tuple(f"Rattle.{name}." for name in os.listdir("crates"))
    found = set()
    for path in glob.glob("crates/*/*/**/*", recursive=True):
        if path.endswith((".antt", ".rt")):
            for place, names in re.findall(r"use ([^\s{};]+)\.\{([^}]*)\}", read(path)):
                if not (place + ".").startswith(own):
                    found.update(name.strip() for name in names.split(","))
    return found


def declared():
    """name -> 'type' or 'word', and for each module its names."""
    kinds, modules = {}, {}
    for path in sorted(glob.glob("crates/*/specs/**/*.antt", recursive=True) + glob.glob("crates/*/proofs/*.antt")):
        inside = None
        names = modules.setdefault(path, [])
        lines = read(path).splitlines()
        for at, line in enumerate(lines):
            m = HEAD.match(line)
            if m:
                inside = m.group(1)
                kinds.setdefault(m.group(2), set()).add("type" if inside != "ruleset" else "word")
                names.append(m.group(2))
                continue
            if inside in ("record", "data"):
                m = FIELD.match(line) if inside == "record" else CONSTRUCTOR.match(line)
                if m:
                    kinds.setdefault(m.group(1), set()).add("word")
                    continue
                if line and not line.startswith((" ", "--")):
                    inside = None
            if line.startswith(" "):
                # In a section: what it gives away, and what has a capital inside.
                m = INNER.match(line)
                if m and (m.group(1) or re.search(r"^[a-z][a-z0-9]*[A-Z]", m.group(2))):
                    kinds.setdefault(m.group(2), set()).add("type" if TYPE.search(m.group(3).strip()) else "word")
                continue
            if line.startswith(("--", "use ", "mod ", "pub mod ")):
                continue
            m = DECL.match(line)
            if m:
                signature = m.group(2)
                nxt = at + 1
                while nxt < len(lines) and lines[nxt].startswith("    ") and not lines[nxt].strip().startswith("--"):
                    signature += " " + lines[nxt].strip()
                    nxt += 1
                is_type = bool(TYPE.search(signature.strip()))
                kinds.setdefault(m.group(1), set()).add("type" if is_type else "word")
                names.append(m.group(1))
    return kinds, modules


def new_names(kinds, kit):
    turned = {}
    for name, kind in sorted(kinds.items()):
        if "◌" in name or name in ("zarith",) or not re.search(r"[A-Za-z]", name):
            continue
        if kind == {"type"}:
            new = APART.get(name, camel(name))
        elif kind == {"word"}:
            if re.match(r"[A-Z]", name) and "-" not in name:
                continue
            new = APART.get(name, snake(name))
        else:
            # A word that is a type in one file and a function in another: it has kept its spelling.
            new = name.replace("-", "_")
        if name not in kit:
            turned[name] = new
    # Where a definition and a lemma would have one name, the lemma gets `_lem`.
    groups = {}
    for name, new in turned.items():
        groups.setdefault(new, []).append(name)
    for new, names in groups.items():
        if len(names) > 1:
            print("look: one name for", *sorted(names))
            # The definition keeps it: first one with a capital, then one that was spelled so already.
            keeps = min(names, key=lambda n: (not re.search(r"[a-z][A-Zℤℕ]", n), n != new))
            for name in names:
                if name != keeps and name not in APART:
                    turned[name] = new + "_lem"
    return {k: v for k, v in turned.items() if k != v}


def replace_words(text, turned):
    return WORD.sub(lambda m: turned.get(m.group(0), m.group(0)), text)


def turn_antt(text, turned):
    out, shown = [], camelled(turned)
    for line in text.split("\n"):
        code, mark, note = line.partition("-- ") if re.search(r"(^|\s)-- ", line) else (line, "", "")
        parts = re.split(r'("[^"]*")', code)
        out.append("".join(p if i % 2 else replace_words(p, turned) for i, p in enumerate(parts)) + mark + replace_words(note, shown))
    return "\n".join(out)


SHOWN = {}


def camelled(turned):
    """In comments only names that are no words of English: those with a capital or a dash between two letters that we declare."""
    if not SHOWN:
        SHOWN.update({k: v for k, v in turned.items() if re.search(r"[a-z][A-Zℤℕ]", k)})
    return SHOWN


def turn_rt(text, turned):
    out, shown = [], camelled(turned)
    # A word that could be a function's of src/ is left.
    turned = {k: v for k, v in turned.items() if re.search(r"[A-Zℤℕ-]", k)}
    for line in text.split("\n"):
        if line.lstrip().startswith("//"):
            out.append(replace_words(line, shown))
            continue
        parts = re.split(r'("(?:[^"\\]|\\.)*")', line)
        out.append("".join(p if i % 2 else replace_words(p, turned) for i, p in enumerate(parts)))
    return "\n".join(out)


def turn_edit(text, turned):
    out, antt = [], False
    for line in text.split("\n"):
        if line.startswith("file: "):
            antt = line.endswith(".antt")
        if line.startswith(("old: ", "new: ")):
            body = line[5:]
            line = line[:5] + (turn_antt(body, turned) if antt else turn_rt(body, turned))
        out.append(line)
    return "\n".join(out)


def turn_paper(text, turned):
    return re.sub(r"`[^`\n]+`", lambda m: m.group(0) if "/" in m.group(0) or "--" in m.group(0) else replace_words(m.group(0), turned), text)


def main():
    kit = imported_names()
    kinds, modules = declared()
    turned = new_names(kinds, kit)
    bad = 0
    for path, names in modules.items():
        seen = {}
        for n in set(names):
            new = turned.get(n, n)
            if new in seen:
                print(f"{path}: {n} and {seen[new]} would both be {new}")
                bad = 1
            seen[new] = n
    if bad:
        return 1
    changed = 0
    meets = {}
    known = set(turned.values()) | set(kinds)
    # In edits and papers also what port.py has turned in the sources already.
    aside = {}
    for path in glob.glob("crates/*/must-fail/*.edit") + glob.glob("docs/*.md") + ["README.md"]:
        for w in set(WORD.findall(read(path))):
            if w not in turned and re.search(r"^[a-z][a-z0-9]*([A-Z]|-[a-z])", w) and snake(w) in known and w not in kinds:
                aside[w] = snake(w)
    aside.update(turned)
    for path in sorted(glob.glob("crates/**/*", recursive=True)):
        if os.path.isdir(path) or "/out/" in path:
            continue
        if path.endswith(".antt"):
            turn = turn_antt
        elif path.endswith(".rt"):
            turn = turn_rt
        elif path.endswith(".edit"):
            turn = turn_edit
        else:
            continue
        text = read(path)
        words = set(WORD.findall(text))
        here = {}
        for w in words & turned.keys():
            if turned[w] in words or turned[w] in here:
                meets.setdefault((w, turned[w]), []).append(path)
            here[turned[w]] = w
        new = turn(text, aside if path.endswith('.edit') else turned)
        if new != text:
            changed += 1
            with open(path, "w", encoding="utf-8") as f:
                f.write(new)
    for (w, n), paths in sorted(meets.items()):
        print(f"look: {w} becomes {n}, which stood already in {' '.join(paths)}")
    for path in glob.glob("docs/*.md") + ["README.md"]:
        text = read(path)
        new = turn_paper(text, {k: v for k, v in aside.items() if re.search(r"[a-z][A-Zℤℕ]|-", k)})
        if new != text:
            changed += 1
            with open(path, "w", encoding="utf-8") as f:
                f.write(new)
    print(f"{len(turned)} names turned, {changed} files changed")
    return 0


if __name__ == "__main__":
    sys.exit(main())
