#!/usr/bin/env python3
"""Brings the repository's own definitions and lemmas to snake case, after port.py; functions of src/ keep their names.

usage: respell.py [--check]    at the top of the repository

    setOf  ->  set_of,  wordAt-less  ->  word_at_less,  few-tokens  ->  few_tokens

In .antt files, in the clauses and imports of .rt files and in must-fail edits: each name that begins with a small letter and has a capital
after one, and each name with a dash that a file of specs/ or proofs/ declares (a definition, lemma, field or constructor). Types, modules and
names of the library stay. It prints where two names of a file fall together: a function of src/ with its own word of specs/, as they may.
"""

import glob
import re
import sys

WORD = r"[^\s(){}.;,@\"«»\[\]\\`]+"
TOKEN = re.compile(WORD)
CAMEL = re.compile(r"[a-z][A-Za-z0-9_₀-₉'⁻¹-]*")
HUMP = re.compile(r"(?<=[a-z0-9])([A-Z])")


def read(path):
    with open(path, encoding="utf-8") as it:
        return it.read()


def snake(name):
    return HUMP.sub(lambda m: "_" + m[1].lower(), name)


antt = sorted(p for p in glob.glob("crates/*/*/**/*.antt", recursive=True) if "/out/" not in p)
rust = sorted(glob.glob("crates/*/src/**/*.rt", recursive=True))
edits = sorted(glob.glob("crates/*/must-fail/*.edit"))

declared, foreign, steps = set(), set(), set()
for path in antt:
    text = read(path)
    code = re.sub(r"--[^\n]*", "", text)
    for line in code.splitlines():
        left = line.split(" : ")[0] if " : " in line or line.endswith(" :") else ""
        names = [w for w in left.removesuffix(" :").split() if w not in ("abbrev", "unfoldable", "pub")]
        if names and all(re.fullmatch(WORD, w) for w in names) and names[0] not in ("let", "record", "data", "λ"):
            declared.update(names)
    for m in re.finditer(r"(?ms)^(?:pub )?use (\S+?)\.\{(.*?)\}", code):
        names = [w.strip().split(" as ")[0] for w in m[2].split(",")]
        if not m[1].startswith("Rattle.") or m[1].startswith("Rattle.std."):
            foreign.update(names)
for path in rust:
    for m in re.finditer(r"\b(?:fn|mod|let|let mut|for)\s+(\w+)", read(path)):
        steps.add(m[1])
dashed = {n for n in declared if "-" in n and n not in foreign and re.match(r"[a-z]", n) and not re.match(r"(invariant|decreases)-", n)}


# Fields and lemmas that would fall together with a definition: a lemma that would have its function's name gets `_lem`.
OTHER = {
    "most-tokens": "tokens_at_most",
    "most-agents": "agents_at_most",
    "most-roots": "roots_at_most",
    "most-rules": "rules_at_most",
    "state-bytes": "state_length",
    "held_in": "held_in_lem",
    "by_form": "by_form_lem",
    "at_last": "at_last_lem",
}
humped = {snake(n) for n in declared if re.search("[a-z][A-Z]", n) and re.match("[a-z]", n) and "-" not in n}
humped |= {n for n in declared if re.fullmatch("[a-z0-9]+(_[a-z0-9]+)+", n)}


def new(word):
    if word in OTHER:
        return OTHER[word]
    if word in foreign:
        return word
    m = CAMEL.fullmatch(word)
    out = word
    if word in dashed:
        out = re.sub(r"-(?![A-Z])", "_", word)
        if out in humped:
            out += "_lem"
    if m:
        out = snake(out)
    return out


def turned(text, is_antt=True):
    def one(m):
        if is_antt and m.string[max(0, m.start() - 4) : m.start()] == "tie.":
            return m[0]
        return new(m[0])

    return "\n".join(aligned(line, TOKEN.sub(one, line)) for line in text.split("\n")) if is_antt else TOKEN.sub(one, text)


def aligned(old, now):
    """Keeps the column of the text in a list of names: '--     name       what it is'."""
    was, is_now = (re.match(r"--     \S.*?\S( {2,})(?=\S)", it) for it in (old, now))
    if not was or not is_now or old == now:
        return now
    gap = max(2, len(is_now[1]) + was.end() - is_now.end())
    return now[: is_now.start(1)] + " " * gap + now[is_now.end() :]


def clauses(text):
    """A .rt file: its `ghost use` lines, clauses and ghost items alone."""
    out, at = [], 0
    for m in re.finditer(r"(?s)ghost use [^;]*;|\b(?:requires|ensures|ghost|invariant)\*?\s+(?:\w+\s*:?\s*)?\{", text):
        if m.start() < at:
            continue
        end = m.end()
        if text[end - 1] == "{":
            depth = 1
            while depth:
                depth += {"{": 1, "}": -1}.get(text[end], 0)
                end += 1
        out += [text[at : m.start()], turned(text[m.start() : end])]
        at = end
    return "".join(out) + text[at:]


def edited(text):
    out, target = [], ""
    for line in text.splitlines(True):
        if line.startswith("file: "):
            target = line[6:].strip()
        if line.startswith(("old: ", "new: ")):
            line = line[:5] + turned(line[5:], False)
        out.append(line)
    return "".join(out)


def main():
    check = "--check" in sys.argv
    together = 0
    for paths, turn in ((antt, turned), (rust, clauses), (edits, edited)):
        for path in paths:
            text = read(path)
            now = turn(text)
            by = {}
            if turn is not edited:
                for m in TOKEN.finditer(re.sub(r"(--|//)[^\n]*", "", text)):
                    by.setdefault(new(m[0]), set()).add(m[0])
                for k, v in sorted(by.items()):
                    if len(v) > 1:
                        together += 1
                        print(f"{path}: {' and '.join(sorted(v))} fall together in {k}")
            if now != text and not check:
                with open(path, "w", encoding="utf-8") as it:
                    it.write(now)
    print(f"respell: {len(dashed)} names with a dash, {together} places where two fall together")


main()
