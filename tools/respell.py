#!/usr/bin/env python3
"""Brings this repository's own definitions and lemmas to one spelling, and its library `bytes` to a name of its own.

usage: python3 tools/respell.py [--check]      at the top of a checkout, once, right after the kit's port.py

What turns: each name with a dash that a file of specs/ or proofs/ declares (a definition, a lemma, a field, a constructor, a
local name) is written in snake case, and in upper camel case where it begins with a capital. It turns in .antt files, in the
clauses of .rt files, in must-fail edits, and in code spans of the pages. What stays: names of goals and of steps, which the checker makes; names of the
library; strings and comments. The library `bytes` becomes `byte_text`, since the kit has a library of the first name.
--check writes nothing. It prints the names that fall together with another, and the names behind a dot that it turned.
"""

import collections
import glob
import os
import re
import sys

WORD = re.compile(r'[^\s(){}.;,@"«»|]+')
MARKS = r"(?:(?:abbrev|unfoldable|pub|private)\s+)*"
BINDERS = r"(?:\s*\([^()]*(?:\([^()]*\)[^()]*)*\)|\s*\{[^{}]*\})*"
DECLARED = re.compile(rf"^\s*{MARKS}((?:[^\s(){{}}.;,@\"«»|:=]+\s+)+?)(?:{BINDERS}\s*):\s", re.M)
HEADED = re.compile(r"^\s*(?:pub\s+)?(?:record|data)\s+([^\s(){}.;,@\"«»|:]+)", re.M)
FIELD = re.compile(r"[{;]\s*([a-z][^\s(){}.;,@\"«»|:=]*-[^\s(){}.;,@\"«»|:=]*)\s*[:=]\s")
LOCAL = re.compile(r"\blet\s+([a-z][^\s(){}.;,@\"«»|:=]*-[^\s(){}.;,@\"«»|:=]*)\s*[:=]")
LIBRARY = re.compile(r"^\s*(?:ghost )?(?:pub )?use (?:Rattle\.std|borrow|Prim|denote|lib|native|mathlib|base)\b[^\n]*", re.M)
OUTSIDE = re.compile(r'"(?:[^"\\\n]|\\.)*"|(?<![^\s(){};,])--[^\n]*')
OUTSIDE_RT = re.compile(r'"(?:[^"\\\n]|\\.)*"|//[^\n]*')
WORDS_OF_ANTT = {"abbrev", "unfoldable", "pub", "private", "record", "data", "module", "use", "where", "let", "in"}


def files(ends, folders="*"):
    return sorted(p for p in glob.glob(f"crates/*/{folders}/**/*", recursive=True) if p.endswith(ends) and os.path.isfile(p) and "/out/" not in p)


def read(path):
    with open(path, encoding="utf-8") as f:
        return f.read()


def snake(name):
    if name[0].isupper():
        parts = name.split("-")
        return parts[0] + "".join(p[:1].upper() + p[1:] for p in parts[1:])
    return name.replace("-", "_")


def goals(text):
    """The names in a file of answers that the checker makes."""
    made = set(re.findall(r"^(?:abbrev )?(?:pub )?(\S+) : goal\.", text, re.M))
    return made | {m for m in re.findall(r"goal\.(\S+)", text)}


def declared():
    names, fields = collections.defaultdict(set), set()
    for path in files(".antt"):
        text = read(path)
        made = goals(text)
        bare = OUTSIDE.sub("", text)
        for m in DECLARED.finditer(bare):
            if re.match(r"\s*(?:use|ghost)\b", m[0]):
                continue
            for word in m[1].split():
                if word not in WORDS_OF_ANTT and "-" in word and re.match(r"[A-Za-z]", word) and word not in made:
                    names[word].add(path)
        for m in HEADED.finditer(bare):
            if "-" in m[1]:
                names[m[1]].add(path)
        for r in re.finditer(r"^( *)(?:pub )?record [^\n]*\bwhere\n((?:(?:\1  [^\n]*)?\n)+)", bare, re.M):
            for m in DECLARED.finditer(r[2]):
                fields.update(w for w in m[1].split() if "-" in w)
        for pattern, kind in ((FIELD, fields), (LOCAL, None)):
            for m in pattern.finditer(bare):
                if m[1] in made:
                    continue
                names[m[1]].add(path)
                if kind is not None:
                    kind.add(m[1])
    return names, fields


def library_names(text):
    return {w for m in LIBRARY.finditer(text) for w in WORD.findall(m[0])}


def turn(text, table, fields, outside, said, path):
    kept = library_names(text) | (goals(text) if path.endswith(".antt") else set())
    spans = [m.span() for m in outside.finditer(text)] + [m.span() for m in LIBRARY.finditer(text)]

    def out(at):
        return any(a <= at < b for a, b in spans)

    def one(m):
        word = m[0]
        quote = ""
        while word.endswith("'") and word not in table:
            word, quote = word[:-1], quote + "'"
        if word not in table or word in kept or out(m.start()):
            return m[0]
        if m.start() and text[m.start() - 1] == ".":
            head = WORD.findall(text[: m.start() - 1].rsplit("\n", 1)[-1])
            head = head[-1] if head else ""
            if not head[:1].isupper():
                if word not in fields:
                    return m[0]
                said.add(f"{path}: {head}.{word}")
        return table[word] + quote

    return WORD.sub(one, text)


def turn_span(span, table):
    """A code span of a page, with the names in it turned."""
    return "`" + WORD.sub(lambda m: table.get(m[0], m[0]), span[1:-1]) + "`"


def bytes_library(text, kind):
    if kind == "rt":
        text = re.sub(r"^(\s*(?:pub )?use )bytes::", r"\1byte_text::", text, flags=re.M)
        text = re.sub(r"(?<![\w:])bytes::", "byte_text::", text)
    return re.sub(r"\bRattle\.bytes\b", "Rattle.byte_text", text)


def main(argv):
    check = "--check" in argv
    names, fields = declared()
    table = {n: snake(n) for n in names}
    said = set()
    words = collections.defaultdict(set)
    for path in files((".antt", ".rt")):
        for w in WORD.findall(read(path)):
            words[w].add(path)
    turned = collections.defaultdict(set)
    for old, new in table.items():
        turned[new].add(old)
    for new, olds in sorted(turned.items()):
        if len(olds) > 1:
            print(f"together: {sorted(olds)} -> {new}")
        for old in olds:
            both = words[old] & words.get(new, set())
            if both:
                print(f"together: {old} -> {new}, which stands in {len(words[new])} files, beside it in {sorted(both)[:4]}")
            elif new in words:
                print(f"also: {old} -> {new} stands in {sorted(words[new])[:3]}")
    jobs = [(p, "antt", OUTSIDE) for p in files(".antt")] + [(p, "rt", OUTSIDE_RT) for p in files(".rt")] + [(p, "rt", OUTSIDE_RT) for p in files(".edit", "must-fail")]
    count = 0
    for path, kind, outside in jobs:
        old = read(path)
        new = bytes_library(turn(old, table, fields, outside, said, path), kind)
        if new != old:
            count += 1
            if not check:
                with open(path, "w", encoding="utf-8") as f:
                    f.write(new)
    for path in ["README.md", *sorted(glob.glob("docs/*.md"))]:
        old = read(path)
        new = re.sub(r"`[^`\n]+`", lambda s: turn_span(s[0], table), old)
        if new != old and not check:
            with open(path, "w", encoding="utf-8") as f:
                f.write(new)
    for line in sorted(said):
        print("dot: " + line)
    print(f"{len(table)} names, {count} files")
    if not check:
        lines = read("crates.txt").splitlines()
        with open("crates.txt", "w", encoding="utf-8") as f:
            f.write("\n".join(re.sub(r"\bbytes\b", "byte_text", l) for l in lines) + "\n")
        if os.path.isdir("crates/bytes"):
            os.rename("crates/bytes", "crates/byte_text")
    return 0


if __name__ == "__main__":
    raise SystemExit(main(sys.argv[1:]))
