#!/usr/bin/env python3
"""Spells the definitions and lemmas of the crates in snake case, and types and aliases that begin with a capital in camel case.

usage: python3 tools/respell.py [--check]

It runs at the top of the checkout, once. Names of the library, of Rust and of generated goals stay as they are: a name
that a file imports from another library than ours stays in that file, and so does what stands behind 'goal.' or 'c.'
in a function's proof files. In comments and in docs/ only code spans turn. Names that would fall together are listed.
"""

import collections
import os
import re
import sys

WORD = re.compile(r'[^\s(){}.;,@"«»]+')
HYPHENED = re.compile(r"[^\W\d][\w']*(?:-[\w']+)+")
ASIDE = re.compile(r'"(?:[^"\\\n]|\\.)*"|(?<![^\s(){}.;,@"«»])--[^\n]*|//[^\n]*')
SPAN = re.compile(r"`[^`\n]+`")
USE = re.compile(r"\buse ([^\s;{]+)\.\{([^}]*)\}")
ANSWER = re.compile(r"/proofs/.+/(Answers|Invariants)\.antt$")
HEADS = ("goal", "c", "w", "l", "g")
# Definitions that a function of the same file would share its name with: the file calls them so.
ALIASES = {
    ("crates/grid/src/works.rt", "axes-in-range"): "axes_in_range_rule",
    ("crates/grid/src/works.rt", "in-range"): "in_range_rule",
    ("crates/table/src/rules.rt", "grid-of"): "grid_of_rule",
    ("crates/translation/src/start.rt", "strays-at"): "strays_at_rule",
    ("crates/translation/src/source.rt", "tail-size"): "tail_size_rule",
}


def spelled(name):
    if name[0].isupper():
        return "".join(part[0].upper() + part[1:] for part in re.split("[-_]", name) if part)
    return name.replace("-", "_")


def files():
    for folder, dirs, names in os.walk("crates"):
        dirs[:] = sorted(d for d in dirs if d != "out")
        for name in sorted(names):
            if name.endswith((".rt", ".antt")):
                yield os.path.join(folder, name)


def code_of(text):
    return ASIDE.sub(lambda m: " " * len(m[0]), text)


def foreign_in(code, ours):
    """The names that a file imports from another library, under the names it uses."""
    found = set()
    for path, items in USE.findall(code):
        steps = path.split(".")
        if steps[0] != "Rattle" or len(steps) < 2 or steps[1] not in ours:
            for item in items.split(","):
                words = item.split()
                if len(words) == 1:
                    found.add(words[0])
                elif len(words) == 3:
                    found.add(words[0])
    return found


def made_in(code):
    """The names of goals that a proof file declares."""
    return set(re.findall(r"([^\s(){}.;,@]+) : goal\.", code)) | set(re.findall(r"goal\.([^\s(){}.;,@]+)", code))


def turn(path, text, ours):
    code = code_of(text)
    stay = foreign_in(code, ours)
    answer = ANSWER.search(path)
    if answer:
        stay |= made_in(code)
    out, last = [], 0
    names = {}
    imports = [(m.start(), m.end()) for m in USE.finditer(code)]
    for m in WORD.finditer(code):
        name = m[0]
        if not HYPHENED.fullmatch(name) or name in stay:
            continue
        if answer and m.start() and code[m.start() - 1] == ".":
            head = re.search(r"([^\s(){}.;,@]+)\.$", code[: m.start()])
            before = code[: m.start() - 1]
            if head and head[1] in HEADS and not before[: -len(head[1])].endswith("."):
                continue
        names[name] = spelled(name)
        out.append(text[last : m.start()])
        alias = ALIASES.get((path, name))
        if alias and any(a <= m.start() < b for a, b in imports):
            out.append(f"{spelled(name)} as {alias}")
        else:
            out.append(alias or spelled(name))
        last = m.end()
    out.append(text[last:])
    return "".join(out), names


def turn_spans(text, table):
    def word(m):
        return table.get(m[0], m[0])

    return SPAN.sub(lambda s: "`" + WORD.sub(word, s[0][1:-1]) + "`", text)


def main():
    check = "--check" in sys.argv[1:]
    ours = set(os.listdir("crates"))
    table, met = {}, collections.defaultdict(set)
    texts = {}
    for path in files():
        with open(path, encoding="utf-8") as f:
            text = f.read()
        new, names = turn(path, text, ours)
        words = set(WORD.findall(code_of(text)))
        for old, it in names.items():
            if it in words:
                met[(old, it)].add(path)
        targets = collections.Counter(names.values())
        for old, it in names.items():
            if targets[it] > 1:
                met[(old, it)].add(path)
        table.update(names)
        texts[path] = (text, new)
    for path in texts:
        text, new = texts[path]
        # code spans of comments
        new = re.sub(r"(?m)(?<![^\s(){}.;,@])(--|//)[^\n]*", lambda m: turn_spans(m[0], table), new)
        if new != text and not check:
            with open(path, "w", encoding="utf-8") as f:
                f.write(new)
    for name in sorted(os.listdir("docs")):
        path = os.path.join("docs", name)
        if not name.endswith(".md") or name.startswith("PORT"):
            continue
        with open(path, encoding="utf-8") as f:
            text = f.read()
        new = turn_spans(text, table)
        if new != text and not check:
            with open(path, "w", encoding="utf-8") as f:
                f.write(new)
    for (old, new), where in sorted(met.items()):
        print(f"look: {old} and {new} meet in {', '.join(sorted(where))}")
    print(f"{len(table)} names")


main()
