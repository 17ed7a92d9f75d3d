#!/usr/bin/env python3
"""Counts the places of the design pass in crates/*/src: `python3 tools/places.py [--list] [DIR]`."""
import collections
import glob
import re
import sys

arguments = [a for a in sys.argv[1:] if a != "--list"]
listing = "--list" in sys.argv
root = arguments[0] if arguments else "."
sources = {f: open(f, encoding="utf-8").read() for f in sorted(glob.glob(root + "/crates/*/src/**/*.rt", recursive=True))}
found = collections.defaultdict(list)


def note(point, kind, file, line, text):
    found[point, kind].append(f"{file[len(root) + 1:]}:{line}: {text.strip()[:110]}")


def functions(text):
    """Each function: its line, name, parameters, result, clauses and body."""
    for m in re.finditer(r"^([ ]*)(?:pub(?:\(crate\))? )?fn (\w+)", text, re.M):
        rest = text[m.end():]
        end = re.search(r"^" + m.group(1) + r"(\}|\{\}|[^\n]*\{\}|.*;)$", rest, re.M)
        whole = rest[: end.end()] if end else rest
        depth = 0
        for i, c in enumerate(whole):
            depth += (c == "(") - (c == ")")
            if c == "(" and depth == 1:
                start = i
            if c == ")" and depth == 0:
                break
        parameters = [re.sub(r"\s+", " ", p.strip()) for p in whole[start + 1 : i].split(",") if p.strip()]
        head = whole[i + 1 :].split("\n" + m.group(1) + "{", 1)
        yield text[: m.start()].count("\n") + 1, m.group(2), parameters, head[0], head[1] if len(head) > 1 else ""


clauses = collections.defaultdict(list)
groups = collections.defaultdict(list)
for file, text in sources.items():
    lines = text.split("\n")
    tests = "#[cfg(test)]" in text or "_tests/" in file
    for n, line in enumerate(lines, 1):
        if re.search(r"\w, bool\)|^\s*(pub )?\w+: bool,$", line) and "fn " not in line:
            note(1, "a flag beside a value", file, n, line)
        if re.search(r"-> \(\w+, bool\)", line):
            note(1, "a flag beside a value", file, n, line)
        if re.search(r"^\s*\d+ => |\b(code|class)\b( ==|: u8)|\.ask\(\d|, usize>$|-> u8$|-> Result<\w+, (usize|u8)>", line) and not tests:
            note(1, "a number for a kind or a refusal", file, n, line)
        if re.search(r"^\s*while ", line):
            note(3, "while", file, n, line)
        m = re.search(r"^\s*for (\w+) in (.*\.\..*) \{$", line)
        if m:
            body = re.split(r"\n" + " " * (len(line) - len(line.lstrip())) + r"\}", "\n".join(lines[n:]), maxsplit=1)[0]
            if re.search(r"\w\[" + m.group(1) + r"\b", body) and ".len()" in line:
                note(3, "a for that counts an index of a slice", file, n, line)
            else:
                note(3, "a for over other numbers", file, n, line)
        if re.search(r"fn (equal_\w+|same_\w+|cmp_\w+|is_before|is_constant|\w+_name|\w+_phrase|kind_of|command_of|class_of|fault_of|grid_of|\w+_operator|function_code|table_entry|entry_of|entry|as_index|lookup_answer|told|by_stage|meant|is_small_letter)\b", line):
            note(4, "equality, order, conversion or printing by hand", file, n, line)
        if re.search(r"^\s*(pub )?(count|depth): (u8|usize),$", line):
            note(6, "a length beside a buffer", file, n, line)
        if re.search(r"let mut \w+ = \[.*; \d+\];", line) and not tests:
            note(6, "a buffer with a length beside, made in a function", file, n, line)
        if re.search(r"\bmatch form\b|\bdyn \b|: fn\(", line):
            note(7, "a switch on which step to run", file, n, line)
    for m in re.finditer(r"enum (\w+)[^{]*\{(.*?)\n\}", text, re.S):
        body = re.sub(r"///[^\n]*", "", m.group(2))
        variants = re.findall(r"^    (\w+)( \{|\(|,|$)", body, re.M)
        shapes = [v for v in variants if v[1] in (" {", "(")]
        if len(variants) == 2 and len(shapes) == 1:
            note(1, "an enum of the shape of Option", file, text[: m.start()].count("\n") + 1, "enum " + m.group(1))
    for line, name, parameters, head, body in functions(text):
        if tests:
            continue
        for clause in re.findall(r"requires[^{]*\{ (.*?) \}$", head, re.M):
            clauses[re.sub(r"\b(c|catalogue|source|via|target|layout|key\.\w+|long|short|short_count|long_count|count|s|v|new|block|call\.\w+|a|b|r|g|self)\b", "_", clause)].append((file, line, name))
        names = [p.split(":")[0].replace("mut ", "").strip() for p in parameters if ":" in p]
        for i in range(len(names)):
            for size in (3,):
                if i + size <= len(names):
                    groups[tuple(names[i : i + size])].append((file, line, name))
for clause, places in clauses.items():
    if len({p[2] for p in places}) >= 3:
        for file, line, name in places:
            note(5, "a clause of three or more functions", file, line, f"{name}: {clause}")
for group, places in groups.items():
    if len({p[2] for p in places}) >= 3:
        for file, line, name in places:
            note(5, "parameters that travel together", file, line, f"{name}: {', '.join(group)}")
runs = collections.defaultdict(list)
for file, text in sources.items():
    if "_tests/" in file or "cases/" in file:
        continue
    code = [(n, re.sub(r"\s+", " ", line.strip())) for n, line in enumerate(text.split("\n"), 1)]
    code = [(n, line) for n, line in code if line and not line.startswith(("//", "use ", "ghost use ", "#["))]
    for i in range(len(code) - 5):
        window = tuple(re.sub(r"\d+", "0", line) for _, line in code[i : i + 6])
        if sum(len(line) for line in window) > 60:
            runs[window].append((file, code[i][0]))
last = {}
for window, places in runs.items():
    if len(places) > 1:
        for file, line in places:
            if last.get(file, -9) < line - 1:
                note(2, "six lines or more that stand elsewhere too", file, line, window[0])
            last[file] = max(last.get(file, -9), line)
proofs = glob.glob(root + "/crates/*/proofs/**/*.antt", recursive=True)
for (point, kind), places in sorted(found.items()):
    print(f"{point}. {kind}: {len(places)}")
    if listing:
        print("\n".join("    " + p for p in places))
print(f"8. lines of proofs: {sum(open(f, encoding='utf-8').read().count(chr(10)) for f in proofs)} in {len(proofs)} files")
