#!/usr/bin/env python3
"""Asks the port and the Rust the same questions about layouts and translations, and sorts every difference.

    questions.py --oracle PATH --stage PATH [--seed N] [--designs N] [--kind lookups|translations|both]

PATH of --oracle is a program that answers a design on its standard input with the unchanged Rust, a
fact a line (`QUESTION -> ANSWER`); --stage is this repository's `./stage` or the program behind it.
Each design has some layouts and many questions, made from its seed alone.

The port's answer is held against the rules of docs/RULES.md, written out below once more and by
themselves. Where the Rust's answer is another, the difference is sorted into one of the listed kinds
of docs/DIFFERENCES.md, by a rule on the question, or shown as unlisted with its layouts.
Status 0: every answer of the port is the rules', and nothing is unlisted.
"""
import argparse
import collections
import itertools
import random
import subprocess
import sys


class Layout:
    def __init__(self, kind, shape, places):
        self.kind, self.shape, self.places = kind, tuple(shape), places
        self.number = {p: n for n, p in enumerate(places)}

    @property
    def rank(self):
        return len(self.shape)

    def line(self):
        words = ["layout", self.kind] + [str(n) for n in self.shape]
        if self.kind == "sparse":
            words.append(": " + " , ".join(" ".join(map(str, p)) for p in self.places))
        return " ".join(words)


def dense(shape):
    return Layout("dense", shape, list(itertools.product(*map(range, shape))))


def diagonal(rank, n):
    return Layout("diagonal", (n,) * rank, [(i,) * rank for i in range(n)])


def sparse(shape, places):
    return Layout("sparse", shape, sorted(set(places)))


def some_layout(r, rank):
    shape = [r.choice([1, 1, 2, 2, 3, 3, 4, 5]) for _ in range(rank)]
    kind = r.choice(["dense", "diagonal", "sparse", "sparse"]) if rank else "dense"
    if kind == "dense":
        return dense(shape)
    if kind == "diagonal":
        return diagonal(rank, r.choice([1, 1, 2, 3, 4]))
    cells = list(itertools.product(*map(range, shape)))
    return sparse(shape, r.sample(cells, r.randint(1, len(cells))))


def beginnings(r, source, rank):
    """A via that a contraction of `source` to a rank could lead to, or nearly."""
    places = sorted({p[:rank] for p in source.places})
    if r.random() < 0.15 and len(places) > 1:
        places.pop(r.randrange(len(places)))
    if source.kind == "sparse" and rank and r.random() < 0.7:
        return sparse(source.shape[:rank], places)
    return dense(source.shape[:rank])


def extension(r, source, rank):
    """A via that `source` could be spread over, or nearly."""
    shape = source.shape + tuple(r.choice([1, 2, 2, 3]) for _ in range(rank - source.rank))
    if r.random() < 0.6:
        return dense(shape)
    if source.rank == 0 or r.random() < 0.5:
        return diagonal(rank, r.choice([1, 2, 3])) if rank else dense(shape)
    return sparse(shape, [p + (0,) * (rank - source.rank) for p in source.places])


def translation(r, layouts):
    source = some_layout(r, r.choice([0, 1, 1, 2, 2, 3, 3, 4]))
    rank = r.randint(0, 4)
    if rank < source.rank:
        via = beginnings(r, source, rank)
    elif rank == source.rank and r.random() < 0.7:
        via = source
    else:
        via = extension(r, source, rank)
    start = [0, 0, 0, 0]
    target = via
    if r.random() < 0.75:
        extra = r.choice([0, 0, 0, 1]) if via.rank < 4 else 0
        shape = [n + r.choice([0, 0, 1, 2]) for n in via.shape] + [r.choice([1, 2])] * extra
        start[:len(shape)] = [r.choice([0, 0, 0, 1, 1, 2]) for _ in shape]
        cells = list(itertools.product(*map(range, shape)))
        if r.random() < 0.5 or not shape:
            target = dense(shape)
        else:
            wanted = [tuple(a + b for a, b in zip(p + (0,) * extra, start)) for p in via.places]
            kept = [w for w in wanted if w in set(cells)]
            target = sparse(shape, kept + r.sample(cells, r.randint(1, len(cells))))
    if r.random() < 0.08:
        start[r.randrange(4)] = r.choice([-1, 1, 9, 2**63 - 1, -2**63])
    if r.random() < 0.08:
        via = r.choice(layouts)
    numbers = []
    for item in (source, via, target):
        layouts.append(item)
        numbers.append(len(layouts) - 1)
    return numbers, start


def make(seed, kind):
    r = random.Random(seed)
    layouts = [some_layout(r, r.randint(0, 4)) for _ in range(8)]
    questions = []
    if kind != "translations":
        for _ in range(60):
            n = r.randrange(len(layouts))
            item = layouts[n]
            if r.random() < 0.25:
                questions.append(f"place {n} {r.randrange(len(item.places) + 2)}")
            else:
                entries = [r.choice([0, 0, 1, 1, 2, 3, length - 1, length, -1 if r.random() < 0.2 else 0])
                           for length in item.shape]
                questions.append(" ".join(["find", str(n)] + [str(e) for e in entries]))
    if kind != "lookups":
        for _ in range(30):
            (s, v, t), start = translation(r, layouts)
            questions.append(f"from {s} {v}")
            questions.append(f"trans {s} {v} {t} " + " ".join(map(str, start)))
    return layouts, [item.line() for item in layouts] + questions


def facts(command, text):
    out = subprocess.run(command, input=text, capture_output=True, text=True)
    if out.returncode != 0:
        sys.exit(f"{command}: status {out.returncode}: {out.stderr[:400]}")
    found = {}
    for line in out.stdout.splitlines():
        if line and not line.startswith("#"):
            key, _, answer = line.partition(" -> ")
            found[key] = answer
    return found


def strict(item, index):
    """The number of an index, by the rules."""
    return item.number.get(tuple(index[:item.rank]))


def wide(item, index):
    if item.kind != "diagonal":
        index = [0 if n == 1 and e > 0 else e for e, n in zip(index, item.shape)]
    return strict(item, list(index))


def product(numbers):
    out = 1
    for n in numbers:
        out *= n
    return out


def ranges(s, m):
    starts = [i for i in range(len(s.places)) if i == 0 or s.places[i][:m] != s.places[i - 1][:m]]
    return list(zip(starts, starts[1:] + [len(s.places)]))


def source_kind(s, v):
    """How a source makes the elements of a via: name, axes, length and ranges; None where it does not."""
    if s.rank > v.rank:
        by = s.rank - v.rank
        if s.kind == "dense":
            return ("dense-contraction", by, product(s.shape[v.rank:]), None)
        if s.kind == "diagonal":
            return ("dense-contraction", by, s.shape[0], None) if v.rank == 0 else ("diagonal-contraction", by, None, None)
        return ("sparse-contraction", by, None, ranges(s, v.rank))
    by = v.rank - (2 * s.rank if s.kind == "dense" and v.kind != "dense" else s.rank)
    if by == 0:
        return ("element-wise", None, None, None)
    if by > 0 and v.kind == "dense":
        return ("broadcast", by, product(v.shape[s.rank:]), None)
    if by > 0 and v.kind == "diagonal":
        return ("broadcast", by, v.shape[0], None)
    return None


def kind_text(found):
    name, by, length, rows = found
    words = [name]
    if by is not None:
        words += ["by", str(by)]
    if length is not None:
        words += ["length", str(length)]
    words.append("ranges")
    words += [f"{a} {b}" for a, b in rows] if rows else ["none"]
    return " ".join(words)


def made(found, s):
    name, _, length, rows = found
    count = len(s.places)
    return {"dense-contraction": lambda: count // length, "sparse-contraction": lambda: len(rows),
            "broadcast": lambda: count * length}.get(name, lambda: count)()


def ruled(layouts, question):
    """The answer that the rules give."""
    words = question.split()
    first = layouts[int(words[1])]
    if words[0] == "find":
        n = wide(first, [int(e) for e in words[2:]])
        return "none" if n is None else str(n)
    if words[0] == "place":
        n = int(words[2])
        return " ".join(map(str, first.places[n])) if n < len(first.places) else "none"
    s, v = first, layouts[int(words[2])]
    found = source_kind(s, v)
    if words[0] == "from":
        if found and found[3] and len(found[3]) != len(v.places):
            return "refuse 5 translation 0"
        return kind_text(found) if found else "refuse 4 translation 0"
    t = layouts[int(words[3])]
    start = ([int(e) for e in words[4:]] + [0] * 4)[:4]
    if v.rank > t.rank or any(start[t.rank:]):
        return "refuse 3 translation 0"
    if not found:
        return "refuse 4 translation 0"
    if made(found, s) != len(v.places):
        return "refuse 5 translation 0"
    m = min(s.rank, v.rank)
    if {p[:m] for p in s.places} != {p[:m] for p in v.places}:
        return "refuse 6 translation 0"
    goes = []
    for k, p in enumerate(v.places):
        n = strict(t, [a + b for a, b in zip(start, p + (0,) * 4)])
        if n is None:
            return f"refuse 7 translation {k}"
        goes.append(n)
    if goes == list(range(goes[0], goes[0] + len(goes))):
        return f"{kind_text(found)} dest contiguous {goes[0]} {goes[0] + len(goes)}"
    return f"{kind_text(found)} dest listed " + " ".join(map(str, goes))


def watched_alone(s, m):
    """Where the ranges begin if only entry m - 1 is watched."""
    return [i for i in range(len(s.places)) if i == 0 or s.places[i][m - 1:m] != s.places[i - 1][m - 1:m]]


def listed(layouts, question, rust, port):
    """The listed kind of a difference between the Rust and the rules, or None."""
    words = question.split()
    if rust == "panic" and port.startswith("refuse"):
        return "a refusal where the Rust panics"
    if words[0] == "find":
        if rust == "panic" and port == "none" and any(int(e) < 0 for e in words[2:]):
            return "a negative entry is never found"
        return None
    if words[0] not in ("from", "trans"):
        return None
    if port == "refuse 4 translation 0" and rust.startswith("broadcast by 184467440737"):
        return "no translation below two axes a source axis"
    s, v = layouts[int(words[1])], layouts[int(words[2])]
    if s.kind == "diagonal" and v.rank == 0 and s.rank > 1 and s.shape[0] > 1:
        return "a diagonal contracted to a scalar has length n"
    if s.kind == "sparse" and 0 < v.rank < s.rank and watched_alone(s, v.rank) != [a for a, _ in ranges(s, v.rank)]:
        return "ranges are cut by all entries that the via keeps"
    if words[0] == "trans":
        if port.startswith("refuse 3"):
            return "a start entry beyond the target's rank"
        if port.startswith("refuse 6"):
            return "as many places, but others"
        if rust == "panic" or port.startswith("refuse 7") or port.partition(" dest ")[0] == rust.partition(" dest ")[0]:
            return "destinations are looked up one by one, strictly"
    return None


def main():
    parser = argparse.ArgumentParser(description=__doc__.splitlines()[0])
    parser.add_argument("--oracle", required=True)
    parser.add_argument("--stage", required=True)
    parser.add_argument("--seed", type=int, default=1)
    parser.add_argument("--designs", type=int, default=300)
    parser.add_argument("--kind", choices=["lookups", "translations", "both"], default="both")
    given = parser.parse_args()
    kinds, asked, unlisted = collections.Counter(), collections.Counter(), 0
    for seed in range(given.seed, given.seed + given.designs):
        layouts, lines = make(seed, given.kind)
        text = "\n".join(lines) + "\n"
        rust = facts([given.oracle], text)
        port = facts([given.stage, "--facts", "-"], text)
        for question in dict.fromkeys(lines):
            if question.startswith("layout"):
                continue
            asked[question.split()[0]] += 1
            a, b, rule = rust.get(question), port.get(question), ruled(layouts, question)
            kind = "AGAINST THE RULES" if b != rule else "the same" if a == b else listed(layouts, question, a or "", b)
            kinds[kind or "UNLISTED"] += 1
            if kind in (None, "AGAINST THE RULES") and unlisted < 20:
                unlisted += 1
                used = [int(w) for w in question.split()[1:4] if w.isdigit() and int(w) < len(layouts)]
                print(f"seed {seed}: {question}\n  the Rust:  {a}\n  the port:  {b}\n  the rules: {rule}")
                for n in dict.fromkeys(used):
                    print(f"  {n}: {layouts[n].line()}")
    print(", ".join(f"{n} {word}" for word, n in sorted(asked.items())))
    for kind, n in kinds.most_common():
        print(f"{n:8} {kind}")
    return 1 if unlisted else 0


if __name__ == "__main__":
    sys.exit(main())
