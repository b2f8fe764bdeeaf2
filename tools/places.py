#!/usr/bin/env python3
"""Lists the places of src/ (and, for point 8, of proofs/) that docs/DESIGN-PASS.md counts, point by point.

    python3 tools/places.py            the counts of the checkout
    python3 tools/places.py -l         and each place
    python3 tools/places.py ROOT       of another checkout

A place with a line `// Kept: ..` in the four lines above it (or, for a whole module, at its head) is counted as kept.
"""
import collections
import glob
import os
import re
import sys

KEPT = "// Kept:"


def sources(root):
    for path in sorted(glob.glob(f"{root}/crates/*/src/**/*.rt", recursive=True)):
        yield os.path.relpath(path, root), open(path, encoding="utf-8").read()


def functions(text):
    """Each function: its name, its parameters, the whole text from `fn` to the closing brace, its line, and its clauses."""
    for m in re.finditer(r"^( *)(?:pub )?(?:extern \"C\" )?fn (\w+)", text, re.M):
        end = text.find("\n" + m.group(1) + "}\n", m.end())
        if end < 0:
            end = len(text)
        body = text[m.start() : end]
        brace = re.search(r"(?:^ *|\) (?:-> [^\n]*)?)\{$", body, re.M)
        head = body[: brace.start()] if brace else body
        yield m.group(2), head, body[len(head) :], text.count("\n", 0, m.start()) + 1


def at_lines(pattern):
    def find(root):
        for path, text in sources(root):
            for k, line in enumerate(text.split("\n")):
                if re.search(pattern, line):
                    yield path, k + 1, line.strip()

    return find


def own_enums(root):
    """Enums with a variant that says `none` or `refused` in the place of Option or Result."""
    for path, text in sources(root):
        for m in re.finditer(r"^pub enum (\w+) \{\n(.*?)^\}", text, re.M | re.S):
            if re.search(r"^    (Refused\(u8\)|Not|TooShort|Other|Nothing|Ready),", m.group(2), re.M):
                yield path, text.count("\n", 0, m.start()) + 1, "enum " + m.group(1)


def codes(root):
    """Refusals and kinds as bare numbers, in signatures and fields."""
    pattern = r"\b(why|bad): u8|\bkind: u8|class: usize|-> u8( \{)?$|fn \w*(letter|sound_last|slot_key|search|find)\w*\(.*-> (u8|u64|usize)$|pub const (MOVER|CAMERA|ARCHIVE|PANEL)"
    return at_lines(pattern)(root)


def zero_for_none(root):
    """Functions that give 0, or the length, where there is nothing."""
    for path, text in sources(root):
        for name, head, body, line in functions(text):
            if re.search(r"\b(0 where (there is )?(none|it|nothing)|and 0 where|0 for none|, and 0 )", text[: text.find(head)].split("\n\n")[-1][-400:]):
                yield path, line, "fn " + name


def shape(body):
    body = re.sub(r"//[^\n]*", "", body)
    body = re.sub(r"\b\d[\d_]*\b", "0", body)
    body = re.sub(r"b'[^']*'", "0", body)
    words = re.findall(r"[A-Za-z_]\w*|\S", body)
    keep = {"if", "else", "while", "for", "in", "return", "let", "mut", "match", "loop", "true", "false", "break", "continue", "as"}
    return " ".join(w if w in keep or not re.match(r"[A-Za-z_]", w) else "x" for w in words)


def twins(root):
    """Functions of one crate whose bodies differ in names, types and numbers alone, of four tokens or more beyond a call."""
    by = collections.defaultdict(list)
    for path, text in sources(root):
        for name, head, body, line in functions(text):
            s = shape(body)
            if len(s.split()) >= 12 and not re.fullmatch(r"\{ x( :: x)* \( [x,. ]* \) \}?", s):
                by[path.split("/")[1], s].append((path, line, "fn " + name))
    for group in by.values():
        if len(group) > 1:
            yield from group


def by_hand(root):
    """Least, largest, `and`, `or`, copies and conversions spelled out by tests, loops and products."""
    names = r"smaller|larger|least|both|either|non_zero|waits|within|up_to_32|plus|extra_bit|kind_letter|is_digit|joined16|joined32|told|in_own_range|move_down|stands_at|copy|clear|wide|wide32"
    for path, text in sources(root):
        for name, head, body, line in functions(text):
            if re.fullmatch(names, name) and (re.search(r"\bif |\bwhile |\* \(|\bas u(size|32|16)\b|up_to_32\(", body)):
                yield path, line, "fn " + name


def chains(root):
    """Tests spelled as `if .. { return true; }` one after another."""
    for path, text in sources(root):
        for name, head, body, line in functions(text):
            if "-> bool" in head and len(re.findall(r"return (true|false);", body)) >= 1 and not re.search(r"\b(while|for|loop)\b", body):
                yield path, line, "fn " + name


def facts(root):
    """Facts that stand in the `requires` of three or more functions of one crate."""
    count = collections.defaultdict(list)
    for path, text in sources(root):
        for name, head, body, line in functions(text):
            for clause in re.findall(r"requires \{(.*?)\}\n", head + "\n", re.S):
                for fact in clause.split(" × "):
                    fact = re.sub(r"\s+", " ", fact).strip().strip("()").strip()
                    if len(fact) > 3:
                        count[path.split("/")[1], fact].append((path, line, f"{name}: {fact}"))
    for places in count.values():
        if len(places) >= 3:
            yield from places


def together(root):
    """Functions with six parameters or more."""
    for path, text in sources(root):
        for name, head, body, line in functions(text):
            m = re.search(r"fn \w+(?:<[^>]*>)?\((.*?)\)(?: ->|\n|$)", head, re.S)
            n = len(re.findall(r"(?:^|[,(]\s*|\s)\w+: ", m.group(1))) + ("self" in m.group(1)) if m else 0
            if n >= 6:
                yield path, line, f"fn {name}, {n}"


def repeated_lets(root):
    """In one Answers file: a `let` that three or more answers write out."""
    for path in sorted(glob.glob(f"{root}/crates/*/proofs/**/Answers.antt", recursive=True)):
        lines = collections.Counter(re.sub(r"\s+", " ", l).strip() for l in open(path, encoding="utf-8") if re.match(r" +let ", l))
        for l, k in lines.items():
            if k >= 3:
                yield os.path.relpath(path, root), k, l[:100]


def answers(root):
    for path in sorted(glob.glob(f"{root}/crates/*/proofs/**/Answers.antt", recursive=True)):
        for k, line in enumerate(open(path, encoding="utf-8")):
            m = re.match(r"pub (\S+) : goal\.", line)
            if m:
                yield os.path.relpath(path, root), k + 1, m.group(1)


POINTS = [
    ("1a", "own enums in place of Option and Result", own_enums),
    ("1b", "numbers for refusals, kinds and classes", codes),
    ("1c", "0 or a length for none", zero_for_none),
    ("2", "functions that differ in names, types and numbers alone", twins),
    ("3", "`while` and `loop`", at_lines(r"^\s*('[a-z]+: )?(while|loop)\b")),
    ("4a", "library functions and conversions by hand", by_hand),
    ("4b", "tests as `if .. { return ..; }`", chains),
    ("5a", "facts in three `requires` or more of a crate", facts),
    ("5b", "functions of six parameters or more", together),
    ("6a", "writers that are handed a buffer and a place", at_lines(r"out: &mut \[u8\], at: usize|q: &mut? ?\[u8\], held: usize|q: &\[u8\], held: usize")),
    ("6b", "cells of one array", at_lines(r"\bs: &(mut )?Cells\b")),
    ("7", "tables of functions, or a switch on a byte or a kind of step", at_lines(r"match l\.what|: fn\(|\bdyn \b")),
    ("8a", "answers", answers),
    ("8b", "a `let` written out in three answers or more of a file", repeated_lets),
]


def is_kept(root, path, line, point, cache={}):
    if path not in cache:
        cache[path] = open(f"{root}/{path}", encoding="utf-8").read().split("\n")
    lines = cache[path]
    head = []
    for l in lines:
        if not l.startswith("//") and not l.startswith("#!"):
            break
        head.append(l)
    return point == "6a" and any(KEPT in l for l in head) or any(KEPT in l for l in lines[max(0, line - 7) : line])


def main():
    show = "-l" in sys.argv
    roots = [a for a in sys.argv[1:] if a != "-l"]
    root = roots[0] if roots else os.path.join(os.path.dirname(os.path.abspath(__file__)), "..")
    print("point  places  kept")
    for key, what, find in POINTS:
        places = list(find(root))
        kept = sum(1 for p in places if p[0].endswith(".rt") and is_kept(root, p[0], p[1], key))
        print(f"{key:5}  {len(places):6}  {kept:4}  {what}")
        if show and key != "8a":
            for path, line, text in places:
                mark = "kept " if path.endswith(".rt") and is_kept(root, path, line, key) else ""
                print(f"         {mark}{path}:{line}: {text}")


main()
