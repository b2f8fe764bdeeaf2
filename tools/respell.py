#!/usr/bin/env python3
"""Brings the repository's own ghost names to the spelling of today's Rattle: words in snake case, types and modules in camel case, a dash only between two names.

usage: python3 tools/respell.py            at the top of the repository, once, after the kit's port.py; it rewrites crates/*/{specs,proofs,src}
       python3 tools/respell.py --list     prints each old and new name and changes nothing

It renames what a specs/ or proofs/ file declares: definitions, lemmas, fields, constructors and camel-case aliases of modules. Functions of src/, exported
names, strings and the names that Rattle makes stay. Names that would fall together are printed, and nothing is written then.
"""
import collections
import os
import re
import sys

SIG = re.compile(r"^(?:abbrev |unfoldable |pub )*([a-z][\w'-]*) :")
FIELD = re.compile(r"^  (?:pub )?([a-z][\w'-]*) :")
ALIAS = re.compile(r"^\s*(?:ghost )?use [^;{]* as ([a-z]+[A-Z]\w*)")
IMPORT = re.compile(r"use Rattle\.std[\w.]*\.\{([^}]*)\}")
TOKEN = re.compile(r"[^\W\d](?:[\w'?!]|-(?=\w))*")
# names that a lemma speaks of and that no file declares
PLAIN = "zero one two nil cons snoc suc self eq ne le lt max min none some true false not and or if".split()
# a word of the library that stood in a lemma's name under its old name
OLD_WORDS = {"getD": "get_or"}
# names whose plain spelling is taken
BY_HAND = {name: name.replace("-", "_") + "_lem" for name in """any-bytes deliver-checks frames-of fresh-record kind-byte list-refusals no-extras of-kind of-pieces
    offer-checks one-in-eight send-checks set-ups story-events three-in-eight with-one in-range of-list header_row same_bytes with_two goes_on""".split()}
BY_HAND.update({"last_frame": "is_last_frame", "out_of_range": "when_out_of_range"})
# names that are declared within a module or bound in a proof
WITHIN = """heldHere held_here shortLent short_lent sendRoom send_room queueHere queue_here refusalOf refusal_of heldThere held_there setUpBy set_up_by
    behindSend behind_send behindDeliver behind_deliver behindOffer behind_offer oneEach' one_each' deliveredFrame delivered_frame sentBy sent_by
    laidOut laid_out kindB kind_b""".split()


def files(root):
    for crate in sorted(os.listdir(os.path.join(root, "crates"))):
        for sub in ("specs", "proofs", "src"):
            for folder, dirs, names in os.walk(os.path.join(root, "crates", crate, sub)):
                dirs.sort()
                for name in sorted(names):
                    if name.endswith((".antt", ".rt")):
                        yield crate, sub, os.path.join(folder, name)


def snake(word):
    return re.sub(r"(?<=[a-z0-9'])([A-Z])", lambda m: "_" + m[1].lower(), word) if re.match("[a-z]", word) else word


def declared(root):
    names, std = collections.defaultdict(set), set(PLAIN)
    for crate, sub, path in files(root):
        if not path.endswith(".antt"):
            continue
        deep = sub == "proofs" and os.path.dirname(path) != os.path.join(root, "crates", crate, "proofs")
        for line in open(path, encoding="utf-8"):
            m = IMPORT.search(line)
            if m:
                std.update(w.strip() for w in m[1].split(",") if "-" not in w)
            m = ALIAS.match(line)
            if m:
                names[m[1]].add((crate, path))
            if deep and re.search(r"[.](Need-|invariant-|decreases-|statement)|_spec :|-spec :", line):
                continue
            for pattern in (SIG, FIELD):
                m = pattern.match(line)
                if m and not (deep and ("-" in m[1] or pattern is FIELD)):
                    names[m[1]].add((crate, path))
    return names, std


def new_name(name, known):
    if name in BY_HAND:
        return BY_HAND[name]
    parts = [snake(OLD_WORDS.get(p, p)) for p in name.replace("set-up", "set_up").split("-")]
    out = parts[0]
    for a, b in zip(parts, parts[1:]):
        out += ("-" if a in known and (b in known or b[:1].isupper()) else "_") + b
    return out


def strings(line):
    """The spans of string literals, which keep their text."""
    return [m.span() for m in re.finditer(r'b?"(?:[^"\\]|\\.)*"', line)]


def respelled(text, table, source, made):
    def turn(line):
        skip = strings(line) if source else []

        def word(m):
            if source and re.fullmatch("[a-z0-9_]+", m[0]):
                return m[0]  # a plain name in src/ is a function's, a field's or a parameter's
            stays = any(a <= m.start() < b for a, b in skip) or made and "-" in m[0] and line[: m.start()].endswith(".")
            return m[0] if stays else table.get(m[0], m[0])

        return TOKEN.sub(word, line)

    return "".join(turn(line) for line in text.splitlines(keepends=True))


def main():
    root = os.getcwd()
    names, std = declared(root)
    known = std | {snake(n) for n in names if "-" not in n}
    table = {n: new_name(n, known) for n in names}
    table = {a: b for a, b in table.items() if a != b}
    table.update(zip(WITHIN[::2], WITHIN[1::2]))
    if "--list" in sys.argv:
        for a, b in sorted(table.items()):
            print(a, b)
    fall = collections.defaultdict(set)
    for n in list(names) + sorted(std):
        fall[table.get(n, n)].add(n)
    bad = {b: a for b, a in fall.items() if len(a) > 1}
    for b, a in sorted(bad.items()):
        print("falls together:", b, "from", ", ".join(sorted(a)), file=sys.stderr)
    used = set()
    for crate, sub, path in files(root):
        if sub == "src":
            for line in open(path, encoding="utf-8"):
                used.update(re.findall(r"\b([a-z]\w*)\s*:(?!:)", line))
    for a, b in sorted(table.items()):
        if b in used:
            print("look: a parameter or field of src/ is called", b, "as", a, "now is", file=sys.stderr)
    if bad or "--list" in sys.argv:
        return 1 if bad else 0
    for crate, sub, path in files(root):
        with open(path, encoding="utf-8") as f:
            text = f.read()
        made = sub == "proofs" and os.path.dirname(path) != os.path.join(root, "crates", crate, "proofs")
        new = respelled(text, table, path.endswith(".rt"), made)
        if new != text:
            with open(path, "w", encoding="utf-8") as f:
                f.write(new)
    return 0


if __name__ == "__main__":
    sys.exit(main())
