#!/usr/bin/env python3
"""Brings this repository's own definitions and lemmas to today's spelling: words in snake case, a dash only between two names.

usage: tools/respell.py [--table]      at the top of the repository, once, behind the kit's port.py

What is declared in specs/ and proofs/ gets its new name wherever the files of specs/ and proofs/, the clauses and ghost imports of src/
and the must-fail edits have it as a whole word, and so do the code spans of comments and pages. Types and modules keep their capitals; functions
of src/ and strings are not touched. A lemma that would fall together with another name gets `_lem` behind it. --table prints the rows and writes nothing.
"""

import glob
import re
import sys

WORD = re.compile(r'[^`\s(){}.;,@"«»\[\]:]+')
DECLARED = re.compile(r"^(\s*)((?:pub |abbrev |unfoldable )*)(record |data )?([^\s(){}.;,@\"«»\[\]:]+) :(?= |$)")
KEYWORDS = {"rw", "let", "in", "elim", "use", "mod", "record", "data", "simp", "grind", "search", "omega", "where", "unfolding"}
# Names of std's that a lemma's own name may join with a dash.
STD = {"length", "take", "drop", "set", "get_or", "replicate", "map", "sum", "reverse", "concat", "cond", "eqb", "ltb", "leb", "not", "slice_index"}


def antt_files():
    return sorted(glob.glob("crates/*/specs/**/*.antt", recursive=True) + glob.glob("crates/*/proofs/**/*.antt", recursive=True))


def declared():
    """Every name that is declared in specs/ and proofs/, with whether a definition has it: its spelling, with a capital inside, says so too."""
    names = {}
    for path in antt_files():
        generated = path.endswith("/Proof.antt")
        with open(path, encoding="utf-8") as f:
            for line in f:
                m = DECLARED.match(line)
                if m and m.group(4) not in KEYWORDS:
                    definition = bool(m.group(3)) or "abbrev" in m.group(2) or "unfoldable" in m.group(2) or bool(re.match(r"[a-z][a-z0-9]*[A-Z][A-Za-z0-9]*$", m.group(4)))
                    names[m.group(4)] = names.get(m.group(4), False) or (definition and not generated)
    return names


def snake(word):
    """`lastSlot` as `last_slot`; a word with a capital in front is a type, and stays."""
    if not re.match(r"[a-z]", word):
        return word
    return re.sub(r"(?<=[a-z0-9'])([A-Z]+)", lambda m: "_" + m.group(1).lower(), word)


def respelled(name, known):
    """The name by the rule. A dash stays only where all that it joins are names."""
    if re.match(r"[A-Z]", name) and "-" not in name:
        return name
    parts = [snake(p) for p in name.split("-")]
    # Two names or more, each of one part or of several that are one name together.
    ways = [[]]
    for p in parts:
        ways = [w + [p] for w in ways] + [w[:-1] + [w[-1] + "_" + p] for w in ways if w]
    for way in sorted(ways, key=len):
        if len(way) > 1 and all(p in known for p in way):
            return "-".join(way)
    return "_".join(parts)


def words_of(text):
    return set(WORD.findall(text))


CLAUSE = re.compile(r"(?:^|\s)(?:requires|ensures|ghost)\b[^{;]*(?:\{|;)")


def clauses(text):
    """The spans of a source's clauses and ghost imports."""
    spans = []
    at = 0
    while True:
        m = CLAUSE.search(text, at)
        if not m:
            return spans
        end = m.end()
        if m.group().endswith("{"):
            depth = 1
            while depth and end < len(text):
                depth += {"{": 1, "}": -1}.get(text[end], 0)
                end += 1
        spans.append((m.start(), end))
        at = end


def main(argv):
    names = declared()
    known = {snake(n) for n, definition in names.items() if definition and "-" not in n} | STD
    texts = {p: open(p, encoding="utf-8").read() for p in antt_files()}
    sources = {p: open(p, encoding="utf-8").read() for p in sorted(glob.glob("crates/*/src/**/*.rt", recursive=True))}
    taken = set(names)
    for t in texts.values():
        taken |= words_of(t)
    table = {}
    used = {}
    for name in sorted(names, key=lambda n: (not names[n], respelled(n, known) != n, n)):
        new = respelled(name, known)
        while new in used or (new != name and new in taken and not names[name]):
            new += "_lem"
        if new == name:
            used[new] = name
            continue
        used[new] = name
        table[name] = new
    if "--table" in argv:
        for old, new in sorted(table.items()):
            print(f"{old}\t{new}" + ("\tdefinition" if names[old] else ""))
        for old, new in sorted(table.items()):
            if new in taken:
                print(f"falls together: {old}\t{new}")
        return 0

    functions = {m for t in sources.values() for m in re.findall(r"\bfn (\w+)", t)}

    def turn(text):
        def one(m):
            # Behind a dot a function's name is the function's.
            if m.group() in functions and text[max(0, m.start() - 1):m.start()] == ".":
                return m.group()
            return table.get(m.group(), m.group())

        return WORD.sub(one, text)

    def turn_spans(text):
        return re.sub(r"`[^`\n]*`", lambda m: turn(m.group()), text)

    def turn_antt(text):
        return "\n".join(turn_spans(l) if l.lstrip().startswith("--") else turn(l) for l in text.split("\n"))

    edits = {p: open(p, encoding="utf-8").read() for p in sorted(glob.glob("crates/*/must-fail/*.edit"))}
    for path, text in edits.items():
        new = "\n".join(turn(l) if re.match(r"(old|new): ", l) else l for l in text.split("\n"))
        if new != text:
            open(path, "w", encoding="utf-8").write(new)
    pages = {p: open(p, encoding="utf-8").read() for p in ["README.md", "crates.txt", *sorted(glob.glob("docs/**/*.md", recursive=True))]}
    for path, text in pages.items():
        new = turn_spans(text)
        if new != text:
            open(path, "w", encoding="utf-8").write(new)
    for path, text in texts.items():
        new = turn_antt(text)
        if new != text:
            open(path, "w", encoding="utf-8").write(new)
    def comments(text):
        return re.sub(r"(?m)^ *//.*$", lambda m: turn_spans(m.group()), text)

    for path, text in sources.items():
        new, at = "", 0
        for a, b in clauses(text):
            new += comments(text[at:a]) + turn(text[a:b])
            at = b
        new += comments(text[at:])
        if new != text:
            open(path, "w", encoding="utf-8").write(new)
    return 0


if __name__ == "__main__":
    raise SystemExit(main(sys.argv[1:]))
