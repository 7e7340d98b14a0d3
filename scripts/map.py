#!/usr/bin/env python3
"""Writes docs/MAP.md, the map of the crates, from crates.txt and the comment at the head of each crate's source.

    scripts/map.py            writes the page
    scripts/map.py --check    says where the page is not what would be written, and ends with 1

A family is a paragraph of crates.txt: comment lines that say what it is, then its crates. Families stand in their order there, from
the ground up, so a family rests on those before it; where a crate rests on a later one, the page says so.
"""
import difflib
import pathlib
import re
import sys
import textwrap

ROOT = pathlib.Path(__file__).resolve().parent.parent
PAGE = ROOT / "docs" / "MAP.md"
WIDTH = 100


class Family:
    def __init__(self, comment, crates):
        self.comment = comment
        self.crates = crates
        # Its name is what stands before the first stop: 'A setting' of 'A setting: what a header says'.
        self.name = re.split(r"[:,.](?:\s|$)", comment, maxsplit=1)[0]


def fail(words):
    sys.stdout.flush()
    sys.exit(f"map.py: {words}")


def read_crates():
    """The families, and for each crate what its line names."""
    families, rests = [], {}
    for paragraph in re.split(r"\n\s*\n", (ROOT / "crates.txt").read_text(encoding="utf-8")):
        lines = paragraph.strip().splitlines()
        comment = " ".join(line[1:].strip() for line in lines if line.startswith("#"))
        crates = []
        for line in lines:
            line = line.split("#")[0].strip()
            if line:
                words, _, below = line.partition(":")
                # Behind the name may stand what kind of crate it is, as `staticlib`.
                name = words.split()[0]
                crates.append(name)
                rests[name] = below.split()
        if crates and not comment:
            fail(f"crates.txt: no comment says what {crates[0]} and those below it are")
        if crates:
            families.append(Family(comment, crates))
    if len({family.name for family in families}) < len(families):
        fail("crates.txt: two families have one name")
    return families, rests


def purpose(crate):
    """The first sentence of the comment at the head of the crate's source, and the next where it says that there is no code."""
    sources = [ROOT / "crates" / crate / "src" / name for name in ("lib.rt", "main.rt")]
    source = next((file for file in sources if file.is_file()), None)
    if source is None:
        fail(f"crates.txt lists {crate}, and there is neither {sources[0]} nor main.rt")
    head = []
    for line in source.read_text(encoding="utf-8").splitlines():
        # An indented line is one of a list, and the sentence before it says what the list is of.
        if not line.startswith("//") or line.startswith("//  "):
            break
        head.append(line[2:].strip())
    if not head:
        fail(f"{source.relative_to(ROOT)} does not start with a comment that says what the crate is for")
    sentences = re.split(r"(?<=\.)\s+(?=\S)", " ".join(head))
    said = re.sub(r":$", ".", sentences[0])
    if len(sentences) > 1 and sentences[1].startswith("No code"):
        said += " " + sentences[1]
    return said.replace("|", "\\|")


def reduced(below, reach):
    """Of what is named, that which does not follow by others that are named."""
    return [one for one in below if not any(one in reach(other) for other in below if other != one)]


def reach_over(rests):
    known = {}

    def reach(one):
        if one not in known:
            known[one] = set()
            for below in rests.get(one, []):
                known[one] |= {below} | reach(below)
        return known[one]

    return reach


def floors(families, on):
    """The families by height: a family stands one floor above the highest that it rests on."""
    height = {}
    for family in families:
        height[family.name] = 1 + max((height[name] for name in on[family.name]), default=-1)
    rows = [[] for _ in range(max(height.values()) + 1)]
    for family in families:
        rows[height[family.name]].append(family)
    return rows


def drawing(families, on):
    """A house of boxes, the ground at the bottom. A box says what it rests on."""

    def box(family, width):
        count = len(family.crates)
        lines = textwrap.wrap(f"{family.name} ({count} crate{'s' if count > 1 else ''})", width)
        if on[family.name]:
            lines += textwrap.wrap("on: " + ", ".join(on[family.name]), width)
        return lines

    lines, above = [], set()
    for row in reversed(floors(families, on)):
        walls = [round(WIDTH * k / len(row)) for k in range(len(row) + 1)]
        lines.append("".join("+" if k in above or k in walls else "-" for k in range(WIDTH + 1)))
        boxes = [box(family, walls[k + 1] - walls[k] - 3) for k, family in enumerate(row)]
        for k in range(max(len(text) for text in boxes)):
            parts = ((text[k] if k < len(text) else "") for text in boxes)
            lines.append("".join("| " + part.ljust(walls[n + 1] - walls[n] - 2) for n, part in enumerate(parts)) + "|")
        above = set(walls)
    lines.append("".join("+" if k in above else "-" for k in range(WIDTH + 1)))
    return lines


def page():
    families, rests = read_crates()
    home = {crate: n for n, family in enumerate(families) for crate in family.crates}
    reach = reach_over(rests)

    # What families rest on, by their crates, and what rests on a later family.
    on, upward = {}, []
    for n, family in enumerate(families):
        below = {home[name] for crate in family.crates for name in rests[crate] if name in home}
        on[family.name] = [families[k].name for k in sorted(below) if k < n]
        upward += [(crate, name) for crate in family.crates for name in rests[crate] if home.get(name, n) > n]
    family_reach = reach_over(on)
    on_reduced = {name: reduced(below, family_reach) for name, below in on.items()}
    kit = sorted({name for below in rests.values() for name in below if name not in home})

    lines = ["# The map of the crates", ""]
    lines += textwrap.wrap(
        f"{len(home)} crates in {len(families)} families, from the ground up. This page is made by `make map`, of `crates.txt` and of the "
        "comment at the head of each crate's source; change those and not the page. The gate holds the page to them.", WIDTH)
    lines += ["", "What follows by others is left out: where a family or a crate rests on another, it rests on all below that one too.", ""]
    lines += ["```", *drawing(families, on_reduced), "```"]
    if upward:
        lines += ["", "Against that order: " + "; ".join(f"`{crate}` rests on `{name}`" for crate, name in upward) + "."]
    if kit:
        lines += ["", "Libraries of the kit, which have no line here: " + ", ".join(f"`{name}`" for name in kit) + "."]
    for family in families:
        lines += ["", f"## {family.name}", ""]
        said = family.comment.removeprefix(family.name + ":").strip()
        if said != family.name + ".":
            lines += [said[0].upper() + said[1:], ""]
        lines += ["| Crate | What it is for | Rests on |", "|---|---|---|"]
        for crate in family.crates:
            below = ", ".join(f"`{name}`" for name in reduced(rests[crate], reach))
            lines.append(f"| `{crate}` | {purpose(crate)} | {below} |")
    return "\n".join(lines) + "\n"


def main():
    if sys.argv[1:] not in ([], ["--check"]):
        sys.exit(__doc__)
    wanted = page()
    if not sys.argv[1:]:
        PAGE.write_text(wanted, encoding="utf-8")
        return
    there = PAGE.read_text(encoding="utf-8") if PAGE.is_file() else ""
    if there != wanted:
        sys.stdout.writelines(difflib.unified_diff(there.splitlines(True), wanted.splitlines(True), "docs/MAP.md", "as it would be written", n=0))
        fail("docs/MAP.md is not what crates.txt and the crates' head comments make: run `make map`")
    print("docs/MAP.md is as crates.txt and the crates' head comments make it")


main()
