#!/usr/bin/env python3
"""Prints how large the repository is, and where its clauses are long or its relations wide.

usage: tools/sizes.py [FOLDER] [-v]        FOLDER is a checkout, else the one that this tool is in; -v lists each by crate

  lines      of src/, specs/ and proofs/, without blank ones
  clauses    `ensures`, `requires` and ghost members of all functions and types
  relations  definitions of specs/ whose type ends in `Type 0`, by how many explicit arguments they have
"""

import argparse
import re
from collections import defaultdict
from pathlib import Path

from reading import clauses, crates, definitions, files, without_comments, without_uses

WIDE = 100
PARTS = {"src": ".rt", "specs": ".antt", "proofs": ".antt"}
USE_OR_COMMENT = re.compile(r"\s*(--(\s|$)|use\b|pub mod\b)")


def arguments(text):
    """How many explicit arguments a definition takes, None where its type does not end in `Type 0`."""
    record = re.search(r"(?m)^ *(?:\w+ +)*(?:record|data) +\S+([\s\S]*?)\s+where\b", text)
    plain = re.search(r"(?m)^( *)(?:\w+ +)*?\S+?(\s+:\s[\s\S]*?)(?=^\1\S|\Z)", text)
    if not record and not plain:
        return None
    groups, kind = split(record.group(1) if record else plain.group(2), ":")
    *parts, last = split(kind, "→")
    return sum(map(taken, [groups, *parts])) if last == "Type 0" else None


def split(text, mark):
    """A text at the marks that stand outside of brackets."""
    parts, depth = [""], 0
    for c in " ".join(text.split()):
        depth += 1 if c in "({[" else -1 if c in ")}]" else 0
        if c == mark and depth == 0:
            parts.append("")
        else:
            parts[-1] += c
    return [p.strip() for p in parts]


def pieces(text):
    """The bracketed groups of a text, or the text itself where anything else stands in it."""
    found, depth = [], 0
    for c in text:
        if depth == 0 and c in "({":
            found.append("")
        elif depth == 0 and not c.isspace():
            return [text]
        if found:
            found[-1] += c
        depth += 1 if c in "({[" else -1 if c in ")}]" else 0
    return [g.strip() for g in found]


def named(group):
    """How many arguments a group `(a b : A)` names; `{..}` names none, and a group without names is one argument."""
    names = re.match(r"\(([^(){}:]+) :\s", group)
    return 0 if group.startswith("{") else len(names.group(1).split()) if names else 1


def taken(part):
    return sum(map(named, pieces(part)))


def words_of(text, word):
    return len(re.findall(rf"(?<![^\s(){{}}\[\],;]){word}(?![^\s(){{}}\[\],;])", text))


def main():
    parser = argparse.ArgumentParser(description=__doc__, formatter_class=argparse.RawDescriptionHelpFormatter)
    parser.add_argument("folder", nargs="?", default=Path(__file__).resolve().parent.parent)
    parser.add_argument("-v", action="store_true", help="list each by name")
    given = parser.parse_args()

    lines, counts = dict.fromkeys(PARTS, 0), dict.fromkeys(("clauses", "Decides", "cond"), 0)
    found = defaultdict(list)
    for crate, path in crates(given.folder).items():
        for part, ending in PARTS.items():
            for file in files(path / part, ending):
                text = file.read_text()
                at = lambda line: f"{crate}: {file.relative_to(path)}:{line}"
                rows = text.split("\n")
                lines[part] += sum(bool(row.strip()) for row in rows)
                if part == "proofs":
                    continue
                code = without_uses(re.sub(r"//.*", "", text) if part == "src" else without_comments(text))
                for word in ("Decides", "cond"):
                    counts[word] += words_of(code, word)
                if part == "src":
                    members = clauses(text)
                    counts["clauses"] += len(members)
                    spans = sorted({n for c in members for n in range(c.first, c.last + 1)})
                    found["clause lines over 100 columns"] += [at(n) for n in spans if len(rows[n - 1]) > WIDE]
                    continue
                for n, row in enumerate(rows, 1):
                    if len(row) > WIDE:
                        kind = "`use` lines and comments" if USE_OR_COMMENT.match(row) else "definition lines"
                        found[f"{kind} of specs over 100 columns"].append(at(n))
                for d in definitions(text):
                    count = arguments(d.text)
                    for least, label in ((6, "more than five"), (5, "five or more")):
                        if count is not None and count >= least:
                            found[f"relations of {label} arguments"].append(f"{at(d.line)} {d.name} {count}")

    for part, count in lines.items():
        print(f"lines of {part}: {count}")
    print(f"lines in all: {sum(lines.values())}")
    for label, count in counts.items():
        print(f"{label}{'' if label == 'clauses' else ' in src and specs'}: {count}")
    for label in (
        "clause lines over 100 columns",
        "definition lines of specs over 100 columns",
        "`use` lines and comments of specs over 100 columns",
        "relations of more than five arguments",
        "relations of five or more arguments",
    ):
        print(f"{label}: {len(found[label])}")
        if given.v:
            for one in found[label]:
                print(f"    {one}")


if __name__ == "__main__":
    main()
