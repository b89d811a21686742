#!/usr/bin/env python3
"""Checks that whoever lists the lines of a sheet or the refusals agrees with the code's own tables.

usage: tools/check_lists.py [FOLDER]

The lines are those of `OWN_CASES` in crates/card/src/cases.rt, and cases 1 to 3 of every file; the refusals those of
crates/card/src/number.rt. Prints what disagrees, and exits with 1 if anything does.
"""

import re
import sys
from pathlib import Path

TOP = Path(sys.argv[1]) if len(sys.argv) > 1 else Path(__file__).resolve().parent.parent
wrong = []


def read(path):
    return (TOP / path).read_text()


def plain(text):
    """Without the marks of comments and without line breaks."""
    return " ".join(re.sub(r"(?m)^\s*(//[/!]?|/\*|\*/?)", "", text).split())


def number(path, pattern):
    found = re.search(pattern, read(path))
    return int(found.group(1)) if found else None


def expect(what, wanted, found):
    if wanted == found:
        return
    if isinstance(wanted, list) and set(wanted) != set(found):
        wanted, found = [w for w in wanted if w not in found], [f for f in found if f not in wanted]
    wrong.append(f"{what}:\n    the tables give {wanted}\n    it has          {found}")


def expect_text(path, wanted):
    if wanted not in plain(read(path)):
        wrong.append(f"{path}: it does not say `{wanted}`")


def span(first, last):
    return str(first) if first == last else f"{first} to {last}"


def listed(parts):
    return parts[0] if len(parts) == 1 else ", ".join(parts[:-1]) + " and " + parts[-1]


# The tables.
shared = number("crates/card/src/cases.rt", r"SHARED_CASES: usize = (\d+)")
files = number("crates/card/src/files.rt", r"FILES: usize = (\d+)")
row = r"CaseRow \{\s*file: (\d+),\s*first: (\d+),\s*count: (\d+),?\s*\}"
rows = [tuple(map(int, found)) for found in re.findall(row, read("crates/card/src/cases.rt").split("OWN_CASES")[1])]
own = [(file, case) for file, first, count in rows for case in range(first, first + count)]
lines = shared * files + len(own)
ranges = [(file, span(first, first + count - 1)) for file, first, count in rows]

# How many lines there are.
for path, pattern in (
    ("include/suhluva.h", r"#define SUHLUVA_LINES (\d+)"),
    ("crates/sheet/src/sheet.rt", r"LINES: usize = (\d+);"),
    ("bench/src/reference.rs", r"LINES: usize = (\d+);"),
    ("examples/sheet.rs", r"LINES: usize = (\d+);"),
    ("docs/RULES.md", r"sheet of (\d+) lines"),
    ("docs/RULES.md", r"exactly (\d+) elements each"),
    ("docs/RULES.md", r"An index of (\d+) or more"),
    ("docs/RULES.md", r"= (\d+)\. The card is not clean"),
    ("docs/DECISIONS.md", r"which order are the (\d+) lines"),
    ("docs/DECISIONS.md", r"cannot take (\d+) lines"),
    ("docs/DECISIONS.md", r"exactly (\d+) elements"),
    ("docs/ARCHITECTURE.md", r"the (\d+) lines, computed from the rows"),
    ("docs/ARCHITECTURE.md", r"table of (\d+) lines"),
    ("docs/DEFINITIONS.md", r"do not add up to (\d+)"),
    ("docs/DEFINITIONS.md", r"the (\d+) pairs"),
    ("README.md", r"gives (\d+)\s+lines"),
    ("crates/sheet/src/lib.rt", r"table of (\d+) lines"),
    ("crates/c_api/src/lib.rt", r"each of the (\d+) lines"),
):
    expect(f"{path}, the number of lines", lines, number(path, pattern))

# The last case.
last = max(case for _, case in own)
for path, pattern in (
    ("docs/RULES.md", r"## 7\. Cases 1 to (\d+)"),
    ("crates/suhluva/src/asks.rt", r"CASES: usize = (\d+);"),
):
    expect(f"{path}, the last case", last, number(path, pattern))
for size in map(int, re.findall(r"u64; \d\]; (\d+)\]", read("bench/src/tally.rs"))):
    expect("bench/src/tally.rs, one more than the last case", last + 1, size)

# Their order, in words.
for path in ("include/suhluva.h", "bench/src/reference.rs"):
    expect_text(path, "then cases " + listed([f"{cases} of file {file}" for file, cases in ranges]))
expect_text("docs/DECISIONS.md", "then cases " + listed([cases for _, cases in ranges]))

# Their order in the arrays, in the rules: a row for the cases that every file has, and one for each row of the table.
indices, at = [f"| {span(0, shared * files - 1)} | index mod {shared} + 1 | index div {shared} |"], shared * files
for file, first, count in rows:
    indices.append(f"| {span(at, at + count - 1)} | {span(first, first + count - 1)} | {file} |")
    at += count
found = re.search(r"\| index \| case \| file \|\n\|[-|]*\n((?:\|.*\n)*)", read("docs/RULES.md"))
expect("docs/RULES.md, the order of the lines", indices, found.group(1).splitlines() if found else [])

# The header's two lists: which cases stand at which indices, and what each case asks for, under the file that has it.
header = read("include/suhluva.h")
table, at = [(span(0, shared * files - 1), span(1, shared), "0")], shared * files
for file, first, count in rows:
    table.append((span(at, at + count - 1), span(first, first + count - 1), str(file)))
    at += count
row = r"(?m)^ \* +(\d+(?: to \d+)?) {2,}(\d+(?: to \d+)?) {2,}file (\d+)\b"
expect("include/suhluva.h, the table of indices", table, re.findall(row, header))
of, told = None, []
for line in header.split("What each case asks for")[-1].splitlines():
    if heading := re.match(r" \* \S.*, file (\d+):$", line):
        of = int(heading.group(1))
    elif case := re.match(r" \* {5,}(\d+)  \S", line):
        told.append((of, int(case.group(1))))
expect("include/suhluva.h, what each case asks for", [(None, case) for case in range(1, shared + 1)] + own, told)

# The largest image: a field of three bytes and the longest file, for each file.
longest = number("crates/card/src/files.rt", r"LONGEST: u16 = (\d+);")
for path, pattern in (
    ("include/suhluva.h", r"#define SUHLUVA_LARGEST_IMAGE (\d+)"),
    ("examples/sheet.rs", r"LARGEST_IMAGE: usize = (\d+_\d+);"),
):
    expect(f"{path}, the largest image", files * (3 + longest), number(path, pattern))

# The table of lines in the rules: a row for each file with cases of its own, one for each run of files without.
table, counts, file = [], [], 0
while file < files:
    extra = [cases for other, cases in ranges if other == file]
    if extra:
        count = shared + sum(1 for other, _ in own if other == file)
        table.append(f"| {file} | {', '.join([span(1, shared), *extra])} | {count} |")
        counts.append(count)
        file += 1
        continue
    last = file
    while last + 1 < files and all(other != last + 1 for other, _ in ranges):
        last += 1
    run, count = last - file + 1, (last - file + 1) * shared
    table.append(f"| {span(file, last)} | {span(1, shared)} each | {run} × {shared} = {count} |")
    counts.append(count)
    file = last + 1
table.append(f"| together | | {' + '.join(map(str, counts))} = {lines} |")
found = re.search(r"\| file \| its cases \| lines \|\n\|[-|]*\n((?:\|.*\n)*)", read("docs/RULES.md"))
expect("docs/RULES.md, the table of lines", table, found.group(1).splitlines() if found else [])

# The list of the second implementation: arms `54..59 => (EF_COM, line - 50)`, the last one for all lines behind.
names = {name: int(value) for name, value in re.findall(r"const (\w+): usize = (\d+);", read("bench/src/reference.rs"))}
arms = re.findall(r"(?:(\d+)\.\.(\d+)|_) => \((\w+), line - (\d+)\)", read("bench/src/reference.rs"))
theirs = [(names[name], line - int(off)) for at, end, name, off in arms for line in range(int(at or arms[-2][1]), int(end or lines))]
expect("bench/src/reference.rs, file_and_case", own, theirs)

# The refusals.
refusals = {name: int(value) for name, value in re.findall(r"pub const (\w+): u8 = (\d+);", read("crates/card/src/number.rt"))}
constants = sorted(refusals.values())
section = read("docs/RULES.md").split("## 10. Refusals")[1].split("\n\n")[1]
expect("docs/RULES.md, the numbers of the refusals", constants, [int(n) for n in re.findall(r"(?m)^\| (\d+) \|", section)])

# Those that the header names.
answers = re.findall(r"SUHLUVA_(\w+) = (\d+)", header.split("What a call answers")[-1])
values = [(name, str({"DONE": 0, **refusals}.get(name))) for name, _ in answers]
expect("include/suhluva.h, what a call answers", values or ["DONE"], answers)

# The words of the main program's script: as its help lists them, as it reads them, and as the page tells them. So the sample cards.
script = read("crates/suhluva/src/word.rt")
forms = re.findall(r'(?m)^    "(\w+)\b[^"]*",$', script.split("FORMS")[1].split("];")[0])
read_as = list(dict.fromkeys(re.findall(r'(?m)^ +\["(\w+)"', script)))
expect("crates/suhluva/src/word.rt, the words that are read", sorted(forms), sorted(read_as))
expect("docs/SCRIPT.md, the words", forms, re.findall(r"(?m)^\| `(\w+)` \|", read("docs/SCRIPT.md")))
cards = re.findall(r'(?m)^ +"(\w+)" => Ok\(', script.split("fn sample")[1].split("\n}")[0])
expect("crates/suhluva/src/word.rt, the sample cards", cards, re.search(r'"card ([\w|]+),', script).group(1).split("|"))
told = re.search(r"\| `card` \| (.*?) \|", read("docs/SCRIPT.md")).group(1)
expect("docs/SCRIPT.md, the sample cards", cards, re.findall(r"`(\w+)`", told))

for one in wrong:
    print(one)
sys.exit(1 if wrong else 0)
