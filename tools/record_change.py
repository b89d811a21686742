#!/usr/bin/env python3
"""Prints the record of a change, in Markdown: which proofs, promises and definitions it moved.

usage: tools/record_change.py BEFORE AFTER [--long] [--only SORT] [--renames FILE] [--moved OLD=NEW].. [--why FILE]

BEFORE and AFTER are checkouts. Per crate, each of these is moved (its text is another), new, gone or stayed:
  proofs       the files of one function under proofs/, and each lemma of a lemma file;
  promises     each clause and ghost member of a public call, a public trait or a public type;
  definitions  each definition of specs/.
White space, comments and `use` lines make no difference. What only went to another crate or module, or only has other
names by the lines `old new` of FILE, stayed. New and gone lemmas are counted, all else is named. `--moved` says that a crate
has become another, or a part of one. The lines `PATTERN: reason` of `--why` are printed with each promise that moved or is
gone and that a pattern (of the shell's kind) fits, the first that does.
"""

import argparse
import subprocess
from collections import defaultdict
from difflib import SequenceMatcher
from fnmatch import fnmatchcase
from pathlib import Path
from typing import NamedTuple

from reading import clauses, crates, definitions, files, without_comments, without_uses, words

FUNCTION_FILES = ("Answers", "Invariants", "Proof")
STATES = ("moved", "new", "gone", "stayed")


class Item(NamedTuple):
    place: tuple  # crate, module, and for a promise or a function's proof the type
    name: tuple  # what it is called there
    text: str
    words: tuple

    def at(self, within=None):
        place = [p for p in self.place[1 if within else 0 :] if p]
        return "::".join([*place, self.name[0]]) + "".join(f", {n}" for n in self.name[1:] if n)


def module(path, folder):
    return "::".join(path.relative_to(folder).with_suffix("").parts)


def item(place, name, text):
    return Item(place, name, text, tuple(words(text)))


def function_proofs(crate, path):
    texts = defaultdict(list)
    for file in files(path / "proofs", ".antt"):
        if file.stem in FUNCTION_FILES and file.parent != path / "proofs":
            texts[file.parent].append(without_uses(without_comments(file.read_text())))
    for folder, parts in texts.items():
        *above, name = folder.relative_to(path / "proofs").parts
        yield item((crate, "::".join(above)), (name,), "\n".join(parts))


def lemmas(crate, path):
    for file in files(path / "proofs", ".antt"):
        if not (file.stem in FUNCTION_FILES and file.parent != path / "proofs"):
            for d in definitions(file.read_text()):
                yield item((crate, module(file, path / "proofs")), (d.name,), d.text)


def promises(crate, path):
    for file in files(path / "src", ".rt"):
        for c in clauses(file.read_text()):
            if c.public:
                name = (c.function, f"{c.kind} {c.name}".strip()) if c.function else (f"{c.kind} {c.name}",)
                yield item((crate, module(file, path / "src"), c.owner), name, c.text)


def specs(crate, path):
    for file in files(path / "specs", ".antt"):
        for d in definitions(file.read_text()):
            yield item((crate, module(file, path / "specs")), (d.name,), d.text)


SORTS = {"proofs of functions": function_proofs, "lemmas": lemmas, "promises": promises, "definitions": specs}


def collect(folder, reader):
    found, seen = {}, defaultdict(int)
    for crate, path in crates(folder).items():
        for one in reader(crate, path):
            key = one.place, one.name
            seen[key] += 1
            if seen[key] > 1:
                one = one._replace(name=(*one.name, f"number {seen[key]}"))
            found[one.place, one.name] = one
    return found


def renamed(one, renames, moved={}):
    """The item with one name for what is called by an old and a new name."""
    turn = lambda text: "::".join(" ".join(renames.get(w, w) for w in part.split(" ")) for part in text.split("::"))
    crate, *inside = one.place
    place = (moved.get(crate, crate), *map(turn, inside))
    return one._replace(place=place, name=tuple(map(turn, one.name)), words=tuple(renames.get(w, w) for w in one.words))


class Record:
    """What became of the items of one sort: pairs of old and new by state, either None where there is none."""

    def __init__(self, before, after, renames, moved):
        self.pairs = {state: [] for state in STATES}
        self.elsewhere = 0
        old = [(one, renamed(one, renames, moved)) for one in before.values()]
        left = [(one, renamed(one, renames)) for one in after.values()]
        # Each step pairs what is alike in less: where it stands, what it is called, what it says.
        for alike, alone in (
            (lambda i: (i.place, i.name, i.words), False),
            (lambda i: (i.place, i.name), False),
            (lambda i: (i.name, i.words), False),
            (lambda i: (i.place, i.name[:-1], i.words), False),
            (lambda i: (i.place[0], i.name), True),
            (lambda i: i.name if len(i.place) == 2 else i, True),
        ):
            old, left = self.pair(old, left, alike, alone)
        old, left = self.pair_clauses(old, left)
        self.pairs["gone"] = [(one, None) for one, _ in old]
        self.pairs["new"] = [(None, one) for one, _ in left]

    def pair(self, old, left, alike, alone):
        here, there = defaultdict(list), defaultdict(list)
        for one in old:
            here[alike(one[1])].append(one)
        for one in left:
            there[alike(one[1])].append(one)
        for key in here:
            if not alone or len(here[key]) == len(there.get(key, [])) == 1:
                for was, now in list(zip(here[key], there.get(key, []))):
                    self.put(was, now)
                    here[key].remove(was)
                    there[key].remove(now)
        return [one for ones in here.values() for one in ones], [one for ones in there.values() for one in ones]

    def pair_clauses(self, old, left):
        """Pairs clauses of one call that have other names and other words, where these are nearly the same."""
        ratio = lambda a, b: SequenceMatcher(None, a[1].words, b[1].words, autojunk=False).ratio()
        call = lambda one: len(one[1].name) == 2 and (one[1].place, one[1].name[0])
        for was in list(old):
            now = max((n for n in left if call(was) and call(n) == call(was)), key=lambda n: ratio(was, n), default=None)
            if now and ratio(was, now) > 0.5:
                self.put(was, now)
                old.remove(was)
                left.remove(now)
        return old, left

    def put(self, old, left):
        (was, turned), (now, canonical) = old, left
        same = turned.words == canonical.words
        self.pairs["stayed" if same else "moved"].append((was, now))
        self.elsewhere += same and (was.place, was.name, was.words) != (now.place, now.name, now.words)

    def of(self, crate, moved):
        """The pairs of one crate, by state; what is gone counts for the crate that its own has become."""
        mine = lambda was, now: now.place[0] if now else moved.get(was.place[0], was.place[0])
        return {state: [p for p in pairs if mine(*p) == crate] for state, pairs in self.pairs.items()}


def short(pair, crate):
    was, now = pair
    name = f"`{(now or was).at(crate)}`"
    if was and now and (was.place, was.name) != (now.place, now.name):
        name += f" (was `{was.at(crate if was.place[0] == crate else None)}`)"
    return name


def fence(text):
    return "```\n" + text.strip("\n") + "\n```\n"


def one_line(text):
    return " ".join(text.split())


def reason(pair, why):
    """Why a promise moved or is gone: what the first pattern says that fits its old name."""
    for pattern, text in why:
        if fnmatchcase(pair[0].at(), pattern):
            return f"Why: {text}\n"
    return "Why: not said\n"


def print_crate(crate, records, moved, long, why):
    shown = {sort: record.of(crate, moved) for sort, record in records.items()}
    if not any(pairs for states in shown.values() for state, pairs in states.items() if state != "stayed"):
        return
    print(f"\n## {crate}")
    for sort, states in shown.items():
        counts = ", ".join(f"{len(states[s])} {s}" for s in STATES if states[s])
        if any(states[s] for s in STATES[:3]):
            print(f"\n### {sort[0].upper()}{sort[1:]}: {counts}\n")
        for state in STATES[:3]:
            pairs = sorted(states[state], key=lambda p: (p[1] or p[0]).at(crate))
            if not pairs:
                continue
            if sort == "lemmas" and state != "moved":
                continue
            whole = sort == "promises" or sort == "definitions" and state == "moved" and long
            if not whole:
                print(f"{state.capitalize()}: " + ", ".join(short(p, crate) for p in pairs) + ".\n")
                continue
            for was, now in pairs:
                print(f"{state.capitalize()}: {short((was, now), crate)}")
                flat = one_line if sort == "promises" else str
                if was and now:
                    print("\nbefore\n" + fence(flat(was.text)) + "after\n" + fence(flat(now.text)))
                else:
                    print("\n" + fence(flat((was or now).text)))
                if why and was and sort == "promises":
                    print(reason((was, now), why))


def commit(folder):
    git = lambda *words: subprocess.run(["git", "-C", folder, *words], capture_output=True, text=True).stdout.strip()
    open_work = ", with changes that are not committed" if git("status", "--porcelain") else ""
    return (git("log", "-1", "--format=%h %s") or str(folder)) + open_work


def main():
    parser = argparse.ArgumentParser(description=__doc__, formatter_class=argparse.RawDescriptionHelpFormatter)
    parser.add_argument("before")
    parser.add_argument("after")
    parser.add_argument("--long", action="store_true", help="definitions that moved with their old and new text")
    parser.add_argument("--only", choices=SORTS, help="only the crates' lists of this sort")
    parser.add_argument("--renames", metavar="FILE")
    parser.add_argument("--moved", metavar="OLD=NEW", action="append", default=[])
    parser.add_argument("--why", metavar="FILE")
    given = parser.parse_args()
    why = [tuple(line.split(": ", 1)) for line in Path(given.why).read_text().splitlines() if line] if given.why else []
    renames = {}
    if given.renames:
        lines = [line.split() for line in Path(given.renames).read_text().splitlines() if line.strip() and not line.startswith("#")]
        for old, new in lines:
            renames[old] = renames[new] = renames.get(old) or renames.get(new) or new
    moved = dict(pair.split("=") for pair in given.moved)

    records = {sort: Record(collect(given.before, read), collect(given.after, read), renames, moved) for sort, read in SORTS.items()}
    print(f"# Record of a change\n\nBefore: {commit(given.before)}  \nAfter: {commit(given.after)}\n")
    print("| | moved | new | gone | stayed | of these relocated or renamed |\n|---|---:|---:|---:|---:|---:|")
    for sort, record in records.items():
        print(f"| {sort} | " + " | ".join(str(len(record.pairs[s])) for s in STATES) + f" | {record.elsewhere} |")
    records = {sort: record for sort, record in records.items() if given.only in (None, sort)}
    for crate in sorted({moved.get(c, c) for c in crates(given.before)} | set(crates(given.after))):
        print_crate(crate, records, moved, given.long, why)


if __name__ == "__main__":
    main()
