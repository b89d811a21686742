"""Reads the repository's .antt and .rt files for the tools beside it. It knows their outer form, and not the languages.

definitions(text)   the definitions of an .antt file, each with its words
clauses(text)       the clauses and ghost members of an .rt file, each with the call or type that it belongs to
words(text)         a text as a list of words, so that white space and line breaks make no difference
"""

import re
from pathlib import Path
from typing import NamedTuple


class Definition(NamedTuple):
    name: str
    text: str  # without comments; inside `module` and `mutual` with their head before it
    line: int


class Clause(NamedTuple):
    owner: str  # the type, trait or `Trait for Type` that the function stands in, empty at the top
    function: str  # empty for a ghost member of a type or trait
    kind: str  # ensures, requires or ghost
    name: str  # empty where it has none
    text: str  # what stands between the braces
    public: bool
    first: int  # its lines in the file, counted from 1
    last: int


WORD = re.compile(r"[(){}\[\];,.]|[^\s(){}\[\];,.]+")


def words(text):
    found = WORD.findall(text)
    # A comma or semicolon before a closing bracket is the layout's.
    return [w for w, after in zip(found, found[1:] + [""]) if not (w in (",", ";") and after in (")", "]", "}"))]


def crates(folder):
    """The crates of a checkout, by name."""
    return {path.name: path for path in sorted((Path(folder) / "crates").iterdir()) if path.is_dir()}


def files(folder, ending):
    """The files of a folder with this ending, without those that are made."""
    return [p for p in sorted(Path(folder).rglob("*" + ending)) if not {"out", "target"} & set(p.parts)]


# .antt


def without_comments(text):
    return re.sub(r"(?m)(^|\s)--(?=\s|$).*$", r"\1", text)


USE = re.compile(r"(?m)^ *(?:ghost )?(?:use\b[^{\n]*(?:\{[^}]*\}[^\n]*)?|pub mod \S+|mod \S+)$")


def without_uses(text):
    """Without `use` and `mod` lines, whose line breaks stay; a `use` ends where its braces close."""
    return USE.sub(lambda m: "\n" * m.group(0).count("\n"), text)


SIGNATURE = re.compile(r"((?:abbrev|unfoldable|pub|mutual) +)*(?:(?:record|data) +(?P<kept>[^\s:(){}]+)|(?P<plain>[^\s:(){}]+)\s+:(?=\s|$))")
GROUP = re.compile(r"(?:(?:abbrev|unfoldable|pub) +)*(module\b|mutual *$)")


def definitions(text):
    lines = without_uses(without_comments(text)).split("\n")
    return list(_definitions(lines, 0, 0, ""))


def _definitions(lines, start, indent, head):
    i, name, begun, body = 0, None, 0, []
    for i, line in _blocks(lines, indent):
        group, signature = GROUP.match(line[0][indent:]), SIGNATURE.match("\n".join(line)[indent:])
        if group or signature:
            if name:
                yield Definition(name, head + "\n".join(body).rstrip(), start + begun + 1)
            name = None
        if group:
            top = 1
            while group.group(1) == "module" and not line[top - 1].rstrip().endswith("where") and top < len(line):
                top += 1
            inner = "\n".join(line[:top]) + "\n"
            yield from _definitions(line[top:], start + i + top, indent + 2, head + inner)
        elif signature:
            name, begun, body = signature["kept"] or signature["plain"], i, list(line)
        elif name:
            body += line
    if name:
        yield Definition(name, head + "\n".join(body).rstrip(), start + begun + 1)


def _blocks(lines, indent):
    """Each line that begins at this column, with the deeper and blank ones after it."""
    at = [i for i, line in enumerate(lines) if line.strip() and len(line) - len(line.lstrip()) == indent]
    for i, end in zip(at, at[1:] + [len(lines)]):
        yield i, lines[i:end]


# .rt

# A quote right behind a name is a prime, and one with no second quote a lifetime.
BLANKED = re.compile(r"//[^\n]*|\"(?:[^\"\\]|\\.)*\"|(?<![\w'])(?:b)?'(?:[^'\\\n]|\\[^\n]+?)'", re.S)


def _blank(text):
    """The same length and lines, with comments, strings and characters as spaces."""
    return BLANKED.sub(lambda m: re.sub(r"[^\n]", " ", m.group(0)), text)


def _close(text, start):
    """The place behind the brace that closes the one at `start`."""
    depth = 0
    for i in range(start, len(text)):
        depth += {"{": 1, "}": -1}.get(text[i], 0)
        if depth == 0:
            return i + 1
    return len(text)


def _stop(text, start, end):
    """The first `{` or `;` outside of round and square brackets."""
    depth = 0
    for i in range(start, end):
        if text[i] in "([":
            depth += 1
        elif text[i] in ")]":
            depth -= 1
        elif depth == 0 and text[i] in "{;":
            return i
    return end


HEAD = re.compile(r"(?P<pub>pub(?P<within>\([^)]*\))? +)?(?:unsafe +)?(?P<what>fn|impl|trait|struct|enum|mod|const|static|use|type|ghost|macro_rules!)\b|(?:pub(?P<c_within>\([^)]*\))? +)?(?:unsafe +)?extern +\S* *(?P<c>fn|\{)")
PART = re.compile(r"\b(ensures|requires)\s*(\w*)\s*$")


def clauses(text):
    # An ABI's name is a string, which is blanked: `extern "C" fn` becomes `extern     fn`.
    blank = _blank(text)
    hidden = set(re.findall(r"^\s*trait (\w+)", blank, re.M))
    return list(_clauses(text, blank, 0, len(blank), "", False, hidden))


def _clauses(text, blank, at, end, owner, public, hidden):
    def clause(function, kind, name, opened, closed, shown, begun):
        inner = re.sub(r"//[^\n]*|(?:^|(?<=\s))--(?=\s)[^\n]*", "", text[opened + 1 : closed - 1])
        return Clause(owner, function, kind, name, " ".join(inner.split()), shown, blank.count("\n", 0, begun) + 1, blank.count("\n", 0, closed) + 1)

    while at < end:
        found = re.compile(r"[#\w}]").search(blank, at, end)
        if not found:
            return
        at = found.start()
        if blank[at] == "#":
            opened = blank.find("[", at)
            depth = 0
            for at in range(opened, end):
                depth += {"[": 1, "]": -1}.get(blank[at], 0)
                if depth == 0:
                    break
            at += 1
            continue
        head = HEAD.match(blank, at)
        if not head:
            at = re.compile(r"\w+|.").match(blank, at).end()
            continue
        what = head["what"] or head["c"]
        if what == "fn":
            function = re.compile(r"\s*(\w+)").match(blank, head.end())
            whole = head["pub"] and not head["within"] or head["c"] and not head["c_within"]
            shown, at = public or bool(whole), function.end()
            while True:
                stop = _stop(blank, at, end)
                part = PART.search(blank, at, stop) if stop < end and blank[stop] == "{" else None
                if not part:
                    break
                closed = _close(blank, stop)
                yield clause(function.group(1), part.group(1), part.group(2), stop, closed, shown, part.start())
                at = closed
            at = _close(blank, stop) if stop < end and blank[stop] == "{" else stop + 1
        elif what == "ghost":
            stop = _stop(blank, head.end(), end)
            member = re.compile(r"\s*(\w+)\s*[:=]\s*$").match(blank, head.end(), stop)
            if member and blank[stop : stop + 1] == "{":
                closed = _close(blank, stop)
                yield clause("", "ghost", member.group(1), stop, closed, public, at)
                at = closed
            else:
                at = blank.find(";", at) + 1 or end
        elif what in ("impl", "trait", "struct", "enum", "mod", "{"):
            stop = _stop(blank, head.end(), end)
            name = " ".join(text[head.end() : stop].split())
            if blank[stop : stop + 1] == "{" and what not in ("enum",):
                closed = _close(blank, stop)
                inner, shown = owner, bool(head["pub"]) and not head["within"]
                if what == "impl":
                    inner = _plain(name)
                    # A call of a trait is as public as the trait; of a type's own calls each says it itself.
                    shown = " for " in inner and re.match(r"\w+", inner).group(0) not in hidden
                elif what in ("trait", "struct"):
                    inner = re.match(r"\w+", name).group(0)
                elif what == "mod":
                    inner, shown = "::".join(filter(None, [owner, name])), False
                yield from _clauses(text, blank, stop + 1, closed - 1, inner, shown, hidden)
                at = closed
            else:
                at = _close(blank, stop) if blank[stop : stop + 1] == "{" else stop + 1
        else:
            # const, static, use, type: to the semicolon behind all brackets.
            depth = 0
            for at in range(head.end(), end):
                depth += 1 if blank[at] in "([{" else -1 if blank[at] in ")]}" else 0
                if depth == 0 and blank[at] == ";":
                    break
            at += 1


def _plain(head):
    """The head of an `impl` without its own generics and without lifetimes: `Type`, or `Trait for Type`."""
    if head.startswith("<"):
        depth = 0
        for i, c in enumerate(head):
            depth += 1 if c == "<" else -1 if c == ">" and head[i - 1] != "-" else 0
            if depth == 0:
                head = head[i + 1 :]
                break
    return re.sub(r"<'\w+>| where .*", "", head).strip()
