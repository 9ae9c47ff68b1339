#!/usr/bin/env python3
"""Brings the repository's own names to today's spelling, once, after port.py has run on the older text.

Usage, from the repository's top: python3 tools/spelling.py [--dry]

A definition or a lemma that was in camel case is in snake case (`markSize`: `mark_size`). In a lemma's name, and in that
of a field or a constructor of specs/ and proofs/, a dash stays before a function's name and is else `_` (`block-short`:
`block_short`, `le-bytesOf`: `le-bytes_of`). What would so get the name of something else that is declared has `_lem` behind
it. Types and modules, functions of src/ and their fields, constants, exported names and strings keep their names. It goes
through the .antt and .rt files, the must-fail edits, and what stands in backticks in README.md and docs/; a name with a
dash that stands in a comment is left to the hand.
"""
import collections
import pathlib
import re
import sys

DEFINED = re.compile(r"^ *(?:pub |abbrev |unfoldable |mutual )*([A-Za-z_][^\s(){}:,;.]*)(?: [A-Za-z_][^\s(){}:,;.]*)* :(?: |$)")
TOKEN = re.compile(r"(?<![A-Za-z0-9_'])[A-Za-z_][A-Za-z0-9_'₀-₉]*(?:-[A-Za-z0-9_'₀-₉]+)*")
CODE = re.compile(r"(?<![A-Za-z0-9_'])[A-Za-z_][A-Za-z0-9_₀-₉]*(?:-[A-Za-z0-9_₀-₉]+)*(?!')")
# the functions whose names stand as a part of a lemma's, behind a dash; any other word is added with `_`
FUNCTIONS = set("length drop take append mod pow suc le get_or snoc replicate shr block put tabulate bytes_of flat".split())
# what a file takes from a library under one of our older names: it stays
STAYS = set()
# what would fall together with another name once it is in snake case, and what needs no `_lem`
OTHERWISE = {"with-clear": "with_clear", "with-update": "with_update", "at-end": "at_end",
             "bit-or": "bit_or_lem", "said-done": "said_done_lem", "logStart": "log_start_of", "at-change": "at_change_lem", "after-end": "after_end_lem", "log-two": "log_two_lem",
             "put-end": "put_end_lem", "put-start": "put_start_lem", "nodes-at": "nodes_at_lem", "read-entry": "read_entry_lem"}


def snake(part):
    if part == "getD":
        return "get_or"
    if not part or not (part[0].islower() or part[0] == "_"):
        return part
    part = re.sub(r"(?<=[a-z0-9])([A-Z]+)(?=[A-Z][a-z])", lambda m: "_" + m.group(1).lower(), part)
    return re.sub(r"(?<=[a-z0-9'])([A-Z])", lambda m: "_" + m.group(1).lower(), part)


def texts(top):
    for pattern in ("crates/*/specs/**/*.antt", "crates/*/proofs/**/*.antt", "crates/*/src/**/*.rt",
                    "crates/*/must-fail/*.edit", "docs/*.md", "README.md"):
        yield from sorted(top.glob(pattern))


def main():
    top = pathlib.Path(".")
    defined = set()
    for path in sorted(top.glob("crates/*/specs/*.antt")) + sorted(top.glob("crates/*/proofs/*.antt")):
        for line in path.read_text().split("\n"):
            found = DEFINED.match(line)
            if found:
                defined.add(found.group(1))

    def lemma(name):
        parts = [snake(part) for part in name.split("-")]
        out = parts[0]
        for part in parts[1:]:
            joined = part in FUNCTIONS or any(part.startswith(word + "_") for word in FUNCTIONS - {"le", "suc"})
            out += ("-" if joined else "_") + part
        return out

    plain = {snake(name) for name in defined if "-" not in name}
    named = {name: lemma(name) + ("_lem" if lemma(name) in plain else "") for name in defined
             if "-" in name and name[0].islower()}
    changed = collections.Counter()

    def renamed(token):
        if token in STAYS:
            new = token
        elif token in OTHERWISE:
            new = OTHERWISE[token]
        elif token in named:
            new = named[token]
        elif token.startswith("r-") or "-" in token and any(part[:1].isupper() for part in token.split("-")):
            new = token
        else:
            new = "-".join(snake(part) for part in token.split("-"))
        if new != token:
            changed[token, new] += 1
        return new

    def outside(text):
        """The names of ours that a file takes from a library under the older spelling: they stay."""
        lines = re.findall(r"^use (?!Rattle\.)\S+\.\{([^}]*)\}", text, re.M)
        return {word.strip() for line in lines for word in line.split(",")} & set(named)

    def line_of(line, kind):
        if kind == ".md":
            return re.sub(r"`[^`]*`", lambda m: TOKEN.sub(lambda t: renamed(t.group()), m.group()), line)
        if kind == ".rt" or kind == ".edit":
            code, quote, rest = line.partition('"')
            return CODE.sub(lambda t: renamed(t.group()) if "-" not in t.group() or t.group() in named else t.group(), code) + quote + rest
        code, mark, rest = line.partition("-- ") if line.startswith("-- ") else (line, "", "")
        rest = TOKEN.sub(lambda t: renamed(t.group()) if "-" not in t.group() else t.group(), rest)
        return TOKEN.sub(lambda t: renamed(t.group()), code) + mark + rest

    before = collections.Counter()
    out = {}
    for path in texts(top):
        text = path.read_text()
        for token in TOKEN.findall(text):
            before[token] += 1
        STAYS.clear()
        STAYS.update(outside(text))
        out[path] = "\n".join(line_of(line, path.suffix) for line in text.split("\n"))
    news = collections.defaultdict(set)
    for (old, new), _ in changed.items():
        news[new].add(old)
    for new, olds in sorted(news.items()):
        if len(olds) > 1 or before[new]:
            print("falls together:", new, sorted(olds), before[new])
    if "--dry" in sys.argv:
        for (old, new), n in sorted(changed.items()):
            print(n, old, new)
        return
    for path, text in out.items():
        if text != path.read_text():
            path.write_text(text)
    print(len(changed), "names")


main()
