#!/usr/bin/env python3
"""Respells this repository's own names in definitions and proofs: functions, lemmas, fields and variables in snake case, types
and facts in upper camel case. Names that a file imports from outside the repository, or takes from a module that the check
makes (tie.X), keep their spelling; so do strings and the words of comments, but for names in backquotes.

usage: python3 tools/respell.py [ROOT]     rewrites crates/, README.md and docs/ in place
"""
import glob
import os
import re
import sys

NAME = re.compile(r"(?<![\w'₀-₉·\-◌])([^\W\d_][\w'₀-₉]*(?:-[\w'₀-₉]+)+)(?![\w'₀-₉\-◌])")
USE = re.compile(r"\buse ([\w.'+\-]+)\.\{([^}]*)\}", re.S)
SIGNATURE = re.compile(r"(?:abbrev |unfoldable |opaque )*(?:pub )?([^\W\d_][\w'₀-₉\-]*) :(?= |$)(.*)")
DECLARED = re.compile(r"(?:pub )?(?:record|data) ([^\W\d_][\w'₀-₉\-]*)")


def read(path):
    with open(path, encoding="utf-8") as f:
        return f.read()


def without_comments(text):
    return re.sub(r"--.*", "", text)


def result_of(signature):
    """The text after the last arrow that stands in no brackets."""
    depth, start = 0, 0
    for at, c in enumerate(signature):
        if c in "({[":
            depth += 1
        elif c in ")}]":
            depth -= 1
        elif c == "→" and depth == 0:
            start = at + 1
    return signature[start:].strip()


def types_in(text):
    """The names that a file declares as types or facts."""
    found, lines = set(), without_comments(text).split("\n")
    for at, line in enumerate(lines):
        bare = line.strip()
        declared = DECLARED.match(bare)
        if declared:
            found.add(declared.group(1))
            continue
        signed = SIGNATURE.match(bare)
        if not signed:
            continue
        indent, more = len(line) - len(line.lstrip()), [signed.group(2)]
        for below in lines[at + 1 :]:
            if not below.strip() or len(below) - len(below.lstrip()) <= indent:
                break
            more.append(below.strip())
        if re.fullmatch(r"Type(?: \d+)?", result_of(" ".join(more))):
            found.add(signed.group(1))
    return found


def camel(name):
    return "".join(part[:1].upper() + part[1:] for part in name.split("-"))


class Names:
    def __init__(self, root):
        self.crates = set(os.listdir(os.path.join(root, "crates")))
        self.sources = sorted(glob.glob(os.path.join(root, "crates/*/*/**/*.antt"), recursive=True))
        self.code = sorted(glob.glob(os.path.join(root, "crates/*/src/**/*.rt"), recursive=True))
        self.edits = sorted(glob.glob(os.path.join(root, "crates/*/must-fail/*.edit")))
        self.pages = [os.path.join(root, "README.md"), *sorted(glob.glob(os.path.join(root, "docs/*.md")))]
        self.types, self.outside = set(), set()
        for path in self.sources:
            self.types |= types_in(read(path))
        for path in [*self.sources, *self.code]:
            self.outside |= self.imported(read(path))
        owned = set()
        for path in self.sources:
            for line in without_comments(read(path)).split("\n"):
                signed = SIGNATURE.match(line.strip())
                if signed:
                    owned.add(signed.group(1))
        self.shared = self.outside & owned

    def imported(self, text):
        """The names that a file takes from outside the repository."""
        names = set()
        for module, listed in USE.findall(text):
            parts = module.split(".")
            if parts[0] == "Rattle" and len(parts) > 1 and parts[1] in self.crates:
                continue
            names |= {name.strip().split(" as ")[0] for name in listed.split(",")}
        return names

    def turned(self, text, kept):
        def one(found):
            name = found.group(1)
            before = text[: found.start()]
            if name in kept or before.endswith("tie."):
                return name
            return camel(name) if name in self.types else name.replace("-", "_")

        return NAME.sub(one, text)

    def kept(self, text):
        here = self.imported(text)
        return (self.outside - self.shared) | here

    def in_quotes(self, text, kept):
        return re.sub(r"`[^`\n]*`", lambda m: self.turned(m.group(0), kept), text)

    def antt(self, text):
        kept, out = self.kept(text), []
        for line in text.split("\n"):
            code, mark, said = line.partition("--")
            out.append(self.turned(code, kept) + mark + self.in_quotes(said, kept))
        return "\n".join(out)

    def rt(self, text, kept=None):
        kept, out = self.kept(text) if kept is None else kept, []
        for line in text.split("\n"):
            code, mark, said = line.partition("//")
            parts = re.split(r'("(?:[^"\\]|\\.)*")', code)
            code = "".join(p if p.startswith('"') else self.turned(p, kept) for p in parts)
            out.append(code + mark + self.in_quotes(said, kept))
        return "\n".join(out)

    def edit(self, text):
        kept, out = self.outside - self.shared, []
        for line in text.split("\n"):
            head, colon, said = line.partition(": ")
            out.append(head + colon + self.rt(said, kept) if head in ("old", "new") else line)
        return "\n".join(out)

    def page(self, text):
        return self.in_quotes(text, self.outside - self.shared)


def main():
    names = Names(sys.argv[1] if len(sys.argv) > 1 else ".")
    for paths, turn in ((names.sources, names.antt), (names.code, names.rt), (names.edits, names.edit), (names.pages, names.page)):
        for path in paths:
            old = read(path)
            new = turn(old)
            if new != old:
                with open(path, "w", encoding="utf-8") as f:
                    f.write(new)


main()
