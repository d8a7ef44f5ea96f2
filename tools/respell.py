#!/usr/bin/env python3
"""Brings the names of definitions and lemmas to one spelling: words in snake case, with a dash only after a type's name.

usage: python3 tools/respell.py          rewrites crates/*/{src,specs,proofs,must-fail} in place
       python3 tools/respell.py --list   prints each old name with its new one, and names that would fall together

It was run once, over what the port's own scripts had made of the tree. Names of Rust items, of modules and of types keep
their spelling; so do names that a file imports from the standard library, and in a proof by hand what the check generates.
"""
import collections
import os
import re
import sys

TOKEN = re.compile(r"[^\s(){}\[\],;.\"`«»|]+")
NAME = re.compile(r"[^\W\d][\w\-'·₀-₉]*$")
DECLARED = re.compile(r"^\s*(?:(?:abbrev|unfoldable|pub|data|record|opaque|mod|module)\s+)*([^\s:(){}.]+)(?:\s+[({].*?[)}])*\s*:\s")
LET = re.compile(r"\blet\s+([^\s:(){}.=]+)\s*[:=]\s")
USE = re.compile(r"(?m)^\s*(?:pub )?(?:ghost )?use\s+([^\s{;]+?)\.\{([^}]*)\}")
COMMENT = re.compile(r"--.*")

# A call as data is named after its function.
CALLS = "crates/made/specs/Made.antt"


def snake(word):
    word = word.replace("NaN", "Nan")
    word = re.sub(r"([a-z0-9])([A-Z])", r"\1_\2", word)
    word = re.sub(r"([A-Z]+)([A-Z][a-z])", r"\1_\2", word)
    return word.lower()


def respelled(name):
    """The new spelling of a name of ours, or the same."""
    if "·" in name:
        kind, rest = name.split("·", 1)
        return kind + "-" + rest.replace("-", "_")
    if name[0].isupper():
        return name.replace("-", "_")
    return "_".join(snake(part) for part in name.split("-"))


def by_hand(path):
    """Whether the file is the proof of one function."""
    return re.search(r"/proofs/[^/]+/.*\.antt$", path) is not None


def files(root, *kinds):
    for folder, dirs, names in os.walk(os.path.join(root, "crates")):
        dirs[:] = sorted(d for d in dirs if d != "out")
        for name in sorted(names):
            if name.endswith(kinds):
                yield os.path.join(folder, name)


def text_of(path):
    with open(path, encoding="utf-8") as f:
        return f.read()


def borrowed(text):
    """The names that a file imports from outside the repository."""
    names = set()
    for home, listed in USE.findall(text):
        if not home.startswith("Rattle.") or home.startswith("Rattle.std."):
            names |= {n.strip().split(" as ")[0] for n in listed.split(",")}
    return names


def ours(root):
    """Every name that specs/ and the lemma files declare, where the new spelling differs: old to new.
    A lemma that would get its function's name ends in _lem; a call as data begins with its type's name."""
    names, functions, calls, beside = set(), set(), set(), collections.defaultdict(set)
    for path in files(root, ".antt"):
        if by_hand(path):
            continue
        text = COMMENT.sub("", text_of(path))
        lent = borrowed(text)
        for line in text.split("\n"):
            m = DECLARED.match(line) or LET.search(line)
            if m and NAME.match(m.group(1)) and m.group(1) not in lent:
                names.add(m.group(1))
                if re.match(r"\s*(abbrev|unfoldable)\b", line) or snake(m.group(1)) != m.group(1) and "-" not in m.group(1):
                    functions.add(m.group(1))
                if path.endswith(CALLS) and line.startswith("  ") and line.endswith("Call"):
                    calls.add(m.group(1))
        bare = re.sub(r"(?m)^\s*(pub )?use\s+[^\s{;]+", "", text)
        for m in TOKEN.finditer(bare):
            if not bare[: m.start()].endswith("."):
                beside[m.group(0)].add(path)
    taken = {respelled(n): n for n in functions}
    found = {}
    for name in names:
        new = respelled(name)
        if name in calls:
            new = "Call-" + new
        elif name not in functions and new in taken and (new != name or beside[name] & beside[taken[new]]) and taken[new] != name:
            new += "_lem"
        if new != name:
            found[name] = new
    return found


def turned(text, names, fields, lent, marks):
    """The text with the names in their new spelling; marks begins a comment, where only whole names with capitals turn."""
    out, at, quiet = [], 0, False
    for line in text.split("\n"):
        cut = line.find(marks)
        code, said = (line, "") if cut < 0 else (line[:cut], line[cut:])

        def one(m, table):
            word = m.group(0)
            if word in lent or word not in table:
                return word
            return table[word]

        def code_token(m):
            before = code[: m.start()]
            return one(m, fields if before.endswith(".") else names)

        def said_token(m):
            word = m.group(0)
            if "-" in word and not (said[: m.start()].endswith("`") or said[m.end() :].startswith("`")):
                return word
            return one(m, names)

        out.append(TOKEN.sub(code_token, code) + TOKEN.sub(said_token, said))
    return "\n".join(out)


def fell_together(root, names):
    """New names that two old ones share, or that a file has already."""
    news = collections.defaultdict(set)
    for old, new in names.items():
        news[new].add(old)
    for new, olds in sorted(news.items()):
        if len(olds) > 1:
            yield new, sorted(olds)
    for path in files(root, ".antt"):
        text = COMMENT.sub("", text_of(path))
        here = set(TOKEN.findall(text))
        for old, new in names.items():
            if old in here and new in here:
                yield path, [old, new]


def main(argv):
    root = os.path.dirname(os.path.dirname(os.path.realpath(__file__)))
    names = ours(root)
    if argv == ["--list"]:
        for old, new in sorted(names.items()):
            print(old, new)
        for where, olds in fell_together(root, names):
            print("together:", where, *olds)
        return 0
    for path in files(root, ".antt", ".rt", ".edit"):
        text = text_of(path)
        source = path.endswith(".rt") or (path.endswith(".edit") and re.search(r"(?m)^file: (\./)?src/", text) is not None)
        # A name in snake case may be a Rust function's, or a part of a path.
        words = {o: n for o, n in names.items() if not (source and o == snake(o) and "-" not in o)}
        fields = {} if by_hand(path) else {o: n for o, n in names.items() if o != snake(o) or "-" in o}
        new = turned(text, words, fields, borrowed(text), "//" if source else "--")
        if new != text:
            with open(path, "w", encoding="utf-8") as f:
                f.write(new)
    return 0


if __name__ == "__main__":
    raise SystemExit(main(sys.argv[1:]))
