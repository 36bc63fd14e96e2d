#!/usr/bin/env python3
"""Spells this repository's own definitions, lemmas and fields as today's library does: words in snake case, where they had
inner capitals or hyphens. It is run once, behind the kit's port.py, at the top of the repository.

A name is respelled where it is declared in specs/ or in a lemma file of proofs/, and in each file that does not import it from
elsewhere. In a function's own proof files a name with hyphens is respelled where the file imports it, or as a field behind a dot.
A name whose new spelling stands in one of its files already, for something else, gets another (`INSTEAD`); a lemma that is
named as its definition gets `_law` behind it. Strings, and the
names of functions, stay. The crate `hex` gets another name, since the kit has one of that name now.
"""

import collections
import os
import re
import sys

NAME = r"[^\s(){}\[\].,;:@\"«»⌜⌝]+"
DECLARED = re.compile(r"^\s*(?:(?:pub|unfoldable|abbrev|private)\s+)*(" + NAME + r")(?:\s+\{[^{}]*\})*\s+:(?!:)")
USE = re.compile(r"\buse\s+([^\s;{]+?)\.?(?:\{([^}]*)\})?(?:\s+as\s+[^\s;]+)?\s*(?:;|$)", re.M)


def texts():
    for top in ("crates", "docs"):
        for folder, dirs, names in os.walk(top):
            dirs[:] = sorted(d for d in dirs if d != "out")
            for name in sorted(names):
                yield os.path.join(folder, name)
    for name in ("README.md", "CHANGELOG.md"):
        if os.path.exists(name):
            yield name


def is_lemma_file(path):
    return path.endswith(".antt") and ("/specs/" in path or re.search(r"/proofs/[^/]*\.antt$", path) is not None)


def is_function_file(path):
    return path.endswith(".antt") and not is_lemma_file(path)


def snake(name):
    words = re.sub(r"(?<=[a-z0-9])[A-Z]", lambda m: "_" + m[0].lower(), name)
    return words.replace("-", "_").replace("′", "'")


def declared(paths):
    names, fields = set(), set()
    for path in paths:
        if not is_lemma_file(path):
            continue
        with open(path, encoding="utf-8") as it:
            inside = None
            for line in it:
                if line.lstrip().startswith("--"):
                    continue
                indent = len(line) - len(line.lstrip())
                if inside is not None and line.strip() and indent <= inside:
                    inside = None
                found = DECLARED.match(line)
                if found:
                    (fields if inside is not None else names).add(found.group(1))
                if re.match(r"^\s*(?:pub\s+)?record\b.*\bwhere\b", line):
                    inside = indent
    return names, fields


def spoken(path, text):
    """The names that a clause, a definition or a lemma of a file could mean: of a source, without the names of functions."""
    if path.endswith(".rt"):
        text = re.sub(r"\bfn \w+|\b\w+::|::\w+|\b\w+\(", " ", text)
        text = re.sub(r"(?m)//.*$", "", text)
    else:
        text = re.sub(r"(?m)--.*$", "", text)
    return {m.group(2) for m in TOKEN.finditer(text) if m.group(2) and (m.start() == 0 or text[m.start() - 1] != ".")}


def to_turn(names):
    return {it for it in names if re.match(r"^[a-z]", it) and (re.search(r"[a-z0-9][A-Z]", it) or "-" in it or "′" in it)}


def foreign(text):
    """What a file imports from elsewhere than this repository's crates."""
    out = set()
    for found in USE.finditer(text):
        path, names = found.group(1), found.group(2)
        part = path.split(".")
        if part[0] == "Rattle" and len(part) > 1 and os.path.isdir(os.path.join("crates", part[1])):
            continue
        for name in (names or part[-1]).split(","):
            out.add(name.split(" as ")[0].strip())
    return out


def own(text):
    """What a file imports from this repository's definitions and lemmas."""
    out = set()
    for found in USE.finditer(text):
        part = found.group(1).split(".")
        if part[0] == "Rattle" and len(part) > 1 and os.path.isdir(os.path.join("crates", part[1])) and found.group(2):
            out |= {name.split(" as ")[0].strip() for name in found.group(2).split(",")}
    return out


# What falls together with another name of the same texts: a parameter, a field or another definition.
INSTEAD = {"allUp": "all_up_in", "cutOff": "cut_size", "takeAll": "taken_all"}

CRATE = ("hex", "hex_text")


def rename_crate():
    old, new = CRATE
    if not os.path.isdir(f"crates/{old}"):
        return
    os.rename(f"crates/{old}", f"crates/{new}")
    with open("crates.txt", encoding="utf-8") as it:
        lines = it.read().split("\n")
    lines = [line if line.startswith("#") else re.sub(rf"\b{old}\b", new, line) for line in lines]
    with open("crates.txt", "w", encoding="utf-8") as out:
        out.write("\n".join(lines))
    for path in texts():
        if path.endswith((".antt", ".rt", ".edit")):
            with open(path, encoding="utf-8") as it:
                text = it.read()
            made = text.replace(f"Rattle.{old}.", f"Rattle.{new}.")
            if not path.endswith(".antt"):
                made = re.sub(rf"(?<![\w:.]){old}::", f"{new}::", made)
            if made != text:
                with open(path, "w", encoding="utf-8") as out:
                    out.write(made)


TOKEN = re.compile(r'(b?"(?:[^"\\]|\\.)*")|(' + NAME + ")")


def turn(text, table, fields, only=None):
    def one(found):
        word = found.group(2)
        if word is None:
            return found.group(0)
        behind_dot = found.start() > 0 and text[found.start() - 1] == "."
        if only is not None and "-" in word and not (behind_dot and word in fields or word in only and not behind_dot):
            return word
        return table.get(word, word)

    return TOKEN.sub(one, text)


def in_backticks(text, table):
    return re.sub(r"`[^`\n]*`", lambda m: turn(m.group(0), table, set()), text)


def main():
    rename_crate()
    paths = list(texts())
    names, fields = declared(paths)
    wanted = to_turn(names | fields)
    tokens = {}
    for path in paths:
        if path.endswith((".antt", ".rt")):
            with open(path, encoding="utf-8") as it:
                text = it.read()
            tokens[path] = spoken(path, text)
    table, spelled = {}, collections.defaultdict(set)
    for word in wanted:
        spelled[snake(word)].add(word)
    for word in sorted(wanted):
        new = snake(word)
        clash = "-" in word and len(spelled[new]) > 1
        clash = clash or any(word in it and new in it for it in tokens.values())
        if clash:
            new = INSTEAD.get(word, new + "_law")
        table[word] = new
    for path in paths:
        if path.endswith(".md"):
            with open(path, encoding="utf-8") as it:
                text = it.read()
            made = in_backticks(text, table)
        elif path.endswith((".antt", ".rt", ".edit")):
            with open(path, encoding="utf-8") as it:
                text = it.read()
            elsewhere = foreign(text)
            here = {k: v for k, v in table.items() if k not in elsewhere}
            mine = own(text) if is_function_file(path) else None
            comment = "//" if path.endswith(".rt") else "#" if path.endswith(".edit") else "--"
            lines = []
            for line in text.split("\n"):
                code, mark, said = line.partition(comment)
                if code.count('"') % 2:
                    code, mark, said = line, "", ""
                lines.append(turn(code, here, fields, mine) + mark + in_backticks(said, here))
            made = "\n".join(lines)
        else:
            continue
        if made != text:
            with open(path, "w", encoding="utf-8") as out:
                out.write(made)
    print(f"{len(table)} names respelled")


if __name__ == "__main__":
    sys.exit(main())
