#!/usr/bin/env python3
"""Gives the names that a repository's own definitions and laws have the spelling of Rattle: words in snake case, `full_path` for
`fullPath`, `body_end_gap` for `bodyEnd-gap`. Usage: tools/snake_names.py [FOLDER], the top of a repository, once.

Rewritten in place are the files below crates/ and the code spans of pages. What stays: texts in quotes, types and modules, names of the
libraries, and the labels that the prover makes of code. A law whose name would be that of a definition beside it gets `_lem` behind it.
"""

import os
import re
import sys

# What reads otherwise than the rule has it: names that a parameter of the functions that cite them has already, names of the older
# library, and what the scripts of the toolchain had turned into another word.
APART = {
    "fromStart": "from_start_of",
    "fromSize": "from_size_of",
    "toStart": "to_start_of",
    "toSize": "to_size_of",
    "keyStart": "key_start_of",
    "keySize": "key_size_of",
    "valueStart": "value_start_of",
    "valueSize": "value_size_of",
    "getD": "get_or",
    "field_own": "own_at",
}

NAME = re.compile(r"(?<![\w'-])[A-Za-z_][\w'?]*(?:-[\w'?]+)*")
QUOTED = re.compile(r"""b?"(?:[^"\\]|\\.)*"|(?<![\w'])b?'(?:[^'\\\n]|\\[^\n]{1,9}?)'(?![\w'])""")
IMPORT = re.compile(r"(?m)^(?:ghost )?use ([^\s{;]+)\.\{([^}]*)\}")
QUALIFIED = re.compile(r"(?<![\w'.])([^\W\d][\w.]*)\.([A-Za-z_][\w'?]*(?:-[\w'?]+)*)")
LIBRARIES = ("mathlib.", "lib.", "Prim.", "Rattle.std.", "Rattle.core.")
MODULE = re.compile(r"(?m)^(?:ghost )?use ([^\s{;]+)\.([^\s{;.]+);?$")
DECLARED = re.compile(r"(?m)^ *(?:\w+ )*?([^\s(){}.;,]+)(?: \{[^{}\n]*\})* :(?! goal\.)")
LOCAL = re.compile(r"\blet ([^\s(){}.;,]+)|\blet \(([^\s(){}.;]+), ([^\s(){}.;]+)\)")
MADE = re.compile(r"(?:if|then|else|loop|returns|invariant|decreases)-|in-[A-Z]|[A-Z]\w*-|.*-(?:requires|ensures|via)(?:-|$)")


def is_own_path(path, crates):
    parts = path.split(".")
    return parts[0] == "Rattle" and len(parts) > 1 and parts[1] in crates


class Source:
    """A file with its text, the names that it says outside quotes and comments, and those that it has from a library."""

    def __init__(self, path, crates):
        self.path = path
        with open(path, encoding="utf-8") as f:
            self.text = f.read()
        mark = "//" if path.endswith(".rt") else "--"
        bare = "".join("" if quoted else piece for piece, quoted in pieces(re.sub(r"(^|\s)" + mark + r".*", r"\1", self.text)))
        self.is_antt = path.endswith(".antt")
        self.is_of_function = bool(re.search(r"/proofs/.+/[A-Z]\w*\.antt$", path))
        self.foreign = set()
        for where, names in IMPORT.findall(bare):
            if not is_own_path(where, crates):
                self.foreign.update(NAME.findall(names))
        self.foreign |= {name for where, name in MODULE.findall(bare) if not is_own_path(where, crates)}
        body = IMPORT.sub("", bare)
        self.foreign |= {name for module, name in QUALIFIED.findall(body) if module in self.foreign or module.startswith(LIBRARIES)}
        self.laws = {name for where, names in IMPORT.findall(bare) if ".proofs." in where for name in NAME.findall(names)} - self.foreign
        self.said = set(NAME.findall(bare))
        self.labels = set(re.findall(r"(?<![\w'])(?:c|goal)\.([\w'?-]+)", body))
        self.declared = set(DECLARED.findall(body)) | {name for found in LOCAL.findall(body) for name in found if name}
        if self.is_antt and not self.is_of_function and "/proofs/" in path:
            self.laws |= self.declared


def is_made(name):
    return bool(MADE.match(name))


def pieces(text):
    """The text as (piece, whether it is quoted)."""
    last = 0
    for m in QUOTED.finditer(text):
        yield text[last : m.start()], False
        yield m[0], True
        last = m.end()
    yield text[last:], False


def sources(root):
    crates = set(os.listdir(os.path.join(root, "crates")))
    for folder, folders, files in os.walk(os.path.join(root, "crates")):
        folders[:] = sorted(f for f in folders if f != "out")
        for f in sorted(files):
            if f.endswith((".rt", ".antt", ".edit")):
                yield Source(os.path.join(folder, f), crates)


def pages(root):
    for folder, folders, files in os.walk(root):
        folders[:] = [f for f in folders if f not in (".git", "crates", "target")]
        yield from (os.path.join(folder, f) for f in files if f.endswith(".md"))


def in_words(name):
    """The name in snake case; each part of a name with dashes may be another name."""
    parts = [APART.get(part, part) for part in name.split("-")]
    return "_".join(re.sub(r"(?<=[a-z0-9_])[A-Z]", lambda m: "_" + m[0].lower(), part) for part in parts)


def is_camel(name):
    return name[0].islower() and any(letter.isupper() for letter in name)


def own_names(files):
    """The names that turn: those of definitions in camel case, and those with a dash that the repository's own texts declare."""
    names = set()
    for file in files:
        for name in file.said - file.foreign:
            if "-" not in name:
                names.update({name} if is_camel(name) or name in APART else ())
            elif file.is_antt and not is_made(name) and (not file.is_of_function or name in file.declared):
                names.add(name)
    labels = {label for file in files for label in file.labels}
    return {name for name in names if "-" not in name or name not in labels}


def turned_names(files):
    """Each old name with its new one, and the laws in snake case that get `_lem`. A law meets another name where a file says both."""
    new = {name: in_words(name) for name in own_names(files)}
    plain = {name for name in new if "-" not in name}
    met = set()
    for file in files:
        said = {new.get(name, name) for name in file.said if name not in new or name in plain}
        for name in (file.said - file.foreign) & (new.keys() - plain):
            if in_words(name) in said:
                new[name] = in_words(name) + "_lem"
        met |= file.laws & {new[name] for name in file.said & plain}
    return new, met


def turned(file, names, met):
    here = names | {name: name + "_lem" for name in met & file.laws}
    turn = lambda m: m[0] if m[0] in file.foreign else here.get(m[0], m[0])
    return "".join(piece if quoted else NAME.sub(turn, piece) for piece, quoted in pieces(file.text))


def main():
    root = sys.argv[1] if len(sys.argv) > 1 else "."
    files = list(sources(root))
    names, met = turned_names(files)
    changed = 0
    for file in files:
        text = turned(file, names, met)
        if text != file.text:
            with open(file.path, "w", encoding="utf-8") as f:
                f.write(text)
            changed += 1
    for path in sorted(pages(root)):
        with open(path, encoding="utf-8") as f:
            text = f.read()
        new = re.sub(r"`[^`\n]*`", lambda m: NAME.sub(lambda n: names.get(n[0], n[0]), m[0]), text)
        if new != text:
            with open(path, "w", encoding="utf-8") as f:
                f.write(new)
            changed += 1
    for name in sorted(met):
        print(f"{name}, where it is a law, is now {name}_lem")
    for name, new in sorted(names.items()):
        if new != in_words(name):
            print(f"{name} is now {new}")
    print(f"{len(names)} names in {changed} files")


main()
