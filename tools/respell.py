#!/usr/bin/env python3
"""Spells this repository's own definitions, lemmas and fields as the library of today's Rattle spells its own.

usage: tools/respell.py [--look] [FOLDER]

It goes over the .antt, .rt and .edit files of FOLDER/crates, once, after the kit's own port.py.

- A word of antt that begins with a small letter and has a capital after it is written in snake case, also as a part of a longer name:
  `sizeValid` becomes `size_valid`.
- In the name of a lemma a dash joins two names of definitions; a plain word is added with `_`: `row-of-block` becomes `row_of_block`.
- A lemma that would have the name of a definition, or of another lemma, gets `_lem`.
- The definition `result` is `result_of`, since `result` is what a function returns.
- The proof of a function `f` is `f_spec`.
- Types, modules, strings, what Rust code names, and the standard's own names in comments stay. A comment's words in backquotes go along.

--look writes nothing, and lists the names that would fall together with another name of the same file.
"""

import os
import re
import sys

LETTER = r"[\w'ℤℕ]"
CAMEL = re.compile(rf"(?<!{LETTER})[a-z][a-z0-9]*[A-Z]{LETTER}*")
NAME = re.compile(rf"(?<![\w'ℤℕ-])[A-Za-z_]{LETTER}*(?:-{LETTER}+)+")
PARTS = re.compile(r'"(?:[^"\\\n]|\\.)*"|(?:--|//)[^\n]*')
QUOTED = re.compile(r"`[^`\n]*`")
SIGNATURE = re.compile(r"(?m)^\s*(?:(?:abbrev|unfoldable|pub|let)\s+)*([^\s(){}\[\];,.:◌]+(?: [^\s(){}\[\];,.:◌]+)*) :\s")
# A word of antt that would fall together with a parameter of a clause, and a lemma that would have its function's name.
OTHER = {"ctbTotal": "total_ctbs"}
LEMMAS = {w: w + "_lem" for w in ("field_row", "one_bit", "row_step", "open_step", "in_place")}
RESULT = re.compile(r"specs\.Process\.\{[^}]*\bresult\b[^}]*\}")
# Words of the library that a lemma's name may join with a dash.
LIBRARY = set("length take drop append map get_or set add mul sub le lt eq eqb leb ltb cond and or not nat_abs mod div pow elem".split())


def snake(word):
    if word in OTHER:
        return OTHER[word]
    tail = ""
    while word and word[-1] in "ℤℕ":
        word, tail = word[:-1], word[-1] + tail
    return re.sub(r"(?<=[a-z0-9])([A-Z])", r"_\1", word).lower() + ("_" + tail if tail else "")


def bare(text):
    return PARTS.sub(" ", text)


def files(root):
    for folder, dirs, names in os.walk(os.path.join(root, "crates")):
        dirs[:] = sorted(d for d in dirs if d not in ("out", "target"))
        for name in sorted(names):
            if name.endswith((".antt", ".rt", ".edit")):
                yield os.path.join(folder, name)


def of_function(path):
    """Whether a file is the proof of a function: those stand in folders of proofs/ with a small letter."""
    inner = path.split("/proofs/")[-1] if "/proofs/" in path else ""
    return "/" in inner and not inner[0].isupper()


def joined(name, words):
    """A lemma's name, from its parts."""
    parts = name.split("-")
    out = parts[0]
    for a, b in zip(parts, parts[1:]):
        out += ("-" if a in words and b in words else "_") + b
    return out


class Speller:
    def __init__(self, root):
        self.words, dashed, plain = set(LIBRARY), set(), set()
        for path in files(root):
            if not path.endswith(".antt"):
                continue
            with open(path, encoding="utf-8") as f:
                code = bare(f.read())
            plain.update(snake(w) if CAMEL.fullmatch(w) else w for w in re.findall(rf"(?<![\w'ℤℕ-])[a-z_]{LETTER}*(?![\w'ℤℕ-])", code))
            for m in SIGNATURE.finditer(code):
                for name in m.group(1).split():
                    if "-" in name[1:]:
                        if not of_function(path):
                            dashed.add(name)
                    elif "/specs/" in path:
                        self.words.add(snake(name) if CAMEL.fullmatch(name) else name)
        self.names, self.result = {}, None
        for n in dashed:
            new = joined(CAMEL.sub(lambda m: snake(m.group()), n), self.words)
            self.names[n] = new + "_lem" if new in plain else new

    def turned(self, text, path):
        if self.result:
            text = re.sub(r"(?<![\w'.ℤℕ-])result(?![\w'ℤℕ-])", "result_of", text)
        if path.endswith(".antt"):
            for old, new in LEMMAS.items():
                text = re.sub(rf"(?<![\w'.ℤℕ-]){old}(?![\w'ℤℕ-])", new, text)
            if path.endswith("Proof.antt"):
                function = os.path.basename(os.path.dirname(path))
                text = re.sub(rf"(?<![\w'-]){function.replace('_', '-')}-spec(?![\w'-])", function + "_spec", text)
        if not path.endswith(".rt"):
            text = NAME.sub(lambda m: self.names.get(m.group(), m.group()), text)
        return CAMEL.sub(lambda m: snake(m.group()), text)

    def respelled(self, text, path):
        self.result = path.endswith("specs/Process.antt") or RESULT.search(text)
        out, at = [], 0
        for m in PARTS.finditer(text):
            out.append(self.turned(text[at:m.start()], path))
            it = m.group()
            out.append(it if it.startswith('"') else QUOTED.sub(lambda q: self.turned(q.group(), path), it))
            at = m.end()
        out.append(self.turned(text[at:], path))
        return "".join(out)

    def look(self, text, path):
        code = bare(text)
        token = re.compile(rf"(?<![\w'.ℤℕ-])[A-Za-z_]{LETTER}*(?:-{LETTER}+)*")
        here = {}
        for name in set(token.findall(code)):
            here.setdefault(self.turned(name, path), set()).add(name)
        for new, olds in sorted(here.items()):
            if len(olds) > 1:
                print(f"{path}: {', '.join(sorted(olds))} fall together as {new}")


def main(argv):
    rest = [a for a in argv if a != "--look"]
    root = rest[0] if rest else "."
    speller = Speller(root)
    for path in files(root):
        with open(path, encoding="utf-8") as f:
            text = f.read()
        if "--look" in argv:
            speller.look(text, path)
            continue
        new = speller.respelled(text, path)
        if new != text:
            with open(path, "w", encoding="utf-8") as f:
                f.write(new)


if __name__ == "__main__":
    main(sys.argv[1:])
