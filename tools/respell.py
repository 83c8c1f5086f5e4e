#!/usr/bin/env python3
"""Respells this repository's own definitions and lemmas: words in snake case, a dash only between two names.

usage: python3 tools/respell.py [--check]      at the top of the repository, once, after the kit's port.py

camelCase becomes snake_case. A dash stays where it joins the names of two functions, as in `above-add`, and is
`_` elsewhere, as in `cast_read`. Types, facts and modules keep their capitals. What a proof file names after a
goal of the prover keeps its spelling. In src/ only what clauses and comments cite has such a name: no function is
renamed. --check prints the table and what falls together, and writes nothing.
"""

import os
import re
import sys

WORD = re.compile(r"[^\s(){}.;,@\"«»`\[\]\\:]+")
DECLARED = re.compile(
    r"^\s*(?:(?:pub|unfoldable|abbrev|record|data|ruleset)\s+)*([A-Za-zμ][^\s(){}.;,@\"«»`\[\]\\:]*)"
    r"\s+(?:\{[^}]*\}\s*|\([^)]*\)\s*)*:(?!=)"
)
CAMEL = re.compile(r"(?<=[a-z0-9])(?=[A-Z])")
# A goal of a function, as a proof file names its answer.
ANSWER = re.compile(r": tie\.(?:Need-|invariant-|decreases-)|: \{M : Type 1\} → statement")
# Names of the library that lemmas are named after.
LIBRARY = set(
    "add sub mul div mod neg pos negsuc shr suc length take drop set get_or map append foldl fold replicate reverse "
    "min max cond pow nat_abs le lt leb ltb eqb of_z to_z".split()
)
PAGES = ("README.md", "CONTRIBUTING.md")
# A definition that would have the name of a field which its clauses read.
FIELDS = {
    "lumaPattern": "luma_pattern_of",
    "chromaPattern": "chroma_pattern_of",
    "fourVectors": "four_vectors_of",
    "fourSums": "four_sums_of",
}


def texts(*ends):
    for folder, dirs, files in os.walk("crates"):
        dirs[:] = sorted(d for d in dirs if d != "out")
        for f in sorted(files):
            if f.endswith(ends):
                yield os.path.join(folder, f)


def pages():
    for folder, _, files in os.walk("docs"):
        for f in sorted(files):
            if f.endswith(".md") and not f.startswith("PORT"):
                yield os.path.join(folder, f)
    yield from PAGES


def read(path):
    with open(path, encoding="utf-8") as f:
        return f.read()


def snake(word):
    if word == "getD":
        return "get_or"
    return CAMEL.sub("_", word).lower() if word[:1].islower() else word


def declared():
    """The names that files of specs/ and proofs/ declare, those that definitions of specs/ have, and those of fields."""
    names, defined, answers, fields = set(), set(), set(), set()
    for path in texts(".antt"):
        record = None
        for line in read(path).splitlines():
            if not line.strip() or line.lstrip().startswith("--"):
                continue
            depth = len(line) - len(line.lstrip())
            if record is not None and depth <= record:
                record = None
            it = DECLARED.match(line)
            if not it:
                continue
            (answers if ANSWER.search(line) else names).add(it[1])
            if record is not None:
                fields.add(it[1])
            elif re.match(r"\s*(?:pub )?record ", line):
                record = depth
            elif "/specs/" in path:
                defined.add(it[1])
    return names - answers, defined, fields


def table():
    names, defined, fields = declared()
    known = LIBRARY | {snake(n) for n in defined if "-" not in n}
    renamed = {}
    for name in names:
        # what the kit's script made of getD-length and the like
        parts = [snake(p) for p in re.sub(r"^get_d_", "get_or-", name).split("-")]
        new = parts[0]
        for part in parts[1:]:
            last = re.split(r"-", new)[-1]
            new += ("-" if last in known and part in known and name not in fields else "_") + part
        if new != name:
            renamed[name] = FIELDS.get(name, new)
    return renamed


def fallen(renamed):
    """Names that fall together: two that become one, or one that becomes a word that is there."""
    there = set()
    for path in texts(".antt"):
        # a path is no name, and neither is a field or a word of a comment
        there.update(WORD.findall(re.sub(r"--\s.*|Rattle(?:\.\w+)+|\.[\w-]+", "", read(path))))
    by_new = {}
    for old, new in sorted(renamed.items()):
        by_new.setdefault(new, []).append(old)
    return {new: olds for new, olds in by_new.items() if len(olds) > 1 or new in there}


def turned(text, renamed):
    return WORD.sub(lambda it: renamed.get(it[0], it[0]), text)


def of_the_kit(renamed):
    """A table that also has what the kit's script respelled, which stands in pages and edits as it was."""
    there = declared()[0] | set(renamed.values())

    def new(word):
        if word in renamed:
            return renamed[word]
        for other in (snake(word), "_".join(snake(p) for p in word.split("-")), word.replace("getD", "get_or")):
            if word not in there and other in there:
                return other
        return word

    return new


def turned_page(text, new):
    return re.sub(r"`[^`\n]+`", lambda it: WORD.sub(lambda w: new(w[0]), it[0]), text)


def turned_edit(text, new):
    """An edit: what it puts in place of what. The file's path stands as it is."""
    lines = text.split("\n")
    return "\n".join(l if l.startswith("file:") else WORD.sub(lambda w: new(w[0]), l) for l in lines)


def main(argv):
    renamed = table()
    together = fallen(renamed)
    if argv == ["--check"]:
        for old, new in sorted(renamed.items()):
            print(old, new)
        for new, olds in sorted(together.items()):
            print("falls together:", new, "of", ", ".join(olds))
        return 0
    # A lemma that would have a definition's name gets `_lem`, and a field `_is`.
    fields = declared()[2]
    for new, olds in together.items():
        for old in olds:
            if "-" in old:
                renamed[old] = new + ("_is" if old in fields else "_lem")
    kit = of_the_kit(renamed)
    for path in [*texts(".antt", ".rt", ".edit"), *pages()]:
        text = read(path)
        if path.endswith((".antt", ".rt")):
            new = turned(text, renamed)
        else:
            new = turned_edit(text, kit) if path.endswith(".edit") else turned_page(text, kit)
        if new != text:
            with open(path, "w", encoding="utf-8") as f:
                f.write(new)
    return 0


if __name__ == "__main__":
    raise SystemExit(main(sys.argv[1:]))
