#!/usr/bin/env python3
"""Spells the definitions and lemmas of this repository's specs/ and proofs/ in snake case, by the rows of respelled.tsv.

usage: respell.py           once, at the top of the repository, on text that still has the old names
       respell.py --check   fails where an old name is left

A row has the old name, a tab, and the new one. Whole words turn: in a crate's .antt, .rt and .edit files, and in the
code spans of comments and of docs/, but for docs/PORT.md, which cites the old ones. Text in quotes and plain words of
comments stay, and so do names that the compiler makes: the labels of goals in Answers.antt and Invariants.antt. Where a lemma would fall together with the definition
that it speaks of, the lemma has `_lem` behind its name. Two new names are old ones too (`items_at` and `all_right`,
which lemmas had and definitions have now), so the check passes over these.
"""

import os
import re
import sys

HERE = os.path.dirname(os.path.realpath(__file__))
WORD = r"[^\s(){}.;,@\"«»\[\]|`]+"
COMMENT = {".antt": r"--(?=\s|$)[^\n]*", ".rt": r"//[^\n]*", ".edit": r"(?!)", ".md": r"(?s).*"}
QUOTED = r'"(?:\\.|[^"\\\n])*"'
SPAN = r"`[^`\n]+`"


def rows():
    with open(os.path.join(HERE, "respelled.tsv"), encoding="utf-8") as f:
        return dict(line.rstrip("\n").split("\t") for line in f)


def files(root):
    for top in ("crates", "docs"):
        for folder, dirs, names in os.walk(os.path.join(root, top)):
            dirs[:] = sorted(d for d in dirs if d not in ("out", "target"))
            for name in sorted(names):
                if os.path.splitext(name)[1] in COMMENT and (top, name) != ("docs", "PORT.md"):
                    yield os.path.join(folder, name)


def labels(path, text):
    """The names of goals that a file of answers declares."""
    if os.path.basename(path) not in ("Answers.antt", "Invariants.antt"):
        return set()
    return set(re.findall(rf"(?m)^(?:abbrev )?(?:pub )?({WORD})(?: \{{[^{{}}]*\}})* : goal\.", text))


def turned(path, text, table):
    stay = labels(path, text)

    def words(code):
        return re.sub(WORD, lambda m: m.group(0) if m.group(0) in stay else table.get(m.group(0), m.group(0)), code)

    def piece(m):
        if m.group("quoted"):
            return m.group(0)
        if m.group("comment"):
            return re.sub(SPAN, lambda s: words(s.group(0)), m.group(0))
        return words(m.group(0))

    kind = os.path.splitext(path)[1]
    if kind == ".md":
        return re.sub(SPAN, lambda s: words(s.group(0)), text)
    quoted = QUOTED if kind == ".rt" else r"(?!)"
    return re.sub(rf"(?P<comment>{COMMENT[kind]})|(?P<quoted>{quoted})|(?P<code>{WORD})", piece, text)


def main(argv):
    root = os.path.dirname(HERE)
    table = rows()
    check = argv == ["--check"]
    if check:
        table = {old: new for old, new in table.items() if old not in table.values()}
    left = 0
    for path in files(root):
        with open(path, encoding="utf-8") as f:
            text = f.read()
        new = turned(path, text, table)
        if new == text:
            continue
        if check:
            print(f"{os.path.relpath(path, root)}: has a name of an older spelling; tools/respelled.tsv has the new one")
            left += 1
        else:
            with open(path, "w", encoding="utf-8") as f:
                f.write(new)
    return 1 if left else 0


if __name__ == "__main__":
    sys.exit(main(sys.argv[1:]))
