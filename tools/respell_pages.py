#!/usr/bin/env python3
"""Brings the names that pages and comments cite to the tree's snake case: `every-list` becomes `every_list`.

usage: python3 tools/respell_pages.py [--try]     at the top of the repository; with --try it only says what it would do

A word with a dash is respelled between backticks, where the tree has no such word, and has it with an underscore. It
looks at all pages but CHANGELOG.md, docs/PORT.md, the two pages that are made from the tree and the two whose dashed
names are those of examples and of scripts; and at the comments of rust/, tests/, include/ and bench/. It can be run
again.
"""
import os
import re
import subprocess
import sys

TOP = os.path.dirname(os.path.dirname(os.path.realpath(__file__)))
LEFT = {"CHANGELOG.md", "docs/PORT.md", "docs/LAWS.md", "docs/EDITS.md", "examples/README.md", "tests/scripts/README.md"}
WORD = r"[\w'₀-₉◌ℕℤ≤≡]"
DASHED = re.compile(r"(?<![\w'₀-₉·/.-])([A-Za-z][\w'₀-₉]*(?:-[\w'₀-₉]+)+)(?![\w-]|\.\w)")
SPAN = re.compile(r"`[^`\n]*`")
COMMENTS = {".rs": "//", ".rt": "//", ".h": ("/*", "*", "//"), ".c": ("/*", "*", "//"), "": "#", ".sh": "#"}


def text_of(path):
    with open(os.path.join(TOP, path), encoding="utf-8") as it:
        return it.read()


def without_comments(path, text):
    mark = "--" if path.endswith(".antt") else "//"
    return "\n".join(line for line in text.split("\n") if not line.lstrip().startswith(mark))


def words_of_tree(files):
    """All words of the crates' sources, those of comments left out."""
    words = set()
    for path in files:
        if path.startswith("crates/") and path.endswith((".antt", ".rt")):
            words.update(re.findall(r"[\w'₀-₉]+(?:-[\w'₀-₉]+)*", without_comments(path, text_of(path))))
    return words


def respelled(line, words, said):
    """A line, or a comment, with the names between its backticks respelled."""

    def one(found):
        name = found.group(1)
        new = name.replace("-", "_")
        if name in words or new not in words:
            return name
        said.append((name, new))
        return new

    return SPAN.sub(lambda span: DASHED.sub(one, span.group(0)), line)


def is_looked_at(path, line):
    """Whether a line is a page's or a comment's."""
    if path.endswith(".md"):
        return True
    mark = COMMENTS.get(os.path.splitext(path)[1])
    return mark is not None and line.lstrip().startswith(mark)


def main(is_trial):
    files = subprocess.run(["git", "ls-files"], cwd=TOP, capture_output=True, text=True, check=True).stdout.split("\n")
    words, changed, said = words_of_tree(files), 0, []
    for path in files:
        is_page = path.endswith(".md") and path not in LEFT
        if path in LEFT or not is_page and not path.startswith(("rust/", "tests/", "include/", "bench/")):
            continue
        if path.endswith((".hex", ".table", ".csv", ".answers", ".script")) or not os.path.isfile(os.path.join(TOP, path)):
            continue
        text = text_of(path)
        lines = [respelled(it, words, said) if is_looked_at(path, it) else it for it in text.split("\n")]
        if "\n".join(lines) != text:
            changed += 1
            if not is_trial:
                with open(os.path.join(TOP, path), "w", encoding="utf-8") as it:
                    it.write("\n".join(lines))
    for name, new in sorted(set(said)):
        print(f"{name} -> {new}")
    print(f"respell_pages: {len(said)} names in {changed} files")


main("--try" in sys.argv[1:])
