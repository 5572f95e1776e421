#!/usr/bin/env python3
"""Brings this repository's own names to snake case, where the port of 2026-11 began: most-parts becomes most_parts.

usage: python3 tools/respell_names.py     at the top of the repository, once, after the kit's port.py

In an .antt file each word with a dash is respelled, but for names of the kit (those that the file imports from it) and
names that the checker makes (goals, steps and loops in a proof's own folder). In an .rt file, in an edit and between
backticks of a comment the words are respelled that some .antt file of this repository declares. It prints the names of
a file that fall together; a proof's own path and its function's definition do so without harm.
"""
import os
import re
import sys

WORD = r"[\w'₀-₉◌ℕℤ≤≡]"
DASHED = re.compile(r"(?<![\w'₀-₉·-])([A-Za-z][\w'₀-₉]*(?:-[\w'₀-₉]+)+)(?![\w-])")
USE = re.compile(r"\b(?:pub )?use\s+([\w.'+-]+?)\.\{([^}]*)\}", re.S)
MADE = re.compile(r"^(?:Need-|After-|In-|Else-|Then-|invariant-|decreases-|returns-\d|.*-requires(?:-\d+)?$|loop-(?:holds|less|again|test))")


def files(root):
    for folder, dirs, names in os.walk(os.path.join(root, "crates")):
        dirs[:] = sorted(d for d in dirs if d != "out")
        for name in sorted(names):
            if name.endswith((".antt", ".rt", ".edit")):
                yield os.path.join(folder, name)


def own_crates(root):
    return set(os.listdir(os.path.join(root, "crates")))


def kit_names(text, own):
    """The names that a file imports from the kit."""
    found = set()
    for path, names in USE.findall(text):
        parts = path.split(".")
        if parts[0] != "Rattle" or parts[1] not in own:
            for n in names.split(","):
                found |= {x for x in n.split() if x != "as"}
    return found


def split_comment(line):
    """A line's code and its comment."""
    at = line.find("--")
    while at > 0 and line[at - 1] not in " \t(":
        at = line.find("--", at + 2)
    return (line, "") if at < 0 else (line[:at], line[at:])


def goal_names(text):
    """Names that a proof file declares as the checker's goals, invariants and measures."""
    return set(re.findall(r"^(?:abbrev |pub )*([\w'-]+) : tie\.(?:Need|invariant|decreases)", text, re.M))


def in_proof_folder(path):
    rest = path.split("/proofs/")
    return len(rest) == 2 and "/" in rest[1]


def respelled(token):
    return token.replace("-", "_")


def turn_code(code, keep, only=None):
    def one(m):
        t = m.group(1)
        before = code[: m.start()]
        if t in keep or MADE.match(t) or before.endswith(("tie.", "Memᴰ.")) or (only is not None and t not in only):
            return t
        return respelled(t)

    return DASHED.sub(one, code)


def main(root):
    own = own_crates(root)
    texts = {p: open(p, encoding="utf-8").read() for p in files(root)}
    declared, plain = set(), {}
    for p, t in texts.items():
        if not p.endswith(".antt"):
            continue
        keep = kit_names(t, own) | goal_names(t)
        for line in t.split("\n"):
            code, _ = split_comment(line)
            for w in DASHED.findall(code):
                if w not in keep and not MADE.match(w):
                    declared.add(w)
            for w in re.findall(r"(?<![\w'-])[A-Za-z][\w']*_[\w']*(?![\w'-])", code):
                plain.setdefault(w, set()).add(p)
    # names that fall together: a dashed name and a snake name, or two dashed names, that some one file has
    for p, t in texts.items():
        if p.endswith(".antt"):
            code = "\n".join(split_comment(l)[0] for l in t.split("\n"))
            keep = kit_names(t, own) | goal_names(t)
            here = {w for w in DASHED.findall(code) if w not in keep and not MADE.match(w)}
            for w in sorted(here):
                if p in plain.get(respelled(w), ()):
                    print(f"falls together: {w} and {respelled(w)} in {p}")
    changed = 0
    for p, t in texts.items():
        if p.endswith(".antt"):
            keep = kit_names(t, own) | goal_names(t)
            out = []
            for line in t.split("\n"):
                code, comment = split_comment(line)
                comment = re.sub(r"`[^`]*`", lambda m: turn_code(m.group(0), keep, declared), comment)
                out.append(turn_code(code, keep) + comment)
            new = "\n".join(out)
        elif p.endswith(".edit"):
            new = turn_code(t, set(), declared)
        else:
            keep = kit_names(t, own)
            out = []
            for line in t.split("\n"):
                if line.lstrip().startswith("//"):
                    out.append(re.sub(r"`[^`]*`", lambda m: turn_code(m.group(0), keep, declared), line))
                else:
                    out.append(turn_code(line, keep, declared))
            new = "\n".join(out)
        if new != t:
            changed += 1
            if "--try" not in sys.argv:
                with open(p, "w", encoding="utf-8") as f:
                    f.write(new)
    print(f"respell_names: {len(declared)} names, {changed} files")


main(os.path.dirname(os.path.dirname(os.path.realpath(__file__))))
