#!/usr/bin/env python3
"""Spells the repository's own definitions and lemmas as today's Rattle does: words in snake case; a dash stays only
beside a type's name. Run once, at the top, after port.py. With --list it prints what it would rename.

Functions of src/, their parameters and fields, exported C names, strings, inputs and outputs keep their names. A name
that would fall together with another one, or with a field, a constant or a parameter of src/, has a name of its own in
OWN."""
import collections
import glob
import os
import re
import sys

# names that would fall together with others, or that a rule does not reach
OWN = {
    # words of Rust's, and of a tactic
    "type": "node_type",
    "first_of": "first_failed",
    "son-tree": "tree_of_son",
    "sixteen-sum": "sixteen_sum_lem",
    "inRows": "in_the_rows",
    "son-ok": "son_ok_lem",
    "all_are": "all_are_lem",
    "first_marks": "first_marks_lem",
    "son-node": "node_of_son",
    "fill-two": "fill_two_lem",
    "four-at": "four_at_lem",
    "same-type": "same_type_lem",
    "leaf-at": "leaf_at_lem",
    "pixels-of": "pixels_of_lem",
    "most-black": "most_black_lem",
    "path-of": "path_of_lem",
    "same-leaf": "same_leaf_lem",
    "four-sons": "four_sons_lem",
    "level-of": "level_of_lem",
    "each-node-of": "each_node_of_lem",
    "asked-of": "asked_of_lem",
    "leaf-words": "leaf_words_lem",
    "second-marks": "second_marks_lem",
    "third-marks": "third_marks_lem",
    "is-black": "is_black_lem",
    "leaf-of": "leaf_of_lem",
    "four-of": "four_of_lem",
}

SIGNATURE = re.compile(r"^(\s*)((?:pub |abbrev |unfoldable |data |record )*)([^\s(){}:,;⊢]+)((?: [({][^()]*(?:\([^()]*\)[^()]*)*[)}])*) :(?: (.*))?$")
# what ends a name in Rattle's proof language and in code
SPLIT = re.compile(r"([\s(){}\[\].,;:→λ⟨⟩|\"`~=<>+*/&!×≡≤^%#@?]+)")


def texts():
    for pattern in ("crates/*/specs/*.antt", "crates/*/proofs/**/*.antt", "crates/*/src/**/*.rt"):
        yield from sorted(glob.glob(pattern, recursive=True))


def read(path):
    with open(path, encoding="utf-8") as f:
        return f.read()


def defined():
    """Each own name, with the files that define it."""
    names = collections.defaultdict(set)
    for path in texts():
        if not path.endswith(".antt"):
            continue
        if path.endswith("Proof.antt"):
            continue
        for line in read(path).split("\n"):
            m = SIGNATURE.match(line)
            if m and not line.lstrip().startswith("--") and "tie." not in (m[5] or "") and m[3] not in ("module", "use"):
                names[m[3]].add(path)
    return names


def snake(piece):
    piece = re.sub(r"(?<=[a-z0-9])([A-Z])", lambda m: "_" + m[1].lower(), piece)
    return piece


def renamed(names):
    table = {}
    for name in names:
        if name in OWN:
            table[name] = OWN[name]
            continue
        if not re.match(r"[a-z]", name):
            new = name
        else:
            new = snake(name)
        parts = new.split("-")
        # a dash stays beside a type's name
        out = parts[0]
        for part in parts[1:]:
            keeps = re.match(r"[A-Z]", part) or re.match(r"[A-Z]", out)
            out += ("-" if keeps else "_") + part
        if out != name:
            table[name] = out
    return table


def source_words():
    fields, consts, functions = set(), set(), set()
    for path in sorted(glob.glob("crates/*/src/**/*.rt", recursive=True)):
        t = read(path)
        functions.update(re.findall(r"\bfn (\w+)", t))
        consts.update(re.findall(r"\bconst (\w+)", t))
        for body in re.findall(r"\bstruct \w+[^{;]*\{([^}]*)\}", t):
            fields.update(re.findall(r"(\w+):", body))
        for params in re.findall(r"\bfn \w+\s*\(([^)]*)\)", t):
            fields.update(re.findall(r"(\w+):", params))
    return fields, consts, functions


def imported(path, text):
    """The names that a file takes from elsewhere than this repository's crates."""
    own = set(os.listdir("crates"))
    taken = set()
    for m in re.finditer(r"(?:ghost )?use ([\w.'·-]+?)\.\{([^}]*)\}", text):
        head = m[1].split(".")
        if head[0] == "Rattle" and len(head) > 1 and head[1] in own:
            continue
        taken.update(w.strip().split(" as ")[-1] for w in m[2].split(","))
    return taken


def main():
    names = defined()
    table = renamed(names)
    fields, consts, functions = source_words()
    new = collections.defaultdict(set)
    for name in names:
        new[table.get(name, name)].add(name)
    clash = {n: o for n, o in new.items() if len(o) > 1}
    source = {table[n]: n for n in table if table[n] in fields | consts}
    same = {table[n]: n for n in table if table[n] in functions}
    if "--list" in sys.argv:
        for n in sorted(table):
            print(n, "->", table[n])
        print("# fall together:", {n: {x: sorted(names[x])[:2] for x in o} for n, o in clash.items()})
        print("# like a field, parameter or constant:", source)
        print("# like a function:", same)
        return 0
    for path in texts():
        text = read(path)
        skip = imported(path, text)
        clash_here = [n for n in skip if n in table]
        if clash_here:
            print("look:", path, "takes from outside", clash_here)
        # a function of src/ keeps its name
        if path.endswith(".rt"):
            skip |= {n for n in OWN if n in functions}

        def words(piece):
            parts = SPLIT.split(piece)
            return "".join(p if i % 2 else (table[p] if p in table and p not in skip else p) for i, p in enumerate(parts))

        # what a string holds is the program's
        def turn(piece):
            return "".join(p if i % 2 else words(p) for i, p in enumerate(re.split(r'(b?"(?:[^"\\]|\\.)*")', piece)))

        mark = "--" if path.endswith(".antt") else "//"
        lines = []
        for line in text.split("\n"):
            at = re.search(r"(^|\s)" + mark, line)
            code, comment = (line[: at.start()], line[at.start():]) if at else (line, "")
            lines.append(turn(code) + re.sub(r"`[^`]*`", lambda m: turn(m[0]), comment))
        out = "\n".join(lines)
        if out != text:
            with open(path, "w", encoding="utf-8") as f:
                f.write(out)
    return 0


if __name__ == "__main__":
    raise SystemExit(main())
