#!/usr/bin/env python3
"""Respells this repository's definitions, fields and lemmas to snake case: `countSum` and `count-most` to `count_sum` and `count_most`.

usage: tools/respell.py            once, at the top, after the kit's port.py; --dry says what it would do, and changes nothing

What a file of specs/ or proofs/ declares is respelled wherever the name stands: in specs/, proofs/, the clauses of src/, and between backticks in README.md and docs/.
What is declared in a Proof.antt alone is local to one function's old proof, and stays. A name that would fall together with another gets the name that APART gives it.
"""

import collections
import os
import re
import sys

# Names that their plain respelling would make the same as another one's, and what they are called.
APART = {
    "asLong": "as_long_demand",
    "bit-or": "bit_at-bit_or",
    "countEach": "count_each_demand",
    "counts-part": "counts_part_back",
    "fewEdges": "few_edges_demand",
    "fewVertices": "few_vertices_demand",
    "image-length": "image_length_lem",
    "lengths-part": "lengths_part_back",
    "noCycle": "no_cycle_demand",
    "numbers_of": "numbers_of_list",
    "rowsRise": "rows_rise_demand",
    "starts-part": "starts_part_back",
    "startsFit": "starts_fit_demand",
    "sumFits": "sum_fits_demand",
    "targets-part": "targets_part_back",
    "targetsBelow": "targets_below_demand",
}

# Names under which a file imports another's.
ALIASES = {
    "Table-as-Says": "TableSays",
    "Table·row": "table_row",
    "Walking·waits": "walking_waits",
    "Walking·ready": "walking_ready",
    "Next·worth": "next_worth",
}

# Files that are renamed, and the module paths with them: Rattle makes a module `specs.contracts` itself.
MOVED = {"crates/image/specs/Contracts.antt": "crates/image/specs/Looking.antt"}
PATHS = {"Rattle.image.specs.Contracts": "Rattle.image.specs.Looking"}

TOKEN = re.compile(r"[^\s(){}\[\];.,:\"`|λ→×]+")
DECLARED = re.compile(r"^\s*(?:abbrev |unfoldable |pub )*(?:data |record )?([a-z][^\s(){}:;.,]*)\s*(?:\([^)]*\)|\{[^}]*\})*\s*:\s", re.M)
CONSTRUCTOR = re.compile(r"^\s+([a-z][^\s(){}:;.,]*)\s*:\s", re.M)


def files():
    for top, dirs, names in os.walk("crates"):
        dirs[:] = sorted(d for d in dirs if d not in ("out", "must-fail"))
        for name in sorted(names):
            if name.endswith((".antt", ".rt")):
                yield os.path.join(top, name)


def snake(name):
    flat = re.sub(r"(?<=[a-z0-9])([A-Z])", lambda m: "_" + m.group(1).lower(), name) if "-" not in name else name
    return flat.replace("-", "_").replace("′", "'")


def is_own(module, crates):
    m = re.match(r"Rattle\.(\w+)\.", module)
    return bool(m) and m.group(1) in crates


def uses(text):
    for m in re.finditer(r"\buse\s+([^\s{};]+)\.\{([^}]*)\}", text):
        for item in m.group(2).split(","):
            yield m.group(1), item.strip().split(" as ")[0].strip()


def main():
    dry = "--dry" in sys.argv
    crates = set(os.listdir("crates"))
    texts = {path: open(path, encoding="utf-8").read() for path in files()}
    declared, foreign, tokens = collections.Counter(), set(), collections.Counter()
    for path, text in texts.items():
        if path.endswith(".antt") and not path.endswith("/Proof.antt"):
            declared.update(DECLARED.findall(text))
        for module, item in uses(text):
            if not is_own(module, crates):
                foreign.add(item)
        tokens.update(TOKEN.findall(text))
    turned = {n: APART.get(n, snake(n)) for n in declared if n in APART or (snake(n) != n and n not in foreign)}
    turned |= ALIASES
    for n in sorted(declared):
        if snake(n) != n and n in foreign:
            print(f"kept, since the library has one of that name: {n}")
    ends = collections.defaultdict(list)
    for old, new in turned.items():
        ends[new].append(old)
    for new, olds in sorted(ends.items()):
        if len(olds) > 1 or (tokens[new] and new not in APART.values()):
            print(f"falls together: {olds} and {tokens[new]} of {new}")
    print(f"{len(turned)} names are respelled")
    if dry:
        return

    def one(m):
        return turned.get(m.group(0), m.group(0))

    def line(path, text):
        """A line's code, and in its comment what stands between backticks."""
        at = text.find("--" if path.endswith(".antt") else "//")
        code, comment = (text, "") if at < 0 else (text[:at], text[at:])
        return TOKEN.sub(one, code) + re.sub(r"`[^`\n]+`", lambda m: TOKEN.sub(one, m.group(0)), comment)

    for path, text in texts.items():
        new = "\n".join(line(path, part) for part in text.split("\n"))
        for old, path_now in PATHS.items():
            new = new.replace(old, path_now)
        if path == "crates/image/specs/Lib.antt":
            new = new.replace("pub mod Contracts", "pub mod Looking")
        if new != text:
            with open(path, "w", encoding="utf-8") as f:
                f.write(new)
    for old, new in MOVED.items():
        os.rename(old, new)
    for top in [".", "docs", "docs/changes"]:
        for name in sorted(os.listdir(top)):
            if name.endswith(".md"):
                path = os.path.join(top, name)
                text = open(path, encoding="utf-8").read()
                new = re.sub(r"`[^`\n]+`", lambda m: TOKEN.sub(one, m.group(0)), text)
                if new != text:
                    with open(path, "w", encoding="utf-8") as f:
                        f.write(new)


main()
