#!/usr/bin/env python3
"""Brings the repository's own names to the spelling of today's Rattle, after port.py and once.

Functions, lemmas, constructors and fields are in snake case. A dash stays in the name of a lemma of
proofs/ where it joins the names of two definitions of specs/ (`listing-edit`) or a type to one;
elsewhere it becomes an underscore. Names of Rust code, types and modules stay as they are.
The edits of must-fail/ are respelled with the sources that they name: names, paths, operators,
projections and the brackets of clauses.

usage: python3 tools/respell.py        at the top of the checkout, once
"""

import collections
import glob
import os
import re
import sys

WORD = r"[A-Za-z0-9_'≢≡μκ₀-₉Δ]"
TOKEN = re.compile(rf"{WORD}+(?:-{WORD}+)*")
MODIFIERS = r"(?:(?:abbrev|unfoldable|pub|private|infixr \d+|infixl \d+)\s+)*"
DECLARED = re.compile(rf"^(\s*){MODIFIERS}((?:[a-z◌][^\s:(){{}},;=]*\s+)+):\s")
RULES = re.compile(r"^(?:pub )?ruleset (\S+) =")
CONTRACTS = re.compile(r"(Rattle\.\w+\.specs)\.Contracts(?![\w'-])")
# Names that fall together with another once respelled, or with a word of the library that the same
# file brings in: NEW stands for OLD in place of what the rules would give.
CHOSEN = {
    "not-held": "unheld",
    "left_word": "left_named",
    "badRange": "is_bad_range",
    "rescale-slope": "rescale_slope_is",
    "raising-all": "raising_all_owned",
    "is-red": "looks_red",
    "is-black": "looks_black",
    "turned_left": "turns_left",
    "turned_right": "turns_right",
    "or-else": "past_or",
    "free-number": "free_number_is",
    "free-nodes-outcome": "free_nodes_outcome",
    "fuse-left-none": "fuse_left_none",
    "fuse-right-none": "fuse_right_none",
    "rb-balance-left": "rb_balance_left",
    "rb-balance-right": "rb_balance_right",
    "rb-remove-balance-left": "rb_remove_balance_left",
    "rb-remove-balance-right": "rb_remove_balance_right",
}
# Two spellings of one name, of which port.py had turned one.
TOGETHER = {"and_then"}
# The same as CHOSEN, in one crate alone.
CHOSEN_IN = {"crates/figures/specs/": {"badRange": "refuses_range", "noRoom": "refuses_room"}}


def texts(*patterns):
    for pattern in patterns:
        yield from sorted(glob.glob(pattern, recursive=True))


def declared(path):
    with open(path, encoding="utf-8") as f:
        for line in f:
            m = RULES.match(line)
            if m:
                yield m.group(1), True
            elif not line.lstrip().startswith("--"):
                m = DECLARED.match(line)
                if m:
                    for name in m.group(2).split():
                        yield name, not m.group(1)


def snake(name):
    """Camel humps to underscores, where the name begins in lower case."""
    if not name[:1].islower():
        return name
    return re.sub(r"(?<=[a-z0-9])([A-Z])", lambda m: "_" + m.group(1).lower(), name)


def names():
    """All declared names; those of functions in specs/; those that are no lemma at a file's top."""
    own, functions, plain = set(), set(), set()
    for path in texts("crates/*/specs/**/*.antt", "crates/*/proofs/*.antt"):
        for name, top in declared(path):
            own.add(name)
            if not top or "/specs/" in path:
                plain.add(name)
            if top and "/specs/" in path and "◌" not in name:
                functions.add(snake(name))
    return own, functions, plain


def respelled(name, functions, plain):
    if name in CHOSEN:
        return CHOSEN[name]
    if "◌" in name:
        return "◌".join(snake(p) for p in name.split("◌"))
    parts = [snake(p) for p in name.split("-")]
    if name in plain:
        return "_".join(parts)
    out = parts[0]
    for before, part in zip(parts, parts[1:]):
        joins = is_named(before, functions) and is_named(part, functions)
        out += ("-" if joins else "_") + part
    return out


def is_named(part, functions):
    return part in functions or part[:1].isupper()


def table():
    own, functions, plain = names()
    turned = {n: respelled(n, functions, plain) for n in own}
    turned = {old: new for old, new in turned.items() if old != new}
    for old in list(turned):
        if "◌" in old:
            for a, b in zip(old.split("◌"), turned[old].split("◌")):
                if a != b:
                    turned.setdefault(a, b)
    return own, turned


def respell(text, turned, own=frozenset()):
    return TOKEN.sub(lambda m: known(m.group(0), turned, own), text)


def turned_in(path, turned):
    """The table for a file: with the names that are chosen for its crate alone."""
    for start, chosen in CHOSEN_IN.items():
        if path.startswith(start) or path.startswith(start.replace("specs", "must-fail")):
            return turned | chosen
    return turned


def known(token, turned, own):
    """A token of an edit or a page: a name that port.py had turned already is taken as it now stands."""
    if token in turned or not re.search("[A-Z-]", token):
        return turned.get(token, token)
    now = re.sub("-", "_", snake(token))
    return turned.get(now, now) if now in own else token


def in_ticks(text, turned, own):
    return re.sub(r"`[^`\n]+`", lambda m: respell(m.group(0), turned, own), text)


def edit_line(line, turned, own):
    """A line of a must-fail edit: 'old:' and 'new:' hold source, any other line is prose."""
    m = re.match(r"(old: ?|new: ?)(.*)", line, re.S)
    if not m:
        return in_ticks(line, turned, own)
    text = m.group(2)
    text = re.sub(r"Rattle·(\w+)·(specs|proofs)\.\2", r"Rattle.\1.\2", text)
    text = re.sub(r"Rattle·(\w+)\.(specs|proofs)", r"Rattle.\1.\2", text)
    text = re.sub(r"(?<![\w.'-])_([^\w\s.,(){}]+)_(?![\w'-])", r"◌\1◌", text)
    text = re.sub(r"(?<=[\w)'*]) \.(?=[a-z0-9])", ".", text)
    text = re.sub(r"(?<=[^\w)]) ?\((\w+\.[\w-]+)\)", lambda c: c.group(0).replace("(", "").replace(")", ""), text)
    text = re.sub(r"\{ λ (\w+)\. ⌜ (.*?) ⌝ \}", lambda c: "{ " + re.sub(rf"(?<![\w'-]){c.group(1)}(?![\w'-])", "result", c.group(2)) + " }", text)
    text = re.sub(r"⌜ (.*?) ⌝", r"\1", text)
    return m.group(1) + respell(text, turned, own)


def clashes(every):
    """Names that would fall together within one file, or within a module that both are brought from."""
    found = []
    for path in texts("crates/*/specs/**/*.antt", "crates/*/proofs/*.antt"):
        turned = turned_in(path, every)
        seen = collections.defaultdict(set)
        text = re.sub(r"--.*", "", open(path, encoding="utf-8").read())
        for token in TOKEN.findall(text):
            seen[turned.get(token, token)].add(token)
        for new, olds in seen.items():
            if len(olds) > 1 and new not in TOGETHER:
                found.append((path, new, sorted(olds)))
    return found


def rewrite(path, turn):
    with open(path, encoding="utf-8") as f:
        text = f.read()
    new = turn(text)
    if new != text:
        with open(path, "w", encoding="utf-8") as f:
            f.write(new)


def rename_contracts():
    """Rattle makes a module `specs.contracts` of its own, so `specs/Contracts.antt` is `Promises`."""
    for path in texts("crates/*/specs/Contracts.antt"):
        os.rename(path, path.replace("Contracts", "Promises"))
        rewrite(os.path.join(os.path.dirname(path), "Lib.antt"), lambda t: t.replace("mod Contracts", "mod Promises"))
    for path in texts("crates/*/must-fail/**/*.edit"):
        rewrite(path, lambda t: t.replace("file: specs/Contracts.antt", "file: specs/Promises.antt"))


def main():
    own, turned = table()
    found = clashes(turned)
    for path, new, olds in found:
        print(f"clash: {path}: {', '.join(olds)} would be {new}")
    if "--look" in sys.argv:
        print(len(turned), "names turned")
        return 1 if found else 0
    if found:
        return 1
    rename_contracts()
    for path in texts("crates/*/specs/**/*.antt", "crates/*/proofs/**/*.antt", "crates/*/src/**/*.rt"):
        rewrite(path, lambda t: CONTRACTS.sub(r"\1.Promises", respell(t, turned_in(path, turned))))
    for path in texts("crates/*/must-fail/**/*.edit"):
        here = turned_in(path, turned)
        rewrite(path, lambda t: "".join(edit_line(l, here, own) for l in t.splitlines(keepends=True)))
    for path in ["README.md", *texts("docs/*.md")]:
        rewrite(path, lambda t: in_ticks(t, turned, own))
    return 0


if __name__ == "__main__":
    raise SystemExit(main())
