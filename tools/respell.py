#!/usr/bin/env python3
"""Brings the names that this repository gives its definitions and lemmas to one spelling. Run once, at the top, on a
tree that /opt/rattle/port/port.py has just turned.

A fact, that is a definition whose value is a type, is spelled as a type: BelowIsPaths. Every other definition, lemma,
field and constructor is in snake case: first_place_of. What Rattle itself makes (goals, steps, loops) keeps its dashes,
and so do the names of functions, strings, inputs and outputs.

usage: python3 tools/respell.py [--dry]      --dry prints the renamings and what falls together, and writes nothing
"""

import collections
import os
import re
import sys

END = r"[\s(){};.,«»|\[\]]"
TOKEN = re.compile(r"[^\s(){};.,«»|\[\]]+")
SIGNATURE = re.compile(
    r"^(?P<indent> *)(?:(?:abbrev|unfoldable) )?(?:pub )?(?P<kind>record |data )?(?P<name>[^\s(){};.,«»:]+)"
    r"(?P<parameters>(?: [({][^\n]*)?) : (?P<type>[^\n]*)$",
    re.M,
)
BOUND = re.compile(r"(?:\blet |λ |↦ |\()(?P<names>[^\s(){};.,«»:=]+(?: [^\s(){};.,«»:=]+)*)(?= :| =|\.| ↦)")
REPLACED = {"getD": "get_or"}


def files():
    for folder, folders, names in os.walk("crates"):
        folders[:] = sorted(d for d in folders if d != "out")
        for name in sorted(names):
            if name.endswith((".antt", ".rt")):
                yield os.path.join(folder, name)


def of_a_function(path):
    """Whether the file proves a function: the names that stand for its goals are Rattle's."""
    return path.endswith(("/Answers.antt", "/Invariants.antt"))


def joined(text):
    return re.sub(r"\n {4,}", " ", text)


def camel(name):
    return "".join(part[:1].upper() + part[1:] for part in re.split(r"[-_]", name))


def snake(name):
    return "_".join(REPLACED.get(part, part) for part in name.split("-"))


def renamings():
    """The new name of each name of the repository's own, and where each is defined."""
    new, places = {}, collections.defaultdict(set)
    for path in files():
        if not path.endswith(".antt"):
            continue
        with open(path, encoding="utf-8") as f:
            text = joined(re.sub(r"--[^\n]*", "", f.read()))
        for found in SIGNATURE.finditer(text):
            name = found["name"]
            if of_a_function(path) and found["type"].startswith("goal."):
                continue
            places[name].add(path)
            fact = re.search(r"(?:^|→ )Type [0-9]$", found["type"]) and not found["indent"]
            if fact or (name[:1].isupper() and "-" in name):
                if camel(name) != name:
                    new[name] = camel(name)
            elif "-" in name.strip("-"):
                new[name] = snake(name)
        for found in BOUND.finditer(text):
            for name in found["names"].split():
                if re.fullmatch(r"[^\W\d][\w']*(?:-[\w']+)+", name) and not of_a_function(path):
                    new.setdefault(name, snake(name))
                    places[name].add(path)
    return new, places


def main(arguments):
    new, places = renamings()
    together = collections.defaultdict(set)
    for name in places:
        together[new.get(name, name)].add(name)
    for name in sorted(new):
        print(f"{name} -> {new[name]}")
    for name, olds in sorted(together.items()):
        if len(olds) > 1:
            print(f"fall together: {name}: " + "; ".join(f"{o} ({', '.join(sorted(places[o]))})" for o in sorted(olds)))
    if "--dry" in arguments:
        return 0
    for path in files():
        with open(path, encoding="utf-8") as f:
            text = f.read()
        kept = re.compile(r"//[^\n]*|\"(?:[^\"\\]|\\.)*\"" if path.endswith(".rt") else r"(?!)")
        out, at = [], 0
        for skip in [*kept.finditer(text), None]:
            end = skip.start() if skip else len(text)
            out.append(TOKEN.sub(lambda m: new.get(m[0], m[0]), text[at:end]))
            if skip:
                out.append(skip[0])
                at = skip.end()
        turned = "".join(out)
        if turned != text:
            with open(path, "w", encoding="utf-8") as f:
                f.write(turned)
    return 0


if __name__ == "__main__":
    raise SystemExit(main(sys.argv[1:]))
