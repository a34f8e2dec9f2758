#!/usr/bin/env python3
"""Brings the repository's own definitions and lemmas to the spelling of Rattle's library, where port.py left them: words in snake case.

usage: tools/respell.py        once, at the top, after port.py: rewrites crates/*/{src,specs,proofs,must-fail} in place
       tools/respell.py list   prints the names, the old and the new, and changes nothing

A dash stays where it joins a name of a definition to another word (`answers_m-append`); elsewhere it becomes an underscore. Fixed words that the kit makes
(`returns-2`) are no names of ours and stay.
"""
import collections
import glob
import re
import sys

# names that two words would share, or that read badly by the rule
BY_HAND = {"not1F": "not_1f", "at-1F": "at_1f", "row-codeM-ok": "row_code_m-ok"}
# what port.py does to definitions, done to the edits, which it leaves
EDITS = {"getD": "get_or", "sameNumbers": "same_numbers", "stateOf": "state_of", "rowLines": "row_lines", "partsOf": "parts_of", "formOf": "form_of"}
WORD = r"[\w'′″⁺₀-₉ℕ⊎×-]"
SKIP = {"pub", "abbrev", "unfoldable", "data", "record", "mod", "let", "use", "open", "unfolding"}


def declared():
    """The names that specs/ and the lemma files declare, with the files."""
    names = collections.defaultdict(set)
    for path in sorted(glob.glob("crates/*/specs/*.antt") + glob.glob("crates/*/proofs/*.antt") + glob.glob("crates/*/proofs/*/*.antt")):
        lemmas = path.count("/") == 3
        for line in open(path, encoding="utf-8"):
            if line.lstrip().startswith("--"):
                continue
            m = re.match(r"^\s*((?:(?:pub|abbrev|unfoldable|data|record)\s+)*)([^\s:(){}=λ,;.]+(?:\s+[^\s:(){}=λ,;.]+)*)\s+:\s", line)
            m = m or re.match(r"^\s*((?:(?:pub|abbrev|unfoldable|data|record)\s+)+)([^\s:(){}=λ,;.]+)\s", line)
            for name in m.group(2).split() if m else []:
                if name in SKIP or not name[0].islower():
                    continue
                if re.search(r"[a-z0-9][A-Z]", name) or (lemmas and "-" in name):
                    names[name].add(path)
    return names


def snake(word):
    word = re.sub(r"([a-z0-9])([A-Z])", r"\1_\2", word)
    return re.sub(r"([A-Z]+)", lambda m: m.group(1).lower(), word)


def new_name(name, definitions):
    if name in BY_HAND:
        return BY_HAND[name]
    name = re.sub(r"^getD(?=-)", "get_or", name)
    first, dash, rest = name.partition("-")
    if dash and (first in definitions or snake(first) in definitions or first == "get_or"):
        return snake(first) + "-" + snake(rest).replace("-", "_")
    return snake(name).replace("-", "_")


def edit(text):
    """An edit in the spelling of the text that it fits: names, and projections written tight."""
    text = re.sub(rf"(?<!{WORD})(" + "|".join(EDITS) + rf")(?!{WORD})", lambda m: EDITS[m.group(1)], text)
    lines = []
    for line in text.split("\n"):
        if re.match(r"(old|new): ", line):
            line = re.sub(r"\((\w+(?: \.\w+)+)\)", lambda m: m.group(1).replace(" ", ""), line)
            line = re.sub(r"(?<=\w) (\.\w)", r"\1", line)
        lines.append(line)
    return "\n".join(lines)


def main():
    names = declared()
    definitions = set()
    for path in glob.glob("crates/*/specs/*.antt"):
        for line in open(path, encoding="utf-8"):
            m = re.match(r"^\s*(?:(?:pub|abbrev|unfoldable)\s+)*([^\s:(){}=λ,;.]+)\s+:\s", line)
            if m:
                definitions.add(m.group(1))
    table = {n: new_name(n, definitions) for n in names}
    table = {a: b for a, b in table.items() if a != b}
    if sys.argv[1:] == ["list"]:
        for a, b in sorted(table.items()):
            print(a, b)
        return
    pattern = re.compile(rf"(?<!{WORD})(" + "|".join(sorted(map(re.escape, table), key=len, reverse=True)) + rf")(?!{WORD})")
    for path in sorted(glob.glob("crates/*/**/*", recursive=True)):
        if path.endswith((".antt", ".rt", ".edit")) and "/out/" not in path:
            text = open(path, encoding="utf-8").read()
            turned = pattern.sub(lambda m: table[m.group(1)], text) if table else text
            if path.endswith(".edit"):
                turned = edit(turned)
            if turned != text:
                open(path, "w", encoding="utf-8").write(turned)


main()
