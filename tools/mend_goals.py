"""Mends the names of goals and steps in proofs/F/ files where today's Rattle spells them otherwise.

Run once, after respell.py: a name from the source keeps its underscores, and so do the kinds of goal.
"""
import glob
import re

KINDS = [
    (r"\bin-(ok|err|default)\b", r"in_\1"),
    (r"\binvariant-of-", "invariant_of-"),
    (r"\btype-inv\b", "type_inv"),
    (r"\b(overflow|nonzero|slice|offset)-(add|sub|mul|cast|step|shl|shr|neg|div|rem|bounds)-", r"\1_\2-"),
]


def source_names(crate):
    names = set()
    for path in glob.glob(f"crates/{crate}/src/*.rt"):
        names.update(re.findall(r"\b[A-Za-z0-9]+(?:_[A-Za-z0-9]+)+\b", open(path, encoding="utf-8").read()))
    return sorted(names, key=len, reverse=True)


def main():
    for path in glob.glob("crates/*/proofs/*/**/*.antt", recursive=True):
        text = open(path, encoding="utf-8").read()
        new = text
        for old, spelled in KINDS:
            new = re.sub(old, spelled, new)
        for name in source_names(path.split("/")[1]):
            new = re.sub(rf"(?<=[-.]){name.replace('_', '-')}(?![A-Za-z0-9_])", name, new)
            new = re.sub(rf"(?<=pub ){name.replace('_', '-')}(?=-)", name, new)
        if new != text:
            open(path, "w", encoding="utf-8").write(new)
            print(path)


main()
