"""Respells the repository's own definitions, lemmas and fields: words in snake case, facts in camel case.

Run once, at the top of the repository, over text that the script of the new kit has respelled.
A name is taken only if a file right in specs/ or proofs/ declares it. Names that Rattle makes (in
proofs/F/), names from the library, functions of src/ and strings keep their spelling.
"""
import glob
import re
import sys

DECLARED = re.compile(r"\s*(?:abbrev )?(?:pub )?(?:record )?([^\s(){}:.;]+-[^\s(){}:.;]*)\s*(?:\{.*\}|\(.*\))*\s*:")
WORD = r"[\w'′-]"
# given by `as` or `let`, and not declared
LOCAL = ("of-sighting", "ticks-of", "at-frame")


def respelled(name):
    if name[0].isupper():
        return "".join(part[0].upper() + part[1:] for part in name.split("-"))
    return name.replace("-", "_")


def declared():
    names = set(LOCAL)
    for path in glob.glob("crates/*/specs/*.antt") + glob.glob("crates/*/proofs/*.antt"):
        for line in open(path, encoding="utf-8"):
            found = DECLARED.match(line)
            if found and not found.group(1).startswith("-"):
                names.add(found.group(1))
    return names


def main():
    names = {name: respelled(name) for name in declared()}
    paths = glob.glob("crates/**/*.antt", recursive=True) + glob.glob("crates/*/src/*.rt")
    texts = {path: open(path, encoding="utf-8").read() for path in paths}
    words = set()
    for text in texts.values():
        words.update(re.findall(WORD + "+", text))
    meeting = sorted(name for name, new in names.items() if new in words)
    for name in meeting:
        print(f"falls together: {name} with {names[name]}", file=sys.stderr)
    spelling = re.compile(
        f"(?<!{WORD})(" + "|".join(re.escape(name) for name in sorted(names, key=len, reverse=True)) + f")(?!{WORD})"
    )
    for path, text in texts.items():
        parts = re.split(r'("(?:[^"\\]|\\.)*")', text) if path.endswith(".rt") else [text]
        new = "".join(
            part if part.startswith('"') else spelling.sub(lambda found: names[found.group(1)], part) for part in parts
        )
        if new != text:
            open(path, "w", encoding="utf-8").write(new)
    print(len(names), "names respelled")


main()
