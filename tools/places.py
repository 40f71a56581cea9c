#!/usr/bin/env python3
"""Places in crates/*/src that may be written in an older form, point by point.

    tools/places.py [POINT]      the candidates of one point, or the counts of all

It finds candidates, and a reader judges them: docs/DESIGN-PASS.md says which are places, and what became of each.
"""
import collections
import pathlib
import re
import sys

ROOT = pathlib.Path(__file__).resolve().parent.parent

LINES = {
    1: [
        ("a match that hands on, drops or replaces a None or an Err", r"\b(None|Err\(\w+\)) => |\b(Ok|Some)\((\w+)\) => (Ok|Some)\(\3\)"),
        ("a let with an else that only returns", r"^\s*let (Ok|Err|Some)\(.*\) = .*else\b"),
        ("a flag", r":\s*(mut )?bool\b|<bool\b|= (true|false);"),
        ("a number for a kind or a refusal", r"\b(kind|number): u(8|16)\b|fn (number|kind)\b|Some\(\(index, \d+"),
    ],
    3: [("a loop", r"^\s*(for|while|loop)\b")],
    4: [
        ("an order or an equality", r"\w\.\w+ (<|==) \w+\.\w+ (\|\||&&)|=> (true|false)\b"),
        ("a conversion", r" as [ui](8|16|32|64|size)\b"),
        ("printing", r"\b(format|print|println|write)!\("),
    ],
    6: [
        ("a length beside a buffer, or an array of a fixed length", r"\b(len|used|counted): (usize|u32)\b|\[\w+; \d+\]|\[.*; 16\]"),
        ("a link by index", r"\bOption<u16>"),
    ],
    7: [("a switch or a table of functions", r"\bfn\(|\bdyn\b|match (self\.|search\.)?phase\b")],
}


def sources():
    for path in sorted(ROOT.glob("crates/*/src/*.rt")):
        yield path.relative_to(ROOT).as_posix(), path.read_text().split("\n")


def code(line):
    return line.split("//")[0]


def by_line(point):
    for name, lines in sources():
        for number, line in enumerate(lines, 1):
            for what, pattern in LINES[point]:
                if re.search(pattern, code(line)):
                    yield f"{name}:{number}", what, line.strip()
                    break


def functions():
    """Each function: where it stands, its head up to the body, and its body."""
    for name, lines in sources():
        for start, line in enumerate(lines):
            found = re.match(r"( *)(pub(\(crate\))? )?fn (\w+)", line)
            if not found:
                continue
            indent = found.group(1)
            end = start
            while lines[end] not in (indent + "}", indent + "{}") and not (lines[end].endswith(";") and "{" not in line):
                end += 1
            text = lines[start : end + 1]
            opened = 0 if line.endswith("{") else text.index(indent + "{") if indent + "{" in text else len(text) - 1
            yield f"{name}:{start + 1}", found.group(4), text[: opened + 1], text[opened + 1 : -1]


def shape(text):
    text = " ".join(code(x) for x in text)
    text = re.sub(r"\b\d[\w]*\b", "0", re.sub(r'"[^"]*"', '"', text))
    return re.sub(r"\s+", "", re.sub(r"\b[A-Za-z_]\w*\b", "x", text))


def twins():
    groups = collections.defaultdict(list)
    for where, name, _, body in functions():
        if len(shape(body)) >= 12:
            groups[shape(body)].append((where, name))
    for form, group in sorted(groups.items(), key=lambda x: x[1]):
        if len(group) > 1:
            for where, name in group:
                yield where, f"{len(group)} functions of one shape", name
    for where, name, _, body in functions():
        shapes = [shape([x]) for x in body]
        for i in range(len(shapes) - 3):
            if len(shapes[i]) > 6 and len({shapes[k].lstrip("+") for k in range(i, i + 4)}) == 1 and (i == 0 or shapes[i - 1] != shapes[i]):
                yield where, "four lines of one shape", f"{name}: {body[i].strip()}"
                break


def repeated():
    """Clauses of three functions or more, and pairs of parameters of three functions of a crate that have other names."""
    groups = collections.defaultdict(list)
    for where, name, head, _ in functions():
        head = [code(x).strip() for x in head]
        text = " ".join(head)
        for clause in re.findall(r"(?:requires|ensures)\*?(?: \w+)? \{ (.*?) \}(?= |$)", text):
            groups["a clause", clause].append((where, name))
        plain = text
        while "<" in plain and plain != (plain := re.sub(r"<[^<>]*>", "", plain.replace("->", "→"))):
            pass
        listed = re.search(r"\((.*?)\)(?: →| requires| ensures| \{|$)", plain)
        parameters = sorted(x.split(":")[0].strip() for x in listed.group(1).split(", ") if ":" in x) if listed else []
        for i, first in enumerate(parameters):
            for second in parameters[i + 1 :]:
                groups["parameters", where.split("/")[1], first, second].append((where, name))
    for (what, *fact), group in sorted(groups.items()):
        if len({name for _, name in group}) > 2:
            names = ", ".join(sorted({name for _, name in group}))
            yield group[0][0], what, f"{' and '.join(fact if what == 'a clause' else fact[1:])}: {names}"


def proofs():
    for path in sorted(ROOT.glob("crates/*/proofs/**/*.antt")):
        yield path.relative_to(ROOT).as_posix(), "a file of proofs", f"{len(path.read_text().splitlines())} lines"


def candidates(point):
    return {2: twins, 5: repeated, 8: proofs}.get(point, lambda: by_line(point))()


def main():
    if len(sys.argv) > 1:
        for where, what, text in candidates(int(sys.argv[1])):
            print(f"{where}: {what}: {text}")
        return
    for point in range(1, 9):
        counts = collections.Counter(what for _, what, _ in candidates(point))
        print(f"{point}: {sum(counts.values())}")
        for what, count in counts.items():
            print(f"    {count} {what}")


main()
