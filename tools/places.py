#!/usr/bin/env python3
"""Lists the places in crates/*/src where the code may still have an older form, point by point, for docs/DESIGN-PASS.md.

    python3 tools/places.py [TREE] [--counts]

TREE is a checkout, the current folder if left out. With --counts only the number of places of each search is printed.
A place is a line that a search finds; whether it is to change is for a reader to say, and docs/DESIGN-PASS.md says it of each.
"""
import pathlib
import re
import sys

SEARCHES = [
    ("1a own enums", r"^(pub(\(\w+\))? )?enum \w+"),
    ("1b flags in a struct", r"^    (pub )?\w+: bool,$"),
    ("1c numbers that stand for a kind, a refusal or a line",
     r"\b(from|role|number): u32|const GRANTED|-> \(u32, u32\)|fn (sized|noted)\(.*-> u32"),
    ("1d an Option or Result taken apart and put together again",
     r"None => None|Err\(\w+\) => Err\(|Some\(\w+\) => (Some|Err)\(|Ok\(\w+\) => Ok\(|return None;|return Some\(\w+\);"),
    ("3 loops that count an index by hand", r"\bfor \w+ in 0\.\.|\bwhile |\blet \w+ = \w+ \+ 1;|\.enumerate\(\)"),
    ("4 equality, order, conversion and printing by hand",
     r"^impl.* (Equality|Fault) for |^impl.*\b(Try)?From<|^impl.* Display for |"
     r"\bfn (numbered|number|same|comes_before|cause|justified|letter|rank|show_refusal|\w+_line)\("),
    ("6 arrays, lent slices and the counts beside them",
     r"^    (pub )?\w+: (&.*\[.+\]|\[.+; \w+\]),$|^    (pub )?(count|used): usize,$"),
    ("7 closures, traits of functions, dyn", r"\bdyn |\bimpl Fn|: Fn(Once|Mut)?\(|\|\|? |\(\|\w+(, \w+)*\| |= \|\w+\|"),
]


def sources(tree):
    for path in sorted(tree.glob("crates/*/src/**/*.rt")):
        yield path.relative_to(tree), path.read_text().splitlines()


def is_comment(line):
    return line.lstrip().startswith("//") or line.lstrip().startswith("ghost use")


def search(tree, pattern):
    for path, lines in sources(tree):
        for i, line in enumerate(lines):
            if not is_comment(line) and re.search(pattern, line):
                yield f"{path}:{i + 1}: {line.strip()}"


def closures(tree):
    for path, lines in sources(tree):
        for i, line in enumerate(lines):
            if is_comment(line) or "λ" in line or "ensures" in line or "requires" in line:
                continue
            if re.search(r"(?<![|\w] )\|[a-z_&( ][^|]*\| |\bdyn |\bFn(Once|Mut)?\(", line) and "||" not in line:
                yield f"{path}:{i + 1}: {line.strip()}"


def functions(tree):
    """Each function of a file: its name, its parameters and its body."""
    for path, lines in sources(tree):
        text = "\n".join(line for line in lines if not line.lstrip().startswith("//"))
        for match in re.finditer(r"\bfn (\w+)(<[^({]*>)?\(", text):
            depth, i = 1, match.end()
            while depth and i < len(text):
                depth += {"(": 1, ")": -1}.get(text[i], 0)
                i += 1
            parameters = " ".join(text[match.end():i - 1].split())
            start = re.compile(r"^\s*\{|\) *\{$| \{$", re.M).search(text, i)
            body = ""
            opening = text.find("\n" + " " * (len(match.string[:match.start()].split("\n")[-1]) - len(match.string[:match.start()].split("\n")[-1].lstrip())) + "{", i)
            if start and opening >= 0:
                depth, j = 1, text.index("{", opening) + 1
                k = j
                while depth and k < len(text):
                    depth += {"{": 1, "}": -1}.get(text[k], 0)
                    k += 1
                body = text[j:k - 1]
            yield path, match.group(1), parameters, body


def twins(tree):
    """Functions whose bodies are the same but for the names and numbers in them, of three lines or more."""
    shapes = {}
    for path, name, _, body in functions(tree):
        if "/tests" in str(path) or body.count("\n") < 4:
            continue
        shape = re.sub(r"\b(?!if\b|for\b|in\b|let\b|mut\b|match\b|return\b|else\b|Some\b|None\b|Ok\b|Err\b)[\w']+\b", "_", body)
        shapes.setdefault(" ".join(shape.split()), []).append(f"{path}: {name}")
    for places in shapes.values():
        if len(places) > 1:
            yield " · ".join(places)


def repeated_facts(tree):
    """Facts that the requires of three functions or more state of one value."""
    counts = {}
    for path, lines in sources(tree):
        for line in lines:
            match = re.match(r"\s+requires( \w+)? \{ (.*) \}$", line)
            if match:
                counts.setdefault(match.group(2), []).append(str(path))
    for fact, places in sorted(counts.items()):
        if len(places) >= 3:
            yield f"{len(places)} times: {fact}"


def travelling(tree):
    """Two parameters of the same names and types in four functions or more."""
    pairs = {}
    for path, name, parameters, _ in functions(tree):
        parts = [p.strip() for p in re.split(r",(?![^<(]*[>)])", parameters) if ":" in p]
        for i, one in enumerate(parts):
            for other in parts[i + 1:]:
                pairs.setdefault((one, other), set()).add(f"{path.parts[1]}::{name}")
    for (one, other), names in sorted(pairs.items()):
        if len(names) >= 4:
            yield f"{one}, {other}: {', '.join(sorted(names))}"


def proofs(tree):
    for kind in ["Answers.antt", "Invariants.antt"]:
        files = sorted(tree.glob(f"crates/*/proofs/**/{kind}"))
        yield f"{kind}: {len(files)} files, {sum(len(f.read_text().splitlines()) for f in files)} lines"
    files = [f for f in tree.glob("crates/*/proofs/*.antt") if f.name != "Lib.antt"]
    yield f"lemma files: {len(files)} files, {sum(len(f.read_text().splitlines()) for f in files)} lines"


def main():
    words = [w for w in sys.argv[1:] if w != "--counts"]
    tree = pathlib.Path(words[0] if words else ".")
    found = [(name, list(search(tree, pattern))) for name, pattern in SEARCHES if not name.startswith("7")]
    found.insert(4, ("2 functions of one shape", list(twins(tree))))
    found.insert(7, ("5a facts in three requires or more", list(repeated_facts(tree))))
    found.insert(8, ("5b parameters together in four functions or more", list(travelling(tree))))
    found.append(("7 closures, traits of functions, dyn", list(closures(tree))))
    for name, places in found:
        print(f"{name}: {len(places)}")
        if "--counts" not in sys.argv:
            print("".join(f"    {place}\n" for place in places), end="")
    print("8 proofs:")
    print("".join(f"    {line}\n" for line in proofs(tree)), end="")


main()
