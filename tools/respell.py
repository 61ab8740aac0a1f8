#!/usr/bin/env python3
"""Respells the repository's own definitions and lemmas: words in snake case, facts in camel case.

The port to the toolchain named in README.md respelled the library's words; this script does the same for ours. It reads and
rewrites crates/*/specs, crates/*/proofs, crates/*/src and the must-fail and refused edits, but for quoted strings. A word such as
`firstFalse`, alone or as a part of a name with dashes, becomes `first_false`, and a field's dash an underscore; the names of lemmas
keep their dashes. No function of src/ has such a name, so no code changes. The library's `AllByRecursion`, which the toolchain's
script imports as `All`, gets its own name back, since `All` is another word of the library. A second run changes nothing.

  tools/respell.py           rewrites the files and says which words it turned
  tools/respell.py --check   only says which words it would turn, and which of them would fall together with another name
"""
import collections
import os
import re
import sys

ROOT = os.path.dirname(os.path.dirname(os.path.abspath(__file__)))
PART = re.compile(r"(?<![\w'])[a-z][a-z0-9]*(?:[A-Z][a-z0-9]*)+(?![\w'])")
QUOTED = re.compile(r'"(?:[^"\\\n]|\\.)*"')

# Words of the library that were renamed inside our lemmas' names; facts that were spelled as values, and a lemma whose name would
# fall together with its definition's, each by file
OTHER = {"getD": "get_or", "upTo": "up_to"}
FIELDS = {
    "crates/store/": {"same-lender": "same_lender", "used-more": "used_more"},
    "crates/report/": {"text-is": "text_is", "line-is": "line_is"},
    "crates/encode/": {"text-is": "text_is", "line-is": "line_is"},
}
NAMED = {
    "crates/encoder/proofs/Whole.antt": {"in_step": "in_step_lem"},
    "crates/encoding/proofs/Labelling.antt": {"fits": "IsFitting"},
    "crates/encoding/proofs/Steps.antt": {"good": "IsGood"},
    "crates/encoding/proofs/Symbolic.antt": {"good": "IsGood", "fine": "IsFine"},
}


def snake(word):
    return OTHER.get(word) or re.sub(r"[A-Z]", lambda m: "_" + m[0].lower(), word)


def files():
    for folder, dirs, names in os.walk(os.path.join(ROOT, "crates")):
        dirs[:] = sorted(d for d in dirs if d != "out")
        for name in sorted(names):
            if name.endswith((".antt", ".rt", ".edit")):
                yield os.path.join(folder, name)


def turned(path, text, count):
    if "AllByRecursion as All" in text:
        text = text.replace("AllByRecursion as All", "AllByRecursion")
        text = re.sub(r"(--|//).*|(?<![\w'.-])All(?![\w'-])", lambda m: m[0] if m[1] else "AllByRecursion", text)
        count["All", "AllByRecursion"] += 1
    def part(m):
        new = snake(m[0])
        count[m[0], new] += 1
        return new

    for folder, fields in FIELDS.items():
        for old, new in fields.items() if os.path.relpath(path, ROOT).startswith(folder) else ():
            text, n = re.subn(rf"(?<![\w'-]){old}(?![\w'-])", new, text)
            count[old, new] += n
    for old, new in NAMED.get(os.path.relpath(path, ROOT), {}).items():
        if re.search(rf"(?<![\w'.-]){new}(?![\w'-])", text):
            continue  # turned before
        text, n = re.subn(rf"(?<![\w'.-]){old}(?![\w'-])", new, text)
        count[old, new] += n
    out, at = [], 0
    for quoted in QUOTED.finditer(text):
        out += [PART.sub(part, text[at : quoted.start()]), quoted[0]]
        at = quoted.end()
    return "".join(out) + PART.sub(part, text[at:])


def main():
    words = sys.argv[1:]
    if words not in ([], ["--check"]):
        print(__doc__)
        return 0 if words in (["-h"], ["--help"]) else 2
    count, before = collections.Counter(), set()
    for path in files():
        with open(path, encoding="utf-8") as f:
            text = f.read()
        before.update(re.findall(r"[\w']+", text))
        new = turned(path, text, count)
        if new != text and not words:
            with open(path, "w", encoding="utf-8") as f:
                f.write(new)
    for (old, new), n in sorted(count.items()):
        if n:
            print(f"{old} -> {new} ({n})" + ("  also stood before" if new in before else ""))
    return 0


sys.exit(main())
