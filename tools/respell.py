#!/usr/bin/env python3
"""Turns the names that this repository itself gives in specs/, proofs/ and ghost items to snake case and camel case.

usage: python3 tools/respell.py            at the top of the repository, once, after the toolchain's own script

A definition, a lemma, a field or a constructor `a-b-c` becomes `a_b_c`, and a type or a fact `Good-before` becomes
`GoodBefore`. Names that the toolchain makes (goals, steps), names of its library, names of src/, comments, strings,
inputs and outputs stay. Prints what it turned, and names that fall together; it writes nothing if any do.
"""

import os
import re

NAME = r"[^\s(){}\[\];,.:|λ\"«»]+"
TOKEN = re.compile(r"(?<![^\s(){}\[\];,.:|λ\"«»])" + NAME)
SIGNATURE = re.compile(r"(?:(?:abbrev|unfoldable|pub|data|record) )*(" + NAME + r")\s*(?:\(|\{|:(?!:))")
FIELD = re.compile(r"\s+pub (" + NAME + r")\s*:")
CONSTRUCTOR = re.compile(r"\s+(" + NAME + r")\s*:\s")
OLD_MARK = {"within-getD": "within_get_or"}


def files():
    for folder, _, names in os.walk("crates"):
        if "/out" not in folder:
            for name in sorted(names):
                if name.endswith((".antt", ".rt")):
                    yield os.path.join(folder, name)


def parts(line, rust):
    """The line's code and its comment. A string is left in the code, and has no name of ours in it."""
    mark = re.search(r"//" if rust else r"(?:(?<=\s)|^)--", re.sub(r'"(\\.|[^"\\])*"', lambda m: "\"" * len(m[0]), line))
    return (line[: mark.start()], line[mark.start() :]) if mark else (line, "")


def own():
    """The names that this repository gives in .antt files, less those of goals."""
    found, goals = set(), set()
    for path in files():
        if not path.endswith(".antt"):
            continue
        block = ""
        with open(path, encoding="utf-8") as f:
            for line in f:
                code = parts(line, False)[0]
                goals.update(re.findall(r"\bgoal\.(" + NAME + ")", code))
                if not code.strip():
                    continue
                if code[0] not in " \t":
                    block = (re.match(r"(?:pub )?(data|record|module) ", code) or [None, ""])[1]
                    it = None if re.match(r"(?:pub )?(?:use|mod) ", code) else SIGNATURE.match(code)
                elif block == "record":
                    it = FIELD.match(code)
                elif block == "module" and re.match(r"  \S| +pub ", code):
                    it = SIGNATURE.match(code.strip())
                elif block == "data":
                    it = CONSTRUCTOR.match(code)
                else:
                    it = None
                if it:
                    found.add(it[1])
    return found - goals


def spelled(name):
    if name in OLD_MARK:
        return OLD_MARK[name]
    if name[0].isupper():
        return "".join(w[0].upper() + w[1:] for w in name.split("-"))
    return name.replace("-", "_")


def main():
    given = own()
    new = {name: spelled(name) for name in given if re.search(r"[\w']-[\w']", name)}
    texts, functions = {}, set()
    for path in files():
        with open(path, encoding="utf-8") as f:
            texts[path] = f.read()
        if path.endswith(".rt"):
            functions.update(re.findall(r"\bfn (\w+)", texts[path]))
    clash = False
    for b in sorted(set(new.values())):
        same = sorted(a for a in given if new.get(a, a) == b)
        if len(same) > 1:
            print("fall together: " + ", ".join(same))
            clash = True
        if b in functions:
            print(f"{same[0]} is now {b}, as is a function of src/, in another module")
    if clash:
        return 1

    def turned(line, rust):
        code, comment = parts(line, rust)

        def one(m):
            before = code[: m.start()]
            step = re.search(r"(?:^|[\s(\[{,;])(?:c|l)\.$", before)
            return m[0] if step else new.get(m[0], m[0])

        return TOKEN.sub(one, code) + comment

    count = 0
    for path, text in texts.items():
        out = "".join(turned(line, path.endswith(".rt")) for line in text.splitlines(keepends=True))
        if out != text:
            count += 1
            with open(path, "w", encoding="utf-8") as f:
                f.write(out)
    for a in sorted(new):
        print(f"{a} is now {new[a]}")
    print(f"{len(new)} names, {count} files")
    return 0


if __name__ == "__main__":
    raise SystemExit(main())
