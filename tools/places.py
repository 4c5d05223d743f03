#!/usr/bin/env python3
"""Lists places in src/ that may be written in a plainer form, point by point.

    python3 tools/places.py            the files as they stand
    python3 tools/places.py COMMIT     as they stood at a commit

A row is a place to look at, and not a verdict. docs/DESIGN-PASS.md says what became of each.
"""
import collections
import itertools
import os
import re
import subprocess
import sys


def git(*words):
    return subprocess.run(["git", *words], capture_output=True, text=True, check=True).stdout


top = git("rev-parse", "--show-toplevel").strip()
commit = sys.argv[1] if len(sys.argv) > 1 else None
if commit:
    names = git("-C", top, "ls-tree", "-r", "--name-only", commit).splitlines()
else:
    names = git("-C", top, "ls-files", "--cached", "--others", "--exclude-standard").splitlines()
    names = [n for n in names if os.path.exists(f"{top}/{n}")]


def text(name):
    if commit:
        return git("-C", top, "show", f"{commit}:{name}")
    with open(f"{top}/{name}", encoding="utf-8") as f:
        return f.read()


sources = {n: text(n) for n in names if re.match(r"crates/\w+/src/.*\.rt$", n)}
proofs = {n: text(n) for n in names if re.match(r"crates/\w+/proofs/.*\.antt$", n)}


def say(point, rows):
    print(f"\n{point}: {len(rows)}")
    for row in rows:
        print("  " + row)


def lines(pattern):
    return [
        f"{n}:{i}: {line.strip()}"
        for n, s in sorted(sources.items())
        for i, line in enumerate(s.splitlines(), 1)
        if re.search(pattern, line)
    ]


def functions_of(s):
    """Each function's name, parameters and body; a clause stands on one line, a body does not begin on a clause's."""
    for m in re.finditer(r"\bfn (\w+)(?:<(?:[^()<>]|\([^()]*\)|->|<[^<>]*>)*>)?\(", s):
        depth, i = 1, m.end()
        while depth:
            depth += {"(": 1, ")": -1}.get(s[i], 0)
            i += 1
        params = s[m.end() : i - 1]
        body = ""
        # clauses stand on lines of their own; a body begins with a brace that ends its line
        begin = re.match(r"(?:[^{;]|\{ [^\n]*\})*?\{\n", s[i:])
        if begin:
            line = s[s.rfind("\n", 0, m.start()) + 1 : m.start()]
            indent = line[: len(line) - len(line.lstrip())]
            close = re.compile(rf"^{indent}\}}", re.M).search(s, i + begin.end())
            body = s[i + begin.end() : close.start()] if close else ""
        yield m[1], params, body


functions = [(n, *f) for n, s in sorted(sources.items()) for f in functions_of(s)]

say("1a enums, to read for the shape of Option or Result", lines(r"^\s*(pub(\(crate\))? )?enum "))
say(
    "1b arms that pass a result on",
    lines(r"(Err\(\w+\) => (return )?Err\b)|(None => (return )?Err\b)|(Ok\(_\) => \{\})|(Ok\(\(\)\) => Ok)|(Some\(\w+\) => (Ok|Some)\()|(Err\(\w+\) => Some\()|(Ok\(_\) => (Ok\()?None)"),
)
say("1c flags, results in results, functions that answer a number of a kind", lines(r"let mut \w+ = (true|false);|Result<Result|fn \w*kind\w*\([^)]*\) -> u\d"))


def shape(body):
    seen = {}
    keep = {"let", "mut", "for", "in", "if", "else", "match", "while", "return", "Ok", "Err", "Some", "None", "self", "Self", "as", "break"}
    words = re.findall(r"\w+|[^\s\w]", re.sub(r"//.*", "", body))
    return " ".join(w if w in keep or not re.match(r"\w", w) else seen.setdefault(w, f"n{len(seen)}") for w in words)


twins = collections.defaultdict(list)
for n, name, _, body in functions:
    if len(re.findall(r"\w+", body)) >= 2:
        twins[shape(body)].append(f"{n} {name}")
say("2 functions of one shape, but for names and numbers", [", ".join(v) for v in twins.values() if len(v) > 1])

say("3 loops over a range or by a condition, and counters", lines(r"^\s*(while |loop |for \w+ in [^{]*\.\.(?!\])[^\]]*\{)|^\s*\w+ \+= "))

say("4a traits of the library written by hand", lines(r"^\s*impl.* (PartialEq|Eq|PartialOrd|Ord|Clone|Copy|Debug|Default|(fmt::)?Display|From<.*>|TryFrom<.*>|FromStr|Iterator) for "))
say(
    "4b functions of a value that only match on it, or on one text",
    [f"{n} {name}" for n, name, params, body in functions if re.match(r"\s*(let \(?[\w, ]+\)? = )?match (\*?self|fault|words\.word\(.*\)\?)(\.\w+)? \{", body)],
)

clauses = collections.Counter(
    re.sub(r"^\s*(requires|ensures)( \w+)? ", "", line).strip()
    for s in sources.values()
    for line in s.splitlines()
    if re.match(r"\s*(requires|ensures)\b", line)
)
say("5a clauses that stand three times or more", [f"{k} x {c}" for c, k in clauses.most_common() if k >= 3])
pairs = collections.defaultdict(list)
for n, name, params, _ in functions:
    each = {re.sub(r"\s+", " ", p).strip() for p in params.split(",") if ":" in p}
    for pair in itertools.combinations(sorted(each), 2):
        pairs[pair].append(f"{n.split('/')[1]} {name}")
say("5b parameters that stand side by side in three functions or more", [f"{a}, {b}: {', '.join(v)}" for (a, b), v in sorted(pairs.items()) if len(v) > 2])

structs = [
    f"{n} {m[1]}"
    for n, s in sorted(sources.items())
    for m in re.finditer(r"struct (\w+)[^;{]*\{(.*?)^\}", s, re.M | re.S)
    if re.search(r"\[|Vec<", m[2]) and re.search(r": usize|Head", m[2])
]
say("6 structs with a number beside a slice or a vector, and searches by hand", structs + lines(r"binary_search|\.sort"))
say("7 function pointers, closures as parameters, dyn", lines(r"\bdyn |: fn\(|Fn(Once|Mut)?\("))
answers = {n: s for n, s in proofs.items() if n.endswith("/Answers.antt")}
print(f"\n8 proofs: {sum(len(re.findall(r'^pub [^:]+: goal', s, re.M)) for s in answers.values())} answers in {len(answers)} files, {sum(s.count(chr(10)) for s in proofs.values())} lines of proofs")
