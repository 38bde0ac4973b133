#!/usr/bin/env python3
"""Brings the names of this repository's own definitions and lemmas to the spelling of the installed Rattle:
words in snake case, facts in camel case. Run once, at the top, after the kit's port.py.

A name counts as ours where a file of specs/ or proofs/ declares it (at the start of a line, in a record, a data or a
let), and is no goal that the check asks for. Names of Rust code, strings, inputs and outputs are left as they are.
"""
import glob
import re
import sys

# Facts, names that hold an older name of the library, and one that a field of the code has already.
OTHERWISE = {
    "Hands-out-its-own": "HandsOutItsOwn",
    "All-own": "AllOwn",
    "getD-new": "get_or_new",
    "getD-unchecked": "get_or_unchecked",
    "getD-soiled": "get_or_soiled",
    "getD-blocks": "get_or_blocks",
    "eqb-suc": "eq_suc",
    "in-journal": "is_in_journal",
}
DECLARED = re.compile(
    r"^\s*(?:abbrev |unfoldable |pub |data |record |let |ruleset )*([^\s:(){}]+)\s*(?:\([^:]*:[^)]*\)\s*|\{[^}]*\}\s*)*:\s"
)
NAME = r"[\w'′₀-₉·-]"


def ours():
    names, goals = {}, set()
    for path in sorted(glob.glob("crates/**/*.antt", recursive=True)):
        for line in open(path, encoding="utf-8"):
            found = DECLARED.match(line)
            if not found or line.strip().startswith("--"):
                continue
            name = found.group(1)
            if "-" not in name:
                continue
            if re.search(r":\s*\w+\." + re.escape(name) + r"\b", line):
                goals.add(name)
            else:
                names[name] = OTHERWISE.get(name, name.replace("-", "_"))
    return {old: new for old, new in names.items() if old not in goals}, goals


def spelled(text, names, pattern):
    return pattern.sub(lambda found: names[found.group(0)], text)


def turned(path, text, names, pattern):
    if path.endswith(".antt"):
        return spelled(text, names, pattern)
    if path.endswith(".md"):
        return re.sub(r"`[^`]*`", lambda code: spelled(code.group(0), names, pattern), text)
    lines = text.split("\n")
    return "\n".join(line if '"' in line else spelled(line, names, pattern) for line in lines)


def main():
    names, goals = ours()
    pattern = re.compile(
        r"(?<!" + NAME + r")(?:" + "|".join(sorted(map(re.escape, names), key=len, reverse=True)) + r")(?!" + NAME + r")"
    )
    paths = [p for kind in ("antt", "rt") for p in glob.glob(f"crates/**/*.{kind}", recursive=True)]
    paths += glob.glob("docs/*.md") + ["README.md"]
    news = {}
    for old, new in names.items():
        news.setdefault(new, []).append(old)
    for new, olds in news.items():
        if len(olds) > 1:
            print(f"falls together: {new} from {', '.join(olds)}")
    fresh = re.compile(r"(?<!" + NAME + r")(?:" + "|".join(sorted(map(re.escape, news), key=len, reverse=True)) + r")(?!" + NAME + r")")
    for path in sorted(paths):
        text = open(path, encoding="utf-8").read()
        if path.endswith(".antt") or path.endswith(".rt"):
            taken = sorted(set(fresh.findall(text)))
            if taken:
                print(f"{path}: stood there already: {', '.join(taken)}")
        new = turned(path, text, names, pattern)
        if new != text and "--dry" not in sys.argv:
            open(path, "w", encoding="utf-8").write(new)
    print(f"{len(names)} names; goals left: {' '.join(sorted(goals))}")


main()
