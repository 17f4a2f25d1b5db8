#!/usr/bin/env python3
"""Brings the repository's own names in specs and proofs to one spelling: snake case for definitions, lemmas, fields and
constructors, types and modules as they are. Run once, at the top, on what the kit's port.py leaves; on its own result it
changes nothing.

It goes by words. A word is renamed where it is written with dashes or as `camelCase`, stands in a file of specs/ or in a file
of lemmas, and is not brought in from the kit. In src/ it touches contracts and `ghost use` lines alone, since no name of the
code is written so; comments and strings stay, but for names between backticks. Where a lemma would fall together with a
function, the lemma gets `_lem` and a premise `_holds`.
"""
import glob
import re

WORD = re.compile(r"(?<![\w'·-])[a-z][\w'·]*(?:-[\w'·]+)*(?![\w'-])")
USE = re.compile(r"^\s*(?:ghost )?use ([^\n{;]*?)(?:\.\{(.*?)\})?(?: as \S+?)?;?$", re.M | re.S)

# What the kit's script brought to the spelling that a function of ours now gets: the lemma makes room for the function.
APART = {"takenOut": ("taken_out", "taken_out_lem"), "lastLine": ("last_line", "last_line_lem")}
# Named by hand: what it says reads better than the name of the function that it is about.
BY_HAND = {"five-places": "places_sum"}
# Made by the kit for each function, and named in the files of proofs: never ours.
MADE = re.compile(r"^(returns|loop|add|sub|mul|index|bounds|overflow|decreases|invariant)-")


def snake(name):
    return re.sub(r"([a-z0-9])([A-Z])", lambda m: m.group(1) + "_" + m.group(2).lower(), name).replace("-", "_").replace("·", "_")


def spec_files():
    return sorted(glob.glob("crates/*/specs/**/*.antt", recursive=True) + glob.glob("crates/*/proofs/*.antt"))


def bare(text):
    """The text without strings and comments."""
    text = re.sub(r'"(?:[^"\\]|\\.)*"', '""', text)
    return re.sub(r"(^|\s)--(\s[^\n]*|$)", r"\1", text, flags=re.M)


def own(path):
    head = path.split(".")
    return head[0] == "Rattle" and bool(glob.glob("crates/" + (head[1] if len(head) > 1 else "-")))


def names():
    """Old to new, over all files of definitions and lemmas."""
    words, declared, kits = set(), set(), set()
    for file in spec_files():
        text = bare(open(file, encoding="utf-8").read())
        for m in USE.finditer(text):
            if m.group(2) and not own(m.group(1)):
                kits |= {x.strip().split(" as ")[0] for x in m.group(2).split(",")}
        body = USE.sub("", text)
        words |= set(WORD.findall(body))
        declared |= set(re.findall(r"^\s*(?:pub |abbrev |unfoldable )*([a-z][^\s(){}:]*)\s*(?:[({].*)?:", body, re.M))
    old = {w for w in words - kits if re.search(r"-|·|[a-z0-9][A-Z]", w)}
    functions = {snake(w): w for w in old if "-" not in w}
    functions.update({w: w for w in words if re.fullmatch(r"[a-z][a-z0-9_']*", w)})
    table = {}
    for w in sorted(old):
        new = snake(w)
        if "-" in w and functions.get(new, w) != w:
            new += "_lem" if w in declared else "_holds"
        table[w] = BY_HAND.get(w, new)
    return table


def turned(text, table, local):
    skip = {w for w in table if local and MADE.match(w)}
    # the proof of a function f is f_spec
    ends = lambda w: snake(w) if local and w.endswith("-spec") else w
    return WORD.sub(lambda m: m.group(0) if m.group(0) in skip else table.get(m.group(0), ends(m.group(0))), text)


def turn_antt(text, table, local):
    lines = []
    for line in text.split("\n"):
        code, dash, comment = re.match(r"(.*?)((?:^|(?<=\s))--(?=\s|$))(.*)$", line).groups() if re.search(r"(^|\s)--(\s|$)", line) else (line, "", "")
        parts = re.split(r'("(?:[^"\\]|\\.)*")', code)
        parts = [p if p.startswith('"') else turned(p, table, local) for p in parts]
        comment = re.sub(r"`[^`]*`", lambda m: turned(m.group(0), table, local), comment)
        lines.append("".join(parts) + dash + comment)
    return "\n".join(lines)


def turn_rt(text, table):
    lines = []
    for line in text.split("\n"):
        code, slashes, comment = re.match(r"(.*?)(//|$)(.*)$", line).groups()
        parts = re.split(r'("(?:[^"\\]|\\.)*")', code)
        parts = [p if p.startswith('"') else turned(p, table, False) for p in parts]
        comment = re.sub(r"`[^`]*`", lambda m: turned(m.group(0), table, False), comment)
        lines.append("".join(parts) + slashes + comment)
    return "\n".join(lines)


def main():
    table = names()
    lemmas = set(spec_files())
    apart = dict(pair for old, pair in APART.items() if old in table)
    files = glob.glob("crates/*/specs/**/*.antt", recursive=True) + glob.glob("crates/*/proofs/**/*.antt", recursive=True)
    files += glob.glob("crates/*/src/**/*.rt", recursive=True)
    for file in sorted(files):
        text = open(file, encoding="utf-8").read()
        if file.endswith(".antt"):
            new = turn_antt(text, apart, False) if file in lemmas else text
            new = turn_antt(new, table, file not in lemmas)
        else:
            new = turn_rt(text, table)
        if new != text:
            open(file, "w", encoding="utf-8").write(new)
    for old, new in sorted(table.items()):
        print(old, new)


if __name__ == "__main__":
    main()
