#!/usr/bin/env python3
"""Counts the places in src/ that are written in an older form, by the points of docs/DESIGN-PASS.md.

    python3 tools/old_forms.py [-v] [FOLDER]     FOLDER is the project's root, or another checkout of it; -v lists the places

A place is what a pattern finds, so a number is where to look and no verdict: docs/DESIGN-PASS.md says of each that is left why it stays.
"""
import re
import sys
from pathlib import Path

# variants that stand for "none", "good" or "bad" with what comes with it
SHAPES = r"(Good|Refused\(u8\)|Bad\(|Nowhere|Done(\(|,)|End,|Stop\(u8|Value\(|Full\(|From\(usize|At\()"
# what std, a derive or a trait gives
BY_HAND = r"fn (same\w*|is|bit|wide(32)?|byte|word|least|up|digit|is_digit|blank_sizes|within|shown|none|nothing|empty|bare|blank|idle|either|last|call_of|told_as)[(<]"
# the comment of a function that answers a number for "none"
NO_VALUE = r"//.*(\b0 where (it|none|no|there|the call is)|0 for none|or 256\b|, or 0\.|if none has|0 where none)"
FACTS = r"(thread < 8|link < 16|position_of self (thread|caller.number) slot < 32|10 ≤ length input.now|room_for_all ≤ length|length marks.now ≡ 240|length row.old ≡ 64|at \+ \w+_room ≤ length out.old|HasRoom \w+ )"


def files(root):
    return sorted(p for p in Path(root).glob("crates/*/src/**/*.rt") if "/out/" not in str(p))


def lines(root, pattern):
    found = re.compile(pattern)
    for path in files(root):
        for n, line in enumerate(path.read_text().splitlines(), 1):
            if found.search(line):
                yield f"{path.relative_to(root)}:{n}: {line.strip()[:100]}"


def blocks(root, kind):
    """Each `enum` or `struct` with its body, each `fn` with its body."""
    for path in files(root):
        for m in re.finditer(rf"^( *)(?:pub(?:\(crate\))? )?{kind} (\w+).*?^\1}}$", path.read_text(), re.M | re.S):
            yield path.relative_to(root), m[2], m[0]


def enums(root):
    for path, name, body in blocks(root, "enum"):
        if re.search(rf"^    {SHAPES}", body, re.M):
            yield f"{path}: enum {name}"


def twins(root):
    """Functions whose bodies differ in names and numbers alone, of four lines or more."""
    same = {}
    for path, name, body in blocks(root, r"(?:extern \"C\" )?fn"):
        alone = re.search(r"^ *\{$", body, re.M)
        inside = body[alone.start() if alone else body.index("{"):]
        shape = re.sub(r"//.*", "", inside)
        shape = re.sub(r"\b(?!(?:let|mut|if|else|while|for|in|return|match|as|true|false|self)\b)[A-Za-z_]\w*", "x", shape)
        shape = re.sub(r"x(::x)+", "x", re.sub(r"b?\"[^\"]*\"", "x", re.sub(r"\b\d+\b", "0", shape)))
        if len([s for s in inside.splitlines() if s.strip()]) >= 6:
            same.setdefault(re.sub(r"\s+", " ", shape), []).append(f"{path} {name}")
    for group in same.values():
        if len(group) > 1:
            yield " = ".join(group)


def parallel(root):
    for path, name, body in blocks(root, "struct"):
        sizes = re.findall(r"\[[\w ]+; (\d+)\]", body)
        if len(sizes) != len(set(sizes)):
            yield f"{path}: struct {name}"


def stepping(root):
    yield from lines(root, r"^\s*('\w+: )?(while|loop) ")
    yield from lines(root, r"\bfor \w+ in [\w:.]+\.\.")


POINTS = [
    ("1 enums of the shape of Option or Result", enums),
    ("1 a flag beside the value it speaks of", lambda r: lines(r, r"^\s+(pub )?(there|listed|agrees|shown): bool,")),
    ("1 constants that number kinds", lambda r: lines(r, r"^pub const [A-Z_]+: (usize|u8) = \d+;")),
    ("1 numbers for refusals", lambda r: lines(r, r"(Refused|Stop|stopped)\(\d+\)|^\s+return (19|2\d|3[01]|60|61);")),
    ("1 a number that stands for none", lambda r: lines(r, NO_VALUE)),
    ("2 functions alike but for names and numbers (groups)", twins),
    ("3 loops that count or step by hand", stepping),
    ("4 written by hand what std or a derive gives", lambda r: lines(r, BY_HAND)),
    ("4 a struct written anew for one field", lambda r: lines(r, r"^\s+(hand|hazard|mark|handover|doing|back): (me|held|there|old|task)\.\w+,$")),
    ("5 a fact in the contracts of three or more", lambda r: lines(r, FACTS)),
    ("6 a lent buffer and the place in it, side by side", lambda r: lines(r, r"out: &mut \[u8\], at: usize|^    out: &mut \[u8\],$")),
    ("6 structs with arrays side by side", parallel),
    ("7 a match on a number or a name for which step to run", lambda r: lines(r, r"\bmatch (operation|doing|was|table|line|row|size|side|place|run|slots|k|number)\b(?!\()")),
]


def main(words):
    show = "-v" in words
    rest = [w for w in words if w != "-v"]
    root = Path(rest[0] if rest else ".").resolve()
    for name, of in POINTS:
        places = list(of(root))
        print(f"{len(places):4}  {name}")
        if show:
            print("".join(f"        {p}\n" for p in places), end="")
    for kind in ("Answers", "Invariants"):
        found = list(root.glob(f"crates/*/proofs/**/{kind}.antt"))
        print(f"{len(found):4}  8 proof files {kind}.antt, {sum(len(p.read_text().splitlines()) for p in found)} lines")
    print(f"{sum(len(p.read_text().splitlines()) for p in files(root)):4}  lines of src/ in {len(files(root))} files")


main(sys.argv[1:])
