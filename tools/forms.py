#!/usr/bin/env python3
"""Counts the places in crates/*/src that are written in an older form, for docs/DESIGN-PASS.md.

    tools/forms.py          a line for each point, with its count
    tools/forms.py -v       each place too

It reads text, and judges nothing: a place that it finds may have its reason, which stands beside it or in the page.
"""
import collections
import glob
import os
import re
import sys

ROOT = os.path.join(os.path.dirname(os.path.abspath(__file__)), "..")


def sources():
    for path in sorted(glob.glob(os.path.join(ROOT, "crates", "*", "src", "**", "*.rt"), recursive=True)):
        with open(path) as f:
            yield os.path.relpath(path, os.path.join(ROOT, "crates")), f.read()


def bare(text):
    """The text without comments."""
    return re.sub(r"(?m)^\s*//.*$", "", text)


def block(text, at):
    """The text from a '{' to the '}' that closes it."""
    depth, i = 0, text.index("{", at)
    start = i
    while i < len(text):
        if text[i] == "{":
            depth += 1
        elif text[i] == "}":
            depth -= 1
            if depth == 0:
                return text[start : i + 1]
        i += 1
    return text[start:]


def enums():
    """Point 1: own enums of the shape of Option or Result."""
    for path, text in sources():
        for m in re.finditer(r"\benum (\w+)[^{;]*\{", text):
            body = bare(block(text, m.start()))[1:-1]
            body = re.sub(r"\{[^}]*\}", "{}", body)
            cases = [v.strip() for v in re.split(r",\s*(?![^(]*\))", body) if v.strip()]
            refuses = [v for v in cases if re.search(r"\((Refusal|\w*Error|usize)\)", v) and re.match(r"Refused|Broken|NotOpened|Err", v)]
            plain = [v for v in cases if re.fullmatch(r"\w+", v)]
            if len(cases) == 2 and (len(plain) == 1 or refuses) or len(cases) > 2 and refuses:
                yield path, m.group(1)


def flags():
    """Point 1: a flag or an outcome with a value beside it."""
    for path, text in sources():
        for m in re.finditer(r"\b(pub )?struct (\w+)[^{;]*\{", text):
            body = block(text, m.start())
            if re.search(r"\b(outcome: (Outcome|Result)|given: bool|found: bool)", body):
                yield path, m.group(2)
        for m in re.finditer(r"\bfn (\w+)", text):
            head = text[m.start() : text.find("{\n", m.start())]
            if re.search(r"\b(has_\w+|given|found): (&mut )?bool", head):
                yield path, m.group(1)


def numbers():
    """Point 1: numbers for kinds."""
    for path, text in sources():
        for m in re.finditer(r"\b(kind|algorithm|kdf|mark|phase): (u8|u32|usize)\b", bare(text)):
            yield path, m.group(0)


def twins():
    """Point 2: functions that are one text but for names, types and numbers, six lines of body or more."""
    same = collections.defaultdict(list)
    for path, text in sources():
        starts = [m.start() for m in re.finditer(r"(?m)^ *(?:pub(?:\(crate\))? )?(?:extern \"C\" )?fn \w+", text)]
        for at, end in zip(starts, starts[1:] + [len(text)]):
            whole = bare(text[at:end])
            name = re.search(r"fn (\w+)", whole).group(1)
            whole = re.sub(r"\n}\n.*\Z", "\n}\n", whole, flags=re.S)
            code = re.sub(r"(?m)^\s*(requires|ensures).*$", "", whole)
            if len([l for l in code.split("\n") if l.strip()]) < 8:
                continue
            shape = re.sub(r"b\"[^\"]*\"|\"[^\"]*\"", "T", code)
            shape = re.sub(r"\b(0x[0-9a-fA-F_]+|\d[\d_]*)(u8|u32|u64|usize)?\b", "N", shape)
            shape = re.sub(r"\b[A-Za-z_]\w*\b", lambda w: w.group(0) if w.group(0) in KEEP else "x", shape)
            shape = re.sub(r"\s+", " ", shape)
            same[shape].append((path, name))
    for group in same.values():
        if len(group) > 1:
            yield group[0][0], " ".join(f"{p}:{n}" for p, n in group)


KEEP = {"fn", "let", "mut", "if", "else", "while", "for", "in", "match", "return", "as", "pub", "self", "Ok", "Err", "Some", "None"}


def loops():
    """Point 3: loops that count an index by hand."""
    for path, text in sources():
        for m in re.finditer(r"(?m)^\s*while .*$", text):
            yield path, m.group(0).strip()


def by_hand():
    """Point 4: equality, order, copying, conversion and printing by hand."""
    names = r"(same|copy|compare|order|to_\w+|of_u8|number|unpack_\w+|\w+_number|\w+_of_number)"
    for path, text in sources():
        for m in re.finditer(r"\bfn " + names + r"\b", text):
            yield path, m.group(1)


def facts():
    """Point 5: a fact that three or more functions of a crate require."""
    found = collections.defaultdict(list)
    for path, text in sources():
        for m in re.finditer(r"(?m)^\s*requires (?:\w+ )?\{ (.*) \}$", text):
            found[path.split("/")[0], m.group(1)].append(path)
    for (crate, fact), places in found.items():
        if len(places) > 2:
            yield crate, f"{len(places)} x {fact}"


def beside():
    """Point 6: a buffer with a length beside it, arrays that go together."""
    for path, text in sources():
        for m in re.finditer(r"\b(\w+): (&\[u8\]|\[u8; \w+\]|usize),\s+(?:pub )?(\1_len|len|length|held): (usize|u8|u32)", text):
            yield path, m.group(0).replace("\n", " ")


def steps():
    """Point 7: tables of functions, and a switch on which step to run."""
    for path, text in sources():
        for m in re.finditer(r"\bfn\((?:&|\w)[^)]*\)", bare(text)):
            yield path, m.group(0)


POINTS = [
    ("1 enums like Option or Result", enums),
    ("1 a flag or an outcome beside a value", flags),
    ("1 numbers for kinds", numbers),
    ("2 groups of twin functions", twins),
    ("3 counted loops", loops),
    ("4 by hand what a derive or a trait gives", by_hand),
    ("5 facts that three functions require", facts),
    ("6 a length beside its buffer", beside),
    ("7 tables of functions", steps),
]


def main():
    for name, find in POINTS:
        places = list(find())
        print(f"{name}: {len(places)}")
        if "-v" in sys.argv[1:]:
            for path, what in places:
                print(f"    {path}: {what}")


main()
