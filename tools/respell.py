#!/usr/bin/env python3
"""Gives crates, and the names that antt declares here, today's spelling. Takes no arguments; a second run changes nothing.

Crates: sha2 becomes fips180 and hex becomes hexadecimal, in crates.txt, folders, Rust paths and antt paths.
Names: see CONTRACT_STYLE.md, "Names". Types are in UpperCamelCase, all else in snake_case. A dash stays in a
definition's or lemma's name where both its neighbours are names; elsewhere it becomes `_`.
Nothing changes that comes from Rust or from the kit, that Rattle generates, a function's proof (`f-spec`) or what its
Proof.antt declares for `tie`.
Changed are .antt files, clauses and `ghost use` lines of .rt files, and must-fail/*.edit. The map goes to
docs/respelled.tsv, one line "old<TAB>new" a name.
Stops, and says why, before anything is written, if two names of a file would meet.
"""

import glob
import os
import re
import sys
from collections import defaultdict

ROOT = os.path.dirname(os.path.dirname(os.path.realpath(__file__)))
CRATES = {"sha2": "fips180", "hex": "hexadecimal"}

# Names that the rules would spell badly, or like another name of some file.
EXCEPTIONS = {
    # the standards' capitals: a local variable or a parameter of Rust has the small letter
    "F": "compression_f",
    "G": "mixing_g",
    "K": "constants",
    "SIGMA": "sigma_rows",
    "Fine": "all_fine",  # a lemma is called fine
    # lemmas that would have their function's name
    "block-bytes": "block_bytes_lem",
    "checked-custom": "checked_custom_lem",
    "custom-field": "custom_field_lem",
    "handed-over": "handed_over_lem",
    "kdf-bytes": "kdf_bytes_lem",
    "listed-lines": "listed_lines_lem",
    "name-from": "name_from_lem",
    "no-compression": "no_compression_lem",
    "payload-by": "payload_by_lem",
    "walk-in": "walk_in_lem",
    "written-bytes": "written_bytes_lem",
    # fields that would have the name of a function, a module's alias or another record's field beside them
    "aes-kdf": "with_aes_kdf",
    "algorithm-listed": "algorithm_is_listed",
    "cipher-key": "same_cipher_key",
    "end-field": "end_field_is",
    "kdf-dictionary": "kdf_dictionary_is",
    "name-at": "name_start",
    "nonce-length": "nonce_length_is",
    "tag-base": "same_tag_base",
    "tag-holds": "tag_does_hold",
    "value-at": "value_start",
    # functions beside a lemma or a field that is in snake case already
    "firstBlock": "first_block_of",
    "goingOn": "go_on",
    "sizeFits": "size_fits_type",
    # modules' aliases in exports, whose Rust uses a module of that name
    "openerState": "opener_states",
    "sha256State": "sha256_states",
    "sha512State": "sha512_states",
}
# The same of types in lower case.
TYPE_EXCEPTIONS = {"passed": "HasPassed"}  # a record is called Passed
# Words that a capital does not part, or that the kit spells anew.
SPELLED = {"chaCha": "chacha", "ChaCha": "Chacha", "getD": "get_or"}
# Words of the kit that a dash may join, beside the names imported from it.
WORDS = set(
    "add append concat cons div drop eq flat_map ge get get_or gt head le length lt map max min mod mul ne nil not pow"
    " replicate reverse set sets snoc sub suc tail take xor zero".split()
)
# Names of definitions that read as plain words inside another name.
PLAIN = set(
    "above after again all among apart at back before begin begins behind below between both early end ended enough"
    " every far finished first firsts for found four from front full further given half here is kept last left less"
    " long longer low met more most named next none nowhere of on one other outside over plain previous put rest right"
    " same says seen short some stands success taken then there twice two under used whole within without and or true"
    " false no by in to as are differ each ap".split()
)

NAME = r'[^\s(){}.;,@"«»]+'
QUIET = re.compile(r'--[^\n]*|"(?:\\.|[^"\\])*"')
BINDERS = r"(?: +(?:\{[^{}\n]*\}|\((?:[^()\n]|\((?:[^()]|\([^()]*\))*\))*\)))*"
DECLARED = re.compile(
    rf"( *)((?:(?:pub|abbrev|unfoldable|record|data) +)*)({NAME}){BINDERS} :(?: (.*)|$)"
)
USE = re.compile(rf"\buse ((?:{NAME}\.)*{NAME})(?:\.(\{{[^}}]*\}})| as ({NAME}))?")
FOR_TIE = re.compile(
    r"(\{[^}]*\} → )?(tie\.(Need|invariant|decreases)|statement M\b)"
)
IS_TYPE = re.compile(r"Type [01]\s*(where\b.*)?$", re.S)
CAMEL = re.compile(r"[a-z][a-z0-9]*(?:[A-Z][a-z0-9]*)+")
CLAUSE = re.compile(
    r"\b(?:requires\*?|ensures\*?|ghost|decreases|invariant)\b(?: \w+)?:? *\{"
)


def read(path):
    with open(os.path.join(ROOT, path), encoding="utf-8", newline="") as f:
        return f.read()


def write(path, text):
    with open(os.path.join(ROOT, path), "w", encoding="utf-8", newline="") as f:
        f.write(text)


def below_crates(pattern):
    return sorted(glob.glob("crates/*/" + pattern, root_dir=ROOT, recursive=True))


def module_of(path):
    return ".".join(["Rattle", *path[len("crates/") : -len(".antt")].split("/")])


def quieted(text):
    return QUIET.sub(lambda m: " " * len(m[0]), text)


# -- crates


def in_crates_renamed(path, text):
    words = "|".join(CRATES)
    new = lambda m: CRATES[m[0]]
    if path.endswith("crates.txt"):
        return re.sub(rf"(?<!\w)(?:{words})(?!\w)", new, text)
    text = re.sub(rf"(?<=\bRattle[.·])(?:{words})(?=[.·])", new, text)
    text = re.sub(rf"(?<![\w.:])(?:{words})(?=::)", new, text)
    # what comments say: crate hex, sha2's, (sha2, Laws)
    return re.sub(
        rf"(?<=crate )(?:{words})\b|(?<=\()(?:{words})(?=, [A-Z])|(?<![\w.])(?:{words})(?='s )",
        new,
        text,
    )


def rename_crates():
    for old, new in CRATES.items():
        if os.path.isdir(os.path.join(ROOT, "crates", old)):
            os.rename(
                os.path.join(ROOT, "crates", old), os.path.join(ROOT, "crates", new)
            )
    texts = below_crates("**/*.antt") + below_crates("**/*.rt")
    for path in ["crates.txt", *texts, *below_crates("must-fail/*.edit")]:
        text = read(path)
        new = in_crates_renamed(path, text)
        if new != text:
            write(path, new)


# -- what is declared


def declarations(code):
    """Yields the name, the indent, the prefixes, the type, and whether it stands in a record or data, of each."""
    lines = code.split("\n")
    inside = None
    for i, line in enumerate(lines):
        m = DECLARED.fullmatch(line)
        indent = len(line) - len(line.lstrip())
        if inside is not None and line.strip() and indent <= inside:
            inside = None
        if not m:
            if head := re.fullmatch(rf" *(?:pub )?(?:record|data) ({NAME})( .*)?", line):
                inside = indent
                yield head[1], indent, "record ", "Type 0", False
            continue
        kind = m[4] or ""
        for more in lines[i + 1 :]:
            if more.strip() and len(more) - len(more.lstrip()) <= indent:
                break
            kind += "\n" + more
        member = inside is not None
        if re.search(r"\b(record|data) ", m[2]):
            inside = indent
            kind = kind.split(" where")[0]
        yield m[3], indent, m[2], kind.strip(), member


MODULES = set()


def is_made(path):
    """Whether Rattle makes this module, or what it stands in, so that no file of the tree has it."""
    steps = path.split(".")
    return not any(".".join(steps[:n]) in MODULES for n in range(2, len(steps) + 1))


class File:
    """What an .antt file declares and imports."""

    def __init__(self, path):
        self.path = path
        code = quieted(read(path))
        self.module = module_of(path)
        self.declared = list(declarations(code))
        is_proof = path.endswith("/Proof.antt")
        self.for_tie = {
            n
            for n, _, _, k, _ in self.declared
            if is_proof and (FOR_TIE.match(k) or "/proofs/+" in path)
        }
        self.camel = set(re.findall(rf"(?<![^\s(){{}};,@«»])[a-z][^\s(){{}}.;,@«»]*?[a-z0-9][A-Z]\w*", code))
        self.read_uses(code)
        self.keep |= self.for_tie

    def read_uses(self, code):
        """Finds names to keep, names from others, aliases of your modules, and from which module a name comes."""
        self.keep, self.theirs, self.aliases, self.come = set(), set(), {}, {}
        for path, items, alias in USE.findall(code):
            yours = path.startswith("Rattle.") and not path.startswith("Rattle.std.")
            if not items:
                if yours:
                    self.aliases[alias or path.split(".")[-1]] = path
                continue
            for it in filter(None, re.split(r"[\s,{}]+", re.sub(r" as \S+", "", items))):
                it = it.strip("«»")
                if not yours:
                    self.theirs.add(it)
                if yours and not is_made(path):
                    self.come[it] = path
                else:
                    self.keep.add(it)


def snake(name):
    for word, spelled in SPELLED.items():
        name = re.sub(rf"{word}(?![a-z])", spelled, name)
    name = re.sub(r"(?<=[A-Z])(?=[A-Z][a-z])|(?<=[a-z0-9'₀-₉])(?=[A-Z])", "_", name)
    return name.lower().replace("′", "'")


def camel(name):
    return "".join(it[:1].upper() + it[1:] for it in re.split("[-_]", name))


class Map:
    """Old names and new ones: `table` for every file, `scoped` by declaring module for names that are plain words."""

    def __init__(self, files):
        self.table, self.scoped, self.fields, made = {}, {}, {}, defaultdict(list)
        for file in files:
            for name, indent, prefix, kind, member in file.declared:
                if name not in file.for_tie and re.search(r"[A-Za-z]", name):
                    made[name].append((file.module, indent, prefix, kind, member))
        self.declared = set(made)
        is_type = lambda it: bool(IS_TYPE.search(it[3]))
        types = {n for n in made if any(map(is_type, made[n]))}
        self.types = {n if n[0].isupper() else camel(n) for n in types}
        self.lowered = {n: camel(n) for n in types if not n[0].isupper()}
        self.capitals = {
            n for n in made if n[0].isupper() and not all(map(is_type, made[n]))
        }
        defined = {
            n
            for n in made
            for it in made[n]
            if not it[1] and re.search("abbrev|unfoldable", it[2]) and not is_type(it)
        }
        kit = {it for file in files for it in file.theirs}
        names = {self.part(it) for it in defined} | {it for it in kit if "-" not in it}
        self.names = (names | WORDS | self.types) - PLAIN
        self.names |= {self.new_name(it, False, False) for it in defined} - PLAIN
        for name, all_of in made.items():
            for module, indent, prefix, kind, member in all_of:
                as_type = is_type((0, 0, 0, kind))
                new = self.new_name(name, as_type, any(it[4] for it in all_of))
                if new == name:
                    continue
                if name in self.capitals or as_type and name.islower():
                    self.scoped[module, name] = new
                else:
                    self.table.setdefault(name, new)
                if member:
                    self.fields[name] = new
        # modules' aliases and variables in camel case
        for name in set().union(*(file.camel - file.keep for file in files)):
            if name not in self.scoped and snake(name) != name:
                self.table.setdefault(name, EXCEPTIONS.get(name) or snake(name))

    def part(self, name):
        if name in EXCEPTIONS:
            return EXCEPTIONS[name]
        return name if name in self.types else snake(name)

    def new_name(self, name, as_type, member):
        if as_type and name in TYPE_EXCEPTIONS:
            return TYPE_EXCEPTIONS[name]
        if not as_type and name in EXCEPTIONS:
            return EXCEPTIONS[name]
        if as_type:
            return camel(name) if re.search("[-_]", name) or name[0].islower() else name
        if "-" not in name or not all(name.split("-")):
            return snake(name)
        parts = [self.part(it) for it in name.split("-")]
        new = parts[0]
        for left, right in zip(parts, parts[1:]):
            joins = left in self.names and right in self.names and not member
            new += ("-" if joins else "_") + right
        # what `_` has joined is one part now
        return new if new == name else self.new_name(new, as_type, member)


# -- how a text changes


class Speller:
    def __init__(self, names, file):
        self.names, self.file = names, file
        self.local = {n for n, *_ in file.declared}

    def scoped(self, name, module):
        for (where, old), new in self.names.scoped.items():
            if old == name and (module + ".").startswith(where + "."):
                return new
        return None

    def bare(self, name):
        file, names = self.file, self.names
        if name in file.keep:
            return name
        at = file.come.get(name, file.module if name in self.local else None)
        if at and (new := self.scoped(name, at)):
            return new
        return names.table.get(name, name)

    def behind(self, head, name, rest):
        """The new name of what stands behind `head.` and before `rest`."""
        names, file = self.names, self.file
        first, _, inner = head.partition(".")
        path = file.aliases.get(first)
        if first == "Rattle" and not head.startswith("Rattle.std"):
            path = head
        elif path and inner:
            path += "." + inner
        if path and not is_made(path):
            return self.scoped(name, path) or names.table.get(name, name)
        made = re.match(r"\.(ensures|requires|given|args|before|loop|invariant)\b", rest)
        if path or first == "tie" or first in file.theirs or "-" in name and made:
            return name
        return names.fields.get(name) or ("-" in name and name) or names.table.get(name, name)

    def code(self, text):
        def new(m):
            if m.start() and text[m.start() - 1] == ".":
                head = re.search(rf"(?:{NAME}\.)*$", text[: m.start()][-200:])[0]
                return self.behind(head.rstrip("."), m[0], text[m.end() : m.end() + 12])
            name = self.bare(m[0])
            if name == m[0] and CAMEL.fullmatch(name) and name not in self.file.keep:
                return EXCEPTIONS.get(name) or snake(name)  # one of an edit, or an alias of a clause
            return name

        return re.sub(NAME, new, text)

    def comment(self, text):
        """A name in a comment; a plain word only in backticks or as the entry of a list."""

        def new(m):
            plain = not re.search(r"[a-z].*[A-Z]|-|_", m[0])
            entry = re.fullmatch(r"--   ", text[: m.start()])
            if plain and text[m.start() - 1] != "`" and not entry:
                return m[0]
            new = self.bare(m[0])
            if new == m[0] and snake(new) in self.names.declared:
                return snake(new) if new[0].islower() else new
            return new

        return re.sub(r'(?:(?!\'s\b)[^\s(){}.;,@"«»`:])+', new, text)

    def antt(self, text):
        out, at = [], 0
        for m in QUIET.finditer(text):
            out.append(self.code(text[at : m.start()]))
            out.append(self.comment(m[0]) if m[0].startswith("--") else m[0])
            at = m.end()
        return "".join(out) + self.code(text[at:])


def clauses(text):
    """Yields the start and end of each clause and each `ghost use` of a text of Rust."""
    code = re.sub(r'//[^\n]*|"(?:\\.|[^"\\])*"', lambda m: " " * len(m[0]), text)
    for m in re.finditer(r"\bghost use [^;]*;", code):
        yield m.span()
    for m in CLAUSE.finditer(code):
        depth, end = 1, m.end()
        while depth and end < len(code):
            depth += {"{": 1, "}": -1}.get(code[end], 0)
            end += 1
        yield m.end(), end


class RustFile(File):
    def __init__(self, path):
        self.path, self.module, self.declared, self.for_tie = path, "", [], set()
        text = read(path)
        self.read_uses("\n".join(text[a:b] for a, b in clauses(text)))


def respelled_rust(speller, text):
    out, at = [], 0
    for start, end in sorted(clauses(text)):
        if start < at:
            continue
        out += [text[at:start], speller.code(text[start:end])]
        at = end
    return "".join(out) + text[at:]


def respelled_edit(spellers, folder, text):
    """An edit: each line old: or new: is a line of the file that the line file: names."""
    out, speller, is_rust = [], None, False
    for line in text.split("\n"):
        m = re.match(r"(file|old|new): ?(.*)$", line)
        if m and m[1] == "file":
            path = os.path.normpath(os.path.join(folder, m[2].strip()))
            speller, is_rust = spellers.get(path), path.endswith(".rt")
            if speller is None:
                print(f"look: {folder}: an edit of {path}, which is not there")
        elif m and speller:
            body = line[m.start(2) :]
            if not is_rust:
                body = speller.antt(body)
            elif re.search(r"\bghost use\b", body) or CLAUSE.search(body):
                body = respelled_rust(speller, body)
            elif re.search(r"[≡≤≢→λ∧∨ℕ∷⌜]", body):
                body = speller.code(body)
            line = line[: m.start(2)] + body
        out.append(line)
    return "\n".join(out)


# -- what would go wrong


def meetings(path, speller, text):
    """Yields a line for each name that would meet another in this file."""
    new = defaultdict(set)
    code = quieted(text)
    if path.endswith(".rt"):
        code = "\n".join(text[a:b] for a, b in clauses(text))
        # what clauses see of Rust: parameters, fields, variables and constants
        for it in re.findall(r"\b(\w+): |\blet (?:mut )?(\w+)", text):
            new[it[0] or it[1]].add(it[0] or it[1])
    for it in re.findall(rf"(?<![^\s(){{}};,@«»]){NAME}", code):
        if not (path.endswith(".rt") and it in speller.names.fields):
            new[speller.bare(it)].add(it)
    for it, olds in new.items():
        if len(olds) > 1:
            yield f"{path}: {' and '.join(sorted(olds))} would be {it}"


def main():
    rename_crates()
    antt = below_crates("specs/**/*.antt") + below_crates("proofs/**/*.antt")
    MODULES.update(module_of(path) for path in antt)
    files = {path: File(path) for path in antt}
    names = Map(list(files.values()))
    rust = below_crates("src/**/*.rt")
    files.update({path: RustFile(path) for path in rust})
    spellers = {path: Speller(names, files[path]) for path in files}
    texts, wrong = {}, []
    for path, speller in spellers.items():
        text = read(path)
        how = speller.antt if path.endswith(".antt") else lambda t: respelled_rust(speller, t)
        texts[path] = how(text)
        wrong += meetings(path, speller, text)
    for path in below_crates("must-fail/*.edit"):
        folder = "/".join(path.split("/")[:2])
        texts[path] = respelled_edit(spellers, folder, read(path))
    if wrong:
        sys.exit("\n".join(wrong))
    for path, text in texts.items():
        if text != read(path):
            write(path, text)
    rows = set(names.table.items())
    rows |= {(old, new) for (_, old), new in names.scoped.items()}
    if rows:
        write("docs/respelled.tsv", "".join(f"{a}\t{b}\n" for a, b in sorted(rows)))


if __name__ == "__main__":
    main()
