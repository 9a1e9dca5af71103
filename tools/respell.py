#!/usr/bin/env python3
"""Brings the names of this repository's definitions, lemmas and fields to one spelling: respell.py, at the top, once,
behind the kit's port.py.

Functions, lemmas and fields are in snake case, types in upper camel case. A lemma about a type keeps the dash behind the
type's name. Names that the checker makes for goals are left as they are, and so is Rust: only the lines of contracts
are read in sources. Names that would fall together, and names that a library has too, are told.
"""
import collections
import pathlib
import re
import sys

# A name of antt: anything up to white space, brackets, a separator or a dot.
NAME = re.compile(r"[^\s(){}\[\].,;:@\"]+")
MARKS = r"(?:(?:abbrev|unfoldable|pub|record|data|ruleset|infixl?|infixr)\s+)*"
# What defines a name: a line of its own, the members of a mutual block and the helpers of a lemma, and fields.
HEAD = re.compile(r"^" + MARKS + r"([^\s(){}.,;:=]+)\s[^=]*(?::|\bwhere\b)")
INNER = re.compile(r"^ +(?:(?:abbrev|unfoldable)\s+)?(?:pub\s+)?([^\s(){}.,;:=]+) : ")
FIELD = re.compile(r"^\s+pub ([^:=]+?)\s*:")
TYPE = re.compile(r"^(?:(?:abbrev |unfoldable )?pub ([A-Z]\S*) : .*Type 0|(?:pub )?(?:record|data) (\S+).*)$", re.M)
CONTRACT = re.compile(r"^\s*(?:pub\s+)?(?:ghost|requires|ensures|invariant)\b")
OTHERS = ("use ", "pub use ", "mod ", "pub mod ", "--", "unfolding", "mutual", "open ")
# Names that hold a word of the library which has another name now.
WORDS = {"getD": "get_or", "putMid": "put_mid"}


def files(root, ending):
    """The files of the crates that have this ending, what checks leave apart."""
    return [path for path in sorted((root / "crates").rglob(f"*{ending}")) if "out" not in path.parts]


def defined(path):
    """The names that a file defines, goals apart."""
    for line in path.read_text().splitlines():
        if field := FIELD.match(line):
            yield from field.group(1).split()
        elif inner := INNER.match(line):
            yield inner.group(1)
        elif not line.startswith((*OTHERS, " ")) and ": goal." not in line:
            if head := HEAD.match(line):
                yield head.group(1)


def imported(path, crates):
    """The names that a file takes from elsewhere than these crates, as the file calls them."""
    for source, names in re.findall(r"\buse ([^\s{;]+)\.\{([^}]*)\}", path.read_text()):
        if source.split(".")[:2] not in [["Rattle", crate] for crate in crates]:
            yield from (name.split(" as ")[-1].strip() for name in names.split(","))


def respelled(name, types):
    """The name as it should be."""
    parts = [WORDS.get(part, part) for part in name.replace("′", "'").split("-")]
    if not name[0].isupper():
        return "_".join(parts)
    if parts[0] in types and name not in types:
        return parts[0] + "-" + "_".join(parts[1:])
    return "".join(part[0].upper() + part[1:] for part in parts)


def main(root):
    """Finds all names, and writes them anew."""
    antt, sources = files(root, ".antt"), files(root, ".rt")
    crates = [path.name for path in (root / "crates").iterdir()]
    names = collections.Counter(name for path in antt for name in defined(path) if re.match(r"[A-Za-z]", name))
    types = {name for path in antt for found in TYPE.findall(path.read_text()) for name in found if name}
    foreign = {name for path in antt + sources for name in imported(path, crates)}
    table = {}
    for name in sorted(names):
        new = respelled(name, types)
        if new == name:
            continue
        if name in foreign:
            print(f"left: {name}, which a library has too")
            continue
        if new in names or new in table.values() or new in foreign:
            print(f"look: {name} would be {new}, which there is")
        table[name] = new
    for path in antt + sources:
        lines = path.read_text().split("\n")
        for at, line in enumerate(lines):
            if not line.lstrip().startswith(("--", "//")) and (path.suffix == ".antt" or CONTRACT.match(line)):
                lines[at] = NAME.sub(lambda match: table.get(match.group(0), match.group(0)), line)
        path.write_text("\n".join(lines))
    for name, new in table.items():
        print(f"{name} -> {new}")


if __name__ == "__main__":
    main(pathlib.Path(sys.argv[1] if len(sys.argv) > 1 else "."))
