#!/usr/bin/env python3
"""definitions.py CRATE MODULE NAME: the definitions that one stands on, crate by crate, with how many lines each crate's have.
definitions.py: those that no contract stands on.

A line counts where it is a declaration or an equation: comments, empty lines and imports don't, nor do the types that the code
declares and what the toolchain's library defines.
"""
import collections
import os
import re
import sys

TOP = os.path.dirname(os.path.dirname(os.path.dirname(os.path.realpath(__file__))))
DECLARATION = re.compile(r"(?:(?:pub|abbrev|unfoldable|opaque|data|record|infix\w* \d+) )*(\S+)(?: [({].*)? ?:(?= |$)")
IMPORT = re.compile(r"(?:pub )?use Rattle\.(\w+)\.(specs|proofs)\.([\w.]+?)\.?(?:\{(.*)\}|(\w+))$")
PART = re.compile(r" +(?:pub )?(\S+) :(?= |$)")
ALIAS = re.compile(r"(?:pub )?use Rattle\.(\w+)\.(specs|proofs)\.([\w.]+) as (\w+)$")
WORD = re.compile(r"[^\s(){},;.]+")
OF_ALIAS = re.compile(r"\b(\w+)\.([^\s(){},;.]+)")
# what stands behind a dot is of a record, or of an alias
BEHIND_DOT = re.compile(r"(?<=[\w)])\.[^\s(){},;.]+")


class Module:
    """A file of definitions: what it imports, and the lines of each definition."""

    def __init__(self, crate, path):
        self.imports, self.aliases, self.items, self.parts = {}, {}, collections.defaultdict(list), {}
        name, is_data, depth = None, False, 0
        with open(path, encoding="utf-8") as file:
            text = re.sub(r"\{\n\s*", "{", file.read())
        for line in text.split("\n"):
            if found := IMPORT.match(line):
                where, names = (found[1], found[2], found[3]), (found[4] or found[5]).split(",")
                for it in names:
                    given, _, own = it.strip().partition(" as ")
                    self.imports[own or given] = (where, given)
            elif found := ALIAS.match(line):
                self.aliases[found[4]] = (found[1], found[2], found[3])
            elif re.match(r"(abbrev )?mutual$|(pub )?module ", line):
                depth = 2
            elif line.strip() and not line.lstrip().startswith(("--", "use ", "pub use ", "infix")):
                depth = depth if line.startswith(" ") else 0
                line = line[depth:]
                if not line.startswith(" ") and (found := DECLARATION.match(line)):
                    name, is_data = found[1], bool(re.match(r"(\w+ )*(data|record) ", line))
                elif is_data and (found := PART.match(line)):
                    self.parts[found[1]] = name
                if name:
                    self.items[name].append(line)


def modules():
    found = {}
    for crate in os.listdir(f"{TOP}/crates"):
        for folder, _, names in os.walk(f"{TOP}/crates/{crate}/specs"):
            for name in names:
                path = os.path.relpath(f"{folder}/{name}", f"{TOP}/crates/{crate}/specs").removesuffix(".antt").replace("/", ".")
                found[crate, "specs", path] = Module(crate, f"{folder}/{name}")
    return found


def below(known, left):
    """The definitions below these, each by its module and name, with its lines."""
    seen = {}
    while left:
        module, name = left.pop()
        if module not in known:
            continue
        here = known[module]
        # (a field may have the name of a definition)
        name = name if name in here.items else here.parts.get(name, name)
        if (module, name) in seen:
            continue
        seen[module, name] = lines = here.items.get(name, [])
        for word in set(WORD.findall(BEHIND_DOT.sub("", "\n".join(lines)))):
            if word in here.items or word in here.parts:
                left.append((module, word))
            elif word in here.imports:
                left.append(here.imports[word])
        left += [(here.aliases[it], word) for it, word in OF_ALIAS.findall("\n".join(lines)) if it in here.aliases]
    return {it: lines for it, lines in seen.items() if lines}


def cited():
    """What the contracts of all crates cite by name."""
    for crate in os.listdir(f"{TOP}/crates"):
        for folder, _, names in os.walk(f"{TOP}/crates/{crate}/src"):
            for name in names:
                with open(f"{folder}/{name}", encoding="utf-8") as file:
                    text, aliases = file.read(), {}
                for line in text.split("\n"):
                    line = line.strip().removeprefix("ghost ").removesuffix(";")
                    if found := IMPORT.match(line):
                        for it in (found[4] or found[5]).split(","):
                            yield (found[1], found[2], found[3]), it.strip().partition(" as ")[0]
                    elif found := ALIAS.match(line):
                        aliases[found[4]] = (found[1], found[2], found[3])
                yield from ((aliases[it], word) for it, word in OF_ALIAS.findall(text) if it in aliases)


def main():
    known, start = modules(), sys.argv[1:]
    if len(start) not in (0, 3):
        sys.exit(__doc__.strip())
    if not start:
        reached = below(known, list(cited()))
        # (an operator, such as that of do-notation, is not found by its name)
        lost = [(module, name) for module, here in known.items() for name in here.items if (module, name) not in reached and "◌" not in name]
        for (crate, _, path), name in sorted(lost):
            print(f"{crate} {path}: {name}")
        return
    found, told = below(known, [((start[0], "specs", start[1]), start[2])]), collections.Counter()
    for (module, _), lines in found.items():
        told[module[0]] += len(lines)
    for crate, count in told.most_common():
        names = sorted(name for module, name in found if module[0] == crate)
        print(f"{crate}: {count} lines, {len(names)} definitions: {' '.join(names)}")
    print(f"{sum(told.values())} lines of {len(found)} definitions in {len(told)} crates")


if __name__ == "__main__":
    main()
