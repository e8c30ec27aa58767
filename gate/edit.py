"""Wrong bodies: edits of a crate's code that the prover has to refuse.

An edit is a file with a line 'file: src/NAME.rt' and then pairs of lines 'old: TEXT' and 'new: TEXT'; each old text stands in
that file exactly once.
"""
import os
import re

from tree import FURTHER, MUST_FAIL

NAME = re.compile(r"[A-Za-z0-9_-][A-Za-z0-9_.-]*\.edit")


class Edit:
    """Texts that stand in the place of others, and the functions that have these."""

    def __init__(self, crate, folder, name, sources):
        self.crate, self.label = crate, f"{crate}/{folder}/{name}"
        self.spans, self.functions, self.why_not = [], set(), None
        self.text = sources.tree.text(crate, f"{folder}/{name}")
        if not NAME.fullmatch(name):
            self.why_not = f"an edit stands right in {folder}/, and its name is of letters, digits, _, - and . and ends in .edit"
            return
        file = old = None
        for line in self.text.split("\n"):
            if line.startswith("file: "):
                file = line[len("file: ") :]
            elif line.startswith("old: "):
                old = line[len("old: ") :]
            elif line.startswith("new:") and old:
                self._replace(sources, file, old, line[len("new:") :].removeprefix(" "))
                old = None
        if not self.spans and not self.why_not:
            self.why_not = "it changes nothing"

    def _replace(self, sources, file, old, new):
        if not file or not os.path.isfile(f"{sources.tree.folder(self.crate)}/{file}"):
            self.why_not = f"there is no file {file}"
            return
        source = sources.of(self.crate, file)
        if source.text.count(old) != 1:
            self.why_not = f"this stands in {file} {source.text.count(old)} times, and not once: {old}"
            return
        start = source.text.index(old)
        self.spans.append((file, start, start + len(old), new))
        # what an edit imports belongs to the function that it changes
        if not old.lstrip().startswith("use "):
            self.functions.add(source.function_at(start))

    def meets(self, other):
        """Whether two edits change one function, or one text."""
        return bool(self.functions & other.functions) or any(
            f == g and a < d and c < b for f, a, b, _ in self.spans for g, c, d, _ in other.spans
        )


class Source:
    """A source file, and which function stands where. `rt fmt` has laid it out."""

    def __init__(self, sources, crate, file):
        self.text = sources.tree.text(crate, file)
        self.functions, owner, at, name = [], path_of(crate, file), 0, None
        for line in self.text.split("\n"):
            head = re.match(r"( *)(?:pub(?:\(\w+\))? )?(?:const )?(?:unsafe )?fn (\w+)", line)
            if head and name is None:
                indent, has_body, start = head[1], False, at
                name = "::".join([*(owner if indent else path_of(crate, file)), head[2]])
            elif re.match(r"(unsafe )?impl\b", line):
                owner = [*path_of(crate, file if " for " in line else sources.home_of(crate, line, file)), name_of_impl(line)]
            at += len(line) + 1
            if name:
                has_body = has_body or line.endswith("{")
                # a body ends at its function's indentation, and a function of a trait may have none
                if line == indent + "}" or not has_body and line.endswith((";", "{}")):
                    self.functions.append((start, at, name))
                    name = None

    def function_at(self, place):
        """The function that has this place, as the prover names it, or none."""
        return next((name for start, end, name in self.functions if start <= place < end), None)


class Sources:
    """The source files of a tree, each read once."""

    def __init__(self, tree):
        self.tree, self._read = tree, {}

    def of(self, crate, file):
        if (crate, file) not in self._read:
            self._read[crate, file] = Source(self, crate, file)
        return self._read[crate, file]

    def home_of(self, crate, line, file):
        """The file that declares the type of an impl without a trait: the prover names its functions by that."""
        declared = re.compile(rf"^(?:pub(?:\(\w+\))? )?(?:struct|enum) {name_of_impl(line)}\b", re.MULTILINE)
        for it in [file, *self.tree.files(crate, "src")]:
            if declared.search(self.tree.text(crate, it)):
                return it
        return file

    def edits_of(self, crate, folders=(MUST_FAIL, FURTHER)):
        """The edits of a crate; what else lies in those folders counts as an edit that doesn't fit."""
        found = []
        for folder in folders:
            for path in self.tree.files(crate, folder):
                if not path.endswith(".md"):
                    found.append(Edit(crate, folder, os.path.relpath(path, folder), self))
        return found


def path_of(crate, file):
    module = os.path.basename(file).removesuffix(".rt")
    return [crate] if module in ("lib", "main") else [crate, module]


def name_of_impl(line):
    """What the prover calls an impl: its type with the types that it is of, then its trait with the trait's arguments."""
    line = line.partition("{")[0].partition(" where")[0]
    own = re.match(r"(?:unsafe )?impl<(.*?)>(?= )", line)
    own = set(re.findall(r"\w+", own[1])) if own else set()
    line = re.sub(r"^(unsafe )?impl(<.*?>(?= ))?", "", line)
    trait, found, kind = line.partition(" for ")
    if not found:
        trait, kind = "", trait
    head = re.match(r"\W*(?:\w+::)*(\w+)(?:<([^<>]*)>)?", kind)
    of = re.findall(r"(?:\w+::)*(\w+)", re.sub(r"'\w+", "", head[2] or "")) if head else []
    words = re.match(r"\s*(?:\w+::)*(\w+)(?:<\W*(?:\w+::)*(\w+))?", trait)
    return "".join([head[1] if head else "", *(it for it in of if it not in own), *(it or "" for it in (words.groups() if words else ()))])


def apart(edits):
    """Those of the edits that can be tried in one check, since each changes a function of its own."""
    found = []
    for edit in edits:
        if None not in edit.functions and not any(edit.meets(it) for it in found):
            found.append(edit)
    return found
