"""The repository as the gate sees it: its crates, what each stands on, and copies of it."""
import hashlib
import os
import re
import shutil
import subprocess

TOP = os.path.dirname(os.path.dirname(os.path.realpath(__file__)))
KIT = os.path.dirname(os.path.dirname(os.path.realpath(shutil.which("rt") or "/opt/rattle/bin/rt")))

# The program, and the crate that builds it.
PROGRAM = "dr_cli"

# The folders of wrong bodies: what the gate tries, and what ./edits tries besides.
MUST_FAIL, FURTHER = "must-fail", "further-edits"

# A definition that a text names: its crate, and its path there.
CITED = re.compile(r"Rattle\.(\w+)\.specs\.([\w.+-]+)")


# A line that imports names, for code or for contracts; one by which a root shows names; an item that is a function, a type, what a type
# has, or a constant that its module alone sees.
IMPORT = re.compile(r"( *(?:ghost )?use (?:[\w.]+\.|(?:\w+::)+))(\{[^{}]*\}|\w+);$", re.M)
FUNCTION = re.compile(r"(?: *#.*\n)* *(pub(?:\(\w+\))? |)(?:const )?fn (\w+)")
SHOWN = re.compile(r"(pub use (?:\w+::)+)(\{[^{}]*\}|\w+);$")
TYPE = re.compile(r"(?:#.*\n)*pub (?:struct|enum|trait|type) (\w+)")
IMPL = re.compile(r"impl(?:<[^{]*?>)? (.* for )?(\w+)")
CONSTANT = re.compile(r"(?:#.*\n)*const (\w+)")


class Tree:
    """A folder with crates.txt and crates/."""

    def __init__(self, top=TOP):
        self.top = top
        self.uses, self._words, self._interfaces = {}, {}, {}
        with open(f"{top}/crates.txt", encoding="utf-8") as file:
            for line in file:
                name, colon, words = line.partition("#")[0].partition(":")
                if colon:
                    self.uses[name.split()[0]] = words.split()

    def crates(self):
        """The crates, each after those that it stands on."""
        found = []
        for name in self.uses:
            found += [it for it in [*self.below(name), name] if it not in found]
        return found

    def below(self, crate):
        """The crates of this repository that a crate stands on, each once and after those below it."""
        found = []
        for name in self.uses[crate]:
            if name in self.uses:
                found += [it for it in [*self.below(name), name] if it not in found]
        return found

    def folder(self, crate):
        return f"{self.top}/crates/{crate}"

    def files(self, crate, *parts):
        """The files below some folders of a crate, in the order of their paths."""
        found = []
        for part in parts:
            for at, _, names in os.walk(f"{self.folder(crate)}/{part}"):
                found += [os.path.relpath(f"{at}/{name}", self.folder(crate)) for name in names]
        return sorted(found)

    def text(self, crate, file):
        with open(f"{self.folder(crate)}/{file}", encoding="utf-8") as it:
            return it.read()

    def lines(self, crate):
        """How many lines a crate has: the weight of its proof."""
        return sum(self.text(crate, it).count("\n") for it in self.files(crate, "src", "specs", "proofs"))

    def digest(self, crate):
        """A digest of all that a crate's own proof reads, but for its comments."""
        return digest_of((it, without_comments(self.text(crate, it))) for it in self.files(crate, "src", "specs", "proofs"))

    def contracts(self, above):
        """A digest of what a crate may use of those below it: of their functions those that it names, without bodies, and of their
        definitions and types those that it names, or what counts already, and so on."""
        names = {it for file in self.files(above, "src", "specs", "proofs") for it in CITED.findall(self.text(above, file))}
        known = self.words(above)
        while True:
            words = self.words(above) | {word for _, name in names for word in name.split(".")}
            known = known | words
            texts = {(crate, file): text for crate in self.below(above) for file, text in self.said_by(crate, names, words, known)}
            found = names.union(*(CITED.findall(it) for it in texts.values()))
            told = {word for it in texts.values() for word in re.findall(r"\w+", it)}
            if found == names and told <= known:
                return digest_of((f"{crate}/{file}", text) for (crate, file), text in sorted(texts.items()) if text)
            names, known = found, known | told

    def said_by(self, crate, names, words, known):
        """What the modules of a crate say, by functions of these words and of types that are known, and its files of the definitions
        of these names."""
        shown, types = self.shown(crate), self.types(crate)
        for file in self.files(crate, "src"):
            module = file.split("/")[1].removesuffix(".rt")
            is_whole = shown is None or module == "lib" or shown.get(module) == "mod"
            functions = words if is_whole else words & types
            yield file, said_of(self.interface(crate, file), words, known, None if is_whole or module in shown else types, functions)
        for file in sorted({self.file_of(crate, name) for of, name in names if of == crate}):
            text = self.interface(crate, file)
            yield file, said_of(text, words, known) if file.endswith(".rt") else text

    def words(self, crate):
        """The words of a crate's code, definitions and proofs."""
        if crate not in self._words:
            texts = (self.text(crate, it) for it in self.files(crate, "src", "specs", "proofs"))
            self._words[crate] = {word for it in texts for word in re.findall(r"\w+", without_comments(it))}
        return self._words[crate]

    def types(self, crate):
        """The names that a crate's root shows."""
        try:
            root = self.text(crate, "src/lib.rt")
        except FileNotFoundError:
            return set()
        return {word for names in re.findall(r"^pub use [\w:]*::(\w+|\{[^}]*\});", root, re.M) for word in re.findall(r"\w+", names)}

    def interface(self, crate, file):
        """What a file says to who can't see bodies."""
        if (crate, file) not in self._interfaces:
            text = without_comments(self.text(crate, file))
            self._interfaces[crate, file] = without_bodies(text) if file.endswith(".rt") else text
        return self._interfaces[crate, file]

    def file_of(self, crate, name):
        """The file of a crate that has a definition: of `specs`, or of `src` where it is made of a type or a function."""
        words = name.rstrip(".").split(".")
        folder, end = ("src", ".rt") if words[0] in ("declared", "contracts") else ("specs", ".antt")
        words = words[1:] if folder == "src" else words
        for count in range(len(words), 0, -1):
            file = f"{folder}/{'/'.join(words[:count])}{end}"
            if os.path.isfile(f"{self.folder(crate)}/{file}"):
                return file
        return "src/lib.rt" if folder == "src" else "specs/Lib.antt"

    def shown(self, crate):
        """The modules that a crate's root shows, by `mod` whole or by `use` a name of it; nothing for a program, where all are taken."""
        try:
            root = self.text(crate, "src/lib.rt")
        except FileNotFoundError:
            return None
        return {module: how for how, module in re.findall(r"^pub (use) (?:crate::)?(\w+)::", root, re.M) + re.findall(r"^pub (mod) (\w+);", root, re.M)}


def digest_of(named):
    """One digest of texts with their names."""
    found = hashlib.sha256()
    for name, text in named:
        found.update(f"{name}\0{len(text)}\0{text}\0".encode())
    return found.hexdigest()[:20]


def without_comments(text):
    """Code, definitions or proofs without the lines that are comments alone."""
    return "\n".join(it for it in text.split("\n") if not it.lstrip().startswith(("//", "-- ")))


def without_bodies(text):
    """Code as `rt fmt` lays it out, without the bodies of its functions."""
    kept, ends = [], None
    for line in text.split("\n"):
        if ends is not None:
            if line == ends:
                ends = None
            continue
        # the brace of a body stands alone behind clauses, and at the end of the line where there are none
        alone = re.fullmatch(r"(\s*)\{", line)
        opens = alone or re.match(r"(\s*)(?:pub(?:\(\w+\))? )?(?:const )?fn .*[^{]\{$", line)
        if opens and not line.rstrip().endswith("ensures {"):
            ends = opens[1] + "}"
        if not alone:
            kept.append(line)
    return "\n".join(kept)


def items_of(lines, indent=""):
    """The items of code without bodies that stand at an indentation, each with its attributes and with the lines that go on with it."""
    items, goes_on = [], False
    for line in lines:
        if goes_on or not re.match(indent + r"[^\s)}]", line):
            if items:
                items[-1].append(line)
        else:
            items.append([line])
        goes_on = line.startswith(indent + "#")
    return ["\n".join(it).rstrip() for it in items]


def said_of(text, words, known, types=None, functions=None):
    """What code without bodies says by methods of these words, by these functions (or those of the words), and of types that are known.
    Where it stands in a module that a root doesn't show, it speaks of the types alone that the root does. A function of a trait counts
    with the trait, and a constant of the module's own where what counts has its name."""

    def is_said(item, names=words if functions is None else functions):
        if named := TYPE.match(item):
            return named[1] in known
        function = FUNCTION.match(item)
        return not function or function[1] == "pub " and function[2] in names

    kept = []
    for item in items_of(text.split("\n")):
        if shown := SHOWN.match(item):
            names = ", ".join(it for it in names_in(shown[2]) if it.split(" as ")[-1] in known)
            item = f"{shown[1]}{{{names}}};" if names else ""
        head = IMPL.match(item)
        if head and head[2] not in known:
            continue
        if head and not head[1]:
            first, *inside = item.split("\n")
            inside = [it for it in items_of(inside, "    ") if is_said(it, words)]
            item = "\n".join([first, *inside]) if inside else ""
        if types is not None and not IMPORT.match(item) and not (head and head[2] in types):
            continue
        if item and is_said(item) and not re.match(r"mod \w+;|#!", item):
            kept.append(item)
    return without_unused(kept)


def without_unused(items):
    """Items without the names that they import and don't use, as those that bodies alone use."""
    code = [it for it in items if not IMPORT.match(it)]
    for own in [it for it in code if CONSTANT.match(it)]:
        if not any(re.search(rf"\b{CONSTANT.match(own)[1]}\b", it) for it in code if it is not own):
            code.remove(own)
    items = [it for it in items if IMPORT.match(it) or it in code]
    # what a block imports itself is no use of what the file imports
    words = {word for it in code for word in set(re.findall(r"\w+", it)) - {name for _, names in IMPORT.findall(it) for name in names_in(names)}}
    text = "\n".join(code)

    def is_used(name):
        return name in words if re.fullmatch(r"\w+", name) else all(part in text for part in name.split("◌"))

    kept = []
    for item in items:
        if found := IMPORT.match(item):
            names = ", ".join(sorted(it for it in names_in(found[2]) if is_used(it.split(" as ")[-1])))
            item = f"{found[1]}{{{names}}};" if names else ""
        if item:
            kept.append(item)
    return "\n".join(kept)


def names_in(text):
    """The names between braces, or the one name."""
    return [it.strip() for it in text.strip("{}").split(",") if it.strip()]


def copy_to(folder, *left_out):
    """Copies the repository, without what earlier runs made, its history, and the folders of those names."""
    words = ["tar", "-cf", "-", *[f"--exclude={it}" for it in ("./.git", "out", "__pycache__", *left_out)], "."]
    os.makedirs(folder, exist_ok=True)
    with subprocess.Popen(words, cwd=TOP, stdout=subprocess.PIPE) as packed:
        subprocess.run(["tar", "-xf", "-"], cwd=folder, stdin=packed.stdout, check=True)
    os.chmod(folder, 0o755)
    return folder
