"""What crates/*/specs and crates/*/src say: definitions, contracts, types, and what each of these uses. For tests/believed.

They are read as lines of text, laid out as in this repository. What a text uses is followed by `use` lines through specs/; no
proof is read. A variable that has the name of a definition counts as the definition, so that too much may be followed, and
never too little.
"""

import collections
import functools
import pathlib
import re
import sys

TOP = pathlib.Path(__file__).resolve().parent.parent
CRATES = TOP / "crates"

# What read_all fills: the files of specs/ by their modules, those of src/ by their crates, the names that each crate hands out,
# traits by their names, and implementations by those of type and trait.
SPECS = {}
SOURCES = collections.defaultdict(list)
EXPORTS = {}
TRAITS = {}
IMPLEMENTATIONS = collections.defaultdict(list)

WORD = r"[^\s(){}\[\];,.:⟦⟧]+"
MARKS = {"to believe": "to believe", "inner contracts": "inner", "for proofs": "inner"}
OWN_MARK = re.compile(r" *-- (to believe|inner): ")
GHOST_MEMBER = re.compile(r"⟦<(\w+)[^⟦⟧]* as (\w+)[^⟦⟧]*>⟧(?:\.(\w+))?")
PUBLIC = r"(?:pub(?:\(crate\))? )?"


def imports_of(lines):
    """What the `use` lines bring in: each name with its module and its name there, which is None for a whole module."""
    names = {}
    pattern = r"^ *(?:ghost )?use (Rattle\.[^\n{};]+?)(?:\.\{([^}]*)\})?;?$"
    for path, listed in re.findall(pattern, "\n".join(lines), re.M):
        if not listed:
            path, _, name = path.partition(" as ")
            names[name or path] = (path, None)
        for part in filter(None, (part.strip() for part in listed.split(","))):
            name, _, other = part.partition(" as ")
            names[other or name] = (path, name)
    return names


def without_comments(lines):
    return "\n".join(re.sub(r'"[^"]*"|--.*', "", line) for line in lines)


def indent_of(line):
    return len(line) - len(line.lstrip())


# The definitions of specs/.

class Definition:
    """A definition with its comment, and the headers of the modules around it."""

    def __init__(self, file, name, comment, headers, line):
        self.file, self.name, self.comment, self.headers, self.body = file, name, comment, headers, [line]
        self.indent = indent_of(line)
        self.is_data = " data " in f" {line}"

    @property
    def count(self):
        return len(self.comment) + len(self.body)

    @property
    def own_mark(self):
        found = self.comment and OWN_MARK.match(self.comment[0])
        return found and found[1]

    @property
    def mark(self):
        return self.own_mark or MARKS[self.file.mark]

    def sentence(self):
        text = " ".join(line.strip().removeprefix("--").strip() for line in self.comment)
        return re.sub(r"^(to believe|inner): ", "", text)

    def __str__(self):
        return f"{self.file.crate}/{self.file.path.relative_to(CRATES / self.file.crate)}: {self.name}"


class SpecFile:
    """A file of specs/: its mark, and its definitions by their names and by those of their constructors."""

    def __init__(self, path):
        self.path = path
        self.crate, _, *parts = path.relative_to(CRATES).with_suffix("").parts
        self.name = ".".join(parts)
        self.module = f"Rattle.{self.crate}.specs.{self.name}"
        lines = path.read_text().split("\n")
        found = re.match(f"-- ({'|'.join(MARKS)}): (.*)$", lines[0])
        if not found:
            sys.exit(f"{path}: the first line has no mark")
        self.mark, self.about = found[1], found[2]
        self.imports = imports_of(lines)
        self.definitions = {}
        self.names = {}
        self.read(lines)

    def read(self, lines):
        headers, comment, current, in_header = [], [], None, False
        for number, line in enumerate(lines[1:], 2):
            text, indent = line.strip(), indent_of(line)
            if in_header:
                headers[-1][1].append(line)
                in_header = not text.endswith("where")
                continue
            if not text:
                comment, current = [], None
                continue
            starts = re.match(rf"(?:(?:abbrev|unfoldable|record|data|pub) )+({WORD})", text)
            if current and (indent > current.indent or indent == current.indent and not starts):
                current.body.append(line)
                if current.is_data and (constructor := re.match(rf"({WORD}) :", text)):
                    self.names[constructor[1]] = current
                continue
            current = None
            headers = [header for header in headers if header[0] < indent]
            if text.startswith("--"):
                comment.append(line)
            elif text.startswith("module "):
                headers, comment, in_header = headers + [(indent, [line])], [], not text.endswith("where")
            elif found := starts or re.match(rf"({WORD}) :", text):
                current = Definition(self, found[1], comment, [part for header in headers for part in header[1]], line)
                comment = []
                self.definitions[current.name] = self.names[current.name] = current
            elif not re.match(r"use |infix[lr]? ", text):
                sys.exit(f"{self.path}:{number}: tests/sources.py does not know what this line is")


def named(path, name):
    if path not in SPECS or name not in SPECS[path].names:
        sys.exit(f"{path} has no {name}, which a `use` line cites")
    return SPECS[path].names[name]


def definitions_in(lines, imports, file=None):
    """The definitions that are named in a text, with these imports, of a file of specs/ if it is one of its definitions."""
    text = without_comments(lines)
    words = [word for dot, word in re.findall(rf"(\.?)({WORD})", text) if not dot]
    known = set(words)
    for name in list(imports) + list(file.names if file else []):
        parts = [part for part in name.split("◌") if part]
        if "◌" in name and (known.issuperset(parts) or parts == [">>="] and "←" in known):
            words.append(name)
    for word in dict.fromkeys(words):
        if file and word in file.names:
            yield file.names[word]
        elif word in imports:
            path, name = imports[word]
            if re.match(r"Rattle\.casa\w*\.specs\.(?!declared\.|contracts\.)", path):
                for part in [name] if name else re.findall(rf"(?<![\w.]){re.escape(word)}\.({WORD})", text):
                    yield named(path, part)


@functools.cache
def uses_of(definition):
    file = definition.file
    lines = definition.headers + definition.body
    return [used for used in definitions_in(lines, file.imports, file) if used is not definition]


def closure(definitions):
    """The definitions, and all that they use, in the order in which they are met."""
    reached = dict.fromkeys(definitions)
    queue = collections.deque(reached)
    while queue:
        for used in uses_of(queue.popleft()):
            if used not in reached:
                reached[used] = None
                queue.append(used)
    return list(reached)


# The contracts of src/.

class Block:
    """A trait, or an implementation of one for a type, or the functions of a type."""

    def __init__(self, source, lines):
        self.source = source
        self.head = lines[:next(number for number, line in enumerate(lines) if re.search(r"\{\}?$", line)) + 1]
        head, count = re.sub(r"\s+", " ", " ".join(self.head).replace("->", "")), 1
        while count:
            head, count = re.subn(r"<[^<>]*>", "", head)
        found = re.search(r"\b(trait|impl) +(?:(?:\w+::)*(\w+) for )?(?:&\S* )?(?:\w+::)*(\w+)", head)
        self.is_trait = found[1] == "trait"
        self.trait, self.type = (found[3], None) if self.is_trait else (found[2], found[3])
        self.imports = source.imports | imports_of(lines)
        self.functions = []
        self.ghosts = {}
        for number, line in enumerate(lines):
            if found := re.match(r"    ghost (\w+) ?[=:] ", line):
                self.ghosts[found[1]] = balanced(lines[number:])

    def member(self, name):
        """The definitions that a ghost member cites, without its own name."""
        if name not in self.ghosts:
            sys.exit(f"{self.source.path}: tests/sources.py finds no {name} of {self.trait} for {self.type}")
        lines = self.ghosts[name]
        return cited([re.sub(r"^ *ghost \w+ ?[=:]", "", lines[0])] + lines[1:], self.imports)


def balanced(lines):
    """The first of the lines, up to where their braces close."""
    depth = 0
    for number, line in enumerate(lines):
        depth += line.count("{") - line.count("}")
        if depth == 0:
            return lines[:number + 1]
    sys.exit(f"a brace is not closed: {lines[0]}")


class Function:
    """A function: its docstring, its signature and the clauses of its contract."""

    def __init__(self, source, block, name, is_public, doc, signature, clauses):
        self.source, self.block, self.name, self.is_public = source, block, name, is_public
        self.doc, self.signature, self.clauses = doc, signature, clauses
        self.imports = (block or source).imports
        self.owner = block and (block.trait if block.is_trait else block.type)
        self.types = [self.owner] * bool(block) + re.findall(r"\w+", " ".join(signature))

    @property
    def title(self):
        return f"{self.owner}::{self.name}" if self.owner else self.name

    @property
    def is_promise(self):
        """Whether others may rely on it: it is handed out by its crate, or is a law."""
        exported = EXPORTS[self.source.crate]
        if self.source.path.name == "laws.rt":
            return self.is_public
        if self.block and self.block.is_trait:
            return self.owner in exported
        return self.is_public and not (self.block and self.block.trait) and (self.owner or self.name) in exported

    def matches(self, name):
        return name in ("all", self.name, self.owner, self.title, self.source.path.name)


class Source:
    """A file of src/: its functions, its types and its traits."""

    def __init__(self, path):
        self.path = path
        self.crate = path.relative_to(CRATES).parts[0]
        self.lines = path.read_text().split("\n")
        self.imports = imports_of(line for line in self.lines if not line.startswith(" "))
        self.functions, self.blocks, self.types = [], [], {}
        self.code = 0
        self.read()

    def read(self):
        block, block_end, number = None, -1, 0
        while number < len(self.lines):
            line = self.lines[number]
            if number > block_end:
                block = None
            if re.match(rf"(?:unsafe )?impl\b|{PUBLIC}trait ", line):
                block_end = number if line.endswith("{}") else self.lines.index("}", number)
                block = Block(self, self.lines[number:block_end + 1])
                self.blocks.append(block)
            if found := re.match(rf"{PUBLIC}(struct|enum|trait|type) (\w+)", line):
                last, end = r".*;$" if found[1] == "type" else r"\}|\S.*[;}]$", number
                while not re.match(last, self.lines[end]):
                    end += 1
                self.types[found[2]] = Type(self, found[2], found[1], self.doc_above(number), self.lines[number:end + 1])
            if found := re.match(rf"( *)({PUBLIC})(?:const )?(?:unsafe )?fn (\w+)", line):
                number = self.read_function(number, block, *found.groups())
            elif re.match(r" *ghost (?!use )", line):
                number += len(balanced(self.lines[number:]))
            else:
                if line.strip() and not re.match(r" *(//|ghost |#!?\[)", line):
                    self.code += 1
                number += 1

    def read_function(self, begin, block, indent, public, name):
        """Reads a function from its first line, and gives the line behind its signature and contract."""
        end, clauses = begin, None
        while True:
            line = self.lines[end]
            if line in (indent + "{", indent + "{}"):
                break
            if clauses is None and re.match(indent + r"    (requires|ensures|ghost)\b", line):
                clauses = end
            if line.endswith(";") or clauses is None and re.search(r"\{$|\{.*\}$", line):
                end += 1
                break
            end += 1
        function = Function(self, block, name, public == "pub ", self.doc_above(begin), self.lines[begin:clauses or end],
                            self.lines[clauses:end] if clauses else [])
        self.functions.append(function)
        if block:
            block.functions.append(function)
        self.code += len(function.signature)
        return end

    def doc_above(self, number):
        begin = number
        while begin and re.match(r" *(///|#\[)", self.lines[begin - 1]):
            begin -= 1
        return [line for line in self.lines[begin:number] if line.strip().startswith("///")]


class Type:
    """A type as src/ declares it, without attributes and ghost fields; a trait without its functions and what follows."""

    def __init__(self, source, name, kind, doc, lines):
        self.source, self.name, self.kind, self.doc = source, name, kind, doc
        self.lines, number = [], 0
        while number < len(lines):
            line = lines[number]
            if kind == "trait" and re.match(r" *fn ", line):
                while re.match(r" *///|$", self.lines[-1]):
                    self.lines.pop()
                self.lines.append("}")
                break
            if kind != "trait" and re.match(r" *ghost ", line):
                number += len(balanced(lines[number:]))
                continue
            if not re.match(r" *#\[", line):
                self.lines.append(line)
            number += 1

    @property
    def value(self):
        """What contracts see of the type, where that is not the type itself: the implementation of `Model`."""
        return next((block for block in IMPLEMENTATIONS[self.name, "Model"] if block.source.crate == self.source.crate), None)

    @property
    def shown(self):
        if self.value:
            return self.value.head + self.value.ghosts["Value"] + ["}"]
        return self.lines

    @property
    def count(self):
        return sum(map(len, paragraphs(self.doc))) + len(self.shown)

    def public_words(self):
        """The words of the parts that everybody may use, where contracts see these parts."""
        if self.value or self.kind == "trait":
            return []
        lines = [line for line in self.lines[1:] or self.lines if "///" not in line]
        return re.findall(r"\w+", " ".join(line for line in lines if self.kind != "struct" or re.match(r" *pub ", line)))


def paragraphs(doc):
    """The lines of a docstring by paragraphs, without its examples and what leads to one."""
    found, in_example = [[]], False
    for line in doc:
        text = re.sub(r"\[(`[^`]*`)\]", r"\1", line.strip().removeprefix("///").strip())
        if text.startswith("```"):
            in_example = not in_example
            if in_example:
                found = [part for part in found if part][:-1] + [[]]
        elif in_example:
            pass
        elif text:
            found[-1].append(text)
        else:
            found.append([])
    return [part for part in found if part]


# What is read.

def crates_below(names):
    """These crates and those that they stand on, lowest first, as in crates.txt."""
    needed, found = set(names), []
    for line in reversed((TOP / "crates.txt").read_text().split("\n")):
        name, _, others = line.partition(":")
        if name in needed:
            needed.update(others.split())
            found.insert(0, name)
    return found


def read_all(crates):
    """Reads these crates and those that they stand on."""
    for crate in crates_below(crates):
        for path in sorted((CRATES / crate).glob("specs/**/*.antt")):
            if path.stem != "Lib":
                file = SpecFile(path)
                SPECS[file.module] = file
        for path in sorted((CRATES / crate).glob("src/**/*.rt")):
            SOURCES[crate].append(Source(path))
    for crate, sources in SOURCES.items():
        EXPORTS[crate] = exports_of(sources)
        for block in (block for source in sources for block in source.blocks):
            if block.is_trait:
                TRAITS[block.trait] = block
            elif block.trait:
                IMPLEMENTATIONS[block.type, block.trait].append(block)


def exports_of(sources):
    """The names that a crate hands out, and those of the types that some of them abbreviate."""
    names = set()
    for source in sources:
        if source.path.name == "lib.rt":
            text = "\n".join(source.lines)
            for listed in re.findall(r"^pub use [\w:]*?::(\{[^}]*\}|\w+(?: as \w+)?);", text, re.M):
                names.update(part.split(" as ")[-1] for part in re.findall(r"\w+(?: as \w+)?", listed))
            names.update(re.findall(r"^pub (?:struct|enum|trait|fn|type) (\w+)", text, re.M))
    return names | {full_name(source, name) for source in sources for name in names & set(source.types)}


# What a contract cites.

def cited(lines, imports):
    """The definitions that a text of src/ cites, by name or as a ghost member of a type."""
    found = list(definitions_in(lines, imports))
    for block, member in ghosts_in(lines):
        found += block.member(member) if member else members_used(block, found)
    return found


def ghosts_in(lines):
    """The ghost members that a text of src/ names, each with its implementation; no name where all are given."""
    for type_name, trait, member in GHOST_MEMBER.findall("\n".join(lines)):
        for block in implementations(type_name, trait):
            yield block, member


def implementations(type_name, trait):
    """Where casa implements a trait of its own for a type; what Rust's own traits say, as `==`, is not followed."""
    if trait not in TRAITS:
        return []
    return IMPLEMENTATIONS[type_name, trait] or sys.exit(f"tests/sources.py finds no {trait} for {type_name}")


def members_used(block, definitions):
    """What the ghost members of a type are, as far as these definitions, to which all of them are given, use them."""
    found, done = [], set()
    while used := member_names(block, closure(list(definitions) + found)) - done:
        for name in sorted(used):
            found += block.member(name)
        done |= used
    return found


def member_names(block, definitions):
    """The ghost members of a type, as one of a trait, that definitions over any such type use."""
    names = set()
    for definition in definitions:
        if any(name == "Ghosts" and path.endswith(f".{block.trait}") for path, name in definition.file.imports.values()):
            names.update(re.findall(rf"\.({WORD})", without_comments(definition.body)))
    return names & set(block.ghosts)


def members_named(functions, definitions):
    """The ghost members that contracts name, or give whole to the definitions: their names, by their implementations."""
    found = {}
    for block, member in (pair for function in functions for pair in ghosts_in(function.clauses)):
        found.setdefault(block, set()).update({member} if member else member_names(block, definitions))
    return found


def asked_by_trait(block):
    """What the contracts of a trait's functions cite, for the type of this implementation."""
    trait = TRAITS[block.trait]
    found = []
    for function in trait.functions:
        found += cited(function.clauses, trait.imports)
        for name in re.findall(WORD, without_comments(function.clauses)):
            if name in trait.ghosts and name in block.ghosts:
                found += block.member(name)
    return found


def asked_by_traits(crate, types):
    """What the contracts of casa's own traits cite, for the types of these names in a crate."""
    found = []
    for block in (block for source in SOURCES[crate] for block in source.blocks):
        if not block.is_trait and block.trait in TRAITS and full_name(block.source, block.type) in types:
            found += asked_by_trait(block)
    return found


def promised_by(function):
    """The definitions that a function's contract cites, with those by which it sees the types of the signature."""
    found = cited(function.clauses, function.imports)
    for declared in (declaration(function.source, name) for name in function.types):
        if declared and declared.value:
            found += declared.value.member("Value")
    return found


# Types, by the names that Rust knows.

def full_name(source, name):
    """The name of a type in a file of src/, or of the one that it abbreviates."""
    declared = source.types.get(name)
    aliased = declared and declared.kind == "type" and re.search(r"= (?:\w+::)*(\w+)", " ".join(declared.lines))
    return aliased[1] if aliased else name


@functools.cache
def rust_uses(source):
    """The names of other files that a file of src/ brings in, each with its crate."""
    names = {}
    for path, listed in re.findall(r"^(?:pub )?use (\w+)::([^;]*);", "\n".join(source.lines), re.M):
        crate = source.crate if path == "crate" else path
        for part in re.findall(r"\w+(?: as \w+)?", listed):
            name, _, other = part.partition(" as ")
            names[other or name] = (crate, name)
    return names


def declared_in(crate, name):
    """The type of this name in a crate, or in the one from which it hands it on."""
    for source in SOURCES.get(crate, []):
        if name in source.types:
            return source.types[name]
    for source in SOURCES.get(crate, []):
        if source.path.name == "lib.rt":
            other, first = rust_uses(source).get(name, (crate, name))
            return declared_in(other, first) if other != crate else None
    return None


def declaration(source, name):
    """The type that a name means in a file of src/, if it is one of casa, and no trait."""
    found = source.types.get(name) or declared_in(*rust_uses(source).get(name, (None, None)))
    return found if found and found.kind != "trait" else None


def types_named(definition):
    """The types and traits that a definition names, as they are declared to specs/."""
    words = set(re.findall(WORD, without_comments(definition.headers + definition.body)))
    for word, (path, _) in definition.file.imports.items():
        if ".specs.declared." in path and word in words:
            _, crate, _, _, *parts = path.split(".")
            names = [part for part in parts if not part.startswith("The") and part != "Ghosts"]
            if names:
                yield declared_in(crate, names[-1])


def types_used(definitions, functions):
    """The types that definitions and signatures speak of, and those of their parts; traits, where definitions name them."""
    queue = collections.deque(declared for definition in definitions for declared in types_named(definition))
    queue += (declaration(function.source, name) for function in functions for name in function.types)
    found = {}
    while queue:
        declared = queue.popleft()
        if declared and declared not in found:
            found[declared] = None
            queue += (declaration(declared.source, name) for name in declared.public_words())
    return list(found)
