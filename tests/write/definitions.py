"""The definitions of specs/ that public clauses name, and those that these lead to.

It reads text and knows no scopes: a name counts wherever it stands in a clause.
"""
import re
from collections import defaultdict
from pathlib import Path

TOP = Path(__file__).resolve().parents[2]
CRATES = TOP / "crates"
NAME = r"[^\s(){}.,;:=\"\\]+"
WORD = re.compile(r"[^\s(){}.,;\"\\]+")
NAMED = re.compile(rf"({WORD.pattern})(?=(?:\.({WORD.pattern}))?)")
USE = re.compile(r"^\s*(?:ghost |pub )?use Rattle\.(\w+)\.specs\.([\w.]+?)(?:\.\{([^}]*)\}| as (\w+))\s*;?\s*$", re.M)


class File:
    """The definitions of a file of specs/, and what it imports."""

    def __init__(self, path):
        self.path = path
        text = path.read_text()
        self.imports = imports_of(text)
        self.items = defaultdict(list)
        name, mutual, waiting = None, False, []
        for line in text.splitlines():
            if line.lstrip().startswith("--"):
                waiting.append(line)
                continue
            if line and not line[0].isspace():
                mutual = bool(re.match(r"(abbrev )?mutual", line))
            starts = re.match(
                (r"  " if mutual else "")
                + rf"(?:abbrev pub |unfoldable pub |abbrev |unfoldable |pub )?(?:record |data )?({NAME})",
                line,
            )
            if (
                not line.strip()
                or line.startswith(("use ", "pub mod", "pub use", "mod "))
                or re.match(r"(abbrev )?mutual", line)
            ):
                continue
            if starts:
                name = starts.group(1)
                self.items[name] += waiting
            if name:
                self.items[name].append(line)
            waiting = []


def imports_of(text):
    """What each name that a text imports stands for, as (crate, module, name there), without a name where it is a
    module's."""
    found = {}
    for crate, module, names, alias in USE.findall(text):
        for name in re.split(r",\s*", names.strip()):
            there, _, here = name.partition(" as ")
            found[here.strip() or there.strip() or alias] = (crate, module, there.strip())
    return found


def named(text, imports):
    """The definitions that the imported names in a text stand for."""
    for word, inner in NAMED.findall(text):
        if word in imports:
            crate, module, there = imports[word]
            yield crate, module, there or inner


def modules():
    """Each file of specs/ by its crate and module."""
    found = {}
    for path in CRATES.glob("*/specs/**/*.antt"):
        crate = path.relative_to(CRATES).parts[0]
        if "out" in path.relative_to(CRATES).parts:
            continue
        module = ".".join(path.relative_to(CRATES / crate / "specs").with_suffix("").parts)
        found[crate, module] = File(path)
    return found


def braces(text, at):
    """The text within the braces that open at an offset, and the offset behind them."""
    depth, k = 0, at
    while True:
        if text[k] == "{":
            depth += 1
        elif text[k] == "}":
            depth -= 1
            if depth == 0:
                return text[at + 1 : k], k + 1
        k += 1


FUNCTION = re.compile(r"\s*(pub(\([^)]*\))? )?(const )?(unsafe )?fn ")
PUBLIC_FUNCTION = re.compile(r"\s*pub (const |unsafe )?fn ")
CLAUSE = re.compile(r"\s*(requires|ensures)")
MODEL = re.compile(r"\s*ghost (?!view|invariant|coded|kept)\w+(:| =).*\{")


class Blocks:
    """In what the lines of a source stand: a trait, an implementation of one, a function that is private."""

    def __init__(self):
        self.in_trait = self.in_implementation = self.is_private = False

    def enter(self, line):
        if re.match(r"(pub )?trait ", line):
            self.in_trait = True
        if line.startswith("}"):
            self.in_trait = self.in_implementation = False
        if re.match(r"impl.* for ", line):
            self.in_implementation = True
        if FUNCTION.match(line):
            self.is_private = not (PUBLIC_FUNCTION.match(line) or self.in_trait or self.in_implementation)


def clauses(text):
    """The clauses of public functions and traits, and the models, of a source file."""
    blocks, at = Blocks(), 0
    for found in re.finditer(r"^.*$", text, re.M):
        line = found.group()
        blocks.enter(line)
        if found.start() < at or not (CLAUSE.match(line) or MODEL.match(line)):
            continue
        body, at = braces(text, text.index("{", found.start()))
        if MODEL.match(line) or not blocks.is_private:
            yield body


def reach(start, files):
    """All definitions, as (crate, module, name), that some lead to."""
    todo, seen = list(start), set()
    while todo:
        item = todo.pop()
        crate, module, name = item
        file = files.get((crate, module))
        if item in seen or file is None or name not in file.items:
            continue
        seen.add(item)
        text = "\n".join(line for line in file.items[name] if not line.strip().startswith("--"))
        todo += [(crate, module, word) for word in WORD.findall(text) if word in file.items]
        todo += named(text, file.imports)
    return seen


def named_in(path, only=None):
    text = path.read_text()
    imports = imports_of(text)
    if only:
        text = text[text.index(only) :]
    for clause in clauses(text):
        yield from named(clause, imports)


def names_in_definitions():
    """The words in backticks of docs/DEFINITIONS.md."""
    return words_in_backticks((TOP / "docs/DEFINITIONS.md").read_text())


def words_in_backticks(text):
    return set(re.findall(r"[^\s`.,]+", " ".join(re.findall(r"`([^`\n]+)`", text))))


def of_public_clauses(files):
    """The definitions that public clauses name themselves."""
    found = {item for path in CRATES.glob("*/src/**/*.rt") for item in named_in(path)}
    return {
        (crate, module, name)
        for crate, module, name in found
        if (crate, module) in files and name in files[crate, module].items
    }
