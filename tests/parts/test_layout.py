"""The layout of tools/ and tests/: lines of at most 120 columns, two blank lines between definitions, functions that
aren't too complex, words on what each module is for, and types of public functions of tools/; by black and ruff too,
where they are there."""

import ast
import re
import shutil
import unittest
from pathlib import Path

from .product import ran
from .tool_case import TOP, ToolCase

WIDTH, COMPLEXITY = 120, 12
SUFFIXES = (".py", ".js", ".css", ".html", ".c")
# What counts as a decision, beside each part of `and` and `or` and each `if` of a comprehension.
DECISIONS = (ast.If, ast.IfExp, ast.For, ast.While, ast.ExceptHandler, ast.comprehension)
# The folders of tools/ whose public functions all have types.
TYPED = ("gaffcurrant_plant", "packaging")
TOOLS, TESTS = TOP / "tools", TOP / "tests"
# A file with one fault each.
PLANTED = {
    "wide.py": "'''Words.'''\nWORDS = '" + "x" * WIDTH + "'\n",
    "blank.py": "'''Words.'''\nFIRST = 1 \n",
    "end.py": "'''Words.'''\nFIRST = 1",
    "near.py": "'''Words.'''\nFIRST = 1\ndef second():\n    return 2\n",
    "complex.py": "'''Words.'''\n\n\ndef many(a):\n    return " + " or ".join(["a"] * 14) + "\n",
    "packaging/bare.py": "'''Words.'''\n\n\ndef bare(a):\n    return a\n",
    "silent.py": "FIRST = 1\n",
}


class Layout(ToolCase):
    """By a few lines of Python, and by black and ruff."""

    def test_tools(self):
        named = named_in((TOOLS / "README.md").read_text())
        self.equal("layout of tools/", [], faults_below(TOOLS, named)[:20])
        complex_ones = {
            f"{path.stem}.{node.name}"
            for path in TOOLS.rglob("*.py")
            for node in functions_of(ast.parse(path.read_text()))
            if complexity_of(node) > COMPLEXITY
        }
        self.equal("functions that tools/README.md names as complex, and aren't", set(), named - complex_ones)

    def test_tests(self):
        self.equal("layout of tests/", [], faults_below(TESTS, set())[:20])

    def test_planted_faults_are_found(self):
        for name, text in PLANTED.items():
            path = self.placed(name, text)
            self.equal(f"faults of {name}", 1, len(list(faults_of(path, self.folder, set()))))

    @unittest.skipUnless(shutil.which("black"), "black isn't there (apt-get install black)")
    def test_black(self):
        for folder in (TOOLS, TESTS):
            words = ["--check", "--quiet", f"--line-length={WIDTH}", "--target-version=py39"]
            files = [path for path in sources_of(folder) if path.suffix == ".py" or is_script(path)]
            status, output, error = ran("black", *words, *files)
            self.equal(f"black of {folder.name}/", (0, ""), (status, (output + error).strip()[:400]))

    @unittest.skipUnless(shutil.which("ruff"), "ruff isn't there")
    def test_ruff(self):
        for folder in (TOOLS, TESTS):
            words = ["check", "--quiet", f"--line-length={WIDTH}", "--select=E,F,I,W", "--ignore=E402,E741"]
            status, output, _ = ran("ruff", *words, folder)
            self.equal(f"ruff of {folder.name}/", (0, ""), (status, output.strip()[:400]))


def sources_of(folder):
    """The sources below a folder, but for the cases of tests/run."""
    paths = (path for path in sorted(folder.rglob("*")) if path.is_file())
    paths = (path for path in paths if not {"__pycache__", "cases"} & set(path.relative_to(folder).parts))
    return [path for path in paths if path.suffix in SUFFIXES or is_script(path)]


def is_script(path):
    return not path.suffix and path.read_bytes().startswith(b"#!/usr/bin/env python3")


def faults_below(folder, named):
    return [said for path in sources_of(folder) for said in faults_of(path, folder, named)]


def faults_of(path, folder, named):
    """What is wrong with the layout of a file, each with its line."""
    text, name = path.read_text(), path.relative_to(folder)
    lines = text.split("\n")
    for number, line in enumerate(lines, 1):
        if len(line) > WIDTH:
            yield f"{name}:{number}: {len(line)} columns"
        if line != line.rstrip() or "\t" in line:
            yield f"{name}:{number}: a blank at the end, or a tab"
    if text and not text.endswith("\n") or text.endswith("\n\n"):
        yield f"{name}:{len(lines)}: the file ends with one line feed"
    if path.suffix in ("", ".py"):
        yield from faults_of_python(ast.parse(text), lines, str(name.with_suffix("")), named)


def faults_of_python(tree, lines, name, named):
    """What is wrong with a module: `named` has the functions that may be complex."""
    if lines[0] and not lines[0].startswith("#!") and not ast.get_docstring(tree):
        yield f"{name}:1: no words on what it is for"
    for node in tree.body[1:]:
        if isinstance(node, (ast.FunctionDef, ast.ClassDef)) and blanks_before(node, lines) != 2:
            yield f"{name}:{node.lineno}: two blank lines stand before {node.name}"
    for node in functions_of(tree):
        yield from faults_of_function(node, name, named)


def faults_of_function(node, name, named):
    if complexity_of(node) > COMPLEXITY and f"{Path(name).name}.{node.name}" not in named:
        yield f"{name}:{node.lineno}: {node.name} has a complexity of {complexity_of(node)}"
    if Path(name).parts[0] in TYPED and not node.name.startswith("_") and not has_types(node):
        yield f"{name}:{node.lineno}: {node.name} has no types"


def functions_of(tree):
    return [node for node in ast.walk(tree) if isinstance(node, (ast.FunctionDef, ast.AsyncFunctionDef))]


def blanks_before(node, lines):
    """How many blank lines stand before a definition, its decorators and its comment."""
    at = min([node.lineno, *(decorator.lineno for decorator in node.decorator_list)]) - 2
    while lines[at].startswith("#"):
        at -= 1
    count = 0
    while at - count >= 0 and not lines[at - count]:
        count += 1
    return count


def complexity_of(function):
    """One more than the decisions of a function, without those of functions within it."""
    count, nodes = 1, list(ast.iter_child_nodes(function))
    while nodes:
        node = nodes.pop()
        if isinstance(node, (ast.FunctionDef, ast.AsyncFunctionDef, ast.ClassDef)):
            continue
        count += isinstance(node, DECISIONS)
        if isinstance(node, ast.BoolOp):
            count += len(node.values) - 1
        if isinstance(node, ast.comprehension):
            count += len(node.ifs)
        nodes += ast.iter_child_nodes(node)
    return count


def has_types(function):
    """Whether all arguments but self, and the answer, have types."""
    arguments = function.args
    given = [*arguments.posonlyargs, *arguments.args, *arguments.kwonlyargs]
    given += [one for one in (arguments.vararg, arguments.kwarg) if one]
    typed = all(one.annotation or one.arg in ("self", "cls") for one in given)
    return typed and (function.returns is not None or function.name == "__init__")


def named_in(text):
    """The functions that a README names as more complex: a line `MODULE.FUNCTION` each, in its list of them."""
    part = re.search(r"^### Functions that stay long$(.*?)(?=^#|\Z)", text, re.M | re.S)
    return set(re.findall(r"`(\w+\.\w+)`", part[1])) if part else set()
